import assert from "node:assert/strict";
import {test} from "node:test";
import {placeName, readBars, readCircuit, readPlace, readRun, readView} from "../src/texts.js";
import {answer, example} from "./program.js";

const table = example("increment.csv"), run = ["=1011", 1, 8, 16, 8];

test("what `run` prints", () => {
  const {status, text} = answer(["run", ...run], table), it = readRun(text);
  assert.equal(status, 0);
  assert.equal(it.exit, "end");
  assert.equal(it.output, "1100");
  assert.equal(it.tapes.length, 3);
  assert.equal(it.tapes[2].symbols.join("").replaceAll("_", ""), "1100");
});

test("what `view` prints, at the start, on the way and at the end", () => {
  const {steps} = readRun(answer(["run", ...run], table).text);
  for (const e of [0, 1, 1000, 700000, steps]) {
    const it = readView(answer(["view", ...run, e], table).text.split("\n"));
    assert.equal(it.steps, e);
    assert.equal(it.hasLeft, e === steps);
    assert.deepEqual(it.tapes.map(tape => tape.symbols.length), [10, 17, 9]);
    assert.ok(["compute", "copy", "retrace"].includes(it.stage), it.stage);
    assert.equal(it.state === null, it.rule !== null);
  }
});

test("a line's number and its name", () => {
  for (const name of ["0.n", "0.w", "17.s", "4194303.e"]) assert.equal(placeName(readPlace(name)), name);
});

test("a configuration text is a circuit", () => {
  const second = answer(["compile", "=", 0, 2, 2, 1], example("least.csv")).text, here = readCircuit(second);
  assert.equal(here.bars.length, here.count);
  assert.deepEqual(readBars(second, here.count), here.bars);
  // Each wire has two ends.
  here.targets.forEach((into, out) => { if (into >= 0) assert.equal(here.sources[into], out); });
  here.sources.forEach((out, into) => { if (out >= 0) assert.equal(here.targets[out], into); });
  // The signal comes in by a line to which no wire leads, and leaves by one from which none does.
  const [, start, end] = /^start (\S+)\nend (\S+)$/m.exec(second);
  assert.deepEqual([here.sources[readPlace(start)], here.targets[readPlace(end)]], [-1, -1]);
});
