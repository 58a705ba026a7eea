// A run as the page holds it, with what the program answers: its modules need no browser.
import assert from "node:assert/strict";
import {test} from "node:test";
import "./workers.js";
import {Run} from "../src/run.js";
import {placeName, readBars, readView} from "../src/texts.js";
import {findRun} from "../src/window.js";
import {answer, example} from "./program.js";

const MACHINES = [["increment.csv", "1011", null], ["complement.csv", "0110", null], ["least.csv", "", [0, 2, 2, 1]],
  ["stuck.csv", "1", [0, 3, 3, 3]]];
// Drawn the same at each run.
let drawn = 46;
const draw = most => (drawn = drawn * 48271 % 2147483647) % most;

for (const [name, word, window] of MACHINES) test(`places and bars of ${name}`, async () => {
  const typed = example(name), isStandard = answer(["check"], typed).status === 0;
  const table = isStandard ? typed : answer(["standard"], typed).text;
  const run = await new Run(table, word, await findRun(table, word, window)).open();
  for (const e of [0, 1, run.end - 1, run.end, ...Array.from({length: 20}, () => draw(run.end))]) {
    await run.ready(e);
    const view = readView(answer(["view", ...run.words, e], table).text.split("\n")), {place, hasLeft} = run.placeAt(e);
    assert.equal(placeName(place), placeName(view.place), `step ${e}`);
    assert.equal(hasLeft, view.hasLeft, `step ${e}`);
    const bars = readBars(answer(["step", e], run.compiled).text, run.circuit.count);
    assert.deepEqual(Buffer.from(run.barsNow(e)), Buffer.from(bars), `step ${e}`);
    const moment = run.moments[run.momentIndex(e)];
    assert.equal(moment.stage, view.stage, `step ${e}`);
    assert.deepEqual(moment.tapes, view.tapes, `step ${e}`);
  }
});
