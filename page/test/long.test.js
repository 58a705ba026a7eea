// A long run, whose moments are told by `moments`: the element steps at which they begin, and the bars there, are the circuit's.
import assert from "node:assert/strict";
import {test} from "node:test";
import "./workers.js";
import {bennettEarly} from "../src/early.js";
import {LongRun} from "../src/long.js";
import {Run} from "../src/run.js";
import {placeName, readBars, readView} from "../src/texts.js";
import {findRun, longRuns} from "../src/window.js";
import {answer, example} from "./program.js";

const PALINDROME = example("machines/palindrome.csv");
let drawn = 7;
const draw = most => (drawn = drawn * 48271 % 2147483647) % most;

async function opened(table, word) {
  const found = await findRun(table, word), bennett = await bennettEarly({table, word, own: found.own, window: found.window});
  return {found, run: await new LongRun(table, word, found, bennett).open()};
}
for (const [name, table, word] of [["increment", example("increment.csv"), "1011"], ["a palindrome", PALINDROME, "abba"]]) {
  test(`the moments of a long run are those of the circuit: ${name}`, async () => {
    const {found, run} = await opened(table, word), plain = await new Run(table, word, found).open();
    await plain.moreUntil(() => false);
    assert.equal(run.moments.length, plain.moments.length);
    for (const q of [5, plain.moments.length - 2, ...Array.from({length: 12}, () => draw(plain.moments.length))]) {
      assert.ok(await run.locate(q), `moment ${q}`);
      assert.equal(run.starts[q], plain.starts[q], `moment ${q}`);
      const {name: state, stage, rule, step} = run.moments[q], other = plain.moments[q];
      assert.deepEqual([state, stage, rule, step], [other.name, other.stage, other.rule, other.step]);
    }
    assert.ok(run.starts.every((it, q) => q === 0 || it > run.starts[q - 1]), "the steps rise");
  });
  test(`bars at a moment are those of the circuit: ${name}`, async () => {
    const {run} = await opened(table, word);
    for (const q of [1, 2, run.moments.length - 2, ...Array.from({length: 8}, () => 1 + draw(run.moments.length - 2))]) {
      await run.locate(q);
      const bars = readBars(answer(["step", run.starts[q]], run.compiled).text, run.circuit.count);
      assert.deepEqual(Buffer.from(run.barsAtMoment(q)), Buffer.from(bars), `moment ${q}`);
      await run.ready(run.starts[q]);
      const {place} = run.placeAt(run.starts[q]);
      assert.equal(placeName(place), placeName(readView(answer(["view", ...run.words, run.starts[q]], table).text.split("\n")).place));
    }
  });
}
test("a long run is shown in the window of its trace, from any place to the end", async () => {
  const {above} = longRuns, word = "a".repeat(22);
  longRuns.above = 100;
  const {found, run} = await opened(PALINDROME, word);
  longRuns.above = above;
  assert.deepEqual(found.window, [0, word.length + 1, found.own.steps, 2]);
  assert.equal(run.end, run.starts.at(-1));
  for (const q of [700, 100, run.moments.length - 3]) {
    await run.ready(run.starts[q]);
    const e = run.starts[q], view = readView(answer(["view", ...run.words, e], PALINDROME).text.split("\n"));
    assert.equal(view.name, run.moments[q].name);
    assert.deepEqual(run.moments[q].tapes.map(({tape, first, head, symbols}) => ({tape, first, head, symbols})), view.tapes);
    assert.equal(placeName(run.placeAt(e).place), placeName(view.place));
    assert.ok(run.barsNow(e));
  }
  await run.ready(run.end);
  assert.ok(run.placeAt(run.end).hasLeft);
});
