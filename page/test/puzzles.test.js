// Which machine a circuit is, by the program: banks of drawn tables, tables that differ, and the solution of each puzzle.
import assert from "node:assert/strict";
import {test} from "node:test";
import {behaviour, compared, entriesIn, tableOf} from "../src/design/behaviour.js";
import {drawingOf} from "../src/design/reading_text.js";
import {textOf} from "../src/design/drawing.js";
import {CHAPTERS, PUZZLES} from "../src/design/puzzles.js";
import {searched} from "../src/design/search.js";
import {answer} from "./program.js";

const ask = async (words, input) => ({...answer(words, input), words: ""});
// A table in which each pair of a state and a port is left once and come to once.
function drawnTable(seed) {
  let it = seed;
  const draw = most => (it = (Math.imul(it, 1103515245) + 12345) >>> 0, (it >>> 8) % most);
  const states = 1 + draw(3), lines = 1 + draw(3), pairs = [];
  for (let state = 1; state <= states; state++) for (let line = 1; line <= lines; line++) pairs.push([state, line]);
  const ends = [...pairs];
  for (let k = ends.length - 1; k > 0; k--) {
    const other = draw(k + 1);
    [ends[k], ends[other]] = [ends[other], ends[k]];
  }
  return pairs.map(([state, input], k) => ({state, input, next: ends[k][0], output: ends[k][1]}));
}
// What a table answers to inputs, from state 1.
function outputsOf(entries, word) {
  let state = 1;
  return word.map(line => {
    const it = entries.find(one => one.state === state && one.input === line);
    state = it?.next ?? 0;
    return it?.output ?? null;
  });
}

test("a bank does what its table says, and its own table is found", async () => {
  for (let seed = 1; seed <= 40; seed++) {
    const entries = drawnTable(seed), table = tableOf(entries), bank = answer(["realise", "1", "1"], table).text;
    const found = await compared(bank, table, {ask});
    assert.ok(found.isSame, `${table}${found.said}`);
    const own = await behaviour(bank, {ask});
    assert.ok(own.isWhole && own.entries.length === own.states.length * own.inputs.length);
    // Its own table is one that the program takes, and no other than the circuit's.
    const again = tableOf(own.entries);
    assert.equal(answer(["realise", "1", "1"], again).status, 0);
    assert.ok((await compared(bank, again, {ask, anyOrder: false})).isSame);
    assert.deepEqual(entriesIn(again), own.entries.map(({steps, ...rest}) => rest));
  }
});

test("where a table is another one, the inputs that are told show it, and none are shorter", async () => {
  let many = 0;
  for (let seed = 1; seed <= 40; seed++) {
    const entries = drawnTable(seed), bank = answer(["realise", "1", "1"], tableOf(entries)).text, own = (await behaviour(bank, {ask})).entries;
    const wrong = own.map(it => ({...it}));
    const k = seed % wrong.length, other = wrong.find(it => it.output !== wrong[k].output);
    if (!other) continue;
    [wrong[k].output, wrong[k].next, other.output, other.next] = [other.output, other.next, wrong[k].output, wrong[k].next];
    const found = await compared(bank, tableOf(wrong), {ask, anyOrder: false});
    const lines = Math.max(...own.map(it => it.input));
    const differs = word => JSON.stringify(outputsOf(own, word)) !== JSON.stringify(outputsOf(wrong, word));
    if (found.isSame) continue;
    many++;
    assert.ok(differs(found.word), `${found.word} tells nothing apart`);
    let words = [[]];
    for (let length = 1; length < found.word.length && length <= 4; length++) {
      words = words.flatMap(word => Array.from({length: lines}, (_, n) => [...word, n + 1]));
      assert.ok(!words.some(differs), "a shorter one would do");
    }
  }
  assert.ok(many > 20);
});

test("each puzzle is a list of JSON with a goal that the program takes and a solution that does it", async () => {
  assert.ok(PUZZLES.length >= 16);
  assert.deepEqual([...new Set(PUZZLES.map(it => it.chapter))], Object.keys(CHAPTERS));
  assert.deepEqual(JSON.parse(JSON.stringify(PUZZLES)), PUZZLES);
  assert.equal(new Set(PUZZLES.map(it => it.key)).size, PUZZLES.length);
  for (const it of PUZZLES) {
    assert.equal(answer(["realise", "1", "1"], it.table).status, 0, it.key);
    assert.equal(answer(["step", "0"], it.solution.text).text, it.solution.text, it.key);
    const drawing = drawingOf(it.solution.text), entries = entriesIn(it.table);
    assert.ok(drawing.bars.length <= it.most && it.solution.places.length === drawing.bars.length, it.key);
    const found = await compared(it.solution.text, it.table, {ask, sides: it.sides});
    assert.ok(found.isSame, `${it.key}: ${found.said}`);
    assert.ok(entries.every(one => it.ins[one.input - 1] && it.outs[one.output - 1]), `${it.key}: a port has no name`);
    // Without any one of its wires it is no solution.
    for (const [out, into] of drawing.targets.entries()) {
      if (into < 0) continue;
      const without = textOf({...drawing, targets: drawing.targets.map((old, k) => k === out ? -1 : old)});
      assert.ok(!(await compared(without, it.table, {ask, sides: it.sides})).isSame, `${it.key} without a wire from ${out}`);
    }
  }
});

test("the search finds a circuit of each puzzle with the least number of elements, and none with fewer", async () => {
  for (const it of PUZZLES.filter(one => one.most <= 2)) {
    const found = searched(entriesIn(it.table), it.most, {sides: it.sides});
    assert.ok(found, it.key);
    assert.ok((await compared(found, it.table, {ask, sides: it.sides})).isSame, it.key);
    if (it.most > 1) assert.equal(searched(entriesIn(it.table), it.most - 1, {sides: it.sides}), null, it.key);
  }
});
