// A run before its circuit is there, with the run that the circuit then makes: the machine by itself, and Bennett's.
import assert from "node:assert/strict";
import {test} from "node:test";
import "./workers.js";
import {bennettEarly, ownEarly, quadruplesAsked} from "../src/early.js";
import {quadrupleAt} from "../src/quadruples.js";
import {Run} from "../src/run.js";
import {current} from "../src/state.js";
import {ruleAt} from "../src/words.js";
import {findRun, ownRun} from "../src/window.js";
import {answer, example} from "./program.js";

const LEFT = "S,_,_,+,A\nA,1,1,-,B\nB,_,_,-,C\nC,_,1,-,D\nD,_,_,0,F\n", WALK = "S,_,_,+,A\nA,1,1,+,A\nA,_,_,0,H\n";
const MACHINES = [["increment", example("increment.csv"), "1011"], ["one that is stuck", example("stuck.csv"), "1"], ["one that goes to the left", LEFT, "1"]];
// What a tape that is told has beyond another is blank.
function assertTape(given, right, words) {
  assert.equal(given.head, right.head, words);
  given.symbols.forEach((symbol, at) => assert.equal(symbol, right.symbols[given.first + at - right.first] ?? "_", `${words}, cell ${given.first + at}`));
  right.symbols.forEach((symbol, at) => assert.ok(symbol === "_" || given.symbols[right.first + at - given.first] === symbol, words));
}
async function bothOf(table, word) {
  const found = await findRun(table, word), run = await new Run(table, word, found).open();
  return {found, run, asked: {table, word, own: found.own, window: null}};
}

for (const [name, table, word] of MACHINES) test(`${name}: each step of the machine by itself, with the circuit's run`, async () => {
  const {run, asked} = await bothOf(table, word), early = await ownEarly(asked);
  const own = run.moments.filter(it => it.stage === "compute" && it.rule === null);
  assert.equal(early.moments.length, own.length);
  assert.equal(early.end, own.length - 1);
  own.forEach(({state, step, tapes: [tape]}, k) => {
    const it = early.moments[k];
    assert.deepEqual([it.state, it.step, early.starts[k]], [state, step, k]);
    assertTape(it.tapes[0], tape, `step ${k}`);
    assert.equal(early.stepWith(run, k), run.stops.machine[k]);
    const [followed] = run.moments.filter(one => one.stage === "compute" && one.rule !== null && one.step === k + 1);
    assert.equal(early.told.rules[k], followed?.rule ?? null);
  });
});

for (const [name, table, word] of MACHINES) test(`${name}: each moment of Bennett's machine, with the circuit's run`, async () => {
  const {run, found, asked} = await bothOf(table, word), early = await bennettEarly(asked), name = it => it;
  assert.equal(early.moments.length, run.moments.length);
  assert.deepEqual(early.quadruples, run.quadruples);
  assert.equal(early.outcome.exit, found.own.outcome === "halted" ? "end" : null);
  run.moments.forEach((right, q) => {
    const it = early.moments[q];
    for (const key of ["name", "stage", "state", "rule", "step", "hasLeft"]) assert.equal(it[key], right[key], `${key} of moment ${q}`);
    right.tapes.forEach((tape, k) => assertTape(it.tapes[k], tape, `moment ${q}, tape ${k + 1}`));
    right.tapes.forEach(({tape, first, symbols}) => symbols.forEach((symbol, at) => assert.equal(early.cellAt(q, tape, first + at), symbol)));
    assert.equal(quadrupleAt(early, q), right.hasLeft ? -1 : quadrupleAt(run, q));
    assert.deepEqual(ruleAt(early, q, name), ruleAt(run, q, name));
    assert.equal(early.stepWith(run, q), run.starts[q]);
  });
  // The circuit's run ends behind its last moment where the machine is stuck.
  assert.deepEqual(early.stops.machine, run.stops.machine.slice(0, early.stops.machine.length).map(e => run.momentIndex(e)));
});

test("what is told of the rule and the row at work is what would be looked up", async () => {
  for (const [, table, word] of MACHINES) {
    const {run, asked} = await bothOf(table, word), nameOf = it => it, seen = () => run.moments.map((_, q) => [quadrupleAt(run, q), ruleAt(run, q, nameOf)]);
    const right = seen(), [own, bennett] = [await ownEarly(asked), await bennettEarly(asked)];
    run.told = {rules: own.told.rules, rows: bennett.told.rows};
    // Where the signal has left nothing is at work, whatever stands under the heads.
    seen().forEach(([row, rule], q) => assert.deepEqual([run.moments[q].hasLeft ? right[q][0] : row, rule], right[q], `moment ${q}`));
    run.told = {rules: [null, ...own.told.rules], rows: [-1, ...bennett.told.rows]};
    assert.notDeepEqual(seen(), right);
  }
});

test("stepped, and run to a state and to a cell", async () => {
  const table = example("increment.csv"), asked = {table, word: "1011", own: await ownRun(table, "1011"), window: null};
  for (const early of [await ownEarly(asked), await bennettEarly(asked)]) {
    current.run = early;
    assert.equal(await early.nextStop("element", 0, 1), 1);
    assert.equal(await early.nextStop("module", early.end, 1), early.end);
    assert.equal(await early.nextStop("quadruple", 0, -1), 0);
    assert.equal(await early.nextStop("machine", 0, 1), early.layers.length);
    const state = {kind: "state", state: "Add"}, {step, hit} = await early.runTo(0, 1, [state]);
    assert.equal(early.moments[step].state, "Add");
    assert.equal(hit, state);
    assert.ok(early.moments.slice(0, step).every(it => it.state !== "Add"));
    const cell = await early.runTo(early.end, -1, [{kind: "cell", tape: 1, cell: 4}]);
    assert.notEqual(early.cellAt(cell.step, 1, 4), early.cellAt(cell.step - 1, 1, 4));
  }
  delete current.run;
});

test("of a long run so much is told as can be read at once", async () => {
  const word = "1".repeat(5000), own = await ownRun(WALK, word), asked = {table: WALK, word, own, window: null};
  const early = await ownEarly(asked);
  assert.ok(own.steps > 5000 && early.end > 100 && early.end * early.cells < 3e6, `${early.end} steps of ${early.cells} cells`);
  const part = await bennettEarly(asked);
  assert.ok(part.isPart && part.total === null && part.end > 500 && part.end < own.steps, `${part.end} quadruples`);
  assert.equal(part.moments.length, part.end + 1);
  for (const [steps, width] of [[10, 10], [1500, 100], [1990, 2], [3000, 100], [100000, 3]]) {
    const many = quadruplesAsked({own: {outcome: "halted", steps, output: "1"}, word: "1".repeat(width)});
    assert.ok(steps > 2000 || many >= 4 * steps + 8, `of ${steps} steps ${many} quadruples are asked for`);
    assert.ok(many * (many / 4 + width) < 4e7, `of ${steps} steps ${many} quadruples are asked for`);
  }
});

test("a machine that runs on is told in part, and a foreign letter not at all", async () => {
  const table = "S,_,_,+,T\nT,_,1,+,T\nT,1,1,+,T\nU,_,_,0,F\n", own = await ownRun(table, "1");
  assert.equal((await ownEarly({table, word: "1", own, window: null})).end, 40);
  const part = await bennettEarly({table, word: "1", own, window: null});
  assert.deepEqual([part.end, part.isPart, part.stops.machine.length], [80, true, 41]);
  for (const ask of [ownEarly, bennettEarly]) assert.equal(await ask({table, word: "x", own, window: null}), null);
  assert.equal(answer(["moments", "=1", 80], part.bennett).text.split("\n").length, 83);
});
