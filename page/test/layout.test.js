// What a board is made of, as `layout` tells it: read whole, and the same as what `compile`, `view` and `step` say.
import assert from "node:assert/strict";
import {test} from "node:test";
import {cellModule, cellState, columnWith, lineInto, markedIn, moduleWith, placeIn} from "../src/layout.js";
import {readLayout} from "../src/layout_text.js";
import {lineSaid} from "../src/module_words.js";
import {readBars, readCircuit, readView} from "../src/texts.js";
import {answer, example} from "./program.js";

const NO_RULES = "S,_,_,+,Q\nQ,1,1,+,Rej\nQ,_,_,0,F\n";
const BOARDS = [["least", example("least.csv"), ["=", 0, 2, 2, 1]], ["increment", example("increment.csv"), ["=1011", 0, 5, 11, 5]],
  ["a state that has no rules", NO_RULES, ["=1", 2, 3, 1, 2]]];
const told = (table, board) => answer(["layout", ...board], table).text;

// The text of a layout, written anew.
function written({count, banks, control, tapes}) {
  const size = it => `from ${it.base} columns ${it.columns} lines ${it.rows}`;
  const stateOf = ({kind, state, quadruple, tape, symbols = []}) => [kind, state, quadruple, tape, ...symbols].filter(it => it !== undefined).join(" ");
  return [`elements ${count}`, `modules ${banks.length}`,
    ...banks.map(it => `module ${it.number} ${it.kind === "control" ? "control" : `tape ${it.tape} cell ${it.cell}`} ${size(it)}`),
    ...control.columns.map((it, j) => `column ${j} of control ${stateOf(it)}`),
    ...control.lines.map(({into, out}, i) => `line ${i} of control in ${into} out ${out}`),
    ...tapes.flatMap(({columns, lines}, k) => [
      ...columns.map(({letter, hasHead}, j) => `column ${j} of tape ${k + 1} ${hasHead ? "head" : "plain"} ${letter}`),
      ...lines.map((name, i) => `line ${i} of tape ${k + 1} ${name}`),
    ])].join("\n") + "\n";
}

for (const [name, table, board] of BOARDS) test(`nothing of the text is lost: ${name}`, () => {
  const text = told(table, board), layout = readLayout(text);
  assert.equal(written(layout), text);
  assert.deepEqual([[...layout.bases], [...layout.rows]], [layout.banks.map(it => it.base), layout.banks.map(it => it.rows)]);
});

for (const [name, table, board] of BOARDS) test(`modules, lines and cells are those of view, compile and step: ${name}`, () => {
  const layout = readLayout(told(table, board)), compiled = answer(["compile", ...board], table).text, circuit = readCircuit(compiled);
  assert.equal(layout.count, circuit.count);
  assert.equal(layout.banks.reduce((sum, it) => (assert.equal(it.base, sum), sum + it.count), 0), circuit.count);
  const [, steps] = /^steps (\d+)$/m.exec(answer(["run", ...board], table).text).map(Number);
  for (const e of [0, 1, 2, 400, ...Array.from({length: 12}, (_, k) => Math.floor(steps * (k + 1) / 14))]) {
    const view = readView(answer(["view", ...board, e], table).text.split("\n")), bank = moduleWith(layout, view.place >> 2), line = lineInto(layout, view.place);
    const where = bank.kind === "control" ? "control" : `tape ${bank.tape} cell ${bank.cell}`;
    assert.equal(`module ${where} ${line < 0 ? "inside" : `line ${lineSaid(layout, bank, line).name}`}`, view.module, `step ${e}`);
  }
  // At the start each cell is in the state that the tapes show.
  const bars = readBars(compiled, circuit.count), {tapes} = readView(answer(["view", ...board, 0], table).text.split("\n"));
  for (const {tape, first, head, symbols} of tapes) {
    assert.equal(layout.tapes[tape - 1].cells.size, symbols.length);
    symbols.forEach((letter, k) => {
      const bank = cellModule(layout, tape, first + k), held = {letter, hasHead: head === first + k}, column = markedIn(bank, bars.subarray(bank.base));
      assert.deepEqual(cellState(layout, bank, column), held, `tape ${tape} cell ${first + k}`);
      assert.equal(columnWith(layout, bank, held), column);
    });
  }
});

test("a place in a module, and cells that aren't there", () => {
  const layout = readLayout(told(...BOARDS[0].slice(1))), [control, cell] = layout.banks;
  assert.deepEqual(placeIn(control, control.rows), {column: 0, row: control.rows});
  assert.deepEqual(placeIn(cell, cell.base + cell.rows + 3), {column: 1, row: 2});
  assert.deepEqual([cellModule(layout, 1, -1), cellModule(layout, 2, 99)], [null, null]);
  // A line into a further column, a bottom and another side is none into a module.
  for (const place of [4 * (control.rows + 1) + 3, 4 * control.rows + 3, 0, 1, 2]) assert.equal(lineInto(layout, place), -1);
  assert.equal(lineInto(layout, 4 * (cell.base + 2) + 3), 2);
});

test("a text of another form isn't read", () => {
  const text = told(...BOARDS[0].slice(1)), lines = text.split("\n");
  for (const it of ["", "size: elements 5\n", lines.slice(0, 40).join("\n"), text.replace("plain", "bare"), text.replace("modules 9", "modules 8"),
    text.replace("in Start", "by Start")]) assert.throws(() => readLayout(it), /can't read what the program said/, it.slice(0, 60));
});
