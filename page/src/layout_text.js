// Reads what `layout` tells of a board: its modules by their elements, the states of the control and of the cells by their
// columns, and the names of their lines. docs/use/formats.md, Layout, has its text. It judges nothing: the text is the program's
// own.
import {matchOf} from "./texts.js";

const MODULE = /^module (\d+) (?:control|tape ([123]) cell (-?\d+)) from (\d+) columns (\d+) lines (\d+)$/;
const CELL_COLUMN = /^column \d+ of tape \d (plain|head) (\S+)$/, CELL_LINE = /^line \d+ of tape \d (.+)$/;
const CONTROL_COLUMN = /^column \d+ of control (.+)$/, CONTROL_LINE = /^line \d+ of control in (.+) out (.+)$/;
const TAPES_TOLD = 3;

// The lines one after another, each read where it is come to.
class Lines {
  at = 0;
  /** @param {string} text */
  constructor(text) { this.lines = text.split("\n"); }
  /** @param {RegExp} pattern */
  next(pattern) { return matchOf(pattern, this.lines[this.at++] ?? ""); }
  /** @template T @param {number} count @param {RegExp} pattern @param {(found: RegExpExecArray) => T} made
   * @returns {T[]} */
  many(count, pattern, made) { return Array.from({length: count}, () => made(this.next(pattern))); }
}

/** @type {(found: RegExpExecArray) => Bank} */
function bankOfLine([, number, tape, cell, from, columns, lines]) {
  const wide = Number(columns), rows = Number(lines);
  const it = {number: Number(number), base: Number(from), columns: wide, rows, count: wide * (rows + 1)};
  return tape === undefined ? {kind: "control", ...it} : {kind: "cell", tape: Number(tape), cell: Number(cell), ...it};
}
/** @type {(words: string) => ControlState} */
function controlState(words) {
  const [kind, first, ...rest] = words.split(" "), numbers = rest.map(Number);
  if (kind === "reads") return {kind, state: first, symbols: numbers};
  if (kind === "shifts") return {kind, quadruple: Number(first), tape: numbers[0]};
  if (kind === "writes") return {kind, state: first, tape: numbers[0], symbols: numbers.slice(1)};
  return {kind: kind === "begin" ? kind : "end"};
}
/** @type {(lines: Lines, banks: Bank[]) => TapeLayout} */
function tapeOf(lines, banks) {
  const [{columns: wide, rows}] = banks, cells = new Map(banks.map(it => [it.cell ?? 0, it]));
  const columns = lines.many(wide, CELL_COLUMN, ([, kind, letter]) => ({letter, hasHead: kind === "head"}));
  const names = lines.many(rows, CELL_LINE, ([, name]) => name);
  return {columns, lines: names, letters: columns.filter(it => !it.hasHead).map(it => it.letter), cells};
}

/** @type {(text: string) => Layout} */
export function readLayout(text) {
  const lines = new Lines(text), count = Number(lines.next(/^elements (\d+)$/)[1]);
  const banks = lines.many(Number(lines.next(/^modules (\d+)$/)[1]), MODULE, bankOfLine), [control] = banks;
  const columns = lines.many(control.columns, CONTROL_COLUMN, ([, words]) => controlState(words));
  const named = lines.many(control.rows, CONTROL_LINE, ([, into, out]) => ({into, out}));
  const tapes = Array.from({length: TAPES_TOLD}, (_, k) => tapeOf(lines, banks.filter(it => it.tape === k + 1)));
  return {
    count, banks, control: {columns, lines: named}, tapes,
    bases: Int32Array.from(banks, it => it.base), rows: Int32Array.from(banks, it => it.rows),
  };
}
