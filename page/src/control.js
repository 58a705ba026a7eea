// What the finite control is about: its states, as `layout` tells them column by column, with what Bennett's table says of
// them, as it was printed; and which of them is marked.
import {actText, quadrupleAt} from "./quadruples.js";
import {symbolWord} from "./table.js";
import {TAPES} from "./words.js";

// The first row of a table that leaves each state, and the first that leads to each: all of them read the same tapes, and
// all of them write the same ones.
/** @typedef {{leaving: Map<string, string[]>, leading: Map<string, string[]>}} Rows */
/** @type {WeakMap<string[][], Rows>} */
const rowsKept = new WeakMap();
/** @type {(rows: string[][]) => Rows} */
function rowsOf(rows) {
  let it = rowsKept.get(rows);
  if (!it) {
    it = {leaving: new Map(), leading: new Map()};
    for (const row of [...rows].reverse()) {
      it.leaving.set(row[0], row);
      it.leading.set(row[7], row);
    }
    rowsKept.set(rows, it);
  }
  return it;
}
// The tapes that a row reads, which are those that it writes.
/** @type {(row: string[]) => number[]} */
const tapesOf = row => [1, 2, 3].filter(tape => row[tape] !== "/");

/** @typedef {import("./run.js").Run} Run */
// The state of the control in which a column alone is marked, or null where there is none.
/** @type {(run: Run, column: number | null) => ControlSaid | null} */
export function controlState(run, column) {
  const it = run.layout.control.columns[column ?? -1], {leaving, leading} = rowsOf(run.quadruples);
  if (!it || it.kind === "begin" || it.kind === "end") return it ?? null;
  if (it.kind === "shifts") return {...it, way: run.quadruples[it.quadruple - 1][it.tape + 3]};
  // Where no row leaves a state the work tape is asked, and nothing goes on.
  const row = (it.kind === "reads" ? leaving : leading).get(it.state), tapes = row ? tapesOf(row) : [1];
  const below = it.kind === "writes" ? tapes.filter(tape => tape < it.tape).reverse() : tapes;
  const symbols = it.symbols.map((symbol, k) => run.layout.tapes[below[k] - 1].letters[symbol]);
  return {kind: it.kind, state: it.state, tape: it.kind === "reads" ? tapes[symbols.length] : it.tape, symbols};
}

// A state of the control in words, with the symbols that it keeps in mind, and short as it stands above its column.
/** @type {(it: ControlSaid) => string} */
export function controlWords(it) {
  if (it.kind === "begin") return "waits for the signal";
  if (it.kind === "end") return "has sent the signal out";
  const tape = `the ${TAPES[it.tape ?? 0]} tape`;
  if (it.kind === "reads") return `${it.state} reads ${tape}`;
  if (it.kind === "shifts") return `quadruple ${it.quadruple} moves ${tape} ${it.way === "+" ? "right" : "left"}`;
  return `writes ${tape}, then ${it.state}`;
}
/** @type {(it: ControlSaid) => string} */
export function controlInFull(it) {
  const symbols = it.symbols?.map(symbolWord).join(" and ");
  if (!symbols) return controlWords(it);
  return `${controlWords(it)}, has ${it.kind === "reads" ? "read" : "still to write"} ${symbols}`;
}
/** @type {(it: ControlSaid) => string} */
export function controlLabel(it) {
  if (it.kind === "begin" || it.kind === "end") return it.kind === "begin" ? "Begin" : "End";
  if (it.kind === "shifts") return `${it.quadruple}s${it.tape}`;
  const symbols = (it.symbols ?? []).map(symbol => symbol === "_" ? "·" : symbol);
  return `${it.state}${it.kind === "reads" ? "r" : "w"}${it.tape}${symbols.length ? ":" : ""}${symbols.join(",")}`;
}

// What the control is about at a step: its state, where a column is marked, and the quadruple at work; short, and in full.
/** @type {(run: Run, f: Pick<Frame, "e" | "q" | "at">) => {short: string, full: string}} */
export function controlSaid(run, {e, q, at}) {
  if (at?.hasLeft) return {short: "", full: ""};
  const column = run.markedColumn(run.layout.banks[0], e), state = controlState(run, column);
  const number = quadrupleAt(run, q), row = run.quadruples[number];
  const words = column === -1 ? "the signal is inside" : state ? controlWords(state) : "";
  const full = state ? controlInFull(state) : words;
  const work = row ? `quadruple ${number + 1} of Bennett's table: ${row[0]} ${actText(row)} ${row[7]}` : "";
  const place = row && state?.kind !== "shifts" ? `quadruple ${number + 1}` : "";
  return {short: [words, place].filter(Boolean).join(" · "), full: [full, work].filter(Boolean).join(" · ")};
}
