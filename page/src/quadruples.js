// Bennett's quadruple table, as `bennett` printed it, with the quadruple that is at work marked. Which one that is, is
// told by `moments`, or looked up: the one of the state that the program named, whose symbols it showed under the heads.
import {put} from "./sizes.js";
import {byId, current, escaped, state} from "./state.js";
import {TAPES} from "./words.js";

/** @type {Record<string, string>} */
const SHIFTED = {"+": "right", "-": "left", "0": "stays"};
/** @type {{at: number | null, run: unknown}} */
const table = {at: null, run: null};

// The place of the quadruple that is made next at a moment, or -1 where there is none.
/** @type {(run: Pick<import("./moments.js").Moments, "moments" | "told"> & {quadruples: string[][]}, q: number) => number} */
export function quadrupleAt(run, q) {
  const {name, tapes} = run.moments[q], row = run.told.rows[q];
  if (row !== undefined) return row;
  const scanned = (tapes ?? []).map(tape => tape.head === null ? null : tape.symbols[tape.head - tape.first]);
  return run.quadruples.findIndex(row => row[0] === name && scanned.every((it, k) => row[1 + k] === "/"
    || row[1 + k] === it));
}

/** @type {(f: Pick<Frame, "q">) => void} */
export function renderQuadruples({q}) {
  if (state.middle !== "table") return;
  const {run} = current, at = quadrupleAt(run, q), isNew = table.run !== run;
  if (isNew) put("quadruples", tableText(run));
  if (!isNew && table.at === at) return;
  Object.assign(table, {run, at});
  const rows = [...byId("quadruples").querySelectorAll("tbody tr")];
  rows.forEach((it, k) => {
    it.classList.toggle("now", k === at);
    if (k === at) it.setAttribute("aria-current", "step");
    else it.removeAttribute("aria-current");
  });
  if (rows[at]) bringIntoSight(rows[at]);
}

// A quadruple as it is written: what is read on the tapes, and what is done on them.
/** @type {(row: string[]) => string} */
export const actText = row => `[${row.slice(1, 4).join(" ")}] to [${row.slice(4, 7).join(" ")}]`;

/** @type {(run: {quadruples: string[][]}) => string} */
function tableText(run) {
  const heads = ["", "state", "work", "history", "output", "then"].map(it => `<th scope="col">${it}</th>`);
  const rows = run.quadruples.map((row, k) => {
    const tapes = [1, 2, 3].map(tape => `<td class="m${tape}">${escaped(actWords(row[tape], row[tape + 3]))}</td>`);
    const [from, then] = [row[0], row[7]].map(it => `<td>${escaped(it)}</td>`);
    return `<tr><td class="no">${k + 1}</td>${from}${tapes.join("")}${then}</tr>`;
  });
  return `<table><thead><tr>${heads.join("")}</tr></thead><tbody>${rows.join("")}</tbody></table>`;
}
// A row in words: the state, what it does with each tape, and the next state.
/** @type {(row: string[]) => string} */
export const rowWords = row => `in ${row[0]}, ${[1, 2, 3].map(tape => `${TAPES[tape]} ${actWords(row[tape], row[tape + 3])}`).join(", ")}, then ${row[7]}`;

// What a quadruple does with one tape: it moves, or it reads a symbol and writes one.
/** @type {(read: string, write: string) => string} */
function actWords(read, write) {
  if (read === "/") return SHIFTED[write];
  return read === write ? read : `${read} → ${write}`;
}
/** @type {(row: Element) => void} */
function bringIntoSight(row) {
  const box = byId("quadruples"), inner = row.getBoundingClientRect(), outer = box.getBoundingClientRect();
  if (inner.top < outer.top + 26
    || inner.bottom > outer.bottom - 4) box.scrollTop += inner.top - outer.top - outer.height * .45;
}

// Below the tapes stand the moves of the circuit, or this table.
/** @type {(kind: string) => void} */
export function chooseMiddle(kind) {
  state.middle = kind;
  byId("moves").hidden = kind !== "moves";
  byId("quadruples").hidden = kind !== "table";
  table.at = null;
}
