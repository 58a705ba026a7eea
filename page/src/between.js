// Between two moments: which cells of the tapes are otherwise than at the last one, and what they hold by now. A cell's
// state is its marked column; where none is marked the signal is on its way through it. Only the cells near the heads
// can be otherwise, and the one in which the signal is.
import {cellModule, cellState} from "./layout.js";
import {symbolWord} from "./table.js";
import {minus} from "./state.js";
import {TAPES} from "./words.js";

// What a cell of a tape holds at a step, and whether the head is there; null where its bars aren't there yet.
/** @type {(run: import("./run.js").Run, bank: Bank, e: number) => CellState | null} */
function heldIn(run, bank, e) {
  const column = run.markedColumn(bank, e);
  if (column === null) return null;
  return column < 0 ? {letter: "?", hasHead: false} : cellState(run.layout, bank, column);
}

/** @typedef {{tape: number, cell: number, symbol: string, hasHead: boolean, was: string, hadHead: boolean}} Between */
/** @type {(run: import("./run.js").Run, f: Frame) => Between[]} */
export function betweenAt(run, {e, moment, bank, at}) {
  if (!at || at.hasLeft || e <= moment.steps) return [];
  const tapes = moment.tapes ?? [];
  const near = tapes.flatMap(({tape, head}) =>
    head === null ? [] : [-1, 0, 1].map(by => cellModule(run.layout, tape, head + by)));
  const found = [...new Set([...near, bank?.kind === "cell" ? bank : null])].flatMap(it => {
    const now = it && heldIn(run, it, e), {tape = 1, cell = 0} = it ?? {}, {symbols, first, head} = tapes[tape - 1];
    const before = {was: symbols[cell - first], hadHead: head === cell};
    return now ? [{tape, cell, symbol: now.letter, hasHead: now.hasHead, ...before}] : [];
  });
  const isOther = (/** @type {Between} */ it) => it.symbol !== it.was || it.hasHead !== it.hadHead;
  return found.filter(isOther).sort((a, b) => a.tape - b.tape || a.cell - b.cell);
}

/** @type {(list: Between[]) => string} */
export function betweenWords(list) {
  return list.map(({tape, cell, symbol, hasHead, was, hadHead}) => {
    const where = `${TAPES[tape]} cell ${minus(cell)}`;
    if (symbol === "?") return `The signal is in ${where}.`;
    if (symbol !== was) return was !== "_" && symbol === "_" ? `The ${symbolWord(was)} of ${where} has been read; the cell is blank now.`
      : `${symbolWord(symbol)} has been written to ${where}.`;
    return hasHead && !hadHead ? `The head has moved to ${where}.` : `The head has left ${where}.`;
  }).join(" ");
}
