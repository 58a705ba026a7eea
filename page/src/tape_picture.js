// A tape: its cells, the head, what was just written, the cells that are picked, and those that are otherwise by now.
import {escaped, minus} from "./state.js";
import {svg} from "./svg.js";
import {symbolWord} from "./table.js";
import {heardOf, TAPES} from "./words.js";

const TAPE_LEFT = 12, TAPE_TOP = 12;
// The largest of the page's sizes of type that stands well in a cell.
const symbolSize = size => [20, 17, 14, 12].find(it => it <= size * .52) ?? 11;

// The part of a tape that has room: all of it, or that around its head.
export function shownPart(tape, most) {
  const count = tape.symbols.length;
  if (count <= most) return {from: 0, to: count};
  const at = Math.max(0, (tape.head ?? tape.first) - tape.first), from = Math.max(0, Math.min(at - Math.floor(most / 2), count - most));
  return {from, to: from + most};
}

// `before` is the same tape one moment before, so that what was just written is tinted; `now` has the cells that have
// changed since the moment that is shown.
/** @param {Tape} tape
 * @param {{width: number, size?: number, before?: Tape | null, picked?: number[], now?: any[], isNumbered?: boolean}} how */
export function tapePicture(tape, {width, size = 34, before = null, picked = [], now = [], isNumbered = true}) {
  const longest = Math.max(...tape.symbols.map(it => it.length)), wide = Math.max(size, 9 * longest + 10);
  const part = shownPart(tape, Math.max(3, Math.floor((width - 2 * TAPE_LEFT) / wide))), isShown = k => k >= part.from && k < part.to;
  const x = k => TAPE_LEFT + (k - part.from) * wide, base = TAPE_TOP + size * .66;
  let body = "";
  for (let k = part.from; k < part.to; k++) {
    const symbol = tape.symbols[k], isNew = before && before.symbols[k] !== symbol;
    body += cellPicture({tape: tape.tape, cell: tape.first + k, symbol, isNew, x: x(k), wide, size, isNumbered});
  }
  for (const it of now) if (isShown(it.cell - tape.first)) body += nowPicture(it, x(it.cell - tape.first), wide, size);
  for (const cell of picked) {
    const at = cell - tape.first;
    if (isShown(at)) body += `<rect class="picked" x="${x(at) + 3}" y="${TAPE_TOP + 3}" width="${wide - 6}" height="${size - 6}" rx="2"/>`;
  }
  const head = tape.head === null ? -1 : tape.head - tape.first;
  if (isShown(head)) {
    body += `<rect class="headbox" x="${x(head)}" y="${TAPE_TOP}" width="${wide}" height="${size}" rx="2"/>`
      + `<path class="headtip" d="M${x(head) + wide / 2},${TAPE_TOP - 1} l-6,-9 h12 z"/>`;
  }
  if (part.from > 0) body += `<text class="quiet" x="0" y="${base}">…</text>`;
  if (part.to < tape.symbols.length) body += `<text class="quiet" x="${x(part.to) + 2}" y="${base}">…</text>`;
  const label = `role="img" aria-label="${escaped(tapeWordsOf(tape))}"`;
  return svg(width, TAPE_TOP + size + (isNumbered ? 16 : 3), body, `t${tape.tape}`, label);
}
// A tape as it is heard: its symbols from its first cell on, and its head.
function tapeWordsOf(it) {
  const {tape, head} = it, {first, symbols} = heardOf(it);
  const heard = symbols.map(symbolWord).join(" "), at = head === null ? "no head" : `head at cell ${head}`;
  return `${TAPES[tape]} tape from cell ${first}: ${heard}; ${at}`;
}
// What a cell holds by now, small in its corner, within a broken line; and the head, where it has come already.
function nowPicture({cell, symbol, was, hasHead, hadHead}, x, wide, size) {
  const tip = hasHead && !hadHead ? `<path class="nowtip" d="M${x + wide / 2},${TAPE_TOP - 1} l-6,-9 h12 z"/>` : "";
  const words = symbol === "?" ? "between two states" : `now ${symbolWord(symbol)}${hasHead ? ", with the head" : ""}`;
  const corner = symbol === was ? "" : `<text class="nowsymbol" x="${x + wide - 5}" y="${TAPE_TOP + 12}">${symbol === "_" ? "·" : escaped(symbol)}</text>`;
  return `<g class="between" data-now="${cell}" data-symbol="${escaped(symbol)}"><title>cell ${minus(cell)}: ${escaped(words)}</title><rect class="nowbox" x="${x + 2.5}" y="${TAPE_TOP + 2.5}" width="${wide - 5}" height="${size - 5}" rx="2"/>`
    + `${corner}${tip}</g>`;
}
function cellPicture({tape, cell, symbol, isNew, x, wide, size, isNumbered}) {
  const isBlank = symbol === "_", kind = isNew ? "new" : isBlank ? "" : "full";
  const below = `<text class="quiet small" text-anchor="middle" x="${x + wide / 2}" y="${TAPE_TOP + size + 12}">${minus(cell)}</text>`;
  return `<g data-tape="${tape}" data-cell="${cell}"><rect class="cell ${kind}" x="${x}" y="${TAPE_TOP}" width="${wide}" height="${size}"/>`
    + `<text class="symbol ${isBlank ? "blank" : ""}" style="font-size:${symbolSize(size)}px" x="${x + wide / 2}" y="${TAPE_TOP + size * .66}">`
    + `${isBlank ? "·" : escaped(symbol)}</text>${isNumbered ? below : ""}</g>`;
}
