// The map: the control, three rows of cells, and the signal's place.
import {escaped} from "./state.js";
import {lineSaid} from "./module_words.js";
import {svg} from "./svg.js";
import {shownPart} from "./tape_picture.js";
import {bankName, number, TAPES} from "./words.js";

const MAP_LEFT = 104, MAP_GAP = 6;

export function mapPicture(run, {bank, row, moment, hasLeft: isOut, width, height}) {
  // By the end the signal has left the control; by another exit the module is shown where that was.
  const hasLeft = isOut && run.outcome.exit === "end", exit = isOut ? /^window \d (left|right)$/.exec(run.outcome.exit)?.[1] : null;
  const inControl = bank?.kind === "control" && !hasLeft, rowHeight = height / 3, cellHeight = Math.min(30, rowHeight - 14);
  let body = controlPicture(run.layout.banks[0], inControl, height);
  moment.tapes.forEach((tape, k) => {
    const top = k * rowHeight + (rowHeight - cellHeight) / 2;
    body += rowPicture(run, {tape, k, bank, row, hasLeft, exit, width, top, cellHeight});
    if (inControl && row > 0 && lineSaid(run.layout, bank, row).tape === k + 1) body += answerTip(top + cellHeight * .68);
  });
  if (inControl && row === 0) body += `<path class="tip" d="M13,${height / 2} l-10,-6 v12 z"/>`;
  if (hasLeft) body += `<path class="tip" d="M1,${height / 2} l11,-7 v14 z"/>`;
  const where = isOut ? "the signal has left" : bank ? `the signal is in ${bankName(bank)}` : "the signal is not located yet";
  return svg(width, height, body, "map", `role="img" aria-label="the modules of the circuit: ${escaped(where)}"`);
}

function controlPicture(control, isHere, height) {
  const {columns, rows, count} = control, middle = height / 2;
  return `<g data-bank="0"><title>The finite control: ${columns} states, ${rows} ports, ${number(count)} elements</title>`
    + `<rect class="${isHere ? "here" : "box"}" x="13" y="6" width="72" height="${height - 12}" rx="7"/>`
    + `<text text-anchor="middle" x="49" y="${middle - 3}">control</text>`
    + `<text class="quiet small" text-anchor="middle" x="49" y="${middle + 12}">${columns} states</text></g>`;
}
// An answer on its way into the control.
const answerTip = y => `<path class="way" d="M${MAP_LEFT - 3},${y}H94"/><path class="tip" d="M86,${y} l9,-5.5 v11 z"/>`;

// The cells of one tape, as many as have room, between the way of commands and that of answers.
function rowPicture(run, {tape, k, bank, row, hasLeft, exit, width, top, cellHeight}) {
  const widest = Math.max(...tape.symbols.map(it => it.length)) * 7 + 8, room = width - MAP_LEFT - 6;
  const wide = Math.max(Math.min(30, room / tape.symbols.length - MAP_GAP), Math.max(18, widest)), pitch = wide + MAP_GAP;
  const isBankOf = bank?.tape === k + 1, head = isBankOf ? bank.cell : tape.head;
  const part = shownPart({...tape, head}, Math.max(1, Math.floor(room / pitch)));
  const end = MAP_LEFT + (part.to - part.from) * pitch - MAP_GAP, base = top + cellHeight / 2 + 4;
  let body = `<path class="go" d="M85,${top + cellHeight * .32}H${end}"/><path class="come" d="M85,${top + cellHeight * .68}H${end}"/>`;
  for (let c = part.from; c < part.to; c++) {
    const cell = tape.first + c, x = MAP_LEFT + (c - part.from) * pitch, isHere = isBankOf && bank.cell === cell && !hasLeft;
    body += mapCell(tape, k + 1, cell, isHere, {x, top, wide, cellHeight});
    if (isHere && exit) body += exitTip(exit, x, wide, top + cellHeight / 2);
    if (isHere && row >= 0) body += entryTip(lineSaid(run.layout, bank, row).isBack, x, wide, top, cellHeight);
  }
  if (part.from > 0) body += `<text class="quiet" text-anchor="end" x="${MAP_LEFT - 3}" y="${base}">…</text>`;
  if (part.to < tape.symbols.length) body += `<text class="quiet" x="${end + 2}" y="${base}">…</text>`;
  return `<g class="t${k + 1}">${body}</g>`;
}
function mapCell(tape, number, cell, isHere, {x, top, wide, cellHeight}) {
  const symbol = tape.symbols[cell - tape.first], isBlank = symbol === "_", isHead = tape.head === cell, inset = isHere ? 3 : 0;
  const title = `${TAPES[number]} tape, cell ${cell}: ${isBlank ? "blank" : escaped(symbol)}${isHead ? ", with the head" : ""}`;
  const head = `<rect class="headbox" x="${x + inset}" y="${top + inset}" width="${wide - 2 * inset}" height="${cellHeight - 2 * inset}" rx="3"/>`;
  return `<g data-tape="${number}" data-cell="${cell}"><title>${title}</title>`
    + `<rect class="${isHere ? "here" : isBlank ? "box" : "box full"}" x="${x}" y="${top}" width="${wide}" height="${cellHeight}" rx="3"/>`
    + `${isHead ? head : ""}<text class="symbol ${isBlank ? "blank" : ""}" x="${x + wide / 2}" y="${top + cellHeight / 2 + 4.5}">`
    + `${isBlank ? "·" : escaped(symbol)}</text></g>`;
}
const exitTip = (side, x, wide, y) => side === "right" ? `<path class="tip" d="M${x + wide + 10},${y} l-10,-6 v12 z"/>`
  : `<path class="tip" d="M${x - 10},${y} l10,-6 v12 z"/>`;
const entryTip = (isBack, x, wide, top, high) => isBack ? `<path class="tip" d="M${x + wide},${top + high * .68} l9,-5 v10 z"/>`
  : `<path class="tip" d="M${x},${top + high * .32} l-9,-5 v10 z"/>`;
