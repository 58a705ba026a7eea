// For the worker: reads the places that a script of lines `step 1` was answered with, so that the page doesn't stand
// still for it. A place is the number 4E + side of a line E.L. It judges nothing: the text is the program's own.
import {lastUpTo} from "./layout.js";

const POINT = 46, LINE_END = 10, LEFT = 108;
/** @type {Record<number, number>} */
const SIDE_OF = {110: 0, 101: 1, 115: 2, 119: 3};

// At most so many places, and whether the signal has left at the last one.
/** @type {(text: Uint8Array, count: number) => {places: Int32Array, hasLeft: boolean}} */
export function readPlaces(text, count) {
  const places = new Int32Array(count);
  let at = 0, found = 0, hasLeft = false;
  while (at < text.length && found < count) {
    hasLeft = text[at] === LEFT;
    at += hasLeft ? "left ".length : "at ".length;
    let element = 0;
    while (text[at] !== POINT) element = element * 10 + text[at++] - 48;
    places[found++] = 4 * element + SIDE_OF[text[at + 1]];
    at = text.indexOf(LINE_END, at) + 1;
    if (hasLeft) break;
  }
  return {places: places.slice(0, found), hasLeft};
}

// Where among the places a move begins: the signal is about to enter the first column of a bank by one of its lines.
// Banks are given by their first elements and by how many rows they have.
/** @type {(read: {places: Int32Array, hasLeft: boolean}, banks: {bases: Int32Array, rows: Int32Array}) => Int32Array} */
export function boundsOf({places, hasLeft}, {bases, rows}) {
  const found = [], last = places.length - (hasLeft ? 1 : 0);
  for (let k = 0; k < last; k++) {
    if ((places[k] & 3) !== 3) continue;
    const element = places[k] >> 2, bank = lastUpTo(bases, element);
    if (element - bases[bank] < rows[bank]) found.push(k);
  }
  return Int32Array.from(found);
}
