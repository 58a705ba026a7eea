// What the pictures share. Each is an SVG text in the page's colours, so that dark and light need no second drawing.
import {SIDES} from "./texts.js";

/** @type {(width: number, height: number, body: string, kind?: string, more?: string) => string} */
export const svg = (width, height, body, kind = "", more = "") =>
  `<svg class="pic ${kind}" xmlns="http://www.w3.org/2000/svg" width="${width}" height="${height}" viewBox="0 0 ${width} ${height}" ${more}>${body}</svg>`;
// A length with one digit behind the point.
/** @type {(it: number) => number} */
export const n1 = it => Math.round(it * 10) / 10;

/** @type {Record<string, string>} */
const SIDE_WORDS = {n: "north", e: "east", s: "south", w: "west"};
/** @type {(place: number) => string} */
export const sideOf = place => SIDE_WORDS[SIDES[place & 3]];
