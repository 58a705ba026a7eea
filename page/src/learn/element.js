// One rotary element, large: the line by which the signal comes in, the bar, the line by which it goes out; and its eight cases,
// of which one is this. They are the element's definition (Morita 2001): along the bar straight on, across it to the right.
import {n1, svg} from "../svg.js";
import {SIDES} from "../texts.js";

const BOX = 150, REACH = 50, OFF = 20, SIDE_NAMES = {n: "north", e: "east", s: "south", w: "west"};
const STEP = {n: [0, -1], e: [1, 0], s: [0, 1], w: [-1, 0]};
// A bar along west and east is H, along north and south V.
/** @type {(bar: string, side: string) => {out: string, after: string}} */
export function caseOf(bar, side) {
  const at = SIDES.indexOf(side), isAlong = (bar === "H") === (at % 2 === 1);
  // Who goes straight comes out at the other side; who turns right, on the way in from the north, comes out in the west.
  return isAlong ? {out: SIDES[(at + 2) % 4], after: bar} : {out: SIDES[(at + 3) % 4], after: bar === "H" ? "V" : "H"};
}
export const CASES = ["H", "V"].flatMap(bar => [...SIDES].map(side => ({bar, side, ...caseOf(bar, side)})));

// Where a line meets the box: each side has one line in and one out, side by side.
function port(side, way) {
  const [dx, dy] = STEP[side], half = BOX / 2, aside = way === "in" ? OFF : -OFF;
  return [dx * half - dy * aside, dy * half + dx * aside];
}
const arrow = (x, y, [dx, dy]) => `<path class="tip" d="M${n1(x)},${n1(y)}L${n1(x - 14 * dx - 8 * dy)},${n1(y - 14 * dy + 8 * dx)}L${n1(x - 14 * dx + 8 * dy)},${n1(y - 14 * dy - 8 * dx)}z"/>`;

// The element as the signal is about to come in: `bar` is how it lies, `side` the line.
export function elementPicture({bar, side, size = 1}) {
  const {out} = caseOf(bar, side), [dx, dy] = STEP[side], [ex, ey] = STEP[out], [x, y] = port(side, "in"), [u, v] = port(out, "out");
  const lies = bar === "H", reach = BOX * .36, all = 2 * REACH + BOX + 44;
  const line = `<path class="way" d="M${n1(x + dx * REACH)},${n1(y + dy * REACH)}L${n1(x)},${n1(y)}"/>${arrow(x, y, [-dx, -dy])}`;
  const inside = `<path class="way inner" d="M${n1(x)},${n1(y)}Q${n1(out === SIDES[(SIDES.indexOf(side) + 2) % 4] ? (x + u) / 2 : x * .2 + u * .2)},${n1(out === SIDES[(SIDES.indexOf(side) + 2) % 4] ? (y + v) / 2 : y * .2 + v * .2)} ${n1(u)},${n1(v)}"/>`;
  const away = `<path class="way" d="M${n1(u)},${n1(v)}L${n1(u + ex * REACH)},${n1(v + ey * REACH)}"/>${arrow(u + ex * REACH, v + ey * REACH, [ex, ey])}`;
  const dot = [x + dx * REACH * .5, y + dy * REACH * .5];
  const letters = Object.entries(STEP).map(([name, [p, q]]) => {
    const far = BOX / 2 + REACH + 12, isUsed = name === side || name === out;
    return `<text class="${isUsed ? "" : "quiet"}" text-anchor="middle" x="${p * far}" y="${q * far + 5}">${SIDE_NAMES[name]}</text>`;
  });
  const body = `<rect class="box" x="${-BOX / 2}" y="${-BOX / 2}" width="${BOX}" height="${BOX}" rx="16"/>`
    + `<line class="bar" stroke-width="14" x1="${lies ? -reach : 0}" x2="${lies ? reach : 0}" y1="${lies ? 0 : -reach}" y2="${lies ? 0 : reach}"/>`
    + line + inside + away + `<circle class="ring" cx="${n1(dot[0])}" cy="${n1(dot[1])}" r="13"/><circle class="signal" cx="${n1(dot[0])}" cy="${n1(dot[1])}" r="8"/>${letters.join("")}`;
  return svg(Math.round((all + 40) * size), Math.round(all * size), `<g transform="scale(${size}) translate(${(all + 40) / 2} ${all / 2})">${body}</g>`, "rotary",
    `role="img" aria-label="a rotary element: in from the ${SIDE_NAMES[side]}, out to the ${SIDE_NAMES[out]}"`);
}
// The eight cases as a table, the one at work marked.
export function casesTable({bar, side}) {
  const rows = CASES.map(it => {
    const isNow = it.bar === bar && it.side === side, words = {H: "lies", V: "stands"};
    return `<tr class="${isNow ? "now" : ""}"${isNow ? ' aria-current="true"' : ""}><td>${words[it.bar]}</td><td>${SIDE_NAMES[it.side]}</td><td>${SIDE_NAMES[it.out]}</td><td>${words[it.after]}</td></tr>`;
  });
  const {out, after} = caseOf(bar, side), ends = CASES.filter(it => it.out === out && it.after === after).length;
  return `<table><thead><tr><th scope="col">bar</th><th scope="col">in from</th><th scope="col">out to</th><th scope="col">bar after</th></tr></thead><tbody>${rows.join("")}</tbody></table>
    <p class="quiet">The marked case is ${ends === 1 ? "the only one of eight with this result" : "not the only one with this result"}.</p>`;
}
