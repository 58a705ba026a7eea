// The actions on a drawing, for pointer, keyboard, buttons and the list alike.
import {bringIn, fit, middle} from "./canvas.js";
import {choose, commit, desk, deskChanged, tellDesk} from "./desk.js";
import {
  addGroup, clearBy, endedAt, entered, freeInputs, groupOf, MOST_DRAWN, moved, rotated, sourcesOf, turned, unwired, wired, wireFault, without,
} from "./drawing.js";
import {laidOut} from "./lay.js";
import {placeName} from "../texts.js";
import {waysMoved, waysOf} from "./route.js";
import {pause} from "./running.js";

const ROOM = 5;
/** @type {{group: Group | null}} */
const copied = {group: null};
/** @type {(many: number, one: string, more?: string) => string} */
export const counted = (many, one, more = `${one}s`) => `${many} ${many === 1 ? one : more}`;
const theChosen = () => counted(desk.chosen.size, "element");

// Adds a group at the nearest free position and selects it; returns whether it was added.
/** @param {Group} group @param {number[]} [at] @param {string} [title] */
export function putGroup(group, at, title = counted(group.bars.length, "element")) {
  pause();
  if (desk.drawing.bars.length + group.bars.length > MOST_DRAWN) {
    tellDesk(`The editor draws at most ${MOST_DRAWN} elements. The program itself takes more.`, true);
    return false;
  }
  const first = desk.drawing.bars.length, whole = (at ?? middleFor(group)).map(Math.round);
  // Without a given position it gets more room.
  const by = clearBy(desk.drawing, group.at.map(([x, y]) => [x + whole[0], y + whole[1]]), new Set(), at ? undefined : ROOM);
  const made = addGroup(desk.drawing, group, [whole[0] + by[0], whole[1] + by[1]]), all = group.bars.map((_, k) => first + k);
  desk.chosen = new Set(all);
  desk.wire = -1;
  desk.focus = {element: first, port: -1, isOut: true};
  commit(made);
  tellDesk(`Added: ${title}${all.length === 1 ? `, element ${first}` : ""}.`);
  return true;
}
/** @type {(group: Group) => number[]} */
function middleFor(group) {
  const [x, y] = middle(), far = [0, 1].map(k => Math.max(...group.at.map(at => at[k])) / 2 + 2);
  return [x - far[0], y - far[1]];
}
// Draws a wire from an output to an input, or says why not; returns whether it was drawn.
/** @type {(out: number, into: number) => boolean} */
export function drawWire(out, into) {
  const fault = wireFault(desk.drawing, out, into);
  if (fault) {
    tellDesk(fault, true);
    return false;
  }
  pause();
  const old = desk.drawing.targets[out];
  commit(wired(desk.drawing, out, into));
  tellDesk(`${placeName(out)} leads to ${placeName(into)}${old >= 0 ? `, no longer to ${placeName(old)}` : ""}.`);
  return true;
}
/** @type {(out: number) => void} */
export function cutWire(out) {
  pause();
  const into = desk.drawing.targets[out];
  if (into < 0) return;
  commit(unwired(desk.drawing, new Set([out])));
  tellDesk(`Deleted the wire from ${placeName(out)} to ${placeName(into)}.`);
}
/** @type {(element: number) => void} */
export function turnOne(element) {
  pause();
  const elements = new Set([element]);
  commit(turned(desk.drawing, elements), {key: `turn ${element}`});
  tellDesk(`Element ${element}: the bar is ${desk.drawing.bars[element] === "H" ? "lying" : "upright"}.`);
}
/** @type {(into: number) => void} */
export function enter(into) {
  pause();
  const fed = sourcesOf(desk.drawing)[into];
  commit(entered(desk.drawing, into), {key: "enter"});
  tellDesk(fed < 0 ? `The signal enters at ${placeName(into)}, which is now the start.`
    : `The signal is about to enter ${placeName(into)}, at the end of the wire from ${placeName(fed)}.`);
}
/** @type {(out: number) => void} */
export function endAt(out) {
  if (desk.drawing.targets[out] >= 0) return;
  commit(endedAt(desk.drawing, out));
  tellDesk(`${placeName(out)} is now the end that the text names.`);
}
export function turnChosen() {
  pause();
  if (!desk.chosen.size) return;
  commit(turned(desk.drawing, desk.chosen));
  tellDesk(`Turned the bars of ${theChosen()}.`);
}
export function rotateChosen() {
  pause();
  const elements = desk.chosen.size ? desk.chosen : new Set(desk.drawing.bars.keys());
  if (!elements.size) return;
  const made = rotated(desk.drawing, elements);
  const by = clearBy(made, [...elements].map(element => made.at[element]), elements);
  commit(moved(made, elements, by));
  tellDesk(`Rotated ${counted(elements.size, "element")} by 90°, with ports and bars. The circuit behaves as before.`);
}
export function removeChosen() {
  pause();
  if (desk.wire >= 0) {
    const out = desk.wire;
    desk.wire = -1;
    cutWire(out);
    return;
  }
  if (!desk.chosen.size) return;
  const words = `Deleted ${theChosen()}; the others are renumbered.`, elements = desk.chosen;
  desk.chosen = new Set();
  commit(without(desk.drawing, elements));
  tellDesk(words);
}
export function duplicateChosen() {
  if (!desk.chosen.size) return;
  const [x, y] = [0, 1].map(k => Math.min(...[...desk.chosen].map(element => desk.drawing.at[element][k])));
  putGroup(groupOf(desk.drawing, desk.chosen), [x + 2, y + 6], `${theChosen()}, duplicated`);
}
export function copyChosen() {
  if (!desk.chosen.size) return;
  copied.group = groupOf(desk.drawing, desk.chosen);
  tellDesk(`Copied ${theChosen()}, with the wires between them.`);
}
export function pasteCopied() {
  if (copied.group) putGroup(copied.group);
}
// Moves the selection to the nearest free position.
/** @type {(by: number[], key?: string) => void} */
export function moveChosen(by, key = "") {
  pause();
  const {drawing, chosen} = desk;
  if (!chosen.size || !by[0] && !by[1]) return;
  const more = clearBy(drawing, [...chosen].map(element => [drawing.at[element][0] + by[0], drawing.at[element][1] + by[1]]), chosen);
  const all = [by[0] + more[0], by[1] + more[1]];
  commit(moved(drawing, chosen, all), {key, ways: waysMoved(desk.ways, drawing, chosen, all)});
}
export function layAnew() {
  pause();
  commit({...desk.drawing, at: laidOut(desk.drawing)}, {ways: new Map()});
  fit();
  tellDesk("New positions for all elements; the circuit is the same.");
}
// Routes all wires again; no element moves.
export function tidy() {
  desk.ways = waysOf(desk.drawing);
  deskChanged("hand");
  tellDesk("All wires are routed again.");
}
export const chooseAll = () => choose(desk.drawing.bars.keys());
/** @type {(element: number, port?: number, isOut?: boolean) => void} */
export function focusOn(element, port = -1, isOut = true) {
  desk.focus = {element, port, isOut};
  if (element >= 0) bringIn(element);
  deskChanged("chosen");
}

// ---- a wire that is being drawn

/** @type {(port: number, isOut: boolean, at: number[]) => void} */
export function takeWire(port, isOut, at) {
  const {drawing} = desk, fed = isOut ? -1 : sourcesOf(drawing)[port];
  // If the input has a wire, its end is detached.
  desk.hand = fed >= 0 ? {kind: "wire", port: fed, isOut: true, at, isPulled: true} : {kind: "wire", port, isOut, at};
  const {hand} = desk, free = hand.isOut ? freeInputs(drawing).length : 0;
  tellDesk(hand.isOut ? `A wire from ${placeName(hand.port)}: ${counted(free, "free input")}. Esc cancels.` : `A wire into ${placeName(port)}: choose an output.`);
  deskChanged("hand");
}
// Ends the wire at a port; returns whether there is a wire now.
/** @type {(port: number, isOut: boolean) => boolean} */
export function endWire(port, isOut) {
  const {hand} = desk;
  if (hand?.kind !== "wire") return false;
  if (hand.isOut === isOut) {
    tellDesk(hand.isOut ? "A wire must lead from an output to an input." : "A wire into an input must come from an output.", true);
    return false;
  }
  const [out, into] = hand.isOut ? [hand.port, port] : [port, hand.port];
  if (desk.drawing.targets[out] === into) {
    letGo();
    return true;
  }
  if (!drawWire(out, into)) return false;
  letGo();
  return true;
}
export function letGo() {
  if (!desk.hand && !desk.band && !desk.draft) return;
  Object.assign(desk, {hand: null, band: null, draft: null});
  deskChanged("hand");
}
