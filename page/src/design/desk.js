// The state of the editor: the drawing with the routes of its wires, the selection, what is being dragged, undo and redo. Whoever changes it
// calls `deskChanged`; whoever shows it listens to that.
import {EMPTY} from "./drawing.js";
import {waysOf} from "./route.js";

const MOST_KEPT_BACK = 300, TYPING = 900;
/** @typedef {{kind: "wire", port: number, isOut: boolean, at: number[], isPulled?: boolean, isAimed?: boolean} | {kind: "part", group: Group, at: number[] | null, title: string}} Hand */
// The keyboard focus: an element, or one of its ports.
/** @typedef {{element: number, port: number, isOut: boolean}} Focus */

export const desk = {
  drawing: EMPTY,
  /** @type {Map<number, Way>} */ ways: new Map(),
  // The drawing while elements are dragged.
  /** @type {{drawing: Drawing, ways: Map<number, Way>} | null} */ draft: null,
  /** @type {Set<number>} */ chosen: new Set(),
  // The selected wire, by its output, or -1.
  wire: -1,
  /** @type {Focus} */ focus: {element: -1, port: -1, isOut: true},
  /** @type {Hand | null} */ hand: null,
  /** @type {number[] | null} */ band: null,
  view: {x: 0, y: 0, size: 1},
  // The last wires of the signal's path, by their outputs; the element that turned last; the bars at the start of the run.
  /** @type {number[]} */ trail: [],
  turned: -1,
  /** @type {Bar[]} */ began: [],
  /** @type {{behind: Drawing[], ahead: Drawing[]}} */ past: {behind: [], ahead: []},
  /** @type {{key: string, at: number}} */ last: {key: "", at: 0},
  words: "", isFault: false,
};
/** @typedef {"drawing" | "run" | "chosen" | "view" | "hand" | "words"} What */
/** @type {((what: What) => any)[]} */
const acts = [];
/** @param {What} what */
export function deskChanged(what) { for (const act of acts) act(what); }
/** @param {(what: What) => any} act */
deskChanged.to = act => acts.push(act);

// What is visible: the drawing, or the one that is being dragged.
export const shown = () => desk.draft ?? desk;

/** @type {(words: string, isFault?: boolean) => void} */
export function tellDesk(words, isFault = false) {
  Object.assign(desk, {words, isFault});
  deskChanged("words");
}
/** @type {(drawing: Drawing, ways?: Map<number, Way>) => void} */
function put(drawing, ways = desk.ways) {
  const count = drawing.bars.length;
  desk.drawing = drawing;
  desk.ways = waysOf(drawing, ways);
  desk.draft = null;
  desk.chosen = new Set([...desk.chosen].filter(element => element < count));
  if (desk.wire >= 0 && !(drawing.targets[desk.wire] >= 0)) desk.wire = -1;
  if (desk.focus.element >= count) desk.focus = {element: count - 1, port: -1, isOut: true};
  Object.assign(desk, {trail: [], turned: -1, began: drawing.bars});
  deskChanged("drawing");
}
// Replaces the drawing; undo restores the old one. Changes with one key in quick succession are one change.
/** @type {(drawing: Drawing, how?: {key?: string, ways?: Map<number, Way>}) => void} */
export function commit(drawing, {key = "", ways} = {}) {
  if (drawing === desk.drawing) return;
  const now = performance.now(), goesOn = key && key === desk.last.key && now - desk.last.at < TYPING;
  desk.last = {key, at: now};
  if (!goesOn) {
    desk.past.behind.push(desk.drawing);
    if (desk.past.behind.length > MOST_KEPT_BACK) desk.past.behind.shift();
  }
  desk.past.ahead = [];
  put(drawing, ways);
}
// Undo or redo; returns whether there was a change.
/** @type {(direction: number) => boolean} */
export function takeBack(direction) {
  const {behind, ahead} = desk.past, [from, to] = direction < 0 ? [behind, ahead] : [ahead, behind], found = from.pop();
  if (!found) return false;
  to.push(desk.drawing);
  desk.last = {key: "", at: 0};
  put(found);
  return true;
}
// The signal has moved: the circuit is the same, and there is nothing to undo.
/** @type {(drawing: Drawing) => void} */
export function showRun(drawing) {
  desk.drawing = drawing;
  deskChanged("run");
}
/** @type {(elements: Iterable<number>, wire?: number) => void} */
export function choose(elements, wire = -1) {
  desk.chosen = new Set(elements);
  desk.wire = wire;
  deskChanged("chosen");
}
