// The canvas with the keyboard alone. Tab goes from element to element, and out after the last one; Enter goes to the ports of an element,
// Escape back. W starts a wire at an output, or at a side named by a letter; Enter or another letter ends it.
import {
  chooseAll, copyChosen, counted, cutWire, duplicateChosen, endAt, endWire, enter, focusOn, letGo, moveChosen, pasteCopied, removeChosen, rotateChosen,
  takeWire, tidy, turnChosen, turnOne,
} from "./acts.js";
import {barWord, fit, portSpot, UNIT, zoomBy} from "./canvas.js";
import {choose, desk, deskChanged, takeBack, tellDesk} from "./desk.js";
import {sourcesOf} from "./drawing.js";
import {sideOf} from "../svg.js";
import {placeName, SIDES} from "../texts.js";
import {goFar, play, stepOnce} from "./running.js";

const MOVES = /** @type {Record<string, number[]>} */ ({ArrowLeft: [-1, 0], ArrowRight: [1, 0], ArrowUp: [0, -1], ArrowDown: [0, 1]});
const ZOOM = 1.25;
// Whether the side of a new wire is to be named.
const naming = {isOn: false};

// A port and where it leads, in words.
/** @type {(port: number, isOut: boolean) => string} */
export function portWords(port, isOut) {
  const {drawing} = desk, other = isOut ? drawing.targets[port] : sourcesOf(drawing)[port];
  const where = other < 0 ? "free" : isOut ? `leads to ${placeName(other)}` : `comes from ${placeName(other)}`;
  const isHere = drawing.place === port && drawing.hasLeft === isOut;
  return `${sideOf(port & 3)} ${isOut ? "output" : "input"} of element ${port >> 2}, ${where}${isHere ? ", the signal is here" : ""}`;
}
function sayFocus() {
  const {element, port, isOut} = desk.focus;
  if (element < 0) return;
  tellDesk(port >= 0 ? portWords(port, isOut) : `Element ${element}, ${barWord(desk.drawing.bars[element])}`);
}
// The next element, or the next port of the element; false if there is none, so that Tab leaves the canvas.
/** @type {(by: number) => boolean} */
function onward(by) {
  const {focus, drawing} = desk, count = drawing.bars.length;
  if (focus.port >= 0) {
    const at = (2 * (focus.port & 3) + Number(focus.isOut) + by + 8) % 8;
    focusOn(focus.element, 4 * focus.element + (at >> 1), Boolean(at & 1));
  } else {
    const next = focus.element < 0 && by < 0 ? count - 1 : focus.element + by;
    if (next < 0 || next >= count) {
      focusOn(-1);
      return false;
    }
    desk.chosen = new Set([next]);
    desk.wire = -1;
    focusOn(next);
  }
  aimWire();
  sayFocus();
  return true;
}
// Shows the end of the wire at the focus.
function aimWire() {
  const {hand, focus, drawing} = desk;
  if (hand?.kind !== "wire" || focus.element < 0) return;
  hand.at = focus.port >= 0 ? portSpot(drawing, focus.port, focus.isOut).map(it => it / UNIT) : drawing.at[focus.element].map(it => it + 2);
  deskChanged("hand");
}
/** @type {(port: number, isOut: boolean) => void} */
function beginWire(port, isOut) {
  naming.isOn = false;
  takeWire(port, isOut, portSpot(desk.drawing, port, isOut).map(it => it / UNIT));
}
// The keys of a command, with Ctrl or the command key.
/** @type {Record<string, () => any>} */
const COMMANDS = {
  z: () => takeBack(-1), y: () => takeBack(1), Z: () => takeBack(1), a: chooseAll, d: duplicateChosen, c: copyChosen,
  x: () => { copyChosen(); removeChosen(); }, v: pasteCopied,
};
/** @type {Record<string, () => any>} */
const KEYS = {
  b: () => onSpace(), Delete: remove, Backspace: remove, r: rotateChosen, t: tidy, "+": () => zoomBy(ZOOM), "=": () => zoomBy(ZOOM), "-": () => zoomBy(1 / ZOOM), 0: () => fit(),
  ".": () => stepOnce(1), ",": () => stepOnce(-1), p: () => play(1), P: () => play(-1), ">": () => goFar(1), "<": () => goFar(-1),
  End: () => goFar(1), Home: () => goFar(-1),
};
function remove() {
  const {port, isOut} = desk.focus;
  if (port < 0) removeChosen();
  else cutWire(isOut ? port : sourcesOf(desk.drawing)[port]);
}
/** @type {(svg: SVGSVGElement) => void} */
export function takeKeys(svg) {
  svg.addEventListener("keydown", event => {
    if (!onKey(event)) return;
    event.preventDefault();
    event.stopPropagation();
  });
  svg.addEventListener("blur", () => { naming.isOn = false; });
  svg.addEventListener("focus", () => {
    if (!svg.matches(":focus-visible") || !desk.drawing.bars.length) return;
    if (desk.focus.element < 0) focusOn([...desk.chosen][0] ?? 0);
    if (!desk.chosen.size && desk.wire < 0) choose([desk.focus.element]);
    sayFocus();
  });
}
// Whether a key was taken.
/** @type {(event: KeyboardEvent) => boolean} */
export function onKey(event) {
  const {key, shiftKey} = event, {focus, hand} = desk;
  if (event.ctrlKey || event.metaKey) {
    const act = COMMANDS[key];
    if (act) act();
    return Boolean(act);
  }
  if (event.altKey) return false;
  if (key === "Tab") return onward(shiftKey ? -1 : 1);
  if (key === "Escape") return escape();
  if (key === "Enter") return onEnter();
  if (key === " ") return onSpace();
  if (MOVES[key]) return onArrow(key, shiftKey);
  if (/^[nesw]$/.test(key) && focus.element >= 0 && (hand?.kind === "wire" || naming.isOn)) return onSide(key);
  if (/^[wW]$/.test(key)) return onWire();
  if (key === "i" && focus.element >= 0) return onInto();
  const act = KEYS[key];
  if (act) act();
  return Boolean(act);
}
/** @type {(key: string) => boolean} */
function onSide(key) {
  const port = 4 * desk.focus.element + SIDES.indexOf(key);
  if (desk.hand?.kind === "wire") endWire(port, !desk.hand.isOut);
  else beginWire(port, true);
  return true;
}
function onWire() {
  const {element, port, isOut} = desk.focus;
  if (element < 0) return false;
  if (port >= 0) beginWire(port, isOut);
  else {
    naming.isOn = true;
    tellDesk(`A wire from element ${element}: which side? Press n, e, s or w.`);
  }
  return true;
}
function onInto() {
  const {element, port, isOut} = desk.focus;
  if (port >= 0 && !isOut) enter(port);
  else if (port >= 0) endAt(port);
  else {
    const free = [0, 1, 2, 3].map(side => 4 * element + side).filter(one => sourcesOf(desk.drawing)[one] < 0);
    if (!free.length) return false;
    const at = free.indexOf(desk.drawing.place);
    enter(free[(at + 1) % free.length]);
  }
  return true;
}
function onEnter() {
  const {focus, hand} = desk;
  if (focus.element < 0) return false;
  if (hand?.kind === "wire" && focus.port >= 0) endWire(focus.port, focus.isOut);
  else if (focus.port < 0) {
    focusOn(focus.element, 4 * focus.element, hand?.kind === "wire" ? !hand.isOut : false);
    aimWire();
    sayFocus();
  } else if (focus.isOut) beginWire(focus.port, true);
  else enter(focus.port);
  return true;
}
function onSpace() {
  const {focus, chosen} = desk;
  if (chosen.size > 1) turnChosen();
  else if (focus.element >= 0) turnOne(focus.element);
  else return false;
  return true;
}
/** @type {(key: string, isFar: boolean) => boolean} */
function onArrow(key, isFar) {
  const {focus, chosen} = desk, [dx, dy] = MOVES[key];
  if (focus.port >= 0) {
    onward(dx + dy);
    return true;
  }
  if (!chosen.size && focus.element >= 0) choose([focus.element]);
  if (!desk.chosen.size) return false;
  const size = isFar ? 1 : 2;
  moveChosen([dx * size, dy * size], "keys");
  const [first] = desk.chosen, [x, y] = desk.drawing.at[first];
  tellDesk(`${desk.chosen.size === 1 ? `Element ${first}` : counted(desk.chosen.size, "element")} at ${x}, ${y}.`);
  return true;
}
// Cancels the last thing that was started; false if there is none.
export function escape() {
  const {hand, focus, chosen} = desk;
  if (naming.isOn) {
    naming.isOn = false;
    tellDesk("Cancelled.");
  } else if (hand) {
    letGo();
    tellDesk("");
  } else if (focus.port >= 0) {
    focusOn(focus.element);
    sayFocus();
  } else if (chosen.size || desk.wire >= 0) choose([]);
  else return false;
  return true;
}
