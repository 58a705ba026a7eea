// States of a diagram that are moved: dragged, or by keys. Where they stand is kept as shares of the picture's size.
import {keepPast} from "./past.js";
import {state} from "./state.js";

const LEAST_MOVE = 4, KEY_SHARE = .025;
const KEY_MOVES = {ArrowLeft: [-1, 0], ArrowRight: [1, 0], ArrowUp: [0, -1], ArrowDown: [0, 1]};
const kept = it => Math.max(0, Math.min(1, Math.round(it * 1000) / 1000));

// `nameAt` gives the name of a state as it was typed, `draw` draws the diagram anew, `click` is told of a press without
// a move.
export function takeDrag(box, {nameAt, draw, click}) {
  let held = null;
  box.addEventListener("pointerdown", event => {
    const it = event.target.closest("[data-state]");
    if (!it || event.button) return;
    held = {state: it.dataset.state, x: event.clientX, y: event.clientY, isMoved: false};
    box.setPointerCapture(event.pointerId);
  });
  box.addEventListener("pointermove", event => {
    if (!held) return;
    if (!held.isMoved && Math.hypot(event.clientX - held.x, event.clientY - held.y) < LEAST_MOVE) return;
    if (!held.isMoved) keepPast();
    held.isMoved = true;
    const picture = box.querySelector("svg").getBoundingClientRect();
    putAt(nameAt(held.state), (event.clientX - picture.left) / picture.width, (event.clientY - picture.top) / picture.height);
    draw();
  });
  box.addEventListener("pointerup", event => {
    const it = held;
    held = null;
    if (it && !it.isMoved) click(it.state, [event.clientX, event.clientY]);
  });
  box.addEventListener("pointercancel", () => { held = null; });
}
function putAt(name, across, down) {
  state.places = {...state.places, [name]: [kept(across), kept(down)]};
}

// A step of a state by an arrow key, from where it stands in the picture; whether the key was one.
export function moveByKey(event, node, name) {
  const by = KEY_MOVES[event.key];
  if (!by || event.ctrlKey || event.metaKey || event.altKey) return false;
  const picture = node.ownerSVGElement.getBoundingClientRect(), box = node.querySelector("rect").getBoundingClientRect();
  const middle = [(box.left + box.width / 2 - picture.left) / picture.width, (box.top + box.height / 2 - picture.top) / picture.height];
  const size = event.shiftKey ? KEY_SHARE / 5 : KEY_SHARE;
  keepPast(true);
  putAt(name, middle[0] + by[0] * size, middle[1] + by[1] * size);
  return true;
}
