// A circuit that is drawn, and stepped by the program: the text that it answered last is the input of the next `step
// 1` or `back 1`. What is kept beside it is where its elements stand, the last wires of the way, and the element that
// has turned.
import {answer, STATUS} from "./answer.js";
import {circuitSvg, lineName, planOf, readConfiguration} from "./circuit.js";
import {sideOf} from "./svg.js";
import {GREATEST, SIDES} from "./texts.js";
import {number} from "./words.js";

const MOST_DRAWN = 400, MOST_PAST = 40, MOST_SHARE = 2.2;

export class Stepper {
  /** @type {string | null} */ text = null;
  /** @type {any} */ plan = null;
  /** @type {string[]} */ past = [];
  /** @type {number | null} */ turned = null;
  // The element for the picture, and the one for what is seen in words.
  /** @param {HTMLElement} room @param {HTMLElement} words */
  constructor(room, words) {
    this.room = room;
    this.words = words;
  }
  // Takes a configuration text that the program has answered.
  take(text) {
    const it = readConfiguration(text);
    Object.assign(this, {text, past: [], turned: null, plan: it.bars.length > MOST_DRAWN ? null : planOf(it)});
    this.draw();
  }
  // The same circuit in another configuration.
  show(text) {
    const before = readConfiguration(this.text), after = readConfiguration(text);
    const changed = before.bars.findIndex((bar, k) => bar !== after.bars[k]);
    Object.assign(this, {text, turned: changed < 0 ? null : changed});
    this.draw();
  }
  draw() {
    if (this.text === null) return;
    const it = readConfiguration(this.text), {room} = this, words = placeWords(it, this.turned);
    this.words.innerHTML = words;
    if (!this.plan) {
      room.textContent = `${number(it.bars.length)} elements are too many to draw here.`;
      return;
    }
    room.innerHTML = circuitSvg(it, this.plan, new Set(this.past), this.turned);
    const svg = room.firstElementChild;
    if (!svg) return;
    const [wide, high] = ["width", "height"].map(it => Number(svg.getAttribute(it)));
    const share = Math.min(MOST_SHARE, room.clientWidth / wide, (room.clientHeight - 4) / high);
    svg.setAttribute("width", wide * share);
    svg.setAttribute("height", high * share);
    svg.setAttribute("aria-label", `${it.bars.length} elements, ${this.words.textContent}`);
  }
  steps() { return Number(readConfiguration(this.text).steps); }
  bars() { return readConfiguration(this.text).bars.join(""); }
  // A step on or back; whether there was one.
  async go(direction) {
    if (this.text === null) return false;
    const before = readConfiguration(this.text), reply = await answer([direction > 0 ? "step" : "back", "1"],
      this.text);
    if (reply.status !== STATUS.done || reply.text === this.text) return false;
    if (direction > 0) {
      const {element, side} = before.place;
      const wire = this.plan?.routes.find(route => route.into.element === element && route.into.side === side);
      if (wire) this.past = [...this.past, lineName(wire.out)].slice(-MOST_PAST);
    } else this.past.pop();
    this.show(reply.text);
    return true;
  }
  // All steps back, or so many on.
  async far(direction, most = GREATEST) {
    if (this.text === null) return;
    const reply = await answer([direction > 0 ? "step" : "back", most], this.text);
    if (reply.status !== STATUS.done) return;
    this.past = [];
    this.show(reply.text);
    this.turned = null;
    this.draw();
  }
}

function placeWords(it, turned) {
  const side = sideOf(SIDES.indexOf(it.place.side)), {element} = it.place;
  const place = it.hasLeft ? `the signal has left by the ${side} port of element ${element}`
    : `the signal is about to enter element ${element} by the ${side} port`;
  return `step <b>${number(Number(it.steps))}</b> · ${place}${turned === null ? "" : ` · element ${turned} has
      turned`}`;
}
