// Breakpoints: on states of the machine, on cells of the tapes and on elements of the circuit.
import {breaksChanged, redraw} from "./notices.js";
import {breaksOf, byId, current, escaped, minus, nameOf, state, toast} from "./state.js";
import {number, TAPES} from "./words.js";

function breakWords(it) {
  if (it.kind === "state") return `state ${nameOf(it.state)}`;
  return it.kind === "cell" ? `${TAPES[it.tape]} ${minus(it.cell)} changes` : `element ${number(it.element)}`;
}
export const sameBreak = (a, b) =>
  a.kind === b.kind && a.state === b.state && a.tape === b.tape && a.cell === b.cell && a.element === b.element;

export function toggleBreak(it) {
  const at = state.breaks.findIndex(other => sameBreak(other, it));
  if (at >= 0) state.breaks.splice(at, 1);
  else state.breaks.push(it);
  chips();
  redraw(false);
}
export function dropBreak(at) {
  state.breaks.splice(at, 1);
  chips();
  redraw(false);
}

// The breakpoints as they are listed, and their marks on the film.
export function chips() {
  const listed = state.breaks.map((it, k) => `<span>${escaped(breakWords(it))}<button data-drop="${k}" aria-label="delete">×</button></span>`);
  byId("chips").innerHTML = listed.join("") || '<span class="hint">none yet</span>';
  byId("breakback").disabled = byId("breakon").disabled = !state.breaks.length;
  byId("breaks").classList.toggle("some", state.breaks.length > 0);
  breaksChanged();
}
export function holdsAt(it, q) {
  const {run} = current, moment = run.moments[q];
  if (it.kind === "state") return moment.state === it.state && moment.stage !== "copy" && moment.rule === null;
  return it.kind === "cell" && run.isChange(q, it.tape, it.cell);
}

// Where the signal comes next to an element at which a play stops: asked of the program as the play begins, and undefined
// until it has answered.
/** @typedef {{step: number, it: Break | null}} Ahead */
/** @type {{key: string | null, found: Ahead | null | undefined, run?: import("./run.js").Run}} */
const ahead = {key: null, found: null};
/** @type {(direction: number) => Ahead | null | undefined} */
export function elementAhead(direction) {
  const elements = breaksOf("element"), {run} = current;
  if (!elements.length || !direction) return null;
  const key = JSON.stringify([direction, elements]), isBehind = ahead.found && direction * (ahead.found.step - state.e) <= 0;
  if (ahead.run === run && ahead.key === key && !isBehind) return ahead.found;
  Object.assign(ahead, {run, key, found: undefined});
  run.runTo(state.e, direction, elements).then(({step, hit: it}) => {
    if (ahead.key === key && ahead.run === run) ahead.found = it ? {step, it} : {step: direction * Infinity, it: null};
  }).catch(console.error);
  return undefined;
}

// The first breakpoint between two steps, the one that is come to included, and its step.
/** @type {(from: number, to: number) => Ahead | null} */
export function stopBetween(from, to) {
  if (!state.breaks.length || from === to) return null;
  const {run} = current, direction = to > from ? 1 : -1, low = Math.min(from, to), high = Math.max(from, to);
  const isWithin = step => direction > 0 ? step > low && step <= high : step >= low && step < high;
  /** @type {Ahead | null} */
  let best = null;
  const take = (step, it) => {
    if (isWithin(step) && (best === null || direction * (step - best.step) < 0)) best = {step, it};
  };
  for (let q = run.momentIndex(low); q < run.moments.length && run.starts[q] <= high; q++) {
    for (const it of state.breaks) if (holdsAt(it, q)) take(run.starts[q], it);
  }
  const element = elementAhead(direction);
  if (element?.it) take(element.step, element.it);
  return best;
}
export function hit(it) { toast(`Stopped: ${breakWords(it)}`); }
