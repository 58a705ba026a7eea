// The part of the time line that is seen: all of it, or a window, which is made larger and smaller, moved, and follows
// the step that is shown. It is counted in moments.
import {redraw, spanChanged} from "./notices.js";
import {byId, current, state} from "./state.js";
import {number} from "./words.js";

const LEAST_SPAN = 1, EDGE = .08;
// By how much a button or a key makes the window larger or smaller.
export const TIME_FACTOR = 2;
// The step that the window has followed last.
const seenStep = {e: null};

export const wholeCount = () => Math.max(1, current.run.count);
export const spanOf = () => state.span ?? {from: 0, to: wholeCount()};

function setSpan(from, to) {
  if (!current.run) return;
  const count = wholeCount(), wide = Math.min(count, Math.max(LEAST_SPAN, to - from)), begin = Math.max(0, Math.min(count - wide, from));
  state.span = wide >= count ? null : {from: begin, to: begin + wide};
  spanChanged();
  redraw(false);
}
// Larger or smaller around a share of the window; without one around the step that is shown, where it is seen.
/** @param {number} factor @param {number | null} share */
export function zoomTime(factor, share = null) {
  if (!current.run) return;
  const {from, to} = spanOf(), now = (current.run.timeOf(state.e) - from) / (to - from), at = share ?? (now >= 0 && now <= 1 ? now : .5);
  const made = Math.max(LEAST_SPAN, (to - from) / factor), begin = from + at * (to - from - made);
  setSpan(begin, begin + made);
}
// By a share of the window to the right, or to a time that is to be its middle.
export function moveTime(share) {
  const {from, to} = spanOf();
  setSpan(from + share * (to - from), to + share * (to - from));
}
export function centreTime(time) {
  const {from, to} = spanOf(), half = (to - from) / 2;
  setSpan(time - half, time + half);
}
export const wholeTime = () => setSpan(0, Infinity);

// Where the step that is shown has left the window, the window goes on to it.
export function followTime(time, e) {
  if (seenStep.e === e) return;
  seenStep.e = e;
  const {from, to} = spanOf(), wide = to - from;
  if (!state.span || time >= from && time <= to) return;
  const isOn = time > to, isNear = Math.abs(time - (isOn ? to : from)) < wide;
  const begin = time - wide * (isNear ? (isOn ? EDGE : 1 - EDGE) : .5), room = wholeCount() - wide;
  const placed = Math.max(0, Math.min(room, begin));
  state.span = {from: placed, to: placed + wide};
  spanChanged();
}

// The whole in little, with the window marked in it.
export function renderWhole(stages, time) {
  const count = wholeCount(), {from, to} = spanOf(), share = it => `${(it / count * 100).toFixed(3)}%`;
  const parts = stages.map(it => `<i data-stage="${it.stage}" style="left:${share(it.from)};width:${share(it.to - it.from)}"></i>`).join("");
  const box = byId("wholepic");
  if (box.kept !== parts) {
    box.kept = parts;
    box.innerHTML = parts;
  }
  Object.assign(byId("wholeseen").style, {left: share(from), width: share(to - from)});
  byId("wholenow").style.left = share(Math.min(count, time));
  const it = byId("whole"), words = `quadruple steps ${number(Math.floor(from))} to ${number(Math.ceil(to) - 1)} of ${number(count - 1)}`;
  it.setAttribute("aria-valuemin", 0);
  it.setAttribute("aria-valuemax", count - 1);
  it.setAttribute("aria-valuenow", Math.floor(from));
  it.setAttribute("aria-valuetext", words);
  for (const button of byId("spanbuttons").children) button.disabled = button.dataset.span !== "in" && !state.span;
}
// What is said of the window, where it isn't plain.
export function spanWords(run, stride) {
  const {from, to} = spanOf(), parts = [];
  if (state.span) parts.push(`quadruple steps ${number(Math.floor(from))} to ${number(Math.ceil(to) - 1)}`);
  if (stride > 1) parts.push(`one moment in ${number(stride)} is drawn`);
  if (run.isPart) parts.push(`the first ${number(run.moments.length)} moments are shown`);
  if (!run.isWhole) parts.push(`${number(run.moments.length)}${run.total ? ` of ${number(run.total)}` : ""} steps computed`);
  return parts;
}
