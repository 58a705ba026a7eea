// What is done to the time line: it is dragged to a place, and the part of it that is seen is made larger or smaller,
// and moved.
import {isWithOthers, on, shareAcross, takeKey} from "./listen.js";
import {goTo, pause} from "./play.js";
import {centreTime, moveTime, spanOf, TIME_FACTOR, wholeCount, wholeTime, zoomTime} from "./span.js";
import {busy, byId, current, state} from "./state.js";
import {number} from "./words.js";

const WHEEL_FACTOR = 1.25, THIRD = 1 / 3;
/** @type {Record<string, () => void>} */
const SPAN_BUTTONS = {in: () => zoomTime(TIME_FACTOR), out: () => zoomTime(1 / TIME_FACTOR), all: wholeTime};
/** @type {Record<string, () => void>} */
const WHOLE_KEYS = {
  ArrowLeft: () => moveTime(-THIRD), ArrowRight: () => moveTime(THIRD),
  Home: () => centreTime(0), End: () => centreTime(Infinity),
};
/** @type {("pointerup" | "pointercancel")[]} */
const ENDS = ["pointerup", "pointercancel"];

export function onFilm() {
  on("film", "pointerdown", event => {
    if (!current.run) return;
    pause();
    byId("film").setPointerCapture(event.pointerId);
    byId("film").held = true;
    scrub(event);
  });
  on("film", "pointermove", event => { if (byId("film").held) scrub(event); });
  for (const kind of ENDS) on("film", kind, () => { byId("film").held = false; });
  onSpan();
  onWhole();
}

// To the place of the film that is held, at a stop of the layer; beyond the moments that are known, once they are.
/** @param {PointerEvent} event */
function scrub(event) {
  const {run} = current, {from, to} = spanOf();
  goToTime(run, from + (to - from) * Math.max(0, Math.min(1, shareAcross("film", event))));
}
/** @type {{time: number | null}} */
const wanted = {time: null};
// Where the time line was gone to isn't waited for any more.
export function dropWantedTime() { wanted.time = null; }
/** @type {(run: import("./run.js").Run, time: number) => Promise<void>} */
async function goToTime(run, time) {
  wanted.time = time;
  const isKnown = () => run.isWhole || run.moments.length > time + 1;
  if (!isKnown()) {
    const row = number(Math.floor(time));
    const told = () => busy(`the program runs to quadruple step ${row}: ${number(run.moments.length)} computed …`);
    told();
    await run.moreUntil(() => run !== current.run || wanted.time !== time || isKnown(), told);
    if (wanted.time === time) busy("");
  }
  if (run !== current.run || wanted.time !== time || !isKnown()) return;
  const e = run.stepAt(time);
  if (state.layer === "element") goTo(e);
  else if (state.layer === "module") goTo(run.moveAt(e).from ?? run.starts[run.momentIndex(e)]);
  else goTo(run.stopNear(state.layer, e + 1, -1) ?? 0);
}

// The part of the time line that is seen, by the wheel and the buttons.
function onSpan() {
  on("film", "wheel", event => {
    if (!current.run) return;
    event.preventDefault();
    const {deltaX, deltaY} = event, isAcross = event.shiftKey || Math.abs(deltaX) > Math.abs(deltaY);
    if (isAcross) moveTime(Math.sign(deltaX || deltaY) * THIRD / 2);
    else zoomTime(deltaY < 0 ? WHEEL_FACTOR : 1 / WHEEL_FACTOR, shareAcross("film", event));
  }, {passive: false});
  on("spanbuttons", "click", event => {
    const kind = event.target.closest("[data-span]")?.dataset.span;
    if (kind) SPAN_BUTTONS[kind]();
  });
}
// The same by the frame in the whole in little.
function onWhole() {
  /** @type {number | null} */
  let held = null;
  on("whole", "pointerdown", event => {
    if (!current.run) return;
    const {from, to} = spanOf(), time = shareAcross("whole", event) * wholeCount();
    if (!state.span || time < from || time > to) centreTime(time);
    held = time - (spanOf().from + spanOf().to) / 2;
    byId("whole").setPointerCapture(event.pointerId);
  });
  on("whole", "pointermove", event => {
    if (held !== null) centreTime(shareAcross("whole", event) * wholeCount() - held);
  });
  for (const kind of ENDS) on("whole", kind, () => { held = null; });
  on("whole", "keydown", event => {
    const act = WHOLE_KEYS[event.key];
    if (!act || !current.run || isWithOthers(event)) return;
    takeKey(event);
    act();
  });
}
