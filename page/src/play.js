// Time: to a step, a step on or back on a layer, and playing both ways. What a frame wants of the program is fetched, and
// then it is drawn again; nothing is computed as a step.
import {elementAhead, hit, stopBetween} from "./breaks.js";
import {LANES} from "./answer.js";
import {frame} from "./frame.js";
import {redraw} from "./notices.js";
import {isPhone} from "./sizes.js";
import {busy, byId, current, layerNow, state, toast} from "./state.js";
import {number} from "./words.js";

// Steps a second on each layer, the least and the most.
export const RANGES = {machine: [.4, 25], quadruple: [.5, 60], module: [.7, 120], element: [1, 6000]};
const MOST_PIECES = 24, MOST_FRAMES = 4000, MOST_GAP = 100, SLOW = 6, LONG_WORK = 500;
// Where less motion is asked for, a picture stands so long while it plays.
const CALM_GAP = 400, isCalm = () => matchMedia("(prefers-reduced-motion: reduce)").matches;
const PLAY = '<svg viewBox="0 0 16 16" aria-hidden="true"><path d="M4 2.500 12.500 8 4 13.500z"/></svg>';
const PLAY_BACK = '<svg viewBox="0 0 16 16" aria-hidden="true"><path d="M12 2.500 3.500 8l8.500 5.500z"/></svg>';
const PAUSE = '<svg viewBox="0 0 16 16" aria-hidden="true"><path d="M5 3v10M11 3v10" stroke-width="3"/></svg>';

// How long each step and each frame took, for the checks.
export const timings = [];
export const frames = [];

function speed() {
  const [least, most] = RANGES[layerNow()];
  return least * (most / least) ** (state.speed / 100);
}
export function speedWords() {
  const it = speed();
  return `${number(it < 10 ? Math.round(it * 10) / 10 : Math.round(it))}${isPhone() ? "/s" : " a second"}`;
}

let wanted = null, isLoading = false;
// Fetches what a frame wants, one at a time; then it is drawn again.
export function fetchFrame(direction = 0) {
  if (!current.run) return;
  wanted = {e: state.e, direction, run: current.run};
  if (!isLoading) fetchAll().catch(console.error).finally(() => { isLoading = false; });
}
async function fetchAll() {
  isLoading = true;
  while (wanted) {
    const it = wanted;
    wanted = null;
    // The step of a long run may be another by now, at the same place of the time line.
    if (it.run === current.run) it.e = state.e;
    await withWords(it, it.run.ready(it.e, it.direction));
    if (it.run !== current.run) continue;
    redraw(false);
    if (!state.playing) await fetchQuadruple(it.run);
    redraw(false);
  }
}
// Says what is fetched, where that takes long.
async function withWords({run, e}, work) {
  const isOpen = byId("busy").textContent === "";
  const later = setTimeout(() => {
    if (isOpen && !state.playing && run === current.run) busy(`the circuit runs to element step ${number(e)} …`);
  }, LONG_WORK);
  try {
    await work;
  } finally {
    clearTimeout(later);
    if (byId("busy").textContent?.startsWith("the circuit runs to")) busy("");
  }
}
// The pieces of the quadruple that is shown, so that its moves can be listed.
async function fetchQuadruple(run) {
  const {q} = frame(), from = run.starts[q], to = run.starts[q + 1] ?? run.end, first = run.chunkNumber(from);
  const last = Math.min(run.chunkNumber(Math.max(0, to - 1)), first + MOST_PIECES);
  await run.chunksBetween(first, last, {lane: LANES.now}, () => wanted);
}

export function goTo(e, {direction = 0, isLive = true} = {}) {
  if (!current.run) return;
  state.e = Math.max(0, Math.min(current.run.end, e));
  redraw(isLive && !state.playing);
  fetchFrame(direction);
}
export async function step(direction) {
  if (!current.run || guard.refuses(direction)) return;
  pause();
  const {run} = current, began = performance.now(), e = Math.min(guard.most(), await run.nextStop(state.layer, state.e, direction));
  if (run.isKnown(e)) await run.viewsNear(run.momentIndex(e), direction);
  if (run !== current.run) return;
  goTo(e, {direction});
  timings.push({layer: state.layer, ms: performance.now() - began});
}
// To the end of the run, which of a long one is known when all moments are.
export async function goToEnd() {
  const {run} = current;
  if (!run) return;
  pause();
  const told = () => busy(`the program runs to the end: ${number(run.moments.length)} quadruple steps so far …`);
  if (!Number.isFinite(run.end)) {
    told();
    await run.moreUntil(() => run !== current.run, told);
    busy("");
  }
  if (run === current.run && Number.isFinite(run.end)) goTo(run.end);
}
// Where a step was gone to that isn't known, and is given up: to the last moment that is known with the one behind it.
export function goToKnown() {
  const {run} = current;
  if (run && !run.isKnown(state.e)) goTo(run.starts.at(-2) ?? 0);
}
export function chooseLayer(layer) {
  if (state.layer !== layer) byId("live").textContent = `Unit of a step: ${{machine: "machine step", quadruple: "quadruple step", module: "module move", element: "element step"}[layer]}.`;
  state.layer = layer;
  pace.owed = 0;
  redraw(false);
  fetchFrame();
}

// ---- playing

// What the lesson asks of time: whether a direction is refused, and beyond which element step nothing goes on.
export const guard = {refuses: /** @type {(direction: number) => boolean} */ (_ => false), most: () => Infinity};

// When the last frame was, and what share of a step is owed since.
const pace = {then: 0, owed: 0};

export function play(direction) {
  const {run} = current;
  if (!run || guard.refuses(direction)) return;
  if (direction > 0 && state.e >= Math.min(run.end, guard.most())) state.e = 0;
  if (direction < 0 && state.e <= 0 && Number.isFinite(run.end)) state.e = run.end;
  state.playing = direction;
  elementAhead(direction);
  Object.assign(pace, {then: performance.now(), owed: 0});
  showButtons();
  requestAnimationFrame(tick);
}
export function pause() {
  if (!state.playing) return;
  state.playing = 0;
  showButtons();
  if (!current.run) return;
  redraw();
  fetchFrame();
}
// Plays in a direction, or stops where it plays in that already.
/** @param {number} direction */
export const togglePlay = direction => Math.sign(state.playing) === direction ? pause() : play(direction);
export function showButtons() {
  byId("play").innerHTML = state.playing > 0 ? PAUSE : PLAY;
  byId("play").setAttribute("aria-label", state.playing > 0 ? "pause" : "play");
  byId("playback").innerHTML = state.playing < 0 ? PAUSE : PLAY_BACK;
}

function tick(now) {
  const {run} = current, direction = state.playing;
  if (!direction || !run) return;
  const calm = isCalm();
  if (calm && now - pace.then < CALM_GAP) {
    requestAnimationFrame(tick);
    return;
  }
  const spent = Math.min(calm ? 2 * CALM_GAP : MOST_GAP, now - pace.then), rate = speed(), began = performance.now();
  pace.then = now;
  pace.owed += spent / 1000 * rate;
  let {e, isWaiting} = layerNow() === "element" ? elementsOn(run, direction) : stopsOn(run, direction);
  const stop = stopBetween(state.e, e);
  if (stop) {
    e = stop.step;
    hit(stop.it);
  }
  e = Math.min(e, guard.most());
  const isMoved = e !== state.e;
  state.e = e;
  if (isMoved) redraw(false);
  frames.push({ms: performance.now() - began, gap: spent, isWaiting, at: now});
  if (frames.length > MOST_FRAMES) frames.shift();
  const isSlow = layerNow() === "element" || layerNow() === "module" || rate <= SLOW;
  if (isSlow && (isMoved || isWaiting)) fetchFrame(direction);
  else if (isMoved || isWaiting) fetchViews(run, direction);
  if (stop || (direction > 0 ? e >= Math.min(run.end, guard.most()) : e <= 0)) pause();
  else requestAnimationFrame(tick);
}
// The views of moments that the play comes to soon: from the first one on that isn't there.
function fetchViews(run, direction) {
  if (run.isSmall || run.coming) return;
  let next = run.momentIndex(state.e);
  const most = next + direction * Math.ceil(run.block / 2);
  while (next !== most && run.hasViews(next)) next += direction;
  if (run.hasViews(next) || next < 0 || next >= run.moments.length) return;
  run.coming = run.viewsNear(next, direction).catch(console.error).finally(() => { run.coming = null; });
}
// Whether all that a frame shows of the tapes is there.
const isThere = (run, e) => run.isKnown(e) && run.hasViews(run.momentIndex(e)) && elementAhead(state.playing) !== undefined;
// Where the play comes to on the layer of elements; it waits where a piece isn't there yet.
function elementsOn(run, direction) {
  const many = Math.floor(pace.owed), e = Math.max(0, Math.min(run.end, state.e + direction * many)), c = run.chunkNumber(e);
  pace.owed -= many;
  return run.loaded(c) && run.barsAt.has(c) && isThere(run, e) ? {e, isWaiting: false} : {e: state.e, isWaiting: true};
}
// The same on the others, from stop to stop, up to a breakpoint.
function stopsOn(run, direction) {
  let e = state.e;
  while (pace.owed >= 1) {
    const next = stopBehind(run, e, direction);
    if (next === null || !isThere(run, next)) {
      pace.owed = Math.min(pace.owed, 1);
      return {e, isWaiting: true};
    }
    pace.owed -= 1;
    if (next === e) break;
    e = next;
    if (state.breaks.length && stopBetween(state.e, e)) break;
  }
  return {e, isWaiting: false};
}
function stopBehind(run, e, direction) {
  if (layerNow() === "module") {
    const move = run.moveAt(direction > 0 ? e : e - 1);
    return direction > 0 ? move.to : e === 0 ? 0 : move.from;
  }
  const next = run.stopNear(layerNow(), e, direction);
  return next ?? (direction > 0 && !run.isWhole ? null : e);
}

// ---- to a breakpoint

// On, or back, to the next breakpoint.
export async function runBreak(direction) {
  if (!current.run || !state.breaks.length) return;
  pause();
  const {run} = current, way = direction > 0 ? "running on" : "running back";
  busy(`${way} …`);
  const {step: e, hit: it} = await run.runTo(state.e, direction, state.breaks, q => busy(`${way}: quadruple step ${number(q)} of ${number(run.count - 1)} …`));
  busy("");
  if (run !== current.run) return;
  goTo(e);
  if (it) hit(it);
  else toast(direction > 0 ? "No breakpoint was reached: this is the end." : "No breakpoint was reached: this is the start.");
}
