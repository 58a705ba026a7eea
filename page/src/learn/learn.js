// The lesson that zooms: one picture fills the window, with a trail above it and the time line below. It shows the run that the
// workbench has, at the same step, one level at a time.
import {renderTime, renderFilm} from "../film.js";
import {frame} from "../frame.js";
import {endHints} from "../hints.js";
import {redraw} from "../notices.js";
import {chooseLayer, goTo, guard, pause, play, step} from "../play.js";
import {quadrupleAt} from "../quadruples.js";
import {forgetSizes, heightOf, put, widthOf} from "../sizes.js";
import {byId, current, escaped, hasLayer, nameOf, state} from "../state.js";
import {say} from "../view.js";
import {number, ruleAt, shortBank} from "../words.js";
import {
  columnLevel, elementLevel, entryLine, insideRule, isOver, machineLevel, ownMoment, rowLevel, stagesLevel, tapesLevel,
} from "./levels.js";
import {forkNear, pastsOf} from "./pasts.js";
import {STEPS, stepOf} from "./steps.js";

const KEPT_AS = "hithwelor learn";
// The copy's tape is seen where something is copied.
const historyLevel = (f, room) => tapesLevel(f, room, f.moment.stage === "compute" ? 2 : 3);
const PICTURES = {machine: machineLevel, history: historyLevel, stages: stagesLevel, row: rowLevel, column: columnLevel, element: elementLevel};
const LAYER_OF = {machine: "machine", history: "quadruple", stages: "quadruple", row: "module", column: "element", element: "element"};
const INSIDE = ["row", "column", "element"];
const SPEED_OF = {machine: 30, history: 30, stages: 62, row: 28, column: 34, element: 6};
// `from` is the machine's step from which another was gone to, so that something is seen there; `begins` whether the step
// of the lesson is still to choose its moment.
/** @type {{level: string, isRefused: boolean, from: number | null, seen: Set<string>, e: number, begins: boolean,
 *   run: any, before: {layer: Layer, speed: number} | null}} */
const lesson = {
  run: null, level: "machine", isRefused: false, from: null, seen: new Set(), e: 0, begins: false, before: null,
};

export const isLearning = () => state.lesson !== null;
// Whether the lesson was begun before, or the browser keeps nothing, so that it isn't known.
export function isFirstVisit() {
  try {
    return localStorage.getItem(KEPT_AS) === null && localStorage.getItem("hithwelor hints") === null && (localStorage.setItem(`${KEPT_AS} tried`, "1"), true);
  } catch {
    return false;
  }
}
function keepStep(key) {
  try { localStorage.setItem(KEPT_AS, key); } catch { /* where nothing is kept, the link keeps it */ }
}
// The step that was left last.
export function keptStep() {
  try { return localStorage.getItem(KEPT_AS); } catch { return null; }
}

// ---- opened, closed, gone on

// `begins` is false where the moment is given.
export function openLearn(key = keptStep() ?? STEPS[0].key, begins = true) {
  const it = stepOf(key);
  lesson.before ??= {layer: state.layer, speed: state.speed};
  Object.assign(lesson, {isRefused: false, seen: new Set(), e: state.e, begins});
  state.lesson = it.key;
  keepStep(it.key);
  document.body.classList.add("learning");
  byId("learn").hidden = false;
  endHints();
  guard.refuses = refuses;
  // The copying is the next step's, so that of the history plays to where the machine halts.
  guard.most = () => current.run && (lesson.level === "machine" || lesson.level === "history" && state.lesson === "history") ? ownEnd(current.run) : Infinity;
  toLevel(it.level);
}
export function closeLearn() {
  if (!isLearning()) return;
  pause();
  state.lesson = null;
  document.body.classList.remove("learning");
  byId("learn").hidden = true;
  Object.assign(guard, {refuses: () => false, most: () => Infinity});
  if (lesson.before) {
    state.speed = lesson.before.speed;
    chooseLayer(lesson.before.layer);
  }
  lesson.before = null;
  forgetSizes();
  if (!current.run) return;
  renderFilm();
  redraw(false);
}
function toLevel(level) {
  pause();
  Object.assign(lesson, {level, isRefused: false});
  document.body.dataset.level = level;
  state.speed = SPEED_OF[level];
  if (level === "machine" && current.run) {
    lesson.e = Math.min(state.e, ownEnd(current.run));
    goTo(lesson.e);
  }
  forgetSizes();
  chooseLayer(LAYER_OF[level]);
  if (current.run) renderFilm();
}
// A row, a module and an element are shown within a rule; one element at first where the signal turns its bar.
async function toMoment(run) {
  const {level} = lesson;
  if (!INSIDE.includes(level)) return;
  const from = isOver(run, state.e) ? insideRule(run) : state.e;
  const e = level === "element" ? await run.turnFrom(from) : from;
  if (run !== current.run || lesson.level !== level || e === state.e) return;
  lesson.e = e;
  goTo(e);
}
// The element step at which the machine by itself has come to its end.
function ownEnd(run) {
  const end = run.moments.findIndex(it => it.stage !== "compute");
  return run.starts[ownMoment(run, end < 0 ? run.moments.length - 1 : end)];
}
// The machine alone can't be taken back: it is tried, and what was is looked for.
function refuses(direction) {
  if (direction > 0 || lesson.level !== "machine") return false;
  lesson.isRefused = true;
  lesson.seen.add("refused");
  const {run} = current, at = ownMoment(run, run.momentIndex(state.e)), isFork = pastsOf(run.rules, run.moments[at]).length > 1;
  const fork = isFork ? null : forkNear(run, at);
  lesson.from = fork === null ? null : run.moments[at].step;
  if (fork !== null) lesson.e = run.starts[fork];
  if (fork === null) redraw(true);
  else goTo(lesson.e);
  return true;
}
// What was done is told by what is shown, be it by a button or by a key.
function notice() {
  if (state.playing) lesson.seen.add(state.playing > 0 ? "played" : "took");
  // Where another run is shown its step is another, and nobody has made one.
  if (lesson.run !== current.run) Object.assign(lesson, {run: current.run, e: state.e});
  if (lesson.e === state.e) return;
  if (!state.playing) lesson.seen.add("stepped");
  Object.assign(lesson, {e: state.e, isRefused: false});
}

// ---- what is seen

export function renderLearn(isLive = !state.playing) {
  if (!isLearning()) return;
  notice();
  const it = stepOf(state.lesson), at = STEPS.indexOf(it), {run} = current, isShown = run && run.hasViews(run.momentIndex(state.e));
  put("learnsaid", saidOf(it, at));
  byId("learnprev").disabled = at === 0;
  byId("learnnext").textContent = at === STEPS.length - 1 ? "Workbench" : "Next ▸";
  byId("learnplay").textContent = state.playing > 0 ? "Pause" : "Play ▸";
  byId("learntake").textContent = state.playing < 0 ? "Pause" : "◂ Undo";
  if (!isShown) {
    if (!run) put("learnpicture", '<p class="quiet">Starting the run …</p>');
    return;
  }
  if (lesson.begins && run.circuit.count) {
    lesson.begins = false;
    toMoment(run).catch(console.error);
  }
  const f = frame(), {level, isRefused, from} = lesson;
  const room = {width: widthOf("learnpicture"), height: heightOf("learnpicture"), isRefused, from};
  put("learntrail", trailOf(f));
  const isLacking = !hasLayer(LAYER_OF[level]);
  put("learnpicture", isLacking ? `<p class="quiet">${escaped(run.lacking)}</p>` : PICTURES[level](f, room));
  const row = /** @type {HTMLElement | null} */ (byId("learnpicture").querySelector("ol .now:not([data-stage])"));
  const list = row?.parentElement;
  if (row && list) list.scrollTop = row.offsetTop - list.clientHeight / 3;
  renderTime(f);
  if (isLive) say(f);
}
function saidOf(it, at) {
  const shown = current.run ? current : null, words = shown ? it.words(shown) : [];
  const isDone = shown && it.done({seen: lesson.seen, shown, e: state.e});
  return `<p class="quiet">${at + 1} of ${STEPS.length}</p><h2>${escaped(it.title)}</h2>${words.map(one => `<p>${escaped(one)}</p>`).join("")}
    <p class="l-ask${isDone ? " done" : ""}"><b>Try it.</b> ${escaped(it.ask)}${isDone ? " ✓" : ""}</p>${namesList(it)}`;
}
// What the names mean that are seen at a step.
function namesList(it) {
  const names = it.names && current.run?.hasViews(current.run.momentIndex(state.e)) ? it.names(current, frame()) : [];
  const rows = names.map(([name, words]) => `<dt>${escaped(name)}</dt><dd>${escaped(words)}</dd>`);
  return rows.length ? `<dl class="l-names">${rows.join("")}</dl>` : "";
}
// From the machine down to the element, at this moment: each leads to its level.
function trailOf(f) {
  const {run} = current, rule = ruleAt(run, f.q, nameOf).rule, row = quadrupleAt(run, f.q), line = entryLine(run, f), isOut = Boolean(f.at?.hasLeft);
  const parts = [["machine", "machine"], ["history", rule ? `rule ${rule}` : f.moment.stage === "copy" ? "copying" : "tapes"], ["stages", f.moment.stage],
    ["row", row < 0 ? "circuit" : `quadruple ${row + 1}`], ["column", f.bank && !isOut ? `${shortBank(f.bank)}${line ? `, ${line.words}` : ""}` : "module"],
    ["element", f.at && !isOut ? `element ${number(f.at.place >> 2)}` : "element"]];
  return parts.map(([level, words]) => `<li><button class="link" data-level="${level}"${level === lesson.level ? ' aria-current="page"' : ""}>${escaped(words)}</button></li>`).join("");
}

// ---- hands on

export function takeLearn() {
  const click = (id, act) => { byId(id).onclick = act; };
  const around = direction => () => Math.sign(state.playing) === direction ? pause() : play(direction);
  click("learnplay", around(1));
  click("learntake", around(-1));
  click("learnforth", () => step(1));
  click("learnback", () => step(-1));
  click("learnprev", () => go(-1));
  click("learnnext", () => go(1));
  click("learnclose", leave);
  click("openlearn", () => { location.hash = `${location.hash || "#"}&learn=${keptStep() ?? STEPS[0].key}`.replace("#&", "#"); });
  byId("learntrail").onclick = event => {
    const level = /** @type {any} */ (event.target).closest("[data-level]")?.dataset.level;
    if (!level) return;
    toLevel(level);
    lesson.seen.add("walked");
    redraw(true);
  };
  byId("learnpicture").onclick = event => {
    const to = /** @type {any} */ (event.target).closest("[data-go]")?.dataset.go;
    if (to === undefined) return;
    pause();
    goTo(Number(to));
  };
}
function go(direction) {
  const at = STEPS.indexOf(stepOf(state.lesson)) + direction;
  if (at >= STEPS.length) leave();
  else if (at >= 0) openLearn(STEPS[at].key);
}
// To the workbench, and its address.
function leave() {
  closeLearn();
  byId("play").focus();
}
