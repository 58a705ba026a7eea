// The machine that is shown: when something was typed, the table is judged and run, and the run or what is wrong is shown.
import {isCutOff} from "./answer.js";
import {chips} from "./breaks.js";
import {editorText} from "./editor.js";
import {EXAMPLES} from "./examples.js";
import {followRun, renderFilm, resetFilm} from "./film.js";
import {beginHints} from "./hints.js";
import {acts, showFault, showVerdict} from "./judged.js";
import {asPasted, judge, pasted} from "./judging.js";
import {LongRun} from "./long.js";
import {makeRun} from "./making.js";
import {redraw} from "./notices.js";
import {keepPast} from "./past.js";
import {fetchFrame, goTo, pause} from "./play.js";
import {busy, byId, current, escaped, isEarly, isTooLong, nameOf, state, toast} from "./state.js";
import {put} from "./sizes.js";
import {freeNames, lettersOf, refusalWords, rulesOf, spelled, statesOf} from "./table.js";
import {answerWords, judgedBy} from "./verdicts.js";
import {Refused, widen} from "./window.js";
import {number} from "./words.js";

const SOUGHT_AFTER = 200;
export const OWN_WORDS = "Your machine.";
let waiting = null;

// Something was typed: it is looked at when the typing rests. A step may be given at which the run is shown.
export function typed(delay = 300, keep = 0) {
  clearTimeout(waiting);
  waiting = setTimeout(() => rebuild(keep).catch(fault => {
    busy("");
    showFault({fault: String(fault.message ?? fault)});
    console.error(fault);
  }), delay);
}

// Takes an example, or a machine like one.
export function takeMachine(example, e = 0) {
  pause();
  if (state.text) keepPast();
  Object.assign(state, {text: example.table, word: example.word, names: example.names ?? {}, asStandard: Boolean(example.letter),
                        accept: example.accept ?? [], reject: example.reject ?? [], tried: [], places: {},
                        blank: null, window: example.window ?? null, breaks: [], e: 0, example: example.key ?? "",
                        asTyped: Boolean(example.asTyped)});
  if (!state.asTyped) asPasted();
  byId("about").textContent = example.about;
  byId("examples").value = state.example ?? "";
  byId("word").value = state.word;
  editorText();
  chips();
  typed(0, e);
}

// Makes the run of what is typed, at a step that is to be kept.
async function rebuild(keep = 0) {
  const edition = ++state.editions, isOld = () => edition !== state.editions;
  state.isMaking = true;
  sought(true);
  busy("Checking the table …");
  state.names = isTooLong() ? {} : freeNames(state.text, state.names);
  const judged = await judge(state.text, isTooLong() ? state.text : spelled(state.text, state.names), isOld);
  if (isOld()) return;
  if (judged.reading) takeReading(judged.reading, Boolean(judged.isStandard));
  const given = judged.given ?? (isTooLong() ? state.text : spelled(state.text, state.names));
  if (judged.fault) {
    showFault(judged);
    byId("outcome").textContent = "";
    stale(true);
    busy("");
    return;
  }
  const userRules = rulesOf(given), {table = given, isStandard = false} = judged;
  current.machine = {table, given, isStandard, rules: rulesOf(table), userRules, userStates: statesOf(userRules)};
  showVerdict(judged);
  byId("word").classList.remove("fault");
  let made;
  try {
    made = await makeRun(table, isOld, showEarly);
  } catch (fault) {
    if (isOld()) return;
    if (!(fault instanceof Refused)) throw fault;
    showRefusal(fault);
    return;
  }
  if (!isOld()) showRun(made, keep);
}
// The machine was changed otherwise than by typing: the text stands in the editor, and is looked at.
export function changed(keep = state.e) {
  if (byId("sheet").hidden) byId("about").textContent = EXAMPLES.find(it => it.key === state.example)?.about ?? OWN_WORDS;
  byId("examples").value = state.example ?? "";
  byId("word").value = state.word;
  editorText();
  typed(0, keep);
}

// The table that a text was read as stands in its place.
function takeReading(reading, isStandard) {
  const {text, names, accept, reject, word, asStandard} = state, letters = new Set(lettersOf(rulesOf(reading.text)));
  const states = new Set(rulesOf(reading.text).flatMap(it => [it.state, it.next])), isSaid = [...accept, ...reject].some(it => states.has(it));
  const fits = it => [...it].every(letter => letter !== "_" && letters.has(letter));
  keepPast();
  Object.assign(state, {text: reading.text, names: reading.names, asStandard: isStandard,
                        word: reading.word !== null && fits(reading.word) && !fits(word) ? reading.word : fits(word) ? word : ""});
  if (!isSaid) Object.assign(state, {accept: reading.accept, reject: reading.reject});
  Object.assign(pasted, {text: null, made: {text: state.text, reading, before: {text, names, accept, reject, asStandard}}});
  byId("word").value = state.word;
  editorText();
}
// What was read stands there again as it was, and is taken for a table.
function undoReading() {
  if (!pasted.made) return;
  keepPast();
  Object.assign(state, pasted.made.before, {asTyped: true});
  changed();
}
function showEarly(early) {
  if (current.run === early.run) return;
  if (!isShownEarly(early.run)) pause();
  showAny(early, stepKept(early.run, 0));
}
// Where a step was gone to before the circuit was there, or Bennett's machine, the same one is shown with it.
function stepKept(run, keep) {
  const before = /** @type {import("./early.js").Early} */ (/** @type {any} */ (current.run));
  return isShownEarly(run) && (state.e || state.playing) ? before.stepWith(run, state.e) : keep;
}
// Whether what is shown is a run's, without its circuit.
const isShownEarly = run => isEarly() && current.run.table === run.table && current.run.word === run.word;
function showAny({run, found}, e) {
  Object.assign(current, {run, found});
  document.body.classList.toggle("early", run.circuit.count === 0);
  state.breaks = state.breaks.filter(it => it.kind !== "state" || run.states.includes(it.state));
  stale(false);
  Object.assign(state, {e: Math.max(0, Math.min(e, run.end)), cell: null, module: null, zoom: null, span: null});
  resetFilm();
  showOutcome();
  chips();
  renderFilm();
  redraw();
  requestAnimationFrame(() => { if (!performance.getEntriesByName("shown").length) performance.mark("shown"); });
}

function showRun(made, keep) {
  const {run} = made;
  state.isMaking = false;
  sought(false);
  busy("");
  const e = stepKept(run, keep);
  showAny(made, e);
  if (e && e === keep && run instanceof LongRun) run.locateStep(e).then(() => { if (run === current.run) goTo(e); }).catch(console.error);
  else fetchFrame(1);
  followRun(run).then(isWhole => { if (isWhole && run === current.run && !Number.isFinite(run.end)) openWider(run); }).catch(console.error);
  beginHints();
}

// A long run has left its window, so it is shown anew in a wider one.
async function openWider(run) {
  if (!(await widen(run)) || run !== current.run) return;
  toast("The work tape had too few cells for this run; it is opened again with more.");
  typed(0);
}

// While a run is sought that takes longer than a moment, what is shown of the last one has no colours, as where it is stale: its text is as easy to read.
let soughtAfter = 0;
function sought(isOn) {
  clearTimeout(soughtAfter);
  if (isOn) soughtAfter = setTimeout(() => document.body.classList.add("sought"), SOUGHT_AFTER);
  else document.body.classList.remove("sought");
}

// Whether what is shown is of an earlier table.
export function stale(it) {
  sought(false);
  document.body.classList.toggle("stale", it && Boolean(current.run));
  document.body.classList.toggle("empty", !current.run);
  if (!current.run) {
    put("rule", '<p class="head">No run yet.</p><p class="more">The message below the table says why. Once the table '
      + "is a machine, its run appears here, its circuit on the right and its time line below.</p>");
  }
  if (!it) return;
  pause();
  if (current.run) {
    setTimeout(() => {
      if (document.body.classList.contains("stale")) busy("Previous run; fix the table");
    }, 0);
  }
}

function showRefusal({reply, message, early}) {
  const words = isCutOff(reply) ? reply.words : refusalWords(reply.text, state.word, current.machine.rules) ?? message;
  if (early) {
    early.run.lacking = words;
    showEarly(early);
    settleEarly();
    if (isCutOff(reply)) showFault({fault: reply.words, again: true});
    return;
  }
  if (isCutOff(reply)) {
    byId("outcome").innerHTML = `<span class="fault">${escaped(reply.words)}</span>`;
    showFault({fault: reply.words, again: true});
    stale(true);
    busy("");
    return;
  }
  byId("word").classList.add("fault");
  byId("outcome").innerHTML = `<span class="fault">${escaped(words)}</span>`;
  stale(true);
  busy("");
}
// No circuit is looked for any more: the machine by itself stays.
function settleEarly() {
  state.isMaking = false;
  sought(false);
  busy("");
  showOutcome();
  redraw(false);
}
// What is made is given up: the machine by itself stays, where that is shown already.
export function giveUp() {
  const {run} = current;
  if (!isEarly() || run.edition !== state.editions - 1) {
    stale(true);
    return;
  }
  run.lacking = "Stopped: there is no circuit.";
  settleEarly();
}
export function showOutcome() {
  const {run, found} = current, it = found.own, [l1, r1, n, r3] = run.window;
  byId("outcome").textContent = answerWords(judgedBy(it)) + {
    halted: `${number(it.steps)} steps → ${it.output || "empty output"}`,
    stuck: `stuck in ${nameOf(it.state)} on ${it.letter === "_" ? "blank" : it.letter} after ${it.steps} steps`,
    running: `runs on; ${n} steps shown`,
  }[it.outcome];
  if (isEarly()) {
    byId("size").textContent = run.lacking.split(". ")[0];
    byId("size").title = "";
    return;
  }
  const byHand = state.window ? " · window set by hand" : "";
  byId("size").textContent = `${number(run.circuit.count)} elements · ${number(run.layout.banks.length)} modules${byHand}`;
  byId("size").title = `window ${run.window.join(" ")}: work tape from ${-l1} to ${r1}, history to ${n}, output to ${r3}`;
}
Object.assign(acts, {typed, changed, undoReading});
