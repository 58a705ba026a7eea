// The page: what was typed becomes a machine, that a run, and the run is shown at one step of one time.
import {keepAddress} from "./address.js";
import {chips} from "./breaks.js";
import {openDesign, openPuzzle} from "./design/design.js";
import {editorText} from "./editor.js";
import {EXAMPLES} from "./examples.js";
import {renderFilm, saySpan} from "./film.js";
import {takeHands} from "./hands.js";
import {closeLearn, isFirstVisit, openLearn, renderLearn, takeLearn} from "./learn/learn.js";
import {readLink} from "./links.js";
import {asPasted} from "./judging.js";
import {takeMachine, typed} from "./machine.js";
import {showMarks} from "./marks.js";
import {breaksChanged, marksChanged, redraw, spanChanged} from "./notices.js";
import {showButtons} from "./play.js";
import {beginTask, endTask, taskAtHand} from "./sheet.js";
import {byId, current, escaped, state} from "./state.js";
import {render} from "./view.js";
import {openWorkshop, pageOf} from "./workshop.js";

export function start() {
  byId("tooold").remove();
  document.body.classList.add("empty");
  const options = EXAMPLES.map(it => `<option value="${it.key}">${escaped(it.title)}</option>`);
  byId("examples").innerHTML = options.join("") + '<option value="" hidden>Your own</option>';
  redraw.to(render);
  redraw.to(renderLearn);
  redraw.to(keepAddress);
  document.addEventListener("judged", keepAddress);
  breaksChanged.to(showMarks);
  marksChanged.to(saySpan);
  spanChanged.to(renderFilm);
  takeHands();
  takeLearn();
  addEventListener("hashchange", () => {
    closeAll();
    begin();
  });
  begin();
}

// Closes what an address opened: another one was gone to, or gone back to.
function closeAll() {
  for (const it of document.querySelectorAll("dialog")) it.close();
  if (taskAtHand() !== null) endTask();
  closeLearn();
}

// Begins with what the link asks for, or with the first example.
function begin() {
  const link = readLink(location.hash);
  chips();
  showButtons();
  const asked = new URLSearchParams(location.hash.slice(1)), task = Number(asked.get("x")), lesson = asked.get("learn");
  const command = asked.get("c");
  const isFirst = !location.hash && !current.run && isFirstVisit();
  // What a link asks for is known before the lesson, which has a layer of its own.
  if (link && !task) Object.assign(state, link);
  if (command !== null) {
    openWorkshop("command");
    pageOf("command").take?.(command, asked.get("i") ?? "");
  }
  const design = asked.get("design");
  if (design !== null) openDesign(design);
  const puzzle = asked.get("puzzle");
  if (puzzle !== null) openPuzzle(puzzle);
  if (asked.has("pebbles")) openWorkshop("pebbles");
  if (lesson !== null || isFirst) openLearn(lesson || undefined, !asked.has("e"));
  if (task) {
    beginTask(task);
    if (current.run || state.text) return;
  }
  if (!link) {
    if (lesson === null || !current.run) takeMachine(EXAMPLES[0]);
    return;
  }
  if (task) Object.assign(state, link);
  byId("examples").value = link.example;
  byId("about").textContent = EXAMPLES.find(it => it.key === link.example)?.about ?? "A machine from a link.";
  byId("word").value = state.word;
  editorText();
  if (!link.asTyped) asPasted();
  typed(0, link.e);
}
