// The circuit editor: a full-size dialog, and a page of the workshop. Its state is in desk.js; this module puts the panels together and
// updates those whose content changed.
import {openPicture} from "../picture.js";
import {redraw} from "../notices.js";
import {byId, current, dialog, partOf} from "../state.js";
import {markTab, takeTabs} from "../tabs.js";
import {placeName} from "../texts.js";
import {number} from "../words.js";
import {answer, LANES, STATUS} from "../answer.js";
import {enter, layAnew, letGo, putGroup, rotateChosen} from "./acts.js";
import {draw, drawOver, drawView, endGlide, fit, glide, makeCanvas, zoomBy} from "./canvas.js";
import {commit, desk, deskChanged, takeBack, tellDesk} from "./desk.js";
import {EMPTY, freeInputs, textOf} from "./drawing.js";
import {takeGestures} from "./gestures.js";
import {showElement, showList, takeInspector} from "./inspector.js";
import {escape, onKey, portWords, takeKeys} from "./keys.js";
import {forgetMachine, makeMachinePanel} from "./machine_panel.js";
import {makeParts, PARTS} from "./parts.js";
import {puzzleFrom, readPuzzle} from "./own_puzzle.js";
import {beginAny, beginPuzzle, makePuzzles, puzzleAtHand} from "./puzzle_panel.js";
import {drawingOf} from "./reading_text.js";
import {goFar, pause, placeWords, play, running, scrubTo, stepOnce, stopFar} from "./running.js";
import {fileOf, keepDrawing, keptDrawing, readFile, readWord, wordOf} from "./saved.js";
import {makeTextPanel, markLines, placed, showText} from "./text_panel.js";

const KEEP_REST = 500, MOST_LINKED = 60000, GLIDE_SHARE = .72;
const PACES = [1200, 800, 560, 420, 280, 180, 110, 60, 30];
/** @type {{root: HTMLElement, box: HTMLDialogElement, later: ReturnType<typeof setTimeout> | undefined, side: string, before: Drawing, isFit: boolean}} */
const editor = /** @type {any} */ ({side: "element", before: EMPTY, isFit: false});
const part = (/** @type {string} */ id) => partOf(editor.root, id);

/** @type {(id: string, path: string, label: string, title?: string) => string} */
const iconButton = (id, path, label, title = label) => `<button id="${id}" aria-label="${label}" title="${title}"><svg viewBox="0 0 16 16" aria-hidden="true"><path d="${path}"/></svg></button>`;
const HEAD = `<div class="g-head"><h2>Design</h2>
    <span class="g-set">${iconButton("g-undo", "M6.500 3 3 6.500 6.500 10M3 6.500h6.500a3.500 3.500 0 0 1 0 7H6", "undo", "undo (Ctrl Z)")}${iconButton("g-redo", "M9.500 3 13 6.500 9.500 10M13 6.500H6.500a3.500 3.500 0 0 0 0 7H10", "redo", "redo (Ctrl Shift Z)")}</span>
    <span class="g-set"><button id="g-smaller" aria-label="zoom out" title="zoom out (−)">−</button><button id="g-fit" title="show the whole circuit (0)">Fit</button><button id="g-larger" aria-label="zoom in" title="zoom in (+)">+</button></span>
    <span class="g-set"><button id="g-rotate" title="rotate the selection, or the whole drawing, by 90° (R)">Rotate</button><button id="g-lay" title="compute new positions; the circuit stays the same">Lay out</button><button id="g-clear">Clear</button></span>
    <span class="g-set"><button id="g-wide" aria-pressed="false" title="show the canvas alone, for a projector">Lecture</button></span>
    <span class="g-set g-last"><label class="file" title="open a file of this editor, or a configuration text">Open<input id="g-file" type="file" accept=".json,.txt"></label><button id="g-save" title="save the text and the positions as a file">Save</button><button id="g-link" title="copy a link that contains the circuit">Link</button><button id="g-picture" title="save the drawing as SVG, PDF or TikZ">Picture</button><button id="g-help" aria-label="keys and gestures">?</button><button id="g-close" class="plain" aria-label="close the editor">×</button></span></div>`;
const FOOT = `<div class="g-foot"><div class="group" role="group" aria-label="Run">
    ${iconButton("g-first", "M3 3v10M13 3 6 8l7 5z", "to the start", "to the start (Home)")}${iconButton("g-stepback", "M4 3v10M12.500 3.500 6.500 8l6 4.500z", "step back", "step back (,)")}${iconButton("g-playback", "M12 2.500 3.500 8l8.500 5.500z", "play backward", "play backward (shift P)")}${iconButton("g-play", "M4 2.500 12.500 8 4 13.500z", "play", "play or pause (P)")}${iconButton("g-step", "M12 3v10M3.500 3.500 9.500 8l-6 4.500z", "step forward", "step forward (.)")}${iconButton("g-far", "M13 3v10M3 3l7 5-7 5z", "run to the exit", "run to the exit (End)")}</div>
    <button id="g-stop" hidden>Stop</button>
    <label class="g-in">Enter at <select id="g-in" title="the free input port where the signal enters: the start"></select></label>
    <label class="g-scrub"><span>Step</span><input id="g-scrub" type="range" min="0" max="0" value="0" aria-label="step of this run" title="go to a step of this run"></label>
    <label class="g-speed"><span>Speed</span><input id="g-speed" type="range" min="0" max="${PACES.length - 1}" value="3" aria-label="speed"></label>
    <span id="g-steps"></span><span id="g-place" role="status"></span><span id="g-bars"></span></div>`;
const SIDES_TABS = [["element", "Element"], ["text", "Text"], ["machine", "Machine"], ["list", "List"]];
const BODY = `<div class="g-body"><aside class="g-left" aria-label="Parts and puzzles"><div role="tablist" aria-label="Left"><button role="tab" id="g-tab-parts" data-left="parts" aria-controls="g-parts" aria-selected="true">Parts</button><button role="tab" id="g-tab-puzzles" data-left="puzzles" aria-controls="g-puzzles" aria-selected="false" tabindex="-1">Puzzles</button></div>
    <div role="tabpanel" id="g-parts" aria-labelledby="g-tab-parts"></div><div role="tabpanel" id="g-puzzles" aria-labelledby="g-tab-puzzles" hidden></div></aside>
  <div class="g-mid"><div id="g-room"></div><div id="g-empty"><p>Drag an element onto the canvas, or double-click.<br>Then drag from an output to an input.</p><p class="row"><button data-begin="toggle">A toggle</button><button data-begin="column">A column</button><button data-begin="puzzle">The first puzzle</button></p></div><section id="g-card" class="panel" aria-label="Puzzle" hidden></section><p id="g-said" role="status"></p><p id="g-keys" class="visually-hidden">Tab moves from element to element. Enter goes to the ports of an element. W starts a wire, and the letter of a side ends it. Space turns the bar, the arrow keys move the element, Delete deletes it. Full stop and comma step forward and back.</p></div>
  <aside class="g-right" aria-label="What is drawn"><div role="tablist" aria-label="Right">${SIDES_TABS.map(([key, title], k) => `<button role="tab" id="g-tab-${key}" data-side="${key}" aria-controls="g-side-${key}" aria-selected="${k === 0}" tabindex="${k ? -1 : 0}">${title}</button>`).join("")}</div>
    ${SIDES_TABS.map(([key], k) => `<div role="tabpanel" id="g-side-${key}" aria-labelledby="g-tab-${key}"${k ? " hidden" : ""}></div>`).join("")}</aside></div>`;

function make() {
  editor.root = Object.assign(document.createElement("div"), {className: "g", innerHTML: HEAD + BODY + FOOT});
  const svg = makeCanvas(part("g-room"));
  takeGestures(svg);
  takeKeys(svg);
  makeParts(part("g-parts"));
  makePuzzles(part("g-puzzles"), part("g-card"), part("g-parts"));
  makeTextPanel(part("g-side-text"));
  makeMachinePanel(part("g-side-machine"));
  takeInspector(part("g-side-element"));
  takeInspector(part("g-side-list"));
  const [left, right] = editor.root.querySelectorAll("[role=tablist]");
  takeTabs(left, it => {
    for (const key of ["parts", "puzzles"]) part(`g-${key}`).hidden = it.dataset.left !== key;
  });
  takeTabs(right, it => showSide(it.dataset.side ?? ""));
  takeButtons();
  deskChanged.to(show);
  editor.root.addEventListener("keydown", onAnyKey);
  new ResizeObserver(() => {
    if (editor.isFit) return;
    editor.isFit = true;
    fit();
  }).observe(part("g-room"));
}
/** @type {(key: string) => void} */
function showSide(key) {
  editor.side = key;
  for (const [other] of SIDES_TABS) part(`g-side-${other}`).hidden = other !== key;
  markTab(editor.root.querySelectorAll("[role=tablist]")[1], part(`g-tab-${key}`));
  showPanel();
}
/** @type {Record<string, () => any>} */
const BUTTONS = {
  "g-undo": () => takeBack(-1), "g-redo": () => takeBack(1), "g-smaller": () => zoomBy(1 / 1.25), "g-larger": () => zoomBy(1.25), "g-fit": () => fit(),
  "g-rotate": rotateChosen, "g-lay": layAnew, "g-save": save, "g-link": share, "g-help": help, "g-close": closeDesign, "g-stop": stopFar,
  "g-wide": widen,
  "g-clear": () => { commit(EMPTY); tellDesk("The canvas is empty; undo restores the circuit."); },
  "g-first": () => goFar(-1), "g-stepback": () => stepOnce(-1), "g-playback": () => play(-1), "g-play": () => running.playing ? pause() : play(1),
  "g-step": () => stepOnce(1), "g-far": () => goFar(1),
  "g-picture": () => openPicture("Hithwelor · design", [{key: "design", title: "design", pictures: "#g-canvas", texts: ""}]),
};
// The canvas alone, or with the panels.
function widen() {
  const isWide = editor.root.classList.toggle("g-alone");
  part("g-wide").setAttribute("aria-pressed", isWide);
  fit(2.2);
}
function takeButtons() {
  for (const [id, act] of Object.entries(BUTTONS)) part(id).onclick = act;
  part("g-empty").onclick = event => {
    const key = /** @type {any} */ (event.target).dataset.begin, it = PARTS.find(one => one.key === key);
    if (it) putGroup(it.make(2), undefined, it.title);
    else if (key) {
      part("g-tab-puzzles").click();
      beginPuzzle("back");
    }
    if (key) part("g-canvas").focus();
  };
  part("g-in").onchange = () => enter(Number(part("g-in").value));
  part("g-speed").oninput = () => { running.pace = PACES[Number(part("g-speed").value)]; };
  part("g-scrub").oninput = () => scrubTo(Number(part("g-scrub").value));
  part("g-file").onchange = async () => {
    const file = part("g-file").files[0];
    if (file) await openFile(await file.text(), file.name);
    part("g-file").value = "";
  };
}
// Keys that work everywhere in the editor except in text fields.
/** @type {(event: KeyboardEvent) => void} */
function onAnyKey(event) {
  const target = /** @type {any} */ (event.target);
  // Escape cancels one thing after another, but does not close the editor.
  if (event.key === "Escape" && (escape() || isDesigning())) {
    event.preventDefault();
    event.stopPropagation();
    return;
  }
  if (target.matches("textarea,input,select,#g-canvas")) return;
  const isUndo = (event.ctrlKey || event.metaKey) && /^[zZyd]$/.test(event.key);
  if ((isUndo || /^[.,pP<>0+-]$/.test(event.key) || /^(Delete|Backspace)$/.test(event.key)) && onKey(event)) {
    event.preventDefault();
    event.stopPropagation();
  }
}

// ---- updates

/** @type {(what: import("./desk.js").What) => void} */
function show(what) {
  if (what === "view") fit();
  else if (what === "words") showWords();
  else if (what === "hand") draw();
  else if (what === "chosen") {
    draw();
    showPanel();
    markLines();
    showFocus();
  } else if (what === "run") showRun();
  else {
    // What was changed begins a run of its own.
    running.most = Number(desk.drawing.steps);
    endGlide();
    draw();
    showPanel();
    showText();
    forgetMachine();
    showInputs();
    showFoot();
    keep();
    editor.before = desk.drawing;
  }
}
function showPanel() {
  if (editor.side === "element") showElement(part("g-side-element"));
  if (editor.side === "list") showList(part("g-side-list"));
}
function showWords() {
  part("g-said").textContent = desk.words;
  part("g-said").className = desk.isFault ? "fault" : "";
}
function showFocus() {
  const {element, port, isOut} = desk.focus;
  for (const it of editor.root.querySelectorAll(".port[role]")) for (const name of ["role", "aria-label"]) it.removeAttribute(name);
  const node = port < 0 ? null : part(`g-p${port}${isOut ? "o" : "i"}`);
  node?.setAttribute("role", "img");
  node?.setAttribute("aria-label", portWords(port, isOut));
  part("g-canvas").setAttribute("aria-activedescendant", element < 0 ? "" : port < 0 ? `g-e${element}` : `g-p${port}${isOut ? "o" : "i"}`);
}
function showRun() {
  const {before} = editor, after = desk.drawing, made = Math.abs(Number(after.steps) - Number(before.steps));
  endGlide();
  draw();
  showFoot();
  showText();
  showPanel();
  if (made === 1) glide(before, after, Math.min(420, (running.playing ? running.pace : 420) * GLIDE_SHARE));
  if (before !== after) keep();
  editor.before = after;
}
// The free inputs; one of them is the start.
function showInputs() {
  const {drawing} = desk;
  part("g-in").innerHTML = freeInputs(drawing).map(port => `<option value="${port}">${placeName(port)}</option>`).join("");
  part("g-in").value = String(drawing.start);
  part("g-in").disabled = !drawing.bars.length;
}
function showFoot() {
  const {drawing, began} = desk, none = !drawing.bars.length, steps = Number(drawing.steps);
  running.most = steps ? Math.max(running.most, steps) : running.most;
  Object.assign(part("g-scrub"), {max: String(running.most), value: String(steps), disabled: none || !running.most});
  part("g-empty").hidden = !none || Boolean(puzzleAtHand());
  const other = drawing.bars.flatMap((bar, k) => began[k] !== undefined && began[k] !== bar ? [k] : []);
  part("g-undo").disabled = !desk.past.behind.length;
  part("g-redo").disabled = !desk.past.ahead.length;
  for (const id of ["g-step", "g-far", "g-play"]) part(id).disabled = none;
  for (const id of ["g-first", "g-stepback", "g-playback"]) part(id).disabled = none || drawing.steps === "0";
  for (const id of ["g-rotate", "g-lay", "g-clear", "g-save", "g-link", "g-picture"]) part(id).disabled = none;
  part("g-play").setAttribute("aria-label", running.playing ? "pause" : "play");
  part("g-play").querySelector("path")?.setAttribute("d", running.playing ? "M4.500 3v10M11.500 3v10" : "M4 2.500 12.500 8 4 13.500z");
  part("g-stop").hidden = !running.isFar;
  part("g-steps").innerHTML = none ? "" : `element step <b>${number(Number(drawing.steps))}</b>`;
  part("g-place").setAttribute("aria-live", running.playing ? "off" : "polite");
  part("g-place").textContent = placeWords(drawing);
  part("g-bars").textContent = other.length ? `bars turned since the start: ${other.slice(0, 8).join(", ")}${other.length > 8 ? ", …" : ""}` : "";
  part("g-canvas").setAttribute("aria-label", none ? "the canvas, empty" : `the circuit: ${drawing.bars.length} elements, ${placeWords(drawing)}`);
}
function keep() {
  clearTimeout(editor.later);
  editor.later = setTimeout(() => keepDrawing(desk.drawing), KEEP_REST);
}

// ---- files and links

// A file is a drawing, a configuration text, or a puzzle.
/** @type {(given: string, name: string) => Promise<void>} */
async function openFile(given, name) {
  let puzzle = null;
  try { puzzle = puzzleFrom(JSON.parse(given)); } catch { /* no JSON, so no puzzle */ }
  if (puzzle) showPuzzle(puzzle);
  else await openText(readFile(given), name);
}
/** @type {(it: Puzzle) => void} */
function showPuzzle(it) {
  part("g-tab-puzzles").click();
  beginAny(it);
}
// Opens the editor with the puzzle of a link.
/** @type {(word: string) => Promise<void>} */
export async function openPuzzle(word) {
  await openDesign();
  history.replaceState(null, "", `#puzzle=${word}`);
  const it = await readPuzzle(word);
  if (it) showPuzzle(it);
  else tellDesk("The puzzle of this link can't be read; the link may be cut off.", true);
}
// Shows a saved text after the program has accepted it.
/** @type {(it: {text: string, places: number[][]}, from: string) => Promise<boolean>} */
async function openText({text, places}, from) {
  const reply = await answer(["step", "0"], text, {lane: LANES.design});
  if (reply.status !== STATUS.done) {
    tellDesk(`${from}: ${reply.text.trim() || reply.words}.`, true);
    return false;
  }
  const it = drawingOf(reply.text);
  desk.chosen = new Set();
  commit(places.length === it.bars.length ? {...it, at: places} : placed(it), {ways: new Map()});
  fit();
  return true;
}
function save() {
  const url = URL.createObjectURL(new Blob([fileOf(desk.drawing)], {type: "application/json"}));
  Object.assign(document.createElement("a"), {href: url, download: "circuit.json"}).click();
  setTimeout(() => URL.revokeObjectURL(url), 1000);
  tellDesk("Saved as circuit.json: the configuration text and the position of each element.");
}
async function share() {
  const word = await wordOf(desk.drawing);
  if (word.length > MOST_LINKED) {
    tellDesk("The circuit is too large for a link; save it as a file.", true);
    return;
  }
  history.replaceState(null, "", `#design=${word}`);
  try {
    await navigator.clipboard.writeText(location.href);
    tellDesk(`Link copied: ${number(location.href.length)} characters, with the circuit.`);
  } catch {
    tellDesk("The link is in the address bar.");
  }
}
const HELP = [
  ["drag a part, or click it and then the canvas", "add an element or a group; a double-click adds one element"],
  ["drag from an output to an input", "draw a wire; or click the output, then the input"],
  ["click a bar · a free input", "turn the bar · let the signal enter there"],
  ["drag a box · the background", "move the selection · select; with Alt or the middle button, pan"],
  ["Tab, Shift Tab · Enter, Esc", "next or previous element · to its ports and back"],
  ["W, then n e s w · Tab · n e s w", "start a wire at this side · go to the target element · end the wire at that side"],
  ["Space or B · R · arrows · Delete", "turn the bar · rotate · move (with Shift: by less) · delete"],
  ["T", "route all wires again"],
  ["I", "let the signal enter here, at the next free input"],
  [". , · P, Shift P · Home, End", "step forward, back · play forward, backward · to the start, to the exit"],
  ["Ctrl Z, Y · A · C, X, V · D", "undo, redo · select all · copy, cut, paste · duplicate"],
  ["+ − 0", "zoom in, zoom out, show the whole circuit"],
];
function help() {
  dialog(`<h2>Keys and gestures</h2><table>${HELP.map(([keys, what]) => `<tr><td style="white-space:normal;min-width:210px">${keys}</td><td>${what}</td></tr>`).join("")}</table><p class="quiet">Along the bar the signal goes straight on. Across the bar it turns right, and the bar turns by 90°. On each side the output port is on the right, seen from the element. The proved program computes each step.</p>`);
}

// ---- opening and closing

/** @type {(word: string | null) => Promise<void>} */
async function begin(word) {
  const linked = word ? await readWord(word) : null;
  if (word && !linked) tellDesk("The link can't be read; it may be cut off.", true);
  if (linked) {
    await openText(linked, "The link");
    return;
  }
  if (desk.drawing.bars.length) return;
  const kept = keptDrawing();
  if (kept?.text) await openText(kept, "The saved drawing");
}
/** @type {(room: HTMLElement) => void} */
function mount(room) {
  if (!editor.root) make();
  editor.isFit = false;
  room.append(editor.root);
  part("g-close").hidden = room !== editor.box;
  show("drawing");
  drawView();
  drawOver();
}
// Opens the editor full size, with the circuit of a link if there is one.
/** @type {(word?: string | null) => Promise<void>} */
export async function openDesign(word = null) {
  if (!editor.box) {
    editor.box = Object.assign(document.createElement("dialog"), {id: "design"});
    editor.box.setAttribute("aria-label", "Design");
    editor.box.addEventListener("cancel", event => { if (event.target === editor.box) event.preventDefault(); });
    editor.box.addEventListener("close", event => { if (event.target === editor.box) leave(); });
    document.body.append(editor.box);
  }
  if (!editor.box.open) editor.box.showModal();
  if (!word) history.replaceState(null, "", "#design");
  mount(editor.box);
  part("g-canvas").focus();
  await begin(word);
}
function closeDesign() { editor.box?.close(); }
function leave() {
  pause();
  letGo();
  // The address is the workbench's again.
  if (current.run) redraw(false);
}
// Whether the editor is open full size; the address is not changed then.
export const isDesigning = () => Boolean(editor.box?.open);

export const designPage = {
  key: "design", title: "Design", pictures: "#g-canvas",
  make(/** @type {HTMLElement} */ box) {
    box.classList.add("g-host");
    mount(box);
    begin(null);
  },
  open() { mount(/** @type {HTMLElement} */ (byId("page-design"))); },
  close() { pause(); letGo(); },
  calls: () => [{words: ["step", "1"], input: textOf(desk.drawing), what: "the configuration text"}, {words: ["back", "1"], input: textOf(desk.drawing), what: "the configuration text"}],
  keys: {},
};
