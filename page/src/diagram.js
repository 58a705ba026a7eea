// The diagram in large, with the rules beside it: states are moved, renamed and said to accept or reject, letters and
// rules are changed. Each change is written into the table's text, which the program judges as if it had been typed.
import {toggleBreak} from "./breaks.js";
import {diagramPicture} from "./diagram_picture.js";
import {moveByKey, takeDrag} from "./drag.js";
import {nextRule, withLetter, withNewRule, withState} from "./edits.js";
import {frame} from "./frame.js";
import {changed} from "./machine.js";
import {hasPast, keepPast, takeBack} from "./past.js";
import {fillRules, rulesWritten} from "./rules.js";
import {breaksOf, byId, current, editorLine, escaped, nameOf, partOf, state} from "./state.js";
import {rulesOf, spell} from "./table.js";
import {markOf, kindOf, setKind} from "./verdicts.js";
import {ruleAt} from "./words.js";

const MOST_DRAWN_STATES = 60;
const DRAWING = `<div class="e-head"><h2>State diagram</h2><p id="d-said" role="status"></p>
    <button id="d-undo">Take back</button><button id="d-lay">Lay out anew</button>
    <button id="d-close" class="plain" aria-label="close the diagram">×</button></div>
  <div class="e-body"><div class="e-left">
    <div class="row"><label for="d-state">State</label><select id="d-state"></select></div>
    <div id="d-one"><div class="row"><label for="d-name">its name</label><input id="d-name" size="10" spellcheck="false" autocomplete="off"><button id="d-rename">Rename</button></div>
      <div class="row"><label for="d-kind">it</label><select id="d-kind"><option value="">neither</option><option value="accept">accepts</option><option value="reject">rejects</option></select>
      <button id="d-stop">Stop there</button></div></div>
    <div class="row"><label for="d-letter">Letter</label><select id="d-letter"></select><label for="d-other">becomes</label><input id="d-other" size="1" maxlength="2" spellcheck="false" autocomplete="off"><button id="d-change">Change</button></div>
    <p id="d-fault" class="e-fault" role="status"></p>
    <h3 id="d-head"></h3><div id="d-rules"></div><button id="d-add">Add a rule</button></div>
    <div class="e-right"><div id="d-picture" class="e-picture"></div>
    <p class="e-place">Select a state by a click, or by Tab and Enter. Drag it, or move it with the arrow keys. A click on a label goes to its rule.</p></div></div>`;

// The box is there once the diagram was opened.
const drawing = /** @type {{box: HTMLDialogElement, chosen: string | null}} */ ({chosen: null});
const part = id => partOf(drawing.box, id);
const shownName = name => state.names[name] ?? name;
const typedRules = () => rulesWritten(state.text);
const typedStates = () => [...new Set(typedRules().flatMap(it => [it.state, it.next]))];

export function openDiagram() {
  if (!drawing.box) makeDrawing();
  drawing.chosen = null;
  drawing.box.showModal();
  fillDrawing();
}
function makeDrawing() {
  const box = Object.assign(document.createElement("dialog"), {id: "drawing", innerHTML: DRAWING});
  box.setAttribute("aria-label", "State diagram");
  document.body.append(box);
  drawing.box = box;
  const on = (id, act) => { part(id).onclick = act; };
  on("d-close", () => box.close());
  on("d-undo", () => { if (takeBack()) changed(); fillDrawing(); });
  on("d-lay", () => { keepPast(); state.places = {}; draw(); });
  on("d-rename", rename);
  on("d-stop", () => { toggleBreak({kind: "state", state: runningName(drawing.chosen)}); draw(); });
  on("d-change", changeLetter);
  on("d-add", addRule);
  for (const [id, button] of [["d-name", "d-rename"], ["d-other", "d-change"]]) {
    part(id).onkeydown = event => { if (event.key === "Enter") part(button).click(); };
  }
  part("d-state").onchange = () => { drawing.chosen = part("d-state").value || null; fillDrawing(); };
  part("d-kind").onchange = () => { keepPast(); setKind(shownName(drawing.chosen), part("d-kind").value); changed(); draw(); };
  const picture = part("d-picture");
  takeDrag(picture, {nameAt: shownName, draw, click: it => { choose(it); focusState(it); }});
  picture.addEventListener("click", event => goToRule(event.target?.closest("[data-rule]")));
  picture.addEventListener("keydown", onStateKey);
  addEventListener("resize", () => { if (box.open) draw(); });
  document.addEventListener("judged", () => { if (box.open) fillDrawing(); });
}
function onStateKey(event) {
  const it = event.target.closest("[data-state]");
  if (!it) return;
  const name = it.dataset.state;
  if (event.key === "Enter" || event.key === " ") choose(name);
  else if (moveByKey(event, it, shownName(name))) draw();
  else return;
  event.preventDefault();
  event.stopPropagation();
  focusState(name);
}
function focusState(name) {
  [...part("d-picture").querySelectorAll("[data-state]")].find(it => it.dataset.state === name)?.focus();
}
function choose(name) {
  drawing.chosen = name === drawing.chosen ? null : name;
  fillDrawing();
}
// The state as the machine that runs has it.
function runningName(name) {
  const {run} = current;
  return run?.states.find(it => nameOf(it) === shownName(name)) ?? name;
}

function fillDrawing() {
  const states = typedStates(), letters = [...new Set(typedRules().flatMap(it => [it.read, it.write]))];
  if (drawing.chosen !== null && !states.includes(drawing.chosen)) drawing.chosen = null;
  const {chosen} = drawing, option = (it, words = it) => `<option value="${escaped(it)}">${escaped(words)}</option>`;
  part("d-state").innerHTML = option("", "all states") + states.map(it => option(it, shownName(it))).join("");
  part("d-state").value = chosen ?? "";
  part("d-one").hidden = chosen === null;
  if (chosen !== null) {
    if (document.activeElement !== part("d-name")) part("d-name").value = shownName(chosen);
    part("d-kind").value = kindOf(shownName(chosen)) ?? "";
  }
  const letter = part("d-letter").value;
  part("d-letter").innerHTML = letters.map(it => option(it, it === "_" ? "_ (blank)" : it)).join("");
  if (letters.includes(letter)) part("d-letter").value = letter;
  part("d-head").textContent = chosen === null ? "Its rules" : `Rules of ${shownName(chosen)}`;
  part("d-undo").disabled = !hasPast();
  const said = byId("verdict").querySelector(".fault, .note");
  part("d-said").textContent = said?.textContent ?? "";
  part("d-said").className = said?.classList.contains("fault") ? "fault" : "";
  fillRules(part("d-rules"), {rules: typedRules(), states, chosen, write});
  draw();
}
function draw() {
  const {chosen} = drawing, room = part("d-picture"), rules = typedRules(), running = current.run && !document.body.classList.contains("stale");
  const line = running ? editorLine(ruleAt(current.run, frame().q, nameOf).rule) : null, at = rules.findIndex(it => it.line === line);
  const stops = new Set(breaksOf("state").map(it => nameOf(it.state)));
  const isMarked = it => stops.has(shownName(it));
  room.innerHTML = diagramPicture(rules, {
    width: Math.max(280, room.clientWidth - 4), height: Math.max(240, room.clientHeight - 4), now: rules[at]?.state, rule: at + 1,
    stage: running ? frame().moment.stage : "compute", stops: new Set(typedStates().filter(isMarked)), name: shownName,
    places: state.places, most: MOST_DRAWN_STATES, chosen, mark: markOf, isOpen: true,
  });
}
function goToRule(label) {
  if (!label) return;
  const rule = typedRules()[Number(label.dataset.rule) - 1];
  if (!rule) return;
  if (drawing.chosen !== null && drawing.chosen !== rule.state) choose(rule.state);
  part("d-rules").querySelector(`[data-line="${rule.line}"] [data-field="1"]`)?.focus();
}

// ---- changes

// A new text: it stands in the editor, and the program judges it. The rows are filled anew when the Tab key has come to
// its next field.
function write(text) {
  if (text === state.text) return;
  keepPast();
  state.text = text;
  state.example = "";
  changed();
  setTimeout(fillDrawing, 0);
}
const fault = words => { part("d-fault").textContent = words; };

function rename() {
  const old = drawing.chosen, made = part("d-name").value.trim();
  fault("");
  if (made === shownName(old)) return;
  if (!made || /[",\r\n]/.test(made)) return fault("Enter a name without commas and quotes.");
  if (typedStates().some(it => shownName(it) === made)) return fault(`State ${made} already exists.`);
  const before = shownName(old), names = {...state.names};
  for (const key of Object.keys(names)) if (key === old || names[key] === before) delete names[key];
  const kinds = kindOf(before), text = withState(state.text, old, made);
  spell(made, names, new Set(rulesOf(text).flatMap(it => [it.state, it.next])));
  keepPast();
  const {[before]: place, ...places} = state.places;
  setKind(before, "");
  setKind(made, kinds);
  Object.assign(state, {text, names, example: "", places: place ? {...places, [made]: place} : places});
  drawing.chosen = made;
  changed();
  fillDrawing();
}
function changeLetter() {
  const old = part("d-letter").value, made = part("d-other").value;
  fault("");
  if (!/^[^\s",]$/u.test(made)) return fault("Enter one character; _ is the blank.");
  if (typedRules().some(it => it.read === made || it.write === made)) return fault(`${made} is already a letter of the table.`);
  const isInWord = state.word.includes(old);
  write(withLetter(state.text, old, made));
  if (isInWord && made !== "_") {
    state.word = state.word.replaceAll(old, made);
    changed();
  }
  part("d-other").value = "";
}
function addRule() {
  const rules = typedRules(), from = drawing.chosen ?? rules[0]?.state ?? "S";
  fault("");
  write(withNewRule(state.text, nextRule(rules, from)));
}
