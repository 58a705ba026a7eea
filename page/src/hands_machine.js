// What is done to the machine: typed, pasted, opened, taken back, and which of its states accept.
import {editorText, renderLines} from "./editor.js";
import {EXAMPLES} from "./examples.js";
import {openFile} from "./files.js";
import {on} from "./listen.js";
import {asPasted, pasted} from "./judging.js";
import {changed, OWN_WORDS, showOutcome, takeMachine, typed} from "./machine.js";
import {redraw} from "./notices.js";
import {NONE} from "./machines.js";
import {keepPast, takeBack} from "./past.js";
import {pause} from "./play.js";
import {taskAtHand} from "./sheet.js";
import {byId, current, isTooLong, state, toast} from "./state.js";
import {openVerdicts} from "./verdicts.js";

// What comes as a whole, and not letter by letter: so many letters at least.
const PASTES = new Set(["insertFromPaste", "insertFromDrop", "insertFromYank"]), LEAST_PASTED = 8, TYPING_REST = 300;

export function onMachine() {
  on("table", "input", event => takeTyped(/** @type {InputEvent} */ (event)));
  on("table", "paste", event => {
    const text = event.clipboardData?.getData("text");
    keepPart(text);
    takeLong(event, text);
  });
  on("table", "drop", event => takeLong(event, event.dataTransfer?.getData("text")));
  on("table", "scroll", () => { byId("lines").scrollTop = byId("table").scrollTop; });
  on("word", "input", () => { keepPast(true); state.word = byId("word").value.trim(); typed(); });
  on("examples", "change", () => takeMachine(EXAMPLES.find(it => it.key === byId("examples").value)));
  on("file", "change", takeFile);
  byId("newmachine").onclick = () => {
    keepPast();
    Object.assign(state, {text: "", word: "", names: {}, accept: [], reject: [], places: {}, window: null, example: ""});
    changed(0);
    byId("table").focus();
  };
  byId("undo").onclick = () => takeChange(-1);
  byId("redo").onclick = () => takeChange(1);
  byId("verdicts").onclick = () => {
    pause();
    openVerdicts({kept: keepPast, told: () => { if (current.run) { showOutcome(); redraw(false); } }});
  };
  document.addEventListener("keydown", onChangeKey);
}
// Several lines that are pasted into another table may be meant to replace it.
/** @param {string | undefined} text */
function keepPart(text) {
  const {value, selectionStart, selectionEnd} = byId("table"), isAll = selectionEnd - selectionStart >= value.trim().length;
  pasted.part = text && value.trim() && !isAll && text.trim().includes("\n") ? text : null;
}
/** @param {InputEvent} event */
function takeTyped({inputType, data}) {
  const more = byId("table").value.length - state.text.length;
  const isWhole = PASTES.has(inputType) || Math.max(data?.length ?? 0, more) >= LEAST_PASTED;
  keepPast(true);
  Object.assign(state, {text: byId("table").value, example: ""});
  if (isWhole) asPasted();
  if (!PASTES.has(inputType)) pasted.part = null;
  byId("examples").value = "";
  if (taskAtHand() === null) byId("about").textContent = OWN_WORDS;
  if (isTooLong()) editorText();
  else renderLines();
  typed(isWhole ? 0 : TYPING_REST);
}
// A text that is pasted and too long to edit never comes into the editor; nor does what stands there only to be read
// become part of another.
/** @type {(event: Event, text: string | undefined) => void} */
function takeLong(event, text) {
  const box = byId("table"), {selectionStart: from, selectionEnd: to} = box;
  if (!text || !box.readOnly && !isTooLong(text)) return;
  event.preventDefault();
  keepPast();
  const whole = box.readOnly ? text : state.text.slice(0, from) + text + state.text.slice(to);
  Object.assign(state, {text: whole, example: ""});
  asPasted();
  changed(0);
}
async function takeFile() {
  const file = byId("file").files[0];
  byId("file").value = "";
  if (!file) return;
  try {
    takeMachine({word: state.word, ...openFile(file.name, await file.text())});
  } catch (fault) {
    toast(String(/** @type {Error} */ (fault).message).replace(NONE, "Format not recognised"));
  }
}
// The last change of the machine, taken back or made again.
/** @param {number} direction */
function takeChange(direction) {
  if (takeBack(direction)) changed();
}
/** @param {import("./listen.js").Told<"keydown">} event */
function onChangeKey(event) {
  const {target, key, shiftKey} = event, open = document.querySelector("dialog[open]");
  const isOwn = target.id === "table" || target.id === "word";
  if (!(event.ctrlKey || event.metaKey) || event.altKey || !["z", "y"].includes(key.toLowerCase())) return;
  if (open && open.id !== "drawing" || target.matches("textarea,input:not([type=range])") && !isOwn) return;
  event.preventDefault();
  takeChange(shiftKey || key.toLowerCase() === "y" ? 1 : -1);
}
