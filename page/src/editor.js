// The table as it is typed, with the number of each line's rule beside it.
import {byId, current, isTooLong, state} from "./state.js";

const LINE_HEIGHT = 18, TOP_PADDING = 6;
// How much of a text that is too long to edit is shown.
const SHOWN_OF_LONG = 4000;
const marked = {faults: new Set(), now: null};

// Of a text that is too long to edit the beginning is shown, which can be read alone: to lay out all of it takes long.
export function editorText() {
  const isLong = isTooLong(), box = byId("table");
  box.value = isLong ? `${state.text.slice(0, SHOWN_OF_LONG)}\n…` : state.text;
  box.readOnly = isLong;
  renderLines();
}
export function markFaults(lines) {
  marked.faults = new Set(lines);
  renderLines();
}

// The gutter. In front of a line stands its number, by which a fault names it. Where the rules are numbered otherwise, as
// with `standard`, the number of its rule stands behind that, in the colour of the history, which shows it.
export function renderLines() {
  if (isTooLong()) {
    byId("lines").innerHTML = "";
    return;
  }
  const count = Math.max(1, state.text.replace(/\n$/, "").split("\n").length);
  const numbers = Array.from({length: count}, (_, k) => ruleNumber(k + 1));
  const hasTwo = !marked.faults.size && numbers.some((it, k) => it !== null && it !== k + 1);
  const kind = line => marked.faults.has(line) ? "fault" : line === marked.now && !marked.faults.size ? "now" : "";
  const lines = numbers.map((it, k) => `<div class="${kind(k + 1)}"><i>${k + 1}</i>${hasTwo ? `<b class="ruleno">${it ?? ""}</b>` : ""}</div>`);
  byId("lines").innerHTML = lines.join("") + "<div></div>";
  byId("lines").classList.toggle("two", hasTwo);
  byId("lines").scrollTop = byId("table").scrollTop;
}
// The number of a line's rule in the machine that runs, or null where it has none.
function ruleNumber(line) {
  const {machine} = current, at = machine?.userRules.findIndex(it => it.line === line) ?? -1;
  return at < 0 ? null : at + (machine.isStandard ? 2 : 1);
}

// Marks the line of the rule that is at work.
export function markLine(line) {
  if (line === marked.now) return;
  marked.now = line;
  renderLines();
  if (line && (state.playing || document.activeElement !== byId("table"))) showLine(line);
}
function showLine(line) {
  const box = byId("table"), top = (line - 1) * LINE_HEIGHT + TOP_PADDING;
  if (top >= box.scrollTop && top + LINE_HEIGHT <= box.scrollTop + box.clientHeight) return;
  box.scrollTop = Math.max(0, top - 60);
  byId("lines").scrollTop = box.scrollTop;
}
