// What is shown below the table: what is wrong with it, with what the page can do about that, or what it was read as.
import {editorText, markFaults} from "./editor.js";
import {asPasted, pasted} from "./judging.js";
import {keepPast} from "./past.js";
import {byId, current, dialog, escaped, nameOf, state} from "./state.js";
import {turned, warningsOf} from "./table.js";
import {matchOf} from "./texts.js";

const MOST_BLANKS = 4;
// What of a reading is said at once: the rest is in sight where it is asked for.
const TOLD_AT_ONCE = /the blank$|halts|stuck| to [!-~]$/;
// What the buttons do: the table is looked at again, or was changed here.
/** @type {{typed: (delay?: number, keep?: number) => void, changed: (keep?: number) => void, undoReading: () => void}} */
export const acts = {typed: () => {}, changed: () => {}, undoReading: () => {}};

function addButton(text, kind, act) {
  const it = Object.assign(document.createElement("button"), {textContent: text, className: kind, onclick: act});
  byId("verdict").append(it);
  return it;
}
function turnTo(turn) {
  keepPast();
  state.text = turn.text;
  state.names = turn.names;
  editorText();
  acts.typed(0);
}
/** @param {Partial<Judged>} judged */
export function showFault({fault, also, lines = [], turn, standard, blanks = [], again = false, read = false, isLong = false}) {
  const box = byId("verdict");
  box.innerHTML = `<span class="fault">${escaped(fault ?? "")}</span>`;
  if (also) box.innerHTML += `<p class="note">${escaped(also)}</p>`;
  if (turn) {
    box.innerHTML += `<p class="note">The page can convert the table:</p><ul>${turn.said.map(it => `<li>${escaped(it)}</li>`).join("")}</ul>`;
    addButton("Convert", "main", () => turnTo(turn));
  }
  if (standard) {
    addButton("It starts on the first letter", "main", () => { keepPast(); state.asStandard = true; acts.typed(0); }).title =
      "The command `standard` builds an equivalent machine that starts and halts on the blank before its word. Your names are kept.";
  }
  for (const it of blanks.slice(0, MOST_BLANKS)) {
    addButton(`${it} is the blank`, "", () => { state.blank = it; turnTo(turned(state.text, it, state.names)); });
  }
  const {part} = pasted;
  if (part !== null && state.text !== part) addButton("Replace the table by the pasted text", "main", () => {
    keepPast();
    Object.assign(state, {text: part, example: ""});
    pasted.part = null;
    asPasted();
    acts.changed(0);
  });
  if (read) addButton("Read it", "main", () => { asPasted(); acts.typed(0); }).title = "the page can read this notation";
  if (isLong) addButton("Clear", "", () => { keepPast(); state.text = ""; acts.changed(0); });
  if (again) addButton("Try it again", "main", () => acts.typed(0, state.e));
  markFaults(lines);
  tellJudged();
}
// Whoever shows the table elsewhere hears that the program has judged it.
function tellJudged() { document.dispatchEvent(new Event("judged")); }
/** @param {Partial<Judged>} judged */
export function showVerdict({good = "", isStandard}) {
  const {machine} = current, count = machine.rules.length, box = byId("verdict"), made = pasted.made?.text === state.text ? pasted.made : null;
  if (made && (isStandard || made.text !== made.before.text)) {
    const {what, said} = made.reading, standard = isStandard ? [`standard form adds ${count - machine.userRules.length} rules`] : [];
    const told = [...said.filter(it => TOLD_AT_ONCE.test(it)), ...standard].join("; ");
    box.innerHTML = `<span class="note" title="${escaped([...said, ...standard].join("; "))}">Read as ${escaped(what || "a table")}${told ? `: ${escaped(told)}` : ""}</span> `;
    addButton("undo", "link", () => acts.undoReading()).title = "restore the pasted text";
    addButton("See", "link", () => showReading(made.reading, isStandard));
  } else if (isStandard) {
    box.innerHTML = `<span class="note">Converted to standard form: ${count - machine.userRules.length} rules added. `
      + `The second number beside a line is its <b class="ruleno">rule</b>.</span> `;
    addButton("See", "link", showStandard);
    addButton("As typed", "link", () => { keepPast(); state.asStandard = false; acts.typed(0); });
  } else {
    const [, states, symbols, rules] = matchOf(/states (\d+) symbols (\d+) quintuples (\d+)/, good);
    box.innerHTML = `<span class="note" title="${symbols} symbols with the blank">In standard form: ${states} states, ${rules} rules</span>`;
  }
  const warnings = warningsOf(machine.userRules, it => state.names[it] ?? it);
  if (warnings.length) box.insertAdjacentHTML("beforeend", `<p class="note warning">${escaped(warnings.join(" "))}</p>`);
  markFaults([]);
  tellJudged();
}
// What was turned of what was pasted, and the table that runs.
function showReading({what, said}, isStandard) {
  const turned = [...said, ...(isStandard ? ["the machine starts on the first letter, so it was converted to standard form"] : [])];
  dialog(`<h2>Read as ${escaped(what || "a table")}</h2><ul>${turned.map(it => `<li>${escaped(it)}</li>`).join("")}</ul>
    <p class="quiet">The table that runs${isStandard ? ", as the command <code>standard</code> prints it, with your names" : ""}:</p><pre class="listing">${listing()}</pre>`);
}
const listing = () => current.machine.rules.map((it, k) =>
  `${String(k + 1).padStart(3)}  ${escaped(nameOf(it.state))}, ${it.read}, ${it.write}, ${it.shift}, ${escaped(nameOf(it.next))}`).join("\n");
function showStandard() {
  dialog('<h2>The same machine in standard form</h2><p class="quiet">The output of the command <code>standard</code>, with your names. Rule 1 '
    + `moves onto the word; the last rules go back over it.</p><pre class="listing">${listing()}</pre>`);
}
