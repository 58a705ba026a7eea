// The lens: what an element or a state is that was clicked, what it has done so far, and the way to stop there. All of it is
// looked up in the answers; when the signal came to an element last, and when it comes next, is asked of the program.
import {sameBreak, toggleBreak} from "./breaks.js";
import {frame} from "./frame.js";
import {moduleWith, placeIn} from "./layout.js";
import {columnSaid, lineSaid} from "./module_words.js";
import {goTo, pause} from "./play.js";
import {byId, current, escaped, nameOf, state} from "./state.js";
import {SHIFT_WORDS, symbolWord} from "./table.js";
import {bankName, number} from "./words.js";

const GAP = 12, MOST_RULES = 6;
/** @type {{what: Break | null, came: (() => void) | null, at: number[]}} */
const lens = {what: null, came: null, at: [0, 0]};

const times = it => it === 1 ? "once" : it === 2 ? "twice" : `${number(it)} times`;

// Opens at a place of the window; the same again closes it.
/** @param {Break} what @param {number[]} place */
export function openLens(what, [x, y]) {
  const isSame = lens.what !== null && sameBreak(lens.what, what), came = document.activeElement;
  closeLens();
  if (isSame || !current.run) return;
  pause();
  lens.what = what;
  lens.came = () => /** @type {HTMLElement | null} */ (came)?.focus();
  const box = document.createElement("aside");
  box.id = "lens";
  box.setAttribute("role", "dialog");
  document.body.append(box);
  lens.at = [x, y];
  fill(box);
  placeLens();
  byId("lensstop").focus();
}
// Beside what was clicked, within the window; anew where more is told.
function placeLens() {
  const box = byId("lens"), {width, height} = box.getBoundingClientRect(), room = GAP / 2, [x, y] = lens.at;
  const below = y + GAP + height < innerHeight - room ? y + GAP : y - height - GAP;
  box.style.left = `${Math.max(room, Math.min(innerWidth - width - room, x + GAP))}px`;
  box.style.top = `${Math.max(room, Math.min(innerHeight - height - room, below))}px`;
}
export function closeLens() {
  if (!lens.what) return;
  const {came} = lens;
  lens.what = lens.came = null;
  byId("lens")?.remove();
  came?.();
}
export const isLensOpen = () => lens.what !== null;

function fill(box) {
  const what = /** @type {Break} */ (lens.what), {title, words} = what.kind === "state" ? stateWords(what.state) : elementWords(/** @type {any} */ (what));
  box.setAttribute("aria-label", title);
  box.innerHTML = `<p class="row top"><b>${escaped(title)}</b><button id="lensclose" class="plain" aria-label="close">×</button></p>`
    + words.map(it => `<p>${it}</p>`).join("") + '<p id="lenslater"></p><p class="row" id="lensacts"></p>';
  const add = (id, text, act) => {
    const made = Object.assign(document.createElement("button"), {id, textContent: text, onclick: act});
    box.querySelector("#lensacts").append(made);
    return made;
  };
  const isBreak = state.breaks.some(it => sameBreak(it, what));
  add("lensstop", isBreak ? "Don't stop here" : "Stop here", () => {
    toggleBreak(what);
    closeLens();
  }).className = "main";
  box.querySelector("#lensclose").onclick = closeLens;
  box.onkeydown = event => {
    if (event.key !== "Escape") return;
    event.stopPropagation();
    closeLens();
  };
  if (what.kind === "element") addVisits(what, add);
  else if (what.kind === "state") addMoments(what.state, add);
}

// ---- a state

function stateWords(name) {
  const {run} = current, rules = run.rules.filter(it => it.state === name), shown = rules.slice(0, MOST_RULES).map(it => {
    const write = it.write === it.read ? "" : `write ${symbolWord(it.write)}, `, then = it.next === name ? "and stay in it" : `then ${nameOf(it.next)}`;
    return `on <b>${escaped(symbolWord(it.read))}</b>: ${escaped(`${write}${SHIFT_WORDS[it.shift]}, ${then}`)}`;
  });
  const more = rules.length > MOST_RULES ? [`and ${number(rules.length - MOST_RULES)} more rules`] : [];
  const into = new Set(run.rules.filter(it => it.next === name && it.state !== name).map(it => nameOf(it.state)));
  const ways = into.size ? `Reached from ${escaped([...into].join(", "))}.` : "The machine starts in this state.";
  return {title: `State ${nameOf(name)}`, words: [...(shown.length ? shown : ["No rule leaves this state: the machine halts here."]), ...more, ways]};
}
const isIn = (it, name) => it.state === name && it.stage !== "copy" && it.rule === null;
function addMoments(name, add) {
  const {run} = current, e = state.e, at = run.moments.map((it, q) => ({it, q})).filter(({it}) => isIn(it, name));
  const done = at.filter(({q}) => run.starts[q] <= e), last = done.findLast(({q}) => run.starts[q] < e), next = at.find(({q}) => run.starts[q] > e);
  const forth = done.filter(({it}) => it.stage === "compute").length, back = done.length - forth;
  byId("lenslater").textContent = `Visited ${times(forth)}${back ? `, and ${times(back)} while retracing` : ""}.`;
  if (last) add("lenslast", "◂ Previous visit", () => { closeLens(); goTo(run.starts[last.q]); });
  if (next) add("lensnext", "Next visit ▸", () => { closeLens(); goTo(run.starts[next.q]); });
}

// ---- an element

function elementWords({element}) {
  const {run} = current, bank = moduleWith(run.layout, element), {column, row} = placeIn(bank, element), isMark = row === bank.rows;
  const bars = run.bankBars(bank, state.e);
  const bar = bars?.[element - bank.base], lies = bar === undefined ? "" : bar ? "is lying, west to east" : "is upright, north to south";
  const column_ = `column ${column + 1} of ${bank.columns}, for “${escaped(columnSaid(run, bank, column).words)}”`;
  const row_ = isMark ? "the bottom of the column: if its bar is lying, the column is marked and is the module's state"
    : `row ${row + 1} of ${bank.rows}, for the port <b>${escaped(lineSaid(run.layout, bank, row).words)}</b>`;
  const before = run.circuit.bars[element], changed = bar === undefined ? "" : bar === before ? "as at the start" : "turned since the start";
  return {title: `Element ${number(element)}`, words: [`A rotary element of the module ${escaped(bankName(bank))}: ${column_}; ${row_}.`,
    lies ? `Its bar ${lies}, ${changed}. A signal along the bar goes straight on. A signal across the bar turns right, and the bar turns.` : ""].filter(Boolean)};
}
// When the signal was there last, and when it comes next.
async function addVisits(what, add) {
  const {run} = current, e = state.e, isOpen = () => lens.what === what && run === current.run;
  byId("lenslater").textContent = "Looking for the signal's visits …";
  const last = await run.runTo(e, -1, [what]), next = isOpen() ? await run.runTo(e, 1, [what]) : null;
  if (!isOpen() || !next) return;
  const isNow = frame().at?.place !== undefined && !frame().at?.hasLeft && (frame().at?.place ?? 0) >> 2 === what.element;
  const told = [isNow ? "The signal is about to enter." : "", last.hit ? `Last visit: element step ${number(last.step)}.` : isNow ? "" : "The signal has not been here yet.",
    next.hit ? `Next visit: element step ${number(next.step)}.` : "The signal does not come again."];
  byId("lenslater").textContent = told.filter(Boolean).join(" ");
  if (last.hit) add("lenslast", "◂ Previous visit", () => { closeLens(); goTo(last.step); });
  if (next.hit) add("lensnext", "Next visit ▸", () => { closeLens(); goTo(next.step); });
  placeLens();
}
