// The panel Puzzles: the list, and the card of the current puzzle. An answer is checked by comparison with the puzzle's table.
import {answer, LANES, STATUS} from "../answer.js";
import {escaped} from "../state.js";
import {counted} from "./acts.js";
import {compared, differs, entriesIn, isProved} from "./behaviour.js";
import {commit, desk, deskChanged, tellDesk} from "./desk.js";
import {EMPTY, textOf} from "./drawing.js";
import {lineWords, playWord} from "./machine_panel.js";
import {OWN_HTML, takeOwnPuzzle} from "./own_puzzle.js";
import {lockParts} from "./parts.js";
import {CHAPTERS, PUZZLES} from "./puzzles.js";
import {laidOut} from "./lay.js";
import {drawingOf} from "./reading_text.js";
import {findCircuit} from "./searching.js";
import {keepSolved, solved} from "./saved.js";

// How many elements more than the least may be used, each for a star less.
const MORE = 2, STARS = 3;
/** @type {(it: Puzzle, elements: number) => string} */
const starsOf = (it, elements) => "★".repeat(Math.max(1, STARS - Math.max(0, elements - it.most))).padEnd(STARS, "☆");
/** @type {{box: HTMLElement, card: HTMLElement, parts: HTMLElement, at: Puzzle | null, solved: Record<string, number>, shown: string}} */
const panel = /** @type {any} */ ({at: null, solved: {}, shown: ""});
// `box` has the list, `card` the current puzzle; `parts` is the palette.
/** @type {(box: HTMLElement, card: HTMLElement, parts: HTMLElement) => void} */
export function makePuzzles(box, card, parts) {
  box.innerHTML = `<div id="g-puzzlelist"></div>${OWN_HTML}`;
  takeOwnPuzzle(box, beginAny);
  Object.assign(panel, {box: box.querySelector("#g-puzzlelist"), card, parts, solved: solved()});
  box.addEventListener("click", event => {
    const it = /** @type {any} */ (event.target).closest("[data-puzzle]");
    if (it) beginPuzzle(it.dataset.puzzle);
  });
  showPuzzles();
}
export function showPuzzles() {
  const rows = Object.entries(CHAPTERS).map(([chapter, title]) => `<h3>${escaped(title)}</h3><ol class="g-puzzles">${PUZZLES.filter(it => it.chapter === chapter).map(rowOf).join("")}</ol>`);
  lockParts(panel.parts, panel.at?.key ?? null, panel.solved);
  const done = PUZZLES.filter(it => panel.solved[it.key]).length;
  panel.box.innerHTML = `<p class="quiet">${done} of ${PUZZLES.length} solved. Each asks for a circuit that behaves like a given machine. ★★★ is the least number of elements.</p>${rows.join("")}`;
}
/** @type {(it: Puzzle) => string} */
function rowOf(it) {
  const done = panel.solved[it.key];
  return `<li><button class="plain" data-puzzle="${it.key}"${panel.at === it ? ' aria-current="true"' : ""}><b class="${done ? "done" : ""}" aria-hidden="true">${done ? "✓" : PUZZLES.indexOf(it) + 1}</b><span>${escaped(it.title)}${done ? ` <i aria-hidden="true">${starsOf(it, done)}</i>` : ""}</span><span class="visually-hidden">${done ? `, solved with ${counted(done, "element")}` : ""}</span></button></li>`;
}
/** @type {() => Puzzle | null} */
export const puzzleAtHand = () => panel.at;
/** @type {(key: string) => void} */
export const beginPuzzle = key => beginAny(PUZZLES.find(it => it.key === key) ?? null);
// Begins a puzzle of the list, or one that came by a link.
/** @type {(it: Puzzle | null) => void} */
export function beginAny(it) {
  panel.at = it;
  panel.shown = "";
  const isOther = panel.at && desk.drawing.bars.length > 0;
  commit(EMPTY);
  tellDesk(isOther ? "The canvas is empty for the puzzle; undo restores your circuit." : "");
  showPuzzles();
  showCard();
  deskChanged("run");
}
// The goal as a table of words.
/** @type {(it: Puzzle) => string} */
function goalHtml(it) {
  const entries = entriesIn(it.table), states = Math.max(...entries.map(one => one.state));
  const rows = entries.map(one => `<tr><td>${states > 1 ? one.state : ""}</td><td>${escaped(it.ins[one.input - 1])}</td><td>${escaped(it.outs[one.output - 1])}</td><td>${states > 1 ? one.next : ""}</td></tr>`);
  return `<div class="g-scroll"><table class="g-grid"><thead><tr><th>${states > 1 ? "state" : ""}</th><th>in</th><th>out</th><th>${states > 1 ? "next state" : ""}</th></tr></thead><tbody>${rows.join("")}</tbody></table></div>`;
}
function showCard() {
  const it = panel.at, {card} = panel;
  card.hidden = !it;
  if (!it) return;
  const number = PUZZLES.indexOf(it) + 1;
  card.innerHTML = `<div class="row top"><h3>${number ? `${number} · ` : ""}${escaped(it.title)}</h3><button class="plain" id="g-puzzleend" aria-label="leave the puzzle" title="leave the puzzle">×</button></div>
    <p>${escaped(it.ask)}</p><details aria-label="The table"${entriesIn(it.table).length > 4 ? "" : " open"}><summary>The table</summary>${goalHtml(it)}</details>
    <p class="quiet">${it.most ? `${counted(it.most, "element")} for ★★★, at most ${it.most + MORE}. ` : ""}You choose the ports${it.sides ? "; an input and an output of one name must be on one side of an element" : ""}. The bars as you leave them are state 1.</p>
    <div class="row"><button id="g-check" class="main">Check</button>${it.hint ? '<button id="g-hint">Hint</button>' : ""}${it.solution ? '<button id="g-show">Solution</button>' : ""}<button id="g-search" title="search for a circuit; the search is not proved, the result is checked">Search</button><button id="g-nextpuzzle" hidden>Next ▸</button></div>
    <p id="g-hintsaid" class="quiet" hidden>${escaped(it.hint)}</p><p id="g-puzzlesaid" role="status"></p>`;
  /** @type {(id: string) => any} */
  const part = id => card.querySelector(`#${id}`);
  part("g-puzzleend").onclick = () => { panel.at = null; showPuzzles(); showCard(); };
  part("g-check").onclick = () => check(it);
  if (it.hint) part("g-hint").onclick = () => { part("g-hintsaid").hidden = !part("g-hintsaid").hidden; };
  if (it.solution) part("g-show").onclick = () => showSolution(it);
  part("g-search").onclick = () => search(it);
  part("g-nextpuzzle").onclick = () => beginPuzzle(PUZZLES[number % PUZZLES.length].key);
}
/** @type {(it: Puzzle) => Promise<void>} */
async function showSolution(it) {
  const {text, places} = /** @type {NonNullable<Puzzle["solution"]>} */ (it.solution), reply = await answer(["step", "0"], text, {lane: LANES.design});
  if (reply.status !== STATUS.done) return;
  commit({...drawingOf(reply.text), at: places}, {ways: new Map()});
  panel.shown = JSON.stringify(desk.drawing.targets);
  deskChanged("view");
  tellDesk("One of several solutions. Undo restores yours.");
}
// Searches for a circuit of the goal, with one element more each time; the program checks what was found before it is shown.
/** @type {(it: Puzzle) => Promise<void>} */
async function search(it) {
  const said = /** @type {HTMLElement} */ (panel.card.querySelector("#g-puzzlesaid"));
  const found = await findCircuit(entriesIn(it.table), {sides: it.sides, tell: words => { said.textContent = words; }, isOff: () => panel.at !== it});
  if (panel.at !== it) return;
  if (!found) {
    said.textContent = "The search found no circuit of at most three elements.";
    return;
  }
  const judged = await compared(found, it.table, {sides: it.sides});
  if (panel.at !== it) return;
  said.textContent = judged.isSame ? "Found by search, and checked by the program." : "The search failed: its circuit is not a solution.";
  if (!judged.isSame) return;
  const drawing = drawingOf(found);
  commit({...drawing, at: laidOut(drawing)}, {ways: new Map()});
  panel.shown = JSON.stringify(desk.drawing.targets);
  deskChanged("view");
}
// Checks the circuit and shows the result; a difference can be played.
/** @type {(it: Puzzle) => Promise<void>} */
async function check(it) {
  const said = /** @type {HTMLElement} */ (panel.card.querySelector("#g-puzzlesaid")), count = desk.drawing.bars.length;
  /** @type {(words: string, isRight?: boolean) => void} */
  const say = (words, isRight = false) => {
    said.textContent = words;
    said.className = isRight ? "right" : "fault";
  };
  if (!count) {
    say("The canvas is empty.");
    return;
  }
  said.className = "";
  said.textContent = "Checking …";
  const bars = desk.drawing.bars.join("");
  const found = await compared(textOf(desk.drawing), it.table, {sides: it.sides}).catch(fault => ({isSame: false, said: `Not checked: ${fault.message}`, word: [], inputs: [], outputs: []}));
  if (panel.at !== it) return;
  if (!found.isSame) {
    say(found.word.length ? differs(/** @type {Compared} */ (found), it.outs) : found.said);
    if (found.word.length) {
      const button = Object.assign(document.createElement("button"), {textContent: "Play", onclick: () => playWord(bars, found.word.map(line => found.inputs[line]))});
      said.append(" ", button);
    }
    return;
  }
  if (!await isProved(textOf(desk.drawing), it.table, /** @type {Compared} */ (found))) {
    say("The program does not confirm it: with these ports the circuit answers differently, or answers more.");
    return;
  }
  if (it.most && count > it.most + MORE) {
    say(`Correct, but with ${counted(count, "element")}; ${it.most} ${it.most === 1 ? "is" : "are"} enough.`);
    return;
  }
  const isShown = panel.shown === JSON.stringify(desk.drawing.targets);
  if (!isShown && PUZZLES.includes(it)) {
    keepSolved(it.key, count);
    panel.solved = {...panel.solved, [it.key]: count};
  }
  const stars = it.most ? `${starsOf(it, count)} ${count > it.most ? `${it.most} ${it.most === 1 ? "element is" : "elements are"} enough. ` : ""}` : "";
  say(isShown ? "Correct: this is the solution that was shown. Clear the canvas and build your own." : `Correct. ${stars}${lineWords(/** @type {Compared} */ (found))}.`, true);
  /** @type {any} */ (panel.card.querySelector("#g-nextpuzzle")).hidden = false;
  showPuzzles();
}
