// Puzzles of one's own, for teachers: the goal is the table of the circuit that is drawn, or one that is typed. A puzzle is JSON, as a file or
// in a link; it has no solution in it.
import {answer, LANES, STATUS} from "../answer.js";
import {circuitFault} from "../circuits.js";
import {escaped} from "../state.js";
import {behaviour, entriesIn, tableOf} from "./behaviour.js";
import {desk, tellDesk} from "./desk.js";
import {textOf} from "./drawing.js";
import {packed, unpacked} from "./saved.js";

const FORM = "hithwelor puzzle 1", KEY = "own", MOST_WORDS = 600, MOST_LINES = 64;

/** @type {(given: any) => string} */
const wordsIn = given => typeof given === "string" ? given.slice(0, MOST_WORDS) : "";
/** @type {(given: any, many: number, word: string) => string[]} */
const namesIn = (given, many, word) => Array.from({length: many}, (_, k) => wordsIn(Array.isArray(given) ? given[k] : "") || `${word} ${k + 1}`);
// A puzzle as it was written, with what is missing filled in; null where it has no table.
/** @type {(given: any) => Puzzle | null} */
export function puzzleFrom(given) {
  if (given?.form !== FORM || typeof given.table !== "string") return null;
  const entries = entriesIn(given.table);
  if (!entries.length || entries.some(it => [it.state, it.input, it.next, it.output].some(one => !Number.isInteger(one) || one < 1 || one > MOST_LINES))) return null;
  const most = Number.isInteger(given.most) && given.most > 0 ? given.most : 0;
  return {
    key: KEY, chapter: "", title: wordsIn(given.title) || "Puzzle", ask: wordsIn(given.ask), hint: wordsIn(given.hint), table: tableOf(entries),
    sides: Boolean(given.sides), most, ins: namesIn(given.ins, Math.max(...entries.map(it => it.input)), "in"),
    outs: namesIn(given.outs, Math.max(...entries.map(it => it.output)), "out"),
  };
}
/** @type {(it: Puzzle) => any} */
const puzzleJson = ({title, ask, hint, table, ins, outs, sides, most}) => ({form: FORM, title, ask, hint, table, ins, outs, sides, most});
/** @type {(it: Puzzle) => Promise<string>} */
export const puzzleWord = it => packed(JSON.stringify(puzzleJson(it)));
/** @type {(word: string) => Promise<Puzzle | null>} */
export async function readPuzzle(word) {
  try { return puzzleFrom(JSON.parse(await unpacked(word))); } catch { return null; }
}

/** @type {(title: string) => string} */
const field = title => `<label>${title} <input data-own="${title.toLowerCase().split(" ")[0]}" autocomplete="off"></label>`;
export const OWN_HTML = `<details id="g-own" aria-label="Make a puzzle"><summary>Make a puzzle</summary>
  <p class="quiet">The goal is a table: state, port in, next state, port out.</p>
  ${["Title", "Task", "Hint", "Inputs (names with commas)", "Outputs (names with commas)"].map(field).join("")}
  <textarea id="g-owntable" rows="5" spellcheck="false" aria-label="the table of the puzzle"></textarea>
  <p class="row"><button id="g-ownfill" title="the table of the circuit on the canvas">Use this circuit's table</button></p>
  <label>Least number of elements, if known <input id="g-ownmost" type="number" min="0" max="600" value="0"></label>
  <p class="row"><button id="g-owntry">Try it</button><button id="g-ownlink">Copy a link</button><button id="g-ownsave">Save</button></p>
  <p id="g-ownsaid" class="e-fault" role="status"></p></details>`;

// `begin` begins a puzzle that was made.
/** @type {(box: HTMLElement, begin: (it: Puzzle) => void) => void} */
export function takeOwnPuzzle(box, begin) {
  /** @type {(id: string) => any} */
  const part = id => box.querySelector(`#${id}`);
  /** @type {(name: string) => string} */
  const value = name => /** @type {any} */ (box.querySelector(`[data-own=${name}]`)).value.trim();
  /** @type {(words: string) => void} */
  const say = words => { part("g-ownsaid").textContent = words; };
  /** @type {(act: (it: Puzzle) => any) => () => Promise<void>} */
  const made = act => async () => {
    const table = `${part("g-owntable").value.trim()}\n`, judged = await answer(["realise", "1", "1"], table, {lane: LANES.design});
    say(circuitFault(judged));
    if (judged.status !== STATUS.done) return;
    const names = (/** @type {string} */ name) => value(name).split(",").map(it => it.trim());
    const it = puzzleFrom({form: FORM, table, title: value("title"), ask: value("task"), hint: value("hint"), ins: names("inputs"), outs: names("outputs"), most: Number(part("g-ownmost").value)});
    if (it) act(it);
    else say(`A puzzle has at most ${MOST_LINES} states and ports.`);
  };
  part("g-ownfill").onclick = async () => {
    const it = await behaviour(textOf(desk.drawing));
    if (!it.isWhole || !it.entries.length) say("The table of this circuit is not complete.");
    else {
      part("g-owntable").value = tableOf(it.entries);
      part("g-ownmost").value = String(desk.drawing.bars.length);
      say("");
    }
  };
  part("g-owntry").onclick = made(begin);
  part("g-ownlink").onclick = made(async it => {
    const link = `${location.href.split("#")[0]}#puzzle=${await puzzleWord(it)}`;
    try {
      await navigator.clipboard.writeText(link);
      tellDesk(`Link copied: a puzzle of ${link.length} characters.`);
    } catch {
      history.replaceState(null, "", link);
      tellDesk("The link is in the address bar.");
    }
  });
  part("g-ownsave").onclick = made(it => {
    const url = URL.createObjectURL(new Blob([`${JSON.stringify(puzzleJson(it), null, 1)}\n`], {type: "application/json"}));
    Object.assign(document.createElement("a"), {href: url, download: "puzzle.json"}).click();
    setTimeout(() => URL.revokeObjectURL(url), 1000);
    tellDesk(`Saved as puzzle.json: ${escaped(it.title)}.`);
  });
}
