// A run while its circuit is sought, or where there is none: the machine by itself, as `trace` tells it, and Bennett's
// machine, as `moments` does, a text line each moment. They have what the panels ask of a run, but no circuit, and
// their time is counted in their own steps. What a tape shows at a moment is read of its line where it is wanted.
import {answer, LANES, STATUS} from "./answer.js";
import {holdsAt} from "./breaks.js";
import {Moments} from "./moments.js";
import {lettersOf} from "./table.js";
import {matchOf} from "./texts.js";

// How many steps of the machine by itself are asked for at most, and how many symbols on tapes; how many steps are
// shown of one that runs on; and how many quadruples the copying takes beside four a letter.
const MOST_TRACED = 10000, MOST_OWN_SYMBOLS = 2e6, MOST_SYMBOLS = 8e6, SHOWN_STEPS = 40, COPYING = 12;
// How many symbols a picture of a long run is drawn of at most.
const PICTURE_SYMBOLS = 5e5;
// How many text lines are read at once.
const AT_ONCE = 500;
const BEGIN = /^(\d+) (\S+) /, TAPE = /(?:tape \d )?from (-?\d+) head (-?\d+) cells (\d+): /y, APPLIED = /rule (\d+)$/;
const HISTORY = 1, BEHIND_HISTORY = " tape 3 from ";

// A tape as a text line tells it.
/** @typedef {{from: number, head: number, last: number, written: string}} Told */
// The same with the cells that are shown of the whole run; its symbols are read where they are asked for.
/** @type {(tape: number, told: Told, shown: {first: number, many: number}) => Tape} */
function tapeOf(tape, {from, head, written}, {first, many}) {
  /** @type {string[] | null} */
  let kept = null;
  const read = () => {
    const symbols = Array(many).fill("_");
    written.split(" ").forEach((it, k) => { symbols[from - first + k] = it; });
    return symbols;
  };
  return {tape, first, head, get symbols() { return kept ??= read(); }};
}
// What one cell holds. A letter has one byte, so its place is known; a number of the history may have more.
/** @type {(tape: number, told: Told, cell: number) => string} */
export function symbolAt(tape, {from, written}, cell) {
  const at = cell - from;
  if (at < 0) return "_";
  return (tape === HISTORY + 1 ? written.split(" ")[at] : written[2 * at]) ?? "_";
}

// One text line: the step, the state, its tapes, and the number of what is applied next.
/** @param {string} line */
function readLine(line) {
  const [begin, step, state] = matchOf(BEGIN, line);
  /** @type {Told[]} */
  const told = [];
  let at = begin.length;
  for (TAPE.lastIndex = at; ; TAPE.lastIndex = at) {
    const found = TAPE.exec(line);
    if (!found) break;
    const [words, from, head, cells] = found, start = at + words.length;
    const end = told.length === HISTORY ? line.indexOf(BEHIND_HISTORY, start) : start + 2 * Number(cells) - 1;
    const last = Number(from) + Number(cells) - 1;
    told.push({from: Number(from), head: Number(head), last, written: line.slice(start, end)});
    at = end + 1;
  }
  const applied = APPLIED.exec(line.slice(at));
  return {step: Number(step), state, told, applied: applied ? Number(applied[1]) : null};
}

// Very many are read some at a time, so that the page doesn't stand still for them.
/** @param {string[]} lines */
async function readLines(lines) {
  const read = [];
  for (let at = 0; at < lines.length; at += AT_ONCE) {
    if (at > 0) await new Promise(done => setTimeout(done, 0));
    read.push(...lines.slice(at, at + AT_ONCE).map(readLine));
  }
  return read;
}

/** @implements {Moment} */
export class ToldMoment {
  stage = /** @type {Stage} */ ("compute");
  /** @type {string | null} */ state = null;
  /** @type {number | null} */ rule = null;
  place = -1;
  hasLeft = false;
  /** @param {Read} line @param {{first: number, many: number}[]} shown */
  constructor({step, state, told}, shown) {
    this.name = state;
    this.steps = this.step = step;
    this.told = told;
    this.shown = shown;
  }
  get tapes() { return this.told.map((it, k) => tapeOf(k + 1, it, this.shown[k])); }
}

export class Early extends Moments {
  circuit = {count: 0};
  /** @type {string[][]} */ quadruples = [];
  lacking = "Building the circuit …";
  isWhole = true;
  isSmall = true;
  /** @param {AskedEarly} asked @param {Read[]} lines */
  constructor({table, word, own, window}, lines) {
    super({table, own, isOpen: false, window: window ?? [1, word.length + 1, own.steps, (own.output ?? "").length + 1],
           outcome: {elements: 0, exit: null, steps: lines.length - 1, quadruples: null, output: own.output,
                     tapes: []}});
    this.word = word;
    this.letters = lettersOf(this.rules);
    this.end = lines.length - 1;
  }
  // The cells that are shown of each tape: those that are told at any moment, and those of the word.
  shownOf(lines) {
    return lines[0].told.map((_, k) => {
      const first = lines.reduce((low, it) => Math.min(low, it.told[k].from), 0);
      const last = lines.reduce((high, it) => Math.max(high, it.told[k].last), k === 0 ? this.word.length + 1 : 0);
      return {first, many: last - first + 1};
    });
  }
  takeShown(shown) {
    this.cells = shown.reduce((sum, it) => sum + it.many, 0);
    return shown;
  }
  // At which element step a run with its circuit has come to what is shown here at a step.
  /** @type {(run: Moments, e: number) => number} */
  stepWith(run, e) { return run.starts[e] ?? run.starts.at(-1) ?? 0; }
  // The calls that told it.
  /** @returns {Call[]} */
  calls() { return []; }
  hasView(q) { return q >= 0 && q < this.moments.length; }
  cellAt(q, tape, cell) { return symbolAt(tape, /** @type {any} */ (this.moments[q]).told[tape - 1], cell); }
  placeAt() { return null; }
  moveAt() { return {from: null, to: null}; }
  movesBetween() { return []; }
  chunkNumber() { return 0; }
  async ready() { /* all is there */ }
  async chunksBetween() { /* there is no circuit */ }
  async nextStop(layer, e, direction) {
    const near = this.layers.includes(layer) ? layer : this.layers[this.layers.length - 1];
    return this.stopNear(near, e, direction) ?? (direction < 0 ? 0 : this.end);
  }
  async runTo(e, direction, breaks) {
    for (let q = e + direction; q >= 0 && q <= this.end; q += direction) {
      const hit = breaks.find(it => it.kind !== "element" && holdsAt(it, q));
      if (hit) return {step: q, hit};
    }
    return {step: direction < 0 ? 0 : this.end, hit: null};
  }
}

// The machine by itself.
export class OwnRun extends Early {
  /** @type {Layer[]} */ layers = ["machine"];
  /** @param {AskedEarly} asked @param {Read[]} lines */
  constructor(asked, lines) {
    super(asked, lines);
    const shown = this.takeShown(this.shownOf(lines));
    for (const it of lines) this.addMoment(Object.assign(new ToldMoment(it, shown), {state: it.state}));
    this.told.rules = lines.map(it => it.applied);
    this.total = lines.length;
  }
  stepWith(run, e) { return run.stops.machine[e] ?? run.starts.at(-1) ?? 0; }
  calls() { return [{words: ["trace", "=" + this.word, String(this.end)], input: this.table, what: "the table"}]; }
}

// Bennett's machine.
export class BennettRun extends Early {
  /** @type {Layer[]} */ layers = ["machine", "quadruple"];
  // The last text line says how the run comes out; where it is still running, a front of it is shown.
  /** @param {AskedEarly} asked @param {string} bennett @param {Read[]} lines @param {string} last */
  constructor(asked, bennett, lines, last) {
    super(asked, lines);
    this.bennett = bennett;
    this.quadruples = bennett.split("\n").filter(Boolean).map(line => line.split(","));
    const shown = this.takeShown(this.shownOf(lines)), hasHalted = last.startsWith("halted ");
    lines.forEach((it, q) => this.addMoment(Object.assign(new ToldMoment(it, shown), this.kindOf(it.state), {
      step: it.told[HISTORY].head, hasLeft: hasHalted && q === this.end,
    })));
    this.told.rows = lines.map(it => (it.applied ?? 0) - 1);
    this.isPart = last.startsWith("running ");
    this.total = this.isPart ? null : lines.length;
    if (hasHalted) Object.assign(this.outcome, {exit: "end", quadruples: this.end});
    this.isSmall = lines.length * this.cells <= MOST_OWN_SYMBOLS;
  }
  calls() {
    return [{words: ["bennett"], input: this.table, what: "the table"},
      {words: ["moments", "=" + this.word, String(this.end)], input: this.bennett, what: "Bennett's table"}];
  }
  drawn(from, to, most) { return super.drawn(from, to, Math.max(1, Math.min(most, PICTURE_SYMBOLS / this.cells))); }
}

const TOLD = [STATUS.done, STATUS.stuck, STATUS.inside];
/** @typedef {{table: string, word: string, own: Own, window: Window4 | null}} AskedEarly
 * @typedef {ReturnType<typeof readLine>} Read */
const wideOf = ({word, own}) => word.length + (own.output ?? "").length + 2;
const stepsOf = own => own.outcome === "running" ? SHOWN_STEPS : own.steps;

// The machine by itself on a word, or null where the program doesn't tell it.
/** @param {AskedEarly} asked */
export async function ownEarly(asked) {
  const {own, word, table} = asked;
  const most = Math.floor(Math.min(MOST_TRACED, MOST_OWN_SYMBOLS / wideOf(asked), stepsOf(own)));
  const reply = await answer(["trace", "=" + word, most], table, {lane: LANES.beside});
  return TOLD.includes(reply.status) ? new OwnRun(asked, await readLines(reply.text.split("\n").slice(0, -2))) : null;
}
// How many quadruples are asked for: all where they can be read, else a front. A step of the machine is two of them on
// the way there and two on the way back, and each leaves a number in the history.
export function quadruplesAsked({own, word}) {
  const wide = wideOf({own, word}), steps = stepsOf(own), letters = (own.output ?? "").length;
  if (own.outcome !== "halted") return Math.min(2 * steps, Math.floor(frontOf(wide)));
  const all = 4 * (steps + letters) + COPYING, symbols = all * wide + 2 * steps * steps;
  return symbols <= MOST_SYMBOLS ? all : Math.floor(frontOf(wide));
}
// So many moments with a history of a half of their number have so many symbols.
const frontOf = wide => 2 * (Math.sqrt(wide * wide + MOST_SYMBOLS) - wide);
/** @param {AskedEarly} asked */
export async function bennettEarly(asked) {
  const bennett = await answer(["bennett"], asked.table, {lane: LANES.beside});
  if (bennett.status !== STATUS.done) return null;
  const reply = await answer(["moments", "=" + asked.word, quadruplesAsked(asked)], bennett.text, {lane: LANES.beside});
  if (!TOLD.includes(reply.status)) return null;
  const lines = reply.text.split("\n").slice(0, -1);
  return new BennettRun(asked, bennett.text, await readLines(lines.slice(0, -1)), lines[lines.length - 1]);
}
