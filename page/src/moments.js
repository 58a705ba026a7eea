// The moments of a run: each time that Bennett's machine comes to a state. Where they are and which state it is, `session`
// tells with a breakpoint at each state, some at a time. What the tapes show at one of them (`view`) comes with it where a
// run is short; of a long one it is fetched where it is wanted, and kept while there is room.
import {LANES, STATUS} from "./answer.js";
import {LAYERS} from "./state.js";
import {rulesOf, statesOf} from "./table.js";
import {GREATEST, matchOf, readPlace, readView} from "./texts.js";

// How many moments are asked for at first, how many at most; up to how many element steps a run is asked for at once;
// and how long a piece may take, at the least.
const FIRST_MOMENTS = 48, MOST_MOMENTS = 4096, QUICK_STEPS = 6e6, PIECE_TIME = 1200, STEPS_A_MS = 25000;
// Symbols on tapes: of a run that comes with all its views, of one block of views, and of the views that are kept.
const SMALL_SYMBOLS = 5e5, BLOCK_SYMBOLS = 3e5, KEPT_SYMBOLS = 4e6;
const LEAST_BLOCK = 8, MOST_BLOCK = 512, LEAST_KEPT = 64;
// How many places a piece of the signal's way has at least, and from which element step on several are fetched at once.
const LEAST_CHUNK = 16384, FAR_STEP = 3e7;
// What the checks lower, so that short runs are shown as long ones are.
export const limits = {
  small: SMALL_SYMBOLS, first: FIRST_MOMENTS, quick: QUICK_STEPS, block: BLOCK_SYMBOLS, kept: KEPT_SYMBOLS, least: LEAST_KEPT,
  chunk: LEAST_CHUNK, far: FAR_STEP,
};

/** @type {(name: string) => number} */
const digitsOf = name => Number(matchOf(/\d+/, name)[0]);

export class Moments {
  // The moments that are known, the element steps at which they begin, and where the layers above the circuit stop.
  /** @type {Moment[]} */ moments = [];
  /** @type {number[]} */ starts = [];
  /** @type {{quadruple: number[], machine: number[]}} */ stops = {quadruple: [], machine: []};
  // Whether all are known; how many there are, where that is known before; the last element step, as far as it is known.
  isWhole = false;
  // Whether they are a front of the run, beyond which nothing is told; and on which layers its steps are.
  isPart = false;
  /** @type {Layer[]} */ layers = LAYERS;
  /** @type {number | null} */ total = null;
  end = Infinity;
  // By which line the signal leaves, and with which moment the copying begins.
  /** @type {{place: number} | null} */ leaves = null;
  /** @type {number | null} */ copyAt = null;
  // Those whose tapes are kept, those that may not be let go, the one that was looked at, and how many cells the tapes have.
  /** @type {Set<number>} */ kept = new Set();
  /** @type {Set<number>} */ pinned = new Set();
  at = 0;
  cells = 0;
  // How many are asked for at once, with their tapes where the run is small, and how many views make a block.
  many = FIRST_MOMENTS;
  isSmall = false;
  block = LEAST_BLOCK;
  setBreaks = "";
  script = "";
  /** @type {string[]} */ names = [];
  /** @type {Promise<boolean> | null} */ asking = null;
  /** @type {{q: number, promise: Promise<boolean>} | null} */ viewing = null;
  /** @type {Promise<any> | null} */ coming = null;
  // What `trace` and `moments` told of it by now: which rule is followed next after so many steps of the machine by itself, and the
  // place in Bennett's table of what is applied next at a moment, or -1.
  /** @type {RunTold} */ told = {rules: [], rows: []};
  // What is said in place of a circuit, where there is none; and with which edition of what was typed it came.
  lacking = "";
  edition = 0;
  // The answer that was cut off.
  /** @type {Reply} */ cut = {status: -1, text: "", words: ""};

  // A table, its window, how the machine runs by itself, and what `run` said of it.
  /** @param {{table: string, window: Window4, own: Own, outcome: Outcome, isOpen: boolean}} run */
  constructor({table, window, own, outcome, isOpen}) {
    this.table = table;
    this.window = window;
    this.own = own;
    this.outcome = outcome;
    this.isOpen = isOpen;
    this.rules = rulesOf(table);
    this.states = statesOf(this.rules);
  }
  // What a run gives them.
  /** @type {(script: string) => string} */ inputOf(script) { throw new Error(script); }
  /** @type {(script: string, how?: {lane?: number}) => Promise<Reply>} */
  async session(script, how) { throw new Error(script + how); }

  beginMoments() {
    const [l1, r1, n, r3] = this.window, {exit, quadruples} = this.outcome;
    this.cells = l1 + r1 + n + r3 + 3;
    this.total = exit === "end" && quadruples !== null ? quadruples + 1 : null;
    const most = this.total ?? 4 * n + 4 * r3 + 12;
    this.isSmall = most * this.cells <= limits.small;
    this.many = this.end <= limits.quick ? most : limits.first;
    this.block = Math.max(LEAST_BLOCK, Math.min(MOST_BLOCK, Math.floor(limits.block / this.cells)));
    this.setBreaks = this.names.map((name, k) => `break s${k} state ${name}\n`).join("");
  }
  // How many moments there are, or how many are known where the run's end doesn't tell.
  get count() { return this.total ?? this.moments.length; }

  // ---- where they are

  // Asks for the next ones, and says whether an answer came. Who comes meanwhile waits for the same answer.
  more() { return this.asking ??= this.askMoments().finally(() => { this.asking = null; }); }
  async askMoments() {
    const from = this.moments.at(-1)?.steps ?? 0, began = performance.now();
    const each = `go ${GREATEST}\n${this.isSmall ? "view\n" : ""}`;
    const script = `${this.setBreaks}step ${from}\n${each.repeat(this.many)}`, reply = await this.session(script, {lane: LANES.long});
    if (reply.status !== STATUS.done) {
      this.cut = reply;
      return false;
    }
    this.script = this.inputOf(script);
    this.takeMoments(reply.text.split("\n"));
    // Each piece begins with the way to its first step, so it is longer the farther that is.
    const aim = PIECE_TIME + from / STEPS_A_MS, share = aim / Math.max(1, performance.now() - began);
    this.many = Math.round(Math.max(LEAST_BLOCK, Math.min(MOST_MOMENTS, this.many * Math.max(.5, Math.min(4, share)))));
    return true;
  }
  /** @type {(lines: string[]) => void} */
  takeMoments(lines) {
    const wide = this.isSmall ? 8 : 1;
    for (let at = this.names.length + 1; at + wide < lines.length && !this.isWhole; at += wide) {
      const [, where, line, steps, label] = matchOf(/^(at|left) (\S+) steps (\d+)(?: break s(\d+))?$/, lines[at]);
      const place = readPlace(line), hasLeft = where === "left";
      if (label === undefined) this.leaves = {place};
      else this.addMoment({...this.kindOf(this.names[Number(label)]), steps: Number(steps), place, hasLeft, tapes: null, step: null});
      this.isWhole = hasLeft;
      if (label !== undefined && this.isSmall) this.takeView(this.moments.length - 1, readView(lines, at + 1));
    }
    if (!this.isWhole) return;
    if (this.isOpen) this.closeRun();
    for (const stops of Object.values(this.stops)) if (stops.at(-1) !== this.end) stops.push(this.end);
  }
  // The end of a long run: its last moment, where the signal has left by the control's line to the outside.
  closeRun() {
    const last = this.moments.at(-1);
    if (!last?.hasLeft) return;
    const {steps} = last;
    this.end = steps;
    Object.assign(this.outcome, {exit: "end", steps, quadruples: this.moments.length - 1, output: this.own.output});
  }
  /** @type {(it: Moment) => void} */
  addMoment(it) {
    const q = this.moments.push(it) - 1, start = q === 0 ? 0 : it.steps, isCopy = it.stage === "copy";
    this.starts.push(start);
    this.stops.quadruple.push(start);
    // A step of the machine by itself begins where its state is shown; to copy is one of them.
    if ((it.state !== null || it.hasLeft) && !(isCopy && this.copyAt !== null)) this.stops.machine.push(start);
    if (isCopy) this.copyAt ??= q;
  }
  // What the name of a state of Bennett's machine says: docs/use/formats.md, Bennett's table.
  /** @type {(name: string) => Pick<Moment, "name" | "stage" | "state" | "rule">} */
  kindOf(name) {
    if (name.startsWith("B")) return {name, stage: "copy", state: this.rules.at(-1)?.next ?? null, rule: null};
    const stage = name.startsWith("A") ? "compute" : "retrace", isRule = name.endsWith("'");
    return {name, stage, state: isRule ? null : this.states[digitsOf(name) - 1], rule: isRule ? digitsOf(name) : null};
  }
  // Which rule is followed next at a moment in which the machine by itself is in a state: null where none is, undefined where it
  // isn't told.
  /** @type {(moment: Moment) => number | null | undefined} */
  ruleNext({step, stage, rule}) { return stage === "compute" && rule === null ? this.told.rules[step ?? -1] : undefined; }
  // Whether the element step at which a moment begins is known, and no estimate.
  /** @type {(q: number) => boolean} */
  isExact(q) { return q >= 0; }
  /** @type {(e: number) => boolean} */
  isKnown(e) { return this.isWhole || (this.starts.at(-1) ?? 0) > e; }
  // The moments up to a step, up to one of them, or all; false where the asking was stopped.
  /** @type {(e: number) => Promise<boolean>} */
  async momentsTo(e) { return this.moreUntil(() => this.isKnown(e)); }
  /** @type {(q: number) => Promise<boolean>} */
  async momentsUpTo(q) { return this.moreUntil(() => this.moments.length > q); }
  /** @type {(isDone: () => boolean, told?: () => void) => Promise<boolean>} */
  async moreUntil(isDone, told = () => {}) {
    while (!this.isWhole && !isDone()) {
      if (!(await this.more())) return false;
      told();
    }
    return true;
  }
  /** @type {(e: number) => number} */
  momentIndex(e) {
    let low = 0, high = this.starts.length;
    while (high - low > 1) {
      const middle = (low + high) >> 1;
      if (this.starts[middle] <= e) low = middle; else high = middle;
    }
    return low;
  }
  // The first of rising steps behind one, or the last before it.
  /** @type {(layer: "quadruple" | "machine", e: number, direction: number) => number | null} */
  stopNear(layer, e, direction) {
    const stops = this.stops[layer];
    let low = 0, high = stops.length;
    while (low < high) {
      const middle = (low + high) >> 1;
      if (direction > 0 ? stops[middle] <= e : stops[middle] < e) low = middle + 1; else high = middle;
    }
    return direction > 0 ? stops[low] ?? null : stops[low - 1] ?? null;
  }
  // A place on the time line, in moments, with the share of the way to the next one; and back.
  /** @type {(e: number) => number} */
  timeOf(e) {
    const q = this.momentIndex(e), from = this.starts[q], to = this.starts[q + 1] ?? this.end;
    return q + (to > from ? Math.min(1, (e - from) / (to - from)) : 0);
  }
  /** @type {(time: number) => number} */
  stepAt(time) {
    const q = Math.max(0, Math.min(this.starts.length - 1, Math.floor(time))), from = this.starts[q], to = this.starts[q + 1] ?? this.end;
    return Number.isFinite(to) ? Math.round(from + (to - from) * Math.min(1, Math.max(0, time - q))) : from;
  }
  // The parts of the time line that are of one stage, as far as it is known.
  stageParts() {
    /** @type {{stage: Stage, from: number, to: number}[]} */
    const parts = [];
    for (let q = 0; q < this.moments.length; q++) {
      const {stage} = this.moments[q], last = parts.at(-1);
      if (last?.stage === stage) last.to = q + 1;
      else parts.push({stage, from: q, to: q + 1});
    }
    return parts;
  }

  // ---- what the tapes show at them

  /** @type {(q: number) => boolean} */
  hasView(q) { return Boolean(this.moments[q]?.tapes); }
  /** @type {(q: number, view: View) => void} */
  takeView(q, {tapes, step}) {
    Object.assign(this.moments[q], {tapes, step});
    this.kept.add(q);
  }
  // The views of some moments, in rising order, by one call; false where it was stopped.
  /** @type {(list: number[], how?: {lane?: number}) => Promise<boolean>} */
  async askViews(list, how) {
    if (!list.length) return true;
    let at = 0, script = "";
    for (const q of list) {
      script += `step ${this.moments[q].steps - at}\nview\n`;
      at = this.moments[q].steps;
    }
    const reply = await this.session(script, how);
    if (reply.status !== STATUS.done) return false;
    const lines = reply.text.split("\n");
    list.forEach((q, k) => this.takeView(q, readView(lines, 8 * k + 1)));
    this.forgetViews();
    return true;
  }
  // Those near a moment that is wanted, and a block of them in the direction of play; the copy's first one, at which the
  // machine by itself has halted.
  /** @type {(q: number) => number[]} */
  viewsWanted(q) { return [q - 1, q, this.moments[q]?.stage === "compute" ? q : this.copyAt ?? q].filter(k => k >= 0); }
  /** @type {(q: number) => boolean} */
  hasViews(q) { return this.viewsWanted(q).every(k => this.hasView(k)); }
  /** @type {(q: number, direction?: number, how?: {lane?: number}) => Promise<boolean>} */
  async viewsNear(q, direction = 0, how = {}) {
    this.at = q;
    if (this.hasViews(q)) return true;
    // Who wants the same meanwhile waits for the same answer.
    if (this.viewing && this.viewing.q === q) return this.viewing.promise;
    const it = {q, promise: this.askNear(q, direction, how).finally(() => { if (this.viewing === it) this.viewing = null; })};
    this.viewing = it;
    return it.promise;
  }
  /** @type {(q: number, direction: number, how: {lane?: number}) => Promise<boolean>} */
  askNear(q, direction, how) {
    const from = direction < 0 ? q - this.block : q - 2, to = direction > 0 ? q + this.block : q + 2;
    return this.askViews(this.missing([...this.viewsWanted(q), ...this.range(from, to)]), how);
  }
  /** @type {(from: number, to: number) => number[]} */
  range(from, to) { return Array.from({length: to - from + 1}, (_, k) => from + k); }
  /** @type {(list: number[]) => number[]} */
  missing(list) {
    const known = list.filter(q => q >= 0 && q < this.moments.length && !this.hasView(q));
    return [...new Set(known)].sort((a, b) => a - b);
  }
  forgetViews() {
    if (this.isSmall) return;
    let many = this.kept.size - Math.max(limits.least, 4 * this.block, limits.kept / this.cells);
    for (const q of this.kept) {
      if (many <= 0) return;
      if (this.pinned.has(q) || q === 0 || q === this.copyAt || Math.abs(q - this.at) <= 2 * this.block) continue;
      this.kept.delete(q);
      this.moments[q].tapes = null;
      many--;
    }
  }
  // The moments of a part of the time line that are drawn: each, or each second, fourth, ... so that they are no more
  // than `most`.
  /** @type {(from: number, to: number, most: number) => {stride: number, list: number[]}} */
  drawn(from, to, most) {
    const stride = 2 ** Math.max(0, Math.ceil(Math.log2((to - from) / most))), list = [];
    for (let q = Math.floor(from / stride) * stride; q < Math.min(to, this.moments.length); q += stride) list.push(q);
    return {stride, list};
  }

  // ---- cells of the tapes at the moments

  /** @type {(q: number, tape: number, cell: number) => string} */
  cellAt(q, tape, cell) { const it = this.tapesAt(q)[tape - 1]; return it.symbols[cell - it.first]; }
  // What the tapes show at a moment of which that is known.
  /** @type {(q: number) => Tape[]} */
  tapesAt(q) {
    const {tapes} = this.moments[q];
    if (!tapes) throw new Error(`moment ${q} has no tapes yet`);
    return tapes;
  }
  // Whether a cell is otherwise than at the moment before; false where that isn't known.
  /** @type {(q: number, tape: number, cell: number) => boolean} */
  isChange(q, tape, cell) {
    return q > 0 && this.hasView(q) && this.hasView(q - 1) && this.cellAt(q, tape, cell) !== this.cellAt(q - 1, tape, cell);
  }
  // Where a cell changes next, or changed last, as far as it is known.
  /** @type {(tape: number, cell: number, e: number, direction: number) => number | null} */
  cellChange(tape, cell, e, direction) {
    for (let q = this.changeFrom(e, direction); q > 0 && q < this.moments.length; q += direction) {
      if (this.isChange(q, tape, cell)) return this.starts[q];
    }
    return null;
  }
  /** @type {(e: number, direction: number) => number} */
  changeFrom(e, direction) {
    const q = this.momentIndex(e);
    return direction > 0 ? q + 1 : this.starts[q] < e ? q : q - 1;
  }
  // The same with what isn't known asked of the program, from a moment on: the moment, null where there is none, and
  // undefined where the asking was stopped. `told` hears where it is.
  /** @typedef {(q: number) => void} Told */
  /** @type {(tape: number, cell: number, from: number, direction: number, told?: Told) => Promise<number | null | undefined>} */
  async findChange(tape, cell, from, direction, told = () => {}) {
    for (let q = from; q > 0; q += direction) {
      if (!(await this.momentsUpTo(q))) return undefined;
      if (q >= this.moments.length) return null;
      if (!this.hasView(q) || !this.hasView(q - 1)) {
        told(q);
        this.at = q;
        const block = direction > 0 ? this.range(q - 1, q + this.block) : this.range(q - this.block, q);
        if (!(await this.askViews(this.missing(block), {lane: LANES.long}))) return undefined;
      }
      if (this.isChange(q, tape, cell)) return q;
    }
    return null;
  }
  /** @type {(tape: number, cell: number) => number | null} */
  firstWritten(tape, cell) {
    for (let q = 1; q < this.moments.length; q++) if (this.isChange(q, tape, cell)) return q;
    return null;
  }
  // The first change, with what isn't known asked of the program. Cells of the history and of the output are blank until
  // they are written, so moments that are known spare what is before them.
  /** @type {(tape: number, cell: number, told: Told) => Promise<number | null | undefined>} */
  async findFirst(tape, cell, told) {
    if (this.isSmall) return this.firstWritten(tape, cell);
    let from = 1;
    if (tape !== 1) for (const q of [...this.kept].sort((a, b) => a - b)) {
      if (this.moments[q].stage === "retrace") break;
      if (this.cellAt(q, tape, cell) !== "_") break;
      from = Math.max(from, q);
    }
    return this.findChange(tape, cell, from, 1, told);
  }
}
