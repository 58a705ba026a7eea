// A long run: its moments, with tapes and states, are those that `moments` told of Bennett's machine before the circuit was there.
// Only element steps are asked of the circuit, and only where they are needed: `view` says in which moment an element step is, and a
// `session` with a breakpoint at each state counts the steps from there to the next moments. Until a moment's step is known, its place
// on the time line is estimated.
import {answer, LANES, STATUS} from "./answer.js";
import {holdsAt} from "./breaks.js";
import {symbolAt, ToldMoment} from "./early.js";
import {bottomOf, columnWith} from "./layout.js";
import {Run} from "./run.js";
import {current, state} from "./state.js";
import {GREATEST, readPlace, readView} from "./texts.js";

// How many moments are counted by one call, how far before a moment the counting begins, and how often that is tried.
const WALK = 6, BEFORE = 2, MOST_TRIES = 14;
// How many places a piece has at most; how many symbols a picture is drawn of; up to which step a circuit is run element by element.
const MOST_PIECE = 65536, PICTURE_SYMBOLS = 5e5, MOST_STEPPED = 5e7;

// At which shares of a run it is surveyed.
const SURVEY = 8, SURVEYED = [4, 2, 6, 1, 3, 5, 7];
/** @typedef {{time: number, e: number}} Knot */

export class LongRun extends Run {
  // Element steps that are known at times of the time line, in rising order: whole times are beginnings of moments.
  /** @type {Knot[]} */ knots = [];
  /** @type {Set<number>} */ exact = new Set();
  // The sum of the weights before each moment, and moments by what `view` says of them.
  /** @type {Float64Array} */ weights = new Float64Array();
  /** @type {Map<string, number[]>} */ byView = new Map();
  /** @type {Promise<boolean>} */ locating = Promise.resolve(true);
  isWhole = true;

  /** @param {string} table @param {string} word @param {Found} found @param {import("./early.js").BennettRun} early */
  constructor(table, word, found, early) {
    super(table, word, found);
    this.early = early;
  }
  beginMoments() {
    super.beginMoments();
    const [l1, r1, n, r3] = this.window, shown = [{first: 0 - l1, many: l1 + r1 + 1}, {first: 0, many: n + 1}, {first: 0, many: r3 + 1}];
    Object.assign(this, {isSmall: false, total: this.early.moments.length, piece: Math.min(this.piece, MOST_PIECE)});
    this.early.moments.forEach((it, q) => {
      const {told} = /** @type {any} */ (it), made = new ToldMoment({step: q, state: it.name, told, applied: null}, shown);
      Object.assign(made, {stage: it.stage, state: it.state, rule: it.rule, step: it.step, hasLeft: it.hasLeft});
      this.addMoment(made);
      const key = keyOf(it.name, it.step, told.map((/** @type {any} */ one) => one.head));
      this.byView.set(key, [...this.byView.get(key) ?? [], q]);
    });
    this.weights = weightsOf(this);
    this.learn([{time: 0, e: 0}, {time: this.moments.length - 1, e: this.end}]);
  }
  async open() {
    await super.open();
    this.survey().catch(() => {});
    return this;
  }
  // Looks at some steps over the run while nobody asks, so that what is estimated between them is near.
  async survey() {
    for (const k of SURVEYED) {
      if (current.run && current.run !== this) return;
      const seen = await this.viewAt({time: NaN, e: Math.round(this.end * k / SURVEY)}, LANES.ahead);
      if (seen) this.learn([seen]);
    }
  }
  // All moments are there.
  async askMoments() { return true; }
  hasView(q) { return q >= 0 && q < this.moments.length; }
  cellAt(q, tape, cell) { return symbolAt(tape, /** @type {any} */ (this.moments[q]).told[tape - 1], cell); }
  drawn(from, to, most) { return super.drawn(from, to, Math.max(1, Math.min(most, PICTURE_SYMBOLS / this.cells))); }

  // ---- element steps of the moments

  // Takes what is known by now, and estimates the rest between. The place that is shown stays where it is on the time line.
  /** @type {(found: Knot[]) => void} */
  learn(found) {
    const isShown = current.run === this, time = isShown ? this.timeOf(state.e) : 0;
    for (const it of found) {
      const at = this.knots.findIndex(one => one.time >= it.time);
      if (this.knots[at]?.time === it.time) continue;
      this.knots.splice(at < 0 ? this.knots.length : at, 0, it);
      if (Number.isInteger(it.time)) this.exact.add(it.time);
    }
    let k = 0;
    for (const [q, it] of this.moments.entries()) {
      while (k + 2 < this.knots.length && this.knots[k + 1].time <= q) k++;
      this.starts[q] = q === this.knots[k].time ? this.knots[k].e : this.between(this.knots[k], this.knots[k + 1], q);
      if (q > 0) it.steps = this.starts[q];
    }
    this.stops.quadruple = [...this.starts];
    const copy = this.copyAt;
    this.stops.machine = this.starts.filter((_, q) => {
      const it = this.moments[q];
      return (it.state !== null || it.hasLeft) && !(it.stage === "copy" && q !== copy);
    });
    if (isShown) state.e = this.stepAt(time);
  }
  /** @type {(time: number) => number} */
  weightAt(time) {
    const q = Math.min(this.weights.length - 2, Math.floor(time));
    return this.weights[q] + (time - q) * (this.weights[q + 1] - this.weights[q]);
  }
  /** @type {(from: Knot, to: Knot, time: number) => number} */
  between(from, to, time) {
    const whole = this.weightAt(to.time) - this.weightAt(from.time), share = whole ? (this.weightAt(time) - this.weightAt(from.time)) / whole : 0;
    return Math.round(from.e + share * (to.e - from.e));
  }
  isExact(q) { return this.exact.has(q); }
  // Which moment `view` shows, or -1; of several that look alike the one that is nearest to where it was expected.
  /** @type {(view: View, near: number) => number} */
  momentOf({name, step, tapes}, near) {
    const found = this.byView.get(keyOf(name, step, tapes.map(it => it.head))) ?? [];
    return found.reduce((best, q) => best < 0 || Math.abs(q - near) < Math.abs(best - near) ? q : best, -1);
  }
  // The element steps at which a moment and the next one begin; whether they are known now. One search is made at a time.
  /** @type {(q: number) => Promise<boolean>} */
  locate(q) {
    if (this.isLocated(q)) return Promise.resolve(true);
    return this.locating = this.locating.then(() => this.search(q));
  }
  /** @type {(q: number) => boolean} */
  isLocated(q) { return this.isExact(q) && (this.isExact(q + 1) || q + 1 >= this.moments.length); }
  /** @type {(q: number) => Promise<boolean>} */
  async search(q) {
    for (let tries = 0; tries < MOST_TRIES && !this.isLocated(q); tries++) {
      const begin = this.beginFor(q), [seen, counted] = await Promise.all([this.viewAt(begin), this.countFrom(begin.e)]);
      if (!seen || !counted) return false;
      // The first moment is shown from step 0 on, before the signal has come to it.
      const first = seen.time < 1 && counted[0]?.name === this.moments[0].name ? 0 : Math.floor(seen.time) + 1;
      counted.forEach(({e, place}, k) => { if (this.moments[first + k]) Object.assign(this.moments[first + k], {steps: e, place}); });
      this.learn([seen, ...counted.map(({e}, k) => ({time: first + k, e})).filter(it => it.time > 0)]);
    }
    return this.isLocated(q);
  }
  // Where the counting begins: at a moment that is known a little before, else at a step that is estimated.
  /** @type {(q: number) => Knot} */
  beginFor(q) {
    const wanted = this.isExact(q) ? q + 1 : q, before = this.knots.findLast(it => it.time < wanted) ?? this.knots[0];
    if (wanted - before.time <= WALK) return before;
    const time = Math.max(before.time, wanted - BEFORE - .5), after = this.knots.find(it => it.time > time) ?? this.knots[this.knots.length - 1];
    return {time: NaN, e: this.between(before, after, time)};
  }
  // The time of an element step: within a moment, of which `view` tells.
  /** @type {(at: Knot, lane?: number) => Promise<Knot | null>} */
  async viewAt(at, lane = LANES.now) {
    if (!Number.isNaN(at.time)) return at;
    const reply = await answer(["view", ...this.words, at.e], this.table, {lane});
    if (reply.status !== STATUS.done) return null;
    const q = this.momentOf(readView(reply.text.split("\n"), 0), this.momentIndex(at.e));
    return q < 0 ? null : {time: q + .5, e: at.e};
  }
  // The steps of the next moments behind an element step, with where the signal is.
  /** @type {(e: number) => Promise<{e: number, place: number, name: string}[] | null>} */
  async countFrom(e) {
    const reply = await this.session(`step ${e}\n${this.setBreaks}${`go ${GREATEST}\n`.repeat(WALK)}`, {lane: LANES.beside});
    if (reply.status !== STATUS.done) return null;
    return [...reply.text.matchAll(/(\S+) steps (\d+) break s(\d+)$/gm)].map(it => ({e: Number(it[2]), place: readPlace(it[1]), name: this.names[Number(it[3])]}));
  }
  // A step that a link names: which moment it is in.
  /** @type {(e: number) => Promise<void>} */
  async locateStep(e) {
    const seen = await this.viewAt({time: NaN, e});
    if (!seen || e <= 0 || e >= this.end) return;
    this.learn([seen]);
    await this.locate(Math.floor(seen.time));
  }
  async ready(e, direction = 0) {
    const time = this.timeOf(e);
    if (!(await this.locate(this.momentIndex(e)))) return;
    await super.ready(this.stepAt(time), direction);
  }
  async nextStop(layer, e, direction) {
    const time = this.timeOf(e);
    if (layer === "element" || layer === "module") await this.locate(this.momentIndex(e));
    return super.nextStop(layer, this.stepAt(time), direction);
  }
  // A breakpoint of a state or a cell holds at moments, which are known.
  async runTo(e, direction, breaks, told) {
    const elements = breaks.filter(it => it.kind === "element"), others = breaks.filter(it => it.kind !== "element");
    const found = elements.length ? await super.runTo(e, direction, elements, told) : {step: direction < 0 ? 0 : this.end, hit: null};
    for (let q = this.changeFrom(e, direction); q >= 0 && q < this.moments.length && others.length; q += direction) {
      const hit = others.find(it => holdsAt(it, q));
      if (!hit) continue;
      return found.hit && direction * (found.step - this.starts[q]) < 0 ? found : {step: this.starts[q], hit};
    }
    return found;
  }

  // ---- bars

  placeAt(e) {
    const found = super.placeAt(e);
    return found && found.place < 0 ? null : found;
  }
  // All bars at a moment: the signal is inside no module then, so in each one the column of its state is marked.
  /** @type {(q: number) => Uint8Array} */
  barsAtMoment(q) {
    const bars = new Uint8Array(this.outcome.elements), {layout} = this, {name} = this.moments[q];
    const column = layout.control.columns.findIndex(it => it.kind === "reads" ? it.state === name && !it.symbols.length
      : it.kind === "shifts" && this.quadruples[it.quadruple - 1][0] === name);
    const [control] = layout.banks, marked = column < 0 ? layout.control.columns.findIndex(it => it.kind === "end") : column;
    bars[control.base + bottomOf(control, marked)] = 1;
    const heads = this.tapesAt(q).map(it => it.head);
    for (const bank of layout.banks) {
      if (bank.kind !== "cell") continue;
      const {tape = 1, cell = 0} = bank, letter = this.cellAt(q, tape, cell);
      bars[bank.base + bottomOf(bank, columnWith(layout, bank, {letter, hasHead: heads[tape - 1] === cell}))] = 1;
    }
    return bars;
  }
  // From a moment the bars are handed on, along the places, to where the piece begins.
  async askBars(c, how) {
    if (c * this.piece <= MOST_STEPPED) return super.askBars(c, how);
    const from = c * this.piece, to = Math.min(this.end, from + this.piece), here = [...this.exact].find(q => this.starts[q] >= from && this.starts[q] <= to);
    if (here !== undefined && await this.chunk(c, how)) return this.barsBack(c, here);
    const q = this.momentIndex(from);
    if (!(await this.locate(q))) return null;
    const first = this.chunkNumber(this.starts[q]);
    await this.chunksBetween(first, c - 1, how);
    for (let k = first; k < c; k++) if (!(await this.bars(k, how))) return null;
    return this.handedOn(c);
  }
  /** @type {(c: number, q: number) => Uint8Array | null} */
  barsBack(c, q) {
    const it = this.loaded(c), bars = this.barsAtMoment(q);
    if (!it) return null;
    const last = it.places.length - 2;
    for (let k = this.starts[q] - it.from - 1; k >= 0; k--) {
      bars[it.places[k] >> 2] = this.barBefore(it.places[k], it.places[k + 1], it.hasLeft && k === last);
    }
    return bars;
  }
}
/** @type {(name: string, step: number | null, heads: (number | string | null)[]) => string} */
const keyOf = (name, step, heads) => `${name} ${step} ${heads.join(" ")}`;

// How long moments are in element steps, as far as can be said before: the signal goes to the heads through the cells before them, and a
// cell takes the longer, the more columns it has. Sums from the first moment on.
/** @type {(run: LongRun) => Float64Array} */
function weightsOf({moments, letters, rules, quadruples, window}) {
  const sums = new Float64Array(moments.length + 1), written = letters.length + 1, kept = rules.length + 1;
  moments.forEach((it, q) => {
    const [work, history, output] = /** @type {any} */ (it).told;
    sums[q + 1] = sums[q] + quadruples.length + (work.head + window[0] + output.head) * written + history.head * kept;
  });
  return sums;
}
