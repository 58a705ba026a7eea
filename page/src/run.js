// One run of a machine at all layers, held as the program's answers: its moments, the circuit (`compile`), and the way of the signal,
// which is fetched ahead.
import {answer, LANES} from "./answer.js";
import {limits} from "./moments.js";
import {Pieces} from "./pieces.js";
import {bottomOf, columnWith, markedIn} from "./layout.js";
import {readLayout} from "./layout_text.js";
import {lettersOf} from "./table.js";
import {GREATEST, readCircuit, readRun} from "./texts.js";
import {whole} from "./window.js";

// How many places a piece has at most, and how many are fetched ahead.
const MOST_CHUNK = 131072, MOST_AHEAD = 4;
// The elements and the steps up to which a piece has the least length.
const PLAIN_COUNT = 14000, PLAIN_STEPS = 4e6;

export class Run extends Pieces {
  // Bennett's table, quadruple by quadruple, field by field.
  /** @type {string[][]} */ quadruples = [];
  /** @type {{start: Uint8Array, last: number, bars: Uint8Array} | null} */ now = null;
  /** @type {Promise<void> | null} */ going = null;
  // A table, a word, and what `findRun` found of them.
  /** @param {string} table @param {string} word @param {Found} found */
  constructor(table, word, {window, text, own, isOpen = false}) {
    super({table, window, own, isOpen, outcome: readRun(text)});
    this.word = word;
    this.letters = lettersOf(this.rules);
    this.words = ["=" + word, ...window.map(String)];
  }
  // The input of `session` with a script.
  /** @type {(script: string) => string} */
  inputOf(script) { return `${this.table.endsWith("\n") ? this.table : this.table + "\n"}%\n${script}`; }
  /** @type {(script: string, how?: {lane?: number}) => Promise<Reply>} */
  session(script, how = {}) { return answer(["session", ...this.words], this.inputOf(script), how); }

  // Fetches the circuit and the first moments; how the run ended is known from the answer that found its window.
  async open() {
    // Of a long run the end is where its last moment is, once that is known.
    this.end = this.isOpen ? Infinity : this.outcome.steps;
    const told = this.askLayout();
    // Where the table is cut off first, nobody waits for it any more.
    told.catch(() => {});
    const bennett = await answer(["bennett"], this.table);
    this.quadruples = whole(bennett).text.split("\n").filter(Boolean).map(line => line.split(","));
    this.names = [...new Set(this.quadruples.flatMap(row => [row[0], row[7]]))];
    const {elements} = this.outcome;
    // To build the circuit and to come to a piece costs time in each call: the more, the longer the pieces.
    const far = Math.max(elements / PLAIN_COUNT, this.end / PLAIN_STEPS);
    this.piece = Math.min(MOST_CHUNK, limits.chunk * 2 ** Math.max(0, Math.round(Math.log2(far))));
    this.beginMoments();
    // Where moves begin is read of the layout.
    const chunk = told.then(() => this.chunk(0, {lane: LANES.ahead}));
    const [compiled] = await Promise.all([answer(["compile", ...this.words], this.table), this.more(), chunk]);
    this.compiled = whole(compiled).text;
    if (!this.moments.length) whole(this.cut);
    this.circuit = readCircuit(this.compiled);
    this.barsAt.set(0, this.circuit.bars);
    await this.viewsNear(0, 1);
    return this;
  }

  // Asked beside the circuit, where the first piece of the way is asked next.
  async askLayout() {
    const reply = await answer(["layout", ...this.words], this.table, {lane: LANES.ahead});
    this.layout = readLayout(whole(reply).text);
  }

  // The first step from one on at which the signal turns a bar, or that one, where none is near.
  /** @type {(e: number) => Promise<number>} */
  async turnFrom(e) {
    const it = await this.chunk(this.chunkNumber(e)), last = (it?.places.length ?? 0) - 1;
    for (let k = e - (it?.from ?? 0); it && k < last; k++) {
      if (!this.isStraight(it.places[k], it.places[k + 1], it.hasLeft && k + 1 === last)) return it.from + k;
    }
    return e;
  }
  // Everything for a frame at step e, and for those near it in the direction of play.
  /** @type {(e: number, direction?: number) => Promise<void>} */
  async ready(e, direction = 0) {
    if (!(await this.momentsTo(e))) return;
    const q = this.momentIndex(e), c = this.chunkNumber(e), isNear = [c - 1, c, c + 1].some(k => this.barsAt.has(k));
    // To come to a far step takes long, so what isn't there comes by several lanes at the same time.
    const bars = isNear ? null : this.bars(c, {lane: LANES.beside}), views = this.viewsNear(q, direction, {lane: LANES.ahead});
    if (!(await this.chunk(c)) || !(await views)) return;
    await (bars ?? this.bars(c));
    // A move may be longer than a piece: the control's cost up to twice its elements.
    for (let k = c - 1; k >= 0 && k > c - 60 && this.moveAt(e).from === null; k--) await this.chunk(k);
    for (let k = c + 1; k <= this.chunkNumber(this.end) && k < c + 60 && this.moveAt(e).to === null; k++) await this.chunk(k);
    this.ahead(c, direction || 1, direction ? MOST_AHEAD : 1);
  }
  // A few pieces ahead, and one behind.
  /** @type {(c: number, direction: number, many: number) => void} */
  ahead(c, direction, many) {
    if (this.going) return;
    const how = {lane: LANES.ahead}, next = c + direction, far = c + many * direction;
    this.going = (async () => {
      if (c * this.piece <= limits.far && !(await this.chunk(next, how)) && this.hasPiece(next)) return;
      await this.chunksBetween(Math.min(next, far), Math.max(next, far), how);
      await this.chunk(c - direction, how);
      for (let k = 1; k <= many; k++) if (this.loaded(c + k * direction)) await this.bars(c + k * direction, how);
    })().catch(() => {}).finally(() => { this.going = null; });
  }
  /** @type {(e: number) => Place | null} */
  placeAt(e) {
    const it = this.loaded(this.chunkNumber(e));
    if (it) {
      const at = e - it.from, last = it.places.length - 1;
      return {place: it.places[Math.min(at, last)], hasLeft: it.hasLeft && at >= last};
    }
    const moment = this.moments[this.momentIndex(e)];
    if (moment.steps === e) return {place: moment.place, hasLeft: moment.hasLeft};
    if (e === 0) return {place: this.circuit.start, hasLeft: false};
    if (e === this.end && this.leaves) return {place: this.leaves.place, hasLeft: true};
    return null;
  }
  // All bars at step e: those at the begin of its piece, and along the places since; null where they aren't there yet.
  // What is handed out is changed by the next call.
  /** @type {(e: number) => Uint8Array | null} */
  barsNow(e) {
    const c = this.chunkNumber(e), it = this.loaded(c), start = this.barsAt.get(c);
    if (!it || !start) return null;
    const last = Math.min(e - it.from, it.places.length - 1);
    let {now} = this;
    if (!now || now.start !== start || now.last > last) {
      const bars = now?.bars ?? new Uint8Array(this.outcome.elements);
      bars.set(start);
      now = this.now = {start, last: 0, bars};
    }
    for (let k = now.last; k < last; k++) now.bars[it.places[k] >> 2] = it.places[k] & 1;
    now.last = last;
    return now.bars;
  }
  // The bars of one bank at step e, or null where they aren't there yet.
  /** @type {(bank: Bank, e: number) => Uint8Array | null} */
  bankBars(bank, e) {
    const bars = this.barsNow(e);
    if (bars) return bars.subarray(bank.base, bank.base + bank.count);
    const moment = this.moments[this.momentIndex(e)];
    if (e === 0) return this.circuit.bars.subarray(bank.base, bank.base + bank.count);
    if (bank.kind === "cell" && moment.tapes && (moment.steps === e || (e === this.end && this.leaves))) {
      const {tape: which = 1, cell = 0} = bank, tape = moment.tapes[which - 1], letter = tape.symbols[cell - tape.first], alone = new Uint8Array(bank.count);
      alone[bottomOf(bank, columnWith(this.layout, bank, {letter, hasHead: tape.head === cell}))] = 1;
      return alone;
    }
    return null;
  }
  // The marked column of a bank, -1 where none is, or null where its bars aren't there yet.
  /** @type {(bank: Bank, e: number) => number | null} */
  markedColumn(bank, e) {
    const bars = this.bankBars(bank, e);
    return bars ? markedIn(bank, bars) : null;
  }
  // The next place to stop at on a layer, forward or back.
  /** @type {(layer: Layer, e: number, direction: number) => Promise<number>} */
  async nextStop(layer, e, direction) {
    if (layer === "element") return Math.max(0, Math.min(this.end, e + direction));
    if (layer !== "module") {
      await this.moreUntil(() => direction > 0 ? (this.stops[layer].at(-1) ?? 0) > e : this.isKnown(e));
      return this.stopNear(layer, e, direction) ?? (direction < 0 ? 0 : this.isWhole ? this.end : e);
    }
    for (let c = this.chunkNumber(direction > 0 ? e : Math.max(0, e - 1)); ; c += direction) {
      const it = await this.chunk(c);
      if (!it) return direction < 0 ? 0 : Number.isFinite(this.end) ? this.end : e;
      const found = direction > 0 ? it.bounds.find(step => step > e) : it.bounds.findLast(step => step < e);
      if (found !== undefined) return found;
    }
  }

  // ---- breakpoints

  // On or back to the next breakpoint, by one `session`; cells are looked up in the moments. `told` hears where that is.
  /** @type {(e: number, direction: number, breaks: Break[], told?: (q: number) => void) => Promise<{step: number, hit: Break | null}>} */
  async runTo(e, direction, breaks, told = () => {}) {
    /** @type {string[]} */
    const lines = [], labels = new Map();
    breaks.forEach((it, k) => {
      /** @type {(line: string, n: number) => void} */
      const add = (line, n) => { const label = `b${k}x${n}`; lines.push(`break ${label} ${line}`); labels.set(label, it); };
      if (it.kind === "element") add(`element ${it.element}`, 0);
      if (it.kind === "state") {
        /** @type {(name: string) => boolean} */
        const isShown = name => (({stage, state}) => state === it.state && stage !== "copy")(this.kindOf(name));
        this.names.filter(isShown).forEach((name, n) => add(`state ${name}`, n));
      }
    });
    let best = null, hit = null;
    if (lines.length) {
      const text = whole(await this.session(lines.join("\n") + `\nstep ${e}\n${direction > 0 ? "go" : "rev"} ${GREATEST}\n`, {lane: LANES.long})).text.split("\n");
      const found = /steps (\d+)(?: break (\S+))?$/.exec(text[lines.length + 1] ?? "");
      if (found?.[2]) { best = Number(found[1]); hit = labels.get(found[2]); }
    }
    for (const it of breaks) if (it.kind === "cell") {
      await this.momentsTo(e);
      const q = await this.findChange(it.tape, it.cell, this.changeFrom(e, direction), direction, told);
      const step = this.starts[q ?? -1] ?? null;
      if (step !== null && (best === null || direction * (step - best) < 0)) { best = step; hit = it; }
    }
    return {step: best ?? (direction < 0 ? 0 : Number.isFinite(this.end) ? this.end : e), hit};
  }
}
