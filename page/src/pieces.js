// The way of the signal through the circuit, in pieces: the places that a `session` with many lines `step 1` answers, and the bars where
// a piece begins. No step is computed: where a bar lies follows from the places, since an element's bar lies along the line by which the
// signal last came in.
import {answer, answerPlaces, STATUS} from "./answer.js";
import {limits, Moments} from "./moments.js";
import {readBars} from "./texts.js";

// How many bytes of pieces and bars are kept.
const MOST_KEPT = 96e6, LEAST_PIECES = 12;

// Before they are told.
/** @type {Layout} */
const NO_LAYOUT = {count: 0, banks: [], control: {columns: [], lines: []}, tapes: [], bases: new Int32Array(), rows: new Int32Array()};
/** @type {Circuit} */
const NO_CIRCUIT = {count: 0, start: 0, bars: new Uint8Array(), targets: new Int32Array(), sources: new Int32Array()};

export class Pieces extends Moments {
  // The pieces of the signal's way by their numbers, and the bars where a piece begins.
  /** @type {Map<number, Asked>} */ chunks = new Map();
  /** @type {Map<number, Uint8Array>} */ barsAt = new Map();
  // How many places a piece has.
  piece = 0;
  // What the circuit is made of.
  layout = NO_LAYOUT;
  compiled = "";
  circuit = NO_CIRCUIT;
  /** @type {string[]} */ words = [];

  /** @type {(e: number) => number} */
  chunkNumber(e) { return Math.floor(Math.min(e, Math.max(0, this.end - 1)) / this.piece); }
  /** @type {(c: number) => Piece | null} */
  loaded(c) { const it = this.chunks.get(c); return it?.places ? /** @type {Piece} */ (it) : null; }
  /** @type {(c: number) => boolean} */
  hasPiece(c) { return c >= 0 && c * this.piece < Math.max(1, this.end); }
  /** @type {(c: number, how?: {lane?: number}) => Promise<Piece | null>} */
  async chunk(c, how = {}) {
    if (!this.hasPiece(c)) return null;
    const there = this.loaded(c), asked = this.chunks.get(c);
    return there ?? (asked ? asked.promise : this.fetchChunks(c, 1, how)[0].promise);
  }
  // So many pieces from one on by one call, since the way to the first costs as much for all as for one.
  /** @type {(first: number, many: number, how: {lane?: number}) => Asked[]} */
  fetchChunks(first, many, how) {
    const entries = Array.from({length: many}, (_, k) => (/** @type {Asked} */ ({c: first + k})));
    const reply = this.fetchPlaces(first, many, how);
    for (const it of entries) {
      this.chunks.set(it.c, it);
      it.promise = reply.then(found => {
        if (!found) { this.chunks.delete(it.c); return null; }
        const piece = Object.assign(it, this.pieceOf(found, it.c, first));
        this.forget(it.c);
        return piece;
      });
    }
    return entries;
  }
  // One piece of what was fetched from a first one on.
  /** @type {(found: {places: Int32Array, bounds: Int32Array, hasLeft: boolean}, c: number, first: number) => Omit<Piece, "c">} */
  pieceOf({places, bounds, hasLeft}, c, first) {
    const from = (c - first) * this.piece, to = Math.min(places.length, from + this.piece + 1), isLast = to === places.length;
    const begun = bounds.filter(k => k >= from && (isLast || k < to));
    return {places: places.slice(from, to), bounds: Float64Array.from(begun, k => first * this.piece + k), hasLeft: hasLeft && isLast, from: c * this.piece};
  }
  /** @type {(c: number, many: number, how: {lane?: number}) => Promise<{places: Int32Array, bounds: Int32Array, hasLeft: boolean} | null>} */
  async fetchPlaces(c, many, how) {
    const count = Math.min(many * this.piece, this.end - c * this.piece), input = this.inputOf(`step ${c * this.piece}\n${"step 1\n".repeat(count)}`);
    const reading = {count: count + 1, bases: this.layout.bases, rows: this.layout.rows};
    const {status, places, bounds, hasLeft} = await answerPlaces(["session", ...this.words], input, reading, how);
    return status === STATUS.done ? {places, bounds, hasLeft} : null;
  }
  // Fetches the pieces between two that aren't there: one by one where they are soon come to, else as many as stand side
  // by side by one call. `isOff` says that they aren't wanted any more.
  /** @type {(first: number, last: number, how: {lane?: number}, isOff?: () => boolean) => Promise<void>} */
  async chunksBetween(first, last, how, isOff = () => false) {
    for (let c = first; c <= last && !isOff(); c++) {
      if (!this.hasPiece(c) || this.chunks.has(c)) {
        if (this.hasPiece(c) && !(await this.chunk(c, how))) return;
        continue;
      }
      let to = c;
      while (c * this.piece > limits.far && to < last && this.hasPiece(to + 1) && !this.chunks.has(to + 1)) to++;
      if (!(await this.fetchChunks(c, to - c + 1, how)[0].promise)) return;
      c = to;
    }
  }
  // Lets go of the pieces that are farthest from one, and of their bars.
  /** @type {(near: number) => void} */
  forget(near) {
    const most = Math.max(LEAST_PIECES, MOST_KEPT / (4 * this.piece + this.outcome.elements));
    if (this.chunks.size <= most) return;
    const far = [...this.chunks.keys()].filter(c => this.loaded(c)).sort((a, b) => Math.abs(b - near) - Math.abs(a - near))[0];
    this.chunks.delete(far);
    if (far !== 0) this.barsAt.delete(far);
  }
  // The bars where a piece begins: handed on from a neighbour that is there, else asked of the program.
  /** @type {(c: number, how?: {lane?: number}) => Promise<Uint8Array | null>} */
  async bars(c, how = {}) {
    const bars = this.barsAt.get(c) ?? this.handedOn(c) ?? await this.askBars(c, how);
    if (bars) this.barsAt.set(c, bars);
    return bars;
  }
  /** @type {(c: number) => Uint8Array | null} */
  handedOn(c) {
    const left = this.barsAt.get(c - 1), right = this.barsAt.get(c + 1), before = this.loaded(c - 1), here = this.loaded(c);
    if (before && left) {
      const bars = left.slice();
      for (let k = 0; k < before.places.length - 1; k++) bars[before.places[k] >> 2] = before.places[k] & 1;
      return bars;
    }
    if (!here || !right) return null;
    const bars = right.slice(), last = here.places.length - 2;
    for (let k = last; k >= 0; k--) bars[here.places[k] >> 2] = this.barBefore(here.places[k], here.places[k + 1], here.hasLeft && k === last);
    return bars;
  }
  /** @type {(c: number, how: {lane?: number}) => Promise<Uint8Array | null>} */
  async askBars(c, how) {
    const reply = await answer(["step", String(c * this.piece)], this.compiled, how);
    return reply.status === STATUS.done ? readBars(reply.text, this.circuit.count) : null;
  }
  // Sides n, e, s, w are 0 to 3, so an odd side is one along west and east: a bar that lies is 1.
  /** @type {(place: number, next: number, hasLeft: boolean) => boolean} */
  isStraight(place, next, hasLeft) { return ((place & 3) ^ ((hasLeft ? next : this.circuit.sources[next]) & 3)) === 2; }
  /** @type {(place: number, next: number, hasLeft: boolean) => number} */
  barBefore(place, next, hasLeft) { return this.isStraight(place, next, hasLeft) ? place & 1 : 1 - (place & 1); }
  // The move in which step e is: where it begins, and where the next one does; null where that piece isn't there.
  /** @type {(e: number) => {from: number | null, to: number | null}} */
  moveAt(e) {
    const c = this.chunkNumber(e), here = this.loaded(c);
    if (!here) return {from: null, to: null};
    let from = null, to = null;
    for (let k = c; k >= Math.max(0, c - 60) && from === null; k--) {
      const it = this.loaded(k);
      if (!it) break;
      from = it.bounds.findLast(step => step <= e) ?? null;
    }
    for (let k = c; k <= c + 60 && to === null; k++) {
      if (k * this.piece >= this.end) { to = this.end; break; }
      const it = this.loaded(k);
      if (!it) break;
      to = it.bounds.find(step => step > e) ?? (it.from + this.piece >= this.end ? this.end : null);
    }
    return {from, to};
  }
  // The moves that are known between two steps, the first one's beginning at or behind the first step.
  /** @type {(from: number, to: number) => Moves} */
  movesBetween(from, to) {
    /** @type {Moves} */
    const found = [];
    for (let c = this.chunkNumber(from); c <= this.chunkNumber(to); c++) {
      const it = this.loaded(c);
      if (!it) { found.isPart = true; continue; }
      for (const step of it.bounds) {
        // The last place of a piece is the next one's first.
        if (step >= from && step < to && found.at(-1)?.step !== step) found.push({step, place: it.places[step - it.from]});
      }
    }
    return found;
  }
  // The way of the signal: the last places before step e, with e's own last.
  /** @type {(e: number, from: number | null, most: number) => number[]} */
  trail(e, from, most) {
    const places = [];
    for (let k = Math.max(from ?? 0, e - most, 0); k <= e; k++) {
      const it = this.loaded(this.chunkNumber(k));
      if (it && k - it.from < it.places.length) places.push(it.places[k - it.from]);
    }
    return places;
  }
}
