// Positions for the elements of a text that has none: columns and banks as they are drawn elsewhere; the others so that their wires are short,
// by exchanging pairs while that helps. The same text always gets the same layout.
import {banksOf, columnsOf} from "../circuit.js";
import {SIDES} from "../texts.js";
import {BOX} from "./drawing.js";

const ROW_GAP = 3, COLUMN_GAP = 8, TRIES = 160, MOST_TRIES = 60000, AWAY = 1.3;
/** @type {number[][]} */
const STEP = [[0, -1], [1, 0], [0, 1], [-1, 0]];
const LEAST_GAP = 5, MOST_GAP = 9, GAP_BY_WIRES = 1.8, CHANNEL = 4, CHANNEL_BY_WIRES = .3, MOST_CHANNEL = 12;
// The distance between two elements, by the number of wires.
/** @type {(it: {targets: number[]}) => number} */
const gapOf = it => Math.max(LEAST_GAP, Math.min(MOST_GAP, Math.round(3 + GAP_BY_WIRES * 4 * it.targets.filter(into => into >= 0).length / it.targets.length)));

// The drawing in the form of the module that finds columns.
/** @type {(it: {bars: Bar[], targets: number[]}) => any} */
function asRows(it) {
  const lines = it.targets.map(into => into < 0 ? null : {element: into >> 2, side: SIDES[into & 3]});
  return {bars: it.bars, targets: it.bars.map((_, k) => lines.slice(4 * k, 4 * k + 4))};
}
/** @type {WeakMap<number[], number[][]>} */
const known = new WeakMap();
// The columns of a drawing, each from its first row down to its bottom.
/** @type {(it: Drawing) => number[][]} */
export function columnsIn(it) {
  let found = known.get(it.targets);
  if (!found) known.set(it.targets, found = columnsOf(asRows(it)).map((/** @type {any} */ column) => column.elements));
  return found ?? [];
}
/** @type {(it: {bars: Bar[], targets: number[], start: number}) => number[][]} */
export function laidOut(it) {
  const count = it.bars.length, at = /** @type {number[][]} */ (new Array(count).fill(null)), rows = asRows(it);
  const bottom = layBanks(banksOf(rows, columnsOf(rows)), at);
  const others = [...at.keys()].filter(element => at[element] === null);
  laySingles(it, at, others, bottom);
  return at;
}

// Places banks from left to right, line by line; returns the lower end.
/** @type {(banks: any[], at: number[][]) => number} */
function layBanks(banks, at) {
  const all = banks.reduce((sum, bank) => sum + bank.elements.length, 0);
  const limit = Math.max(12, Math.ceil(Math.sqrt(1.5 * all)), ...banks.map(bank => bank.columns.length));
  let across = 0, top = 0, tallest = 0;
  for (const bank of banks) {
    if (across && across + bank.columns.length > limit) [across, top, tallest] = [0, top + tallest, 0];
    for (const column of bank.columns) {
      for (const [row, element] of column.elements.entries()) at[element] = [across * (BOX + COLUMN_GAP), top + row * (BOX + ROW_GAP)];
      across++;
    }
    tallest = Math.max(tallest, (bank.height + 1) * (BOX + ROW_GAP) + 4);
  }
  return banks.length ? top + tallest + 2 : 0;
}

/** @type {(it: {targets: number[], start: number}, at: number[][], others: number[], top: number) => void} */
function laySingles(it, at, others, top) {
  if (!others.length) return;
  const pitch = BOX + gapOf(it), wide = Math.max(1, others.length <= 4 ? others.length : Math.ceil(Math.sqrt(1.5 * others.length)));
  const high = Math.ceil(others.length / wide), slots = inOrder(it, others);
  // The position of an element, in slots; banks are above.
  /** @type {Map<number, number[]>} */
  const where = new Map();
  for (const [element, place] of at.entries()) if (place) where.set(element, [place[0] / pitch, (place[1] - top) / pitch]);
  const held = /** @type {(number | null)[]} */ (new Array(wide * high).fill(null));
  /** @type {(slot: number) => number[]} */
  const spot = slot => [slot % wide, Math.floor(slot / wide)];
  for (const [k, element] of slots.entries()) {
    const row = Math.floor(k / wide), along = k % wide, slot = row * wide + (row % 2 ? wide - 1 - along : along);
    held[slot] = element;
    where.set(element, spot(slot));
  }
  const wires = it.targets.flatMap((into, out) => into < 0 || out >> 2 === into >> 2 ? [] : [[out, into]]);
  /** @type {Map<number, number[][]>} */
  const about = new Map(others.map(element => [element, wires.filter(([out, into]) => out >> 2 === element || into >> 2 === element)]));
  /** @type {(element: number) => number} */
  const cost = element => {
    let sum = it.start >> 2 === element ? .2 * Number(where.get(element)?.[0]) : 0;
    for (const [out, into] of about.get(element) ?? []) {
      const [a, b] = [where.get(out >> 2) ?? [0, 0], where.get(into >> 2) ?? [0, 0]], dx = b[0] - a[0], dy = b[1] - a[1];
      const leaves = STEP[out & 3], enters = STEP[into & 3], far = Math.abs(dx) + Math.abs(dy);
      sum += far ** AWAY + (leaves[0] * dx + leaves[1] * dy <= 0 ? .8 : 0) + (enters[0] * dx + enters[1] * dy >= 0 ? .8 : 0);
    }
    return sum;
  };
  /** @type {(a: number, b: number) => void} */
  const exchange = (a, b) => {
    [held[a], held[b]] = [held[b], held[a]];
    for (const slot of [a, b]) if (held[slot] !== null) where.set(/** @type {number} */ (held[slot]), spot(slot));
  };
  let drawn = 12345;
  /** @type {(most: number) => number} */
  const draw = most => {
    drawn = (Math.imul(drawn, 1103515245) + 12345) >>> 0;
    return (drawn >>> 8) % most;
  };
  const tries = Math.min(MOST_TRIES, TRIES * others.length * Math.max(4, wide));
  for (let k = 0; k < tries; k++) {
    const a = draw(held.length);
    // At first any two, later only near ones.
    const reach = Math.max(1, Math.ceil(Math.max(wide, high) * (1 - k / tries)));
    const [x, y] = spot(a), other = [x + draw(2 * reach + 1) - reach, y + draw(2 * reach + 1) - reach];
    if (other[0] < 0 || other[1] < 0 || other[0] >= wide || other[1] >= high) continue;
    const b = other[1] * wide + other[0], pair = /** @type {number[]} */ ([held[a], held[b]].filter(it => it !== null));
    if (a === b || !pair.length) continue;
    const before = pair.reduce((sum, element) => sum + cost(element), 0);
    exchange(a, b);
    const heat = 1.2 * (1 - k / tries) ** 2, after = pair.reduce((sum, element) => sum + cost(element), 0);
    if (after - before > heat * (draw(1000) / 1000)) exchange(a, b);
  }
  const cells = new Map(/** @type {[number, number[]][]} */ ([...held.entries()].flatMap(([slot, element]) => element === null ? [] : [[element, spot(slot)]])));
  const [lefts, tops] = [0, 1].map(axis => widened(it, cells, axis, axis ? high : wide));
  for (const [element, [x, y]] of cells) at[element] = [lefts[x], top + tops[y]];
}
// Positions of the lines of elements along one axis. A channel between two lines is the wider, the more wires run along it: those that leave
// or enter beside it and lead to another line of the other axis.
/** @type {(it: {targets: number[]}, cells: Map<number, number[]>, axis: number, count: number) => number[]} */
function widened(it, cells, axis, count) {
  const loads = new Array(count + 1).fill(0);
  for (const [out, into] of it.targets.entries()) {
    const [from, to] = [cells.get(out >> 2), cells.get(into >> 2)];
    if (into < 0 || !from || !to || from[1 - axis] === to[1 - axis]) continue;
    // The channel beside the element that the wire leaves: before it on the north or west side, else behind it.
    loads[from[axis] + (STEP[out & 3][axis] < 0 ? 0 : 1)]++;
  }
  const found = [0];
  for (let k = 1; k < count; k++) found.push(found[k - 1] + BOX + Math.max(LEAST_GAP, Math.min(MOST_CHANNEL, Math.round(CHANNEL + CHANNEL_BY_WIRES * loads[k]))));
  return found;
}
// Elements in the order in which wires lead from the start, then the rest.
/** @type {(it: {targets: number[], start: number}, others: number[]) => number[]} */
function inOrder(it, others) {
  const wanted = new Set(others), found = new Set(), begins = [it.start >> 2, ...others];
  for (const first of begins) {
    const way = [first];
    for (const element of way) {
      if (found.has(element)) continue;
      found.add(element);
      for (let side = 0; side < 4; side++) {
        const into = it.targets[4 * element + side];
        if (into >= 0 && !found.has(into >> 2)) way.push(into >> 2);
      }
    }
  }
  return [...found].filter(element => wanted.has(element));
}
