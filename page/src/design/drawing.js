// A drawn circuit: bars, wires, the signal, and the position of each element. A drawing is immutable: an action returns a new one. A port is
// the number 4E + side, as in the other modules; the output and the input of one side have one number. This module does not know what a bar
// does to a signal.
import {placeName, SIDES} from "../texts.js";

// The size of the box of an element in units of the grid, and the least distance of two boxes.
export const BOX = 4;
const APART = 2;
// The limit of the editor; the program takes far more.
export const MOST_DRAWN = 600;

/** @type {Drawing} */
export const EMPTY = {bars: [], targets: [], at: [], start: -1, end: -1, place: -1, hasLeft: false, steps: "0"};

/** @type {WeakMap<Drawing, Int32Array>} */
const kept = new WeakMap();
// For each input port the output that leads there, or -1.
/** @type {(it: Drawing) => Int32Array} */
export function sourcesOf(it) {
  let found = kept.get(it);
  if (!found) {
    found = new Int32Array(it.targets.length).fill(-1);
    for (const [out, into] of it.targets.entries()) if (into >= 0) found[into] = out;
    kept.set(it, found);
  }
  return found;
}
/** @type {(it: Drawing) => number[]} */
export const freeInputs = it => [...sourcesOf(it).keys()].filter(port => sourcesOf(it)[port] < 0);
/** @type {(it: Drawing) => number[]} */
export const freeOutputs = it => [...it.targets.keys()].filter(port => it.targets[port] < 0);
/** @type {(it: Drawing) => number} */
export const wireCount = it => it.targets.reduce((sum, into) => sum + Number(into >= 0), 0);

// ---- the invariant

// Start and end are free ports, and the signal is before an existing input. A change starts a new run with the present bars; a signal that
// had left enters at the start again.
/** @type {(it: Drawing) => Drawing} */
function settled(it) {
  if (!it.bars.length) return EMPTY;
  const sources = sourcesOf(it), count = it.targets.length, all = [...it.targets.keys()];
  let {start, end, place, hasLeft} = it;
  if (place < 0 || place >= count) [place, hasLeft] = [-1, false];
  /** @type {(port: number) => boolean} */
  const isFreeIn = port => port >= 0 && port < count && sources[port] < 0;
  if (!isFreeIn(start)) start = !hasLeft && isFreeIn(place) ? place : all.find(isFreeIn) ?? -1;
  /** @type {(port: number) => boolean} */
  const isFreeOut = port => port >= 0 && port < count && it.targets[port] < 0;
  if (!isFreeOut(end)) end = hasLeft ? place : isFreeOut(start ^ 2) ? start ^ 2 : all.find(isFreeOut) ?? -1;
  if (place < 0 || hasLeft) [place, hasLeft] = [start, false];
  return {...it, start, end, place, hasLeft, steps: "0"};
}

// ---- elements

/** @type {(it: Drawing, group: Group, at: number[]) => Drawing} */
export function addGroup(it, group, [x, y]) {
  const base = it.targets.length;
  const made = settled({
    ...it, bars: [...it.bars, ...group.bars],
    targets: [...it.targets, ...group.targets.map(into => into < 0 ? -1 : base + into)],
    at: [...it.at, ...group.at.map(([dx, dy]) => [x + dx, y + dy])],
    start: it.bars.length ? it.start : group.start ?? 3, end: it.bars.length ? it.end : group.end ?? 1,
    place: it.bars.length ? it.place : group.start ?? 3,
  });
  return made;
}
/** @type {(bar: Bar) => Group} */
export const oneElement = bar => ({bars: [bar], targets: [-1, -1, -1, -1], at: [[0, 0]]});
/** @type {(it: Drawing, elements: Set<number>) => Drawing} */
export function turned(it, elements) {
  return settled({...it, bars: it.bars.map((bar, k) => elements.has(k) ? bar === "H" ? "V" : "H" : bar)});
}
/** @type {(it: Drawing, elements: Set<number>, by: number[]) => Drawing} */
export const moved = (it, elements, [dx, dy]) =>
  ({...it, at: it.at.map((at, k) => elements.has(k) ? [at[0] + dx, at[1] + dy] : at)});

// Deletes elements; the later ones are renumbered.
/** @type {(it: Drawing, elements: Set<number>) => Drawing} */
export function without(it, elements) {
  let count = 0;
  const number = it.bars.map((_, k) => elements.has(k) ? -1 : count++);
  /** @type {(port: number) => number} */
  const port = old => old < 0 || number[old >> 2] < 0 ? -1 : 4 * number[old >> 2] + (old & 3);
  /** @template T @param {T[]} list @returns {T[]} */
  const left = list => list.filter((_, k) => !elements.has(k));
  return settled({
    ...it, bars: left(it.bars), at: left(it.at), targets: it.targets.filter((_, k) => !elements.has(k >> 2)).map(port),
    start: port(it.start), end: port(it.end), place: port(it.place), hasLeft: it.hasLeft && port(it.place) >= 0,
  });
}
// Elements with the wires between them, to be added elsewhere.
/** @type {(it: Drawing, elements: Set<number>) => Group} */
export function groupOf(it, elements) {
  const listed = [...elements].sort((a, b) => a - b), number = new Map(listed.map((element, k) => [element, k]));
  const [x, y] = [0, 1].map(k => Math.min(...listed.map(element => it.at[element][k])));
  /** @type {(port: number) => number} */
  const port = old => old >= 0 && number.has(old >> 2) ? 4 * Number(number.get(old >> 2)) + (old & 3) : -1;
  return {
    bars: listed.map(element => it.bars[element]), at: listed.map(element => [it.at[element][0] - x, it.at[element][1] - y]),
    targets: listed.flatMap(element => [0, 1, 2, 3].map(side => port(it.targets[4 * element + side]))),
  };
}
// Rotates a part of the drawing by 90° to the right: north becomes east, and a lying bar becomes upright. An element that is rotated with its
// bar behaves as before, so the circuit is the same except for the names of its ports.
/** @type {(it: Drawing, elements: Set<number>) => Drawing} */
export function rotated(it, elements) {
  const boxes = [...elements].map(element => it.at[element]);
  const [[left, right], [top, bottom]] = [0, 1].map(k => [Math.min(...boxes.map(at => at[k])), Math.max(...boxes.map(at => at[k]))]);
  // The centre stays, or moves by half a unit.
  const x0 = Math.round((left + right) / 2), y0 = Math.round((top + bottom) / 2);
  /** @type {(port: number) => number} */
  const port = old => old >= 0 && elements.has(old >> 2) ? (old & ~3) + ((old + 1) & 3) : old;
  const targets = [...it.targets];
  it.targets.forEach((into, out) => { targets[port(out)] = port(into); });
  const made = {
    ...it, targets, bars: it.bars.map((bar, k) => elements.has(k) ? bar === "H" ? "V" : "H" : bar),
    at: it.at.map((at, k) => elements.has(k) ? [x0 - (at[1] - y0), y0 + (at[0] - x0)] : at),
    start: port(it.start), end: port(it.end), place: port(it.place),
  };
  return /** @type {Drawing} */ (settled(/** @type {Drawing} */ (made)));
}
// Whether boxes at these positions are far enough from the others.
/** @type {(it: Drawing, boxes: number[][], others: Set<number>, far: number) => boolean} */
function isClear(it, boxes, others, far) {
  return boxes.every(([x, y]) => it.at.every((at, k) => others.has(k) || Math.abs(at[0] - x) >= far || Math.abs(at[1] - y) >= far));
}
// The least move to a position that is free of all elements except `others`.
/** @type {(it: Drawing, boxes: number[][], others?: Set<number>, apart?: number) => number[]} */
export function clearBy(it, boxes, others = new Set(), apart = APART) {
  for (let ring = 0; ring < 400; ring++) {
    const found = [];
    for (let dx = -ring; dx <= ring; dx++) {
      const dy = ring - Math.abs(dx);
      found.push([dx, dy], [dx, -dy]);
    }
    const by = found.find(([dx, dy]) => isClear(it, boxes.map(([x, y]) => [x + dx, y + dy]), others, BOX + apart));
    if (by) return by;
  }
  return [0, 0];
}

// ---- wires

// Why a wire may not lead from an output to an input, or "".
/** @type {(it: Drawing, out: number, into: number) => string} */
export function wireFault(it, out, into) {
  const fed = sourcesOf(it)[into], last = it.targets[out];
  if (fed === out) return `${placeName(out)} already leads there.`;
  if (fed >= 0) return `Input ${placeName(into)} already has a wire, from ${placeName(fed)}. Each input takes one wire.`;
  if (last < 0 && freeOutputs(it).length === 1) return "The last free port must stay free: a circuit needs one input and one output.";
  return "";
}
// The wire of this output leads to another input now.
/** @type {(it: Drawing, out: number, into: number) => Drawing} */
export function wired(it, out, into) {
  if (wireFault(it, out, into)) return it;
  return settled({...it, targets: it.targets.map((old, k) => k === out ? into : old)});
}
/** @type {(it: Drawing, outs: Set<number>) => Drawing} */
export const unwired = (it, outs) => settled({...it, targets: it.targets.map((old, k) => outs.has(k) ? -1 : old)});

// ---- the signal

// Places the signal before an input; a free input becomes the start.
/** @type {(it: Drawing, into: number) => Drawing} */
export const entered = (it, into) =>
  ({...settled({...it, place: into, hasLeft: false}), start: sourcesOf(it)[into] < 0 ? into : it.start});
/** @type {(it: Drawing, out: number) => Drawing} */
export const endedAt = (it, out) => it.targets[out] < 0 ? {...it, end: out} : it;
/** @type {(it: Drawing, bars: Bar[]) => Drawing} */
export const withBars = (it, bars) => settled({...it, bars});

// ---- as text

// The configuration text, of version 1. An empty drawing has none.
/** @type {(it: Drawing) => string} */
export function textOf(it) {
  if (!it.bars.length) return "";
  const lines = it.bars.map((bar, element) => {
    const outs = [0, 1, 2, 3].map(side => it.targets[4 * element + side]).map(into => into < 0 ? "-" : placeName(into));
    return `e ${element} ${bar} ${outs.join(" ")}`;
  });
  return `rotary 1\nelements ${it.bars.length}\nstart ${placeName(it.start)}\nend ${placeName(it.end)}\nsteps ${it.steps}\n`
    + `${it.hasLeft ? "left" : "at"} ${placeName(it.place)}\n${lines.join("\n")}\n`;
}
export {SIDES};
