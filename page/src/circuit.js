// The picture of any circuit, from its configuration text: elements on a grid, columns and banks together, and wires on
// tracks between them.
import {readCircuit, SIDES} from "./texts.js";

const BOX = 46, TRACK = 9, MARGIN = 15;
const STEP = {n: [0, -1], e: [1, 0], s: [0, 1], w: [-1, 0]};
const OPPOSITE = {n: "s", s: "n", e: "w", w: "e"};
const OFFSETS = {e: {in: 6, out: -13}, w: {in: -6, out: 13}, s: {in: 6, out: -13}, n: {in: -6, out: 13}};

const lineNamed = word => ({element: parseInt(word), side: word.slice(-1)});
const lineAt = place => place < 0 ? null : {element: place >> 2, side: SIDES[place & 3]};
export const lineName = line => `${line.element}.${line.side}`;
const same = (a, b) => a && b && a.element === b.element && a.side === b.side;

// A configuration text, which the program has judged already.
export function readConfiguration(text) {
  const head = text.split("\n", 6).map(line => line.split(" ")), circuit = readCircuit(text), targets = [];
  for (let element = 0; element < circuit.count; element++) {
    targets.push([0, 1, 2, 3].map(side => lineAt(circuit.targets[4 * element + side])));
  }
  return {start: lineNamed(head[2][1]), end: lineNamed(head[3][1]), steps: head[4][1], hasLeft: head[5][0] === "left",
          place: lineNamed(head[5][1]), bars: [...circuit.bars].map(bar => bar ? "H" : "V"), targets};
}
const targetOf = (it, line) => it.targets[line.element][SIDES.indexOf(line.side)];
function wiresOf(it) {
  const found = [];
  it.targets.forEach((row, element) => row.forEach((into, k) => into && found.push([{element, side: SIDES[k]}, into])));
  return found;
}

// ---- columns and banks

function columnAbove(it, bottom) {
  if (!same(targetOf(it, {element: bottom, side: "s"}), {element: bottom, side: "s"})) return null;
  const top = targetOf(it, {element: bottom, side: "w"});
  if (!top || top.side !== "n" || !same(targetOf(it, {element: top.element, side: "n"}), {element: bottom, side: "e"})) return null;
  const rows = [], seen = new Set([bottom]);
  let above = null, here = top.element;
  while (here !== bottom) {
    if (seen.has(here) || (above !== null && !same(targetOf(it, {element: here, side: "n"}), {element: above, side: "s"}))) return null;
    rows.push(here);
    seen.add(here);
    const below = targetOf(it, {element: here, side: "s"});
    if (!below || below.side !== "n") return null;
    [above, here] = [here, below.element];
  }
  if (!rows.length || !same(targetOf(it, {element: bottom, side: "n"}), {element: above, side: "s"})) return null;
  return {rows, bottom, elements: [...rows, bottom]};
}
export const columnsOf = it => it.bars.map((_, element) => columnAbove(it, element)).filter(column => column);

function nextColumn(it, column, columnOf) {
  const following = new Set();
  for (const [place, row] of column.rows.entries()) {
    const goal = targetOf(it, {element: row, side: "e"});
    if (!goal || goal.side !== "w" || !columnOf.has(goal.element)) return null;
    const other = columnOf.get(goal.element);
    if (other.rows.length !== column.rows.length || other.rows[place] !== goal.element) return null;
    following.add(other.rows[0]);
  }
  return following.size === 1 ? columnOf.get([...following][0]) : null;
}
export function banksOf(it, columns) {
  const columnOf = new Map(columns.flatMap(column => column.rows.map(row => [row, column])));
  const following = new Map(), fed = new Set();
  for (const column of columns) {
    const other = nextColumn(it, column, columnOf);
    if (other && other.bottom !== column.bottom) {
      following.set(column.bottom, other);
      fed.add(other.bottom);
    }
  }
  const banks = [], placed = new Set();
  const isFed = column => Number(fed.has(column.bottom));
  for (const column of [...columns].sort((a, b) => isFed(a) - isFed(b) || a.bottom - b.bottom)) {
    if (placed.has(column.bottom)) continue;
    const chain = [column], seen = new Set([column.bottom]);
    for (;;) {
      const more = following.get(chain.at(-1).bottom);
      if (!more || seen.has(more.bottom) || placed.has(more.bottom)) break;
      chain.push(more);
      seen.add(more.bottom);
    }
    for (const bottom of seen) placed.add(bottom);
    banks.push({columns: chain, elements: chain.flatMap(part => part.elements), height: chain[0].rows.length});
  }
  return banks.sort((a, b) => Math.min(...a.elements) - Math.min(...b.elements));
}

// ---- where elements stand, and how wires run

function gridOf(count, banks) {
  const places = new Array(count).fill(null);
  const inBanks = banks.reduce((sum, bank) => sum + bank.elements.length, 0);
  const widest = Math.max(0, ...banks.map(bank => bank.columns.length));
  const limit = Math.max(widest, 12, Math.ceil(Math.sqrt(1.5 * inBanks)));
  let across = 0, top = 0, tallest = 0;
  for (const bank of banks) {
    if (across && across + bank.columns.length > limit) [across, top, tallest] = [0, top + tallest, 0];
    for (const column of bank.columns) {
      column.elements.forEach((element, row) => { places[element] = [across, top + row]; });
      across += 1;
    }
    tallest = Math.max(tallest, bank.height + 1);
  }
  const others = [...places.keys()].filter(element => places[element] === null);
  const width = others.length <= 6 ? others.length : Math.ceil(Math.sqrt(1.6 * others.length));
  others.forEach((element, number) => { places[element] = [number % width, top + tallest + Math.floor(number / width)]; });
  return places;
}
const channelOf = ([x, y], side) => "ew".includes(side) ? [true, x + (side === "e")] : [false, y + (side === "s")];
const alongOf = (place, upright) => 2 * (upright ? place[1] : place[0]) + 1;
const channelKey = (upright, channel) => `${upright ? "u" : "l"}${channel}`;

export function planOf(it) {
  const banks = banksOf(it, columnsOf(it)), places = gridOf(it.bars.length, banks), wires = wiresOf(it);
  const straight = new Set(), offsets = new Map(), load = new Map(), pieces = new Map();
  const offset = (line, way) => offsets.get(lineName(line) + way) ?? OFFSETS[line.side][way];
  for (const [out, into] of wires) {
    const [dx, dy] = STEP[out.side], [x, y] = places[out.element], [a, b] = places[into.element];
    if (into.side === OPPOSITE[out.side] && a === x + dx && b === y + dy) {
      straight.add(lineName(out));
      offsets.set(lineName(into) + "in", OFFSETS[out.side].out);
    }
  }
  const last = [0, 1].map(k => Math.max(...places.map(place => place[k])) + 1);
  const piece = (upright, channel, first, second) => {
    load.set(channelKey(upright, channel), (load.get(channelKey(upright, channel)) ?? 0) + 1);
    return {upright, channel, least: Math.min(first, second), greatest: Math.max(first, second), track: -1};
  };
  const nearest = (upright, first, second) => {
    const least = Math.min(first, second), greatest = Math.max(first, second);
    let best = 0, cheapest = Infinity;
    const from = Math.max(0, Math.floor(least / 2) - 1), to = Math.min(last[upright ? 0 : 1], Math.floor(greatest / 2) + 2);
    for (let channel = from; channel <= to; channel++) {
      const at = 2 * channel, taken = (load.get(channelKey(upright, channel)) ?? 0) / 3;
      const cost = Math.max(0, least - at) + Math.max(0, at - greatest) + taken;
      if (cost < cheapest) [best, cheapest] = [channel, cost];
    }
    return best;
  };
  const way = (out, into) => {
    const [firstUp, first] = channelOf(places[out.element], out.side), [lastUp, goal] = channelOf(places[into.element], into.side);
    const here = alongOf(places[out.element], firstUp), there = alongOf(places[into.element], lastUp);
    if (firstUp !== lastUp) return [piece(firstUp, first, here, 2 * goal), piece(lastUp, goal, 2 * first, there)];
    if (first === goal) return [piece(firstUp, first, here, there)];
    const across = nearest(!firstUp, here, there);
    return [piece(firstUp, first, here, 2 * across), piece(!firstUp, across, 2 * first, 2 * goal), piece(lastUp, goal, 2 * across, there)];
  };
  const apart = (out, into, k) => Math.abs(places[out.element][k] - places[into.element][k]);
  const length = ([out, into]) => apart(out, into, 0) + apart(out, into, 1);
  for (const [out, into] of wires.filter(([out]) => !straight.has(lineName(out))).sort((a, b) => length(a) - length(b)))
    pieces.set(lineName(out), way(out, into));
  const taken = new Map();
  for (const it of [...pieces.values()].flat().sort((a, b) => (a.greatest - a.least) - (b.greatest - b.least) || a.least - b.least)) {
    const name = channelKey(it.upright, it.channel);
    if (!taken.has(name)) taken.set(name, []);
    const tracks = taken.get(name);
    let number = tracks.findIndex(track => track.every(([least, greatest]) => it.greatest < least || greatest < it.least));
    if (number < 0) number = tracks.push([]) - 1;
    tracks[number].push([it.least, it.greatest]);
    it.track = number;
  }
  /** @type {(count: number, upright: boolean) => [number[], number[], number]} */
  const axis = (count, upright) => {
    const channels = [], boxes = [];
    let at = 0;
    for (let number = 0; number <= count; number++) {
      channels.push(at);
      at += 2 * MARGIN + Math.max(0, (taken.get(channelKey(upright, number))?.length ?? 0) - 1) * TRACK;
      boxes.push(at);
      at += BOX;
    }
    return [channels, boxes.slice(0, count), at - BOX];
  };
  const [across, lefts, width] = axis(last[0], true), [down, tops, height] = axis(last[1], false);
  const middles = places.map(([x, y]) => [lefts[x] + BOX / 2, tops[y] + BOX / 2]);
  const port = (line, kind) => {
    const [x, y] = middles[line.element], [dx, dy] = STEP[line.side], far = offset(line, kind);
    return [x + dx * BOX / 2 + (dx === 0 ? far : 0), y + dy * BOX / 2 + (dy === 0 ? far : 0)];
  };
  const routes = wires.map(([out, into]) => {
    const start = port(out, "out"), goal = port(into, "in");
    if (straight.has(lineName(out))) return {out, into, points: [start, goal]};
    const points = [start], mine = pieces.get(lineName(out));
    let [x, y] = start;
    for (const it of mine) {
      if (it.upright) x = across[it.channel] + MARGIN + it.track * TRACK;
      else y = down[it.channel] + MARGIN + it.track * TRACK;
      points.push([x, y]);
    }
    points.push(mine.at(-1).upright ? [x, goal[1]] : [goal[0], y], goal);
    return {out, into, points};
  });
  const edges = {w: lefts[0], n: tops[0], e: width - across[last[0]], s: height - down[last[1]]};
  const reach = line => {
    const [upright, channel] = channelOf(places[line.element], line.side);
    return channel === 0 || channel === last[upright ? 0 : 1] ? edges[line.side] + 4 : 22;
  };
  return {banks, middles, routes, width, height, port, reaches: {start: reach(it.start), end: reach(it.end)}};
}

// ---- the picture

// The letters of an element's sides, where it is the only one: its lines are named by them.
const MOST_LETTERED = 1;
function sideLetters(x, y) {
  const half = BOX / 2, at = {n: [half - 5, -half - 5], e: [half + 8, half - 3], s: [5 - half, half + 13], w: [-half - 8, 11 - half]};
  return Object.entries(at).map(([side, [dx, dy]]) => `<text class="letter" text-anchor="middle" x="${x + dx}" y="${y + dy}">${side}</text>`).join("");
}

/** @type {(point: number[], side: string, size?: number) => string} */
function arrowTip([x, y], side, size = 5) {
  const [dx, dy] = STEP[side], base = [x + dx * 1.6 * size, y + dy * 1.6 * size];
  return `M${x},${y} L${base[0] - dy * size * .7},${base[1] + dx * size * .7} L${base[0] + dy * size * .7},${base[1] - dx * size * .7} z`;
}
// The SVG text of a configuration on its plan.
/** @param {any} it @param {any} plan @param {Set<string>} past @param {number | null} turned */
export function circuitSvg(it, plan, past = new Set(), turned = null) {
  let body = "";
  for (const bank of plan.banks) for (const column of bank.columns) {
    const points = column.elements.map(element => plan.middles[element]), reach = BOX / 2 + 5;
    const left = Math.min(...points.map(p => p[0])) - reach, top = Math.min(...points.map(p => p[1])) - reach;
    const right = Math.max(...points.map(p => p[0])) + reach, bottom = Math.max(...points.map(p => p[1])) + reach;
    body += `<rect class="span${it.bars[column.bottom] === "H" ? " marked" : ""}" x="${left}" y="${top}" width="${right - left}" height="${bottom - top}" rx="6"/>`;
  }
  const now = it.hasLeft ? it.place : plan.routes.find(route => same(route.into, it.place))?.out;
  const isNow = route => same(route.out, now) ? 1 : 0;
  for (const route of [...plan.routes].sort((a, b) => isNow(a) - isNow(b))) {
    const path = "M" + route.points.map(point => point.join()).join(" L");
    const kind = same(route.out, now) ? "now" : past.has(lineName(route.out)) ? "past" : "";
    body += `<g class="${kind}"><title>${lineName(route.out)} leads to ${lineName(route.into)}</title><path class="halo" d="${path}"/>`
      + `<path class="wire" d="${path}"/><path class="tip" d="${arrowTip(route.points.at(-1), route.into.side)}"/></g>`;
  }
  for (const [name, line, way] of [["start", it.start, "in"], ["end", it.end, "out"]]) {
    const [x, y] = plan.port(line, way), [dx, dy] = STEP[line.side], far = [x + dx * plan.reaches[name], y + dy * plan.reaches[name]];
    const head = way === "in" ? arrowTip([x, y], line.side) : arrowTip(far, OPPOSITE[line.side]);
    const below = dx ? 4 : dy < 0 ? -4 : 14, anchor = {w: "end", e: "start"}[line.side] ?? "middle";
    body += `<path class="wire" d="M${x},${y} L${far.join()}"/><path class="tip" d="${head}"/>`
      + `<text x="${far[0] + dx * 4}" y="${far[1] + below}" text-anchor="${anchor}">${name}</text>`;
  }
  it.bars.forEach((bar, element) => {
    const [x, y] = plan.middles[element], reach = BOX / 2 - 9;
    const left = x - BOX / 2, top = y - BOX / 2, turn = bar === "H" ? "" : " rotate(90)";
    body += `<g class="${element === turned ? "turned" : ""}"><title>element ${element}</title>`
      + `<rect class="box" x="${left}" y="${top}" width="${BOX}" height="${BOX}" rx="5"/>`
      + `<line class="bar" x1="${-reach}" x2="${reach}" transform="translate(${x} ${y})${turn}"/>`
      + `<text x="${left + 3}" y="${top + 12}">${element}</text>${it.bars.length <= MOST_LETTERED ? sideLetters(x, y) : ""}</g>`;
  });
  const [x, y] = plan.port(it.place, it.hasLeft ? "out" : "in"), [dx, dy] = STEP[it.place.side];
  body += `<g transform="translate(${x + dx * 9} ${y + dy * 9})"><circle class="ring" r="9"/><circle class="signal" r="5.5"/></g>`;
  const wide = plan.width + 92, high = plan.height + 60;
  return `<svg class="circuit" xmlns="http://www.w3.org/2000/svg" width="${wide}" height="${high}" viewBox="-46 -30 ${wide} ${high}" role="img" aria-label="the circuit">${body}</svg>`;
}
