// A bank of rotary elements: its columns with their bars and wires, the mark, the signal and the way behind it.
import {escaped} from "./state.js";
import {n1, svg} from "./svg.js";
import {bottomOf, markedIn, placeIn} from "./layout.js";
import {columnSaid, lineSaid} from "./module_words.js";
import {bankName} from "./words.js";

// How much wider than high a place of the grid is, at least; and the room above it.
export const WIDE = 1.5, TOP = 27;
// How wide a letter of a label is, and where the two lines of labels stand.
const LETTER_WIDTH = 6.4, LABEL_LINES = [10, 21];
const [NORTH, EAST, SOUTH, WEST] = [0, 1, 2, 3], STEPS = [[0, -1], [1, 0], [0, 1], [-1, 0]];
// The strokes of the way, from the newest part on: up to which age, how wide, how strong.
const TRAIL = [[6, .11, 1], [24, .09, .7], [90, .07, .42], [Infinity, .05, .22]];

// Where things stand: `pitch` is the distance of two rows; the part that is seen begins at the column and row x, y.
class Grid {
  /** @param {import("./run.js").Run} run @param {Record<string, any>} how */
  constructor(run, {bank, width, height, pitch, x, y, wide, left, isPlain = false}) {
    this.run = run;
    // Whether the elements that stand as they stood are one path: a thousand boxes take far longer to draw than one.
    this.isPlain = isPlain;
    this.bank = bank;
    this.rows = bank.rows;
    this.width = width;
    this.height = height;
    this.left = left;
    this.P = pitch;
    this.X = pitch * wide;
    this.h = pitch * .37;
    this.a = pitch * .15;
    this.X0 = left + this.X / 2 - x * this.X;
    this.Y0 = TOP + pitch / 2 - y * pitch;
    this.first = [Math.max(0, Math.floor(x)), Math.max(0, Math.floor(y))];
    this.last = [Math.min(bank.columns - 1, Math.ceil(x + (width - left) / this.X)), Math.min(bank.rows, Math.ceil(y + height / pitch))];
    const {h, a} = this;
    this.ports = {in: [[a, -h], [h, a], [-a, h], [-h, -a]], out: [[-a, -h], [h, -a], [a, h], [-h, a]]};
  }
  cx(column) { return this.X0 + column * this.X; }
  cy(row) { return this.Y0 + row * this.P; }
  // The column and the row of an element.
  at(element) {
    const {column, row} = placeIn(this.bank, element);
    return [column, row];
  }
  has(line) {
    const number = (line >> 2) - this.bank.base;
    return line >= 0 && number >= 0 && number < this.bank.count;
  }
  isSeen(column) { return column >= this.first[0] && column <= this.last[0]; }
  port(line, way) {
    const [c, r] = this.at(line >> 2), [dx, dy] = this.ports[way][line & 3];
    return [n1(this.cx(c) + dx), n1(this.cy(r) + dy)];
  }
  // The path of a wire from an output to an input of this bank, from where the output stands on.
  wire(out, into) {
    const {P, rows} = this, [c, r] = this.at(out >> 2), [d, s] = this.at(into >> 2), [u, v] = this.port(out, "out"), [p, q] = this.port(into, "in");
    const above = n1(this.cy(0) - P * .44);
    if (c === d && r === rows && s === rows) return `L${u},${n1(v + P * .14)}L${p},${n1(v + P * .14)}L${p},${q}`;
    if (c === d && r === rows && (out & 3) === WEST) {
      const aside = n1(this.cx(c) - P * .52);
      return `L${aside},${v}L${aside},${above}L${p},${above}L${p},${q}`;
    }
    if (c === d && s === rows && (into & 3) === EAST) {
      const aside = n1(this.cx(c) + P * .52);
      return `L${u},${above}L${aside},${above}L${aside},${q}L${p},${q}`;
    }
    if (c === d || (d === c + 1 && r === s && (out & 3) === EAST)) return `L${p},${q}`;
    const bend = Math.max(P * .45, Math.min(P * 1.6, Math.abs(p - u) / 5));
    return `C${n1(u - bend)},${v} ${n1(p + bend)},${q} ${p},${q}`;
  }
  whole(out, into) {
    const [u, v] = this.port(out, "out");
    return `M${u},${v}${this.wire(out, into)}`;
  }
}

export function bankPicture(run, {bars, place, hasLeft, trail, clip: name = "seen", ...how}) {
  const grid = new Grid(run, {wide: WIDE, ...how}), {bank, width, height, left, P} = grid;
  const {ground, wires, stubs, boxes, standing, plain} = columnsPicture(grid, bars, place, hasLeft);
  const edge = left - P * .32, one = plain && `<path class="element" d="${plain}"/>`;
  const clip = `<defs><clipPath id="${name}"><rect x="${edge}" y="${TOP - 4}" width="${width - edge}" height="${height}"/></clipPath></defs>`;
  const bodies = `${ground}<path class="stub" d="${stubs}"/><path class="wire" d="${wires}"/>${one}${boxes}`
    + `<path class="bar" stroke-width="${n1(Math.max(1.4, P * .1))}" d="${standing}"/>${wayPicture(grid, trail, hasLeft)}${signalPicture(grid, place, hasLeft)}`;
  const back = name === "seen" ? "" : `<rect class="box" width="${width}" height="${height}"/>`;
  return svg(width, height, `${back}${clip}<g clip-path="url(#${name})">${bodies}</g>${labelsPicture(grid, bars, name === "seen" ? place : null, name !== "seen")}`, "bank",
             `role="img" aria-label="the bank of ${escaped(bankName(bank))}"`);
}

function columnsPicture(grid, bars, place, hasLeft) {
  const {run, bank, rows, P, X, h, a} = grid, {targets, sources} = run.circuit, last = bank.columns - 1;
  const it = {ground: "", wires: "", stubs: "", boxes: "", standing: "", plain: ""};
  for (let c = grid.first[0]; c <= grid.last[0]; c++) {
    const bottom = bank.base + bottomOf(bank, c), top = bottom - rows, isMarked = bars?.[bottom - bank.base] === 1;
    it.ground += `<rect class="column${isMarked ? " marked" : ""}" x="${n1(grid.cx(c) - P * .56)}" y="${n1(grid.cy(0) - P * .47)}" width="${n1(P * 1.12)}" height="${n1((rows + .96) * P)}" rx="${n1(P * .2)}"/>`;
    for (const out of [4 * bottom + WEST, 4 * bottom + SOUTH, 4 * top + NORTH]) if (grid.has(targets[out])) it.wires += grid.whole(out, targets[out]);
    for (let r = grid.first[1]; r <= grid.last[1]; r++) {
      const x = grid.cx(c), y = grid.cy(r), element = top + r, isRow = r < rows, bar = bars?.[element - bank.base];
      if (isRow) it.wires += `M${n1(x + a)},${n1(y + h)}v${n1(P - 2 * h)}M${n1(x - a)},${n1(y + h)}v${n1(P - 2 * h)}`;
      if (isRow && c < last) it.wires += `M${n1(x + h)},${n1(y - a)}h${n1(X - 2 * h)}`;
      if (isRow && c === 0) it.stubs += `M${n1(x - h)},${n1(y - a)}h${n1(-P * .55)}`;
      if (isRow && c === last) it.stubs += `M${n1(x + h)},${n1(y - a)}h${n1(P * .5)}`;
      if (isRow && targets[4 * element + WEST] >= 0) it.stubs += `M${n1(x - h)},${n1(y + a)}h${n1(-P * .26)}`;
      if (isRow && sources[4 * element + EAST] >= 0) it.stubs += `M${n1(x + h)},${n1(y + a)}h${n1(P * .26)}`;
      const kind = `${bar === 1 && isRow ? " turned" : ""}${!hasLeft && element === place >> 2 ? " now" : ""}`;
      if (grid.isPlain && !kind) it.plain += `M${n1(x - h)},${n1(y - h)}h${n1(2 * h)}v${n1(2 * h)}h${n1(-2 * h)}z`;
      else it.boxes += `<rect class="element${kind}" data-element="${element}" x="${n1(x - h)}" y="${n1(y - h)}" width="${n1(2 * h)}" height="${n1(2 * h)}" rx="${n1(P * .08)}"/>`;
      if (bar === 0) it.standing += `M${n1(x)},${n1(y - h * .62)}v${n1(h * 1.24)}`;
      if (bar === 1) it.standing += `M${n1(x - h * .62)},${n1(y)}h${n1(h * 1.24)}`;
    }
  }
  return it;
}

// The way behind the signal, the newest part strongest.
function wayPicture(grid, trail, hasLeft) {
  const {sources} = grid.run.circuit, paths = TRAIL.map(() => "");
  for (let k = 0; k + 1 < trail.length; k++) {
    const isLast = hasLeft && k + 2 === trail.length, out = isLast ? trail[k + 1] : sources[trail[k + 1]];
    if (!grid.has(trail[k]) || !grid.has(out)) continue;
    const [c, r] = grid.at(trail[k] >> 2), goesOn = grid.has(trail[k + 1]);
    if (!grid.isSeen(c) && !(goesOn && grid.isSeen(grid.at(trail[k + 1] >> 2)[0]))) continue;
    const [p, q] = grid.port(trail[k], "in"), [u, v] = grid.port(out, "out");
    const turn = ((trail[k] & 3) ^ (out & 3)) === 2 ? `L${u},${v}` : `Q${n1(grid.cx(c))},${n1(grid.cy(r))} ${u},${v}`;
    const age = trail.length - 2 - k, level = TRAIL.findIndex(([most]) => age < most);
    paths[level] += `M${p},${q}${turn}${!isLast && goesOn ? grid.wire(out, trail[k + 1]) : ""}`;
  }
  const stroke = (path, level) => path && `<path class="trail" stroke-width="${n1(Math.max(1.3, grid.P * TRAIL[level][1]))}" opacity="${TRAIL[level][2]}" d="${path}"/>`;
  return paths.map(stroke).reverse().join("");
}
function signalPicture(grid, place, hasLeft) {
  if (place === null || !grid.has(place)) return "";
  const {P} = grid, [x, y] = grid.port(place, hasLeft ? "out" : "in"), [dx, dy] = STEPS[place & 3], gap = P * .12;
  const at = `cx="${n1(x + dx * gap)}" cy="${n1(y + dy * gap)}"`;
  return `<circle class="ring" ${at} r="${n1(Math.max(5, P * .24))}"/><circle class="signal" ${at} r="${n1(Math.max(3, P * .14))}"/>`;
}

// The label above a column, and what is said of it.
function labelOf(run, bank, column) {
  const {label, words} = columnSaid(run, bank, column);
  return [label, bank.kind === "control" ? `state ${column + 1}: ${words}` : words];
}
const longestLabel = (run, bank) => run.longestLabel ??= Array.from({length: bank.columns}, (_, column) => columnSaid(run, bank, column).label.length)
  .reduce((longest, it) => Math.max(longest, it), 3);
// Above each column its state; beside each row the name of its line.
function labelsPicture(grid, bars, place, isSlice) {
  const {run, bank, rows, width, height, left, P} = grid;
  /** @type {(words: string[], isNow: boolean, anchor: string, x: number, y: number) => string} */
  const label = ([text, title], isNow, anchor, x, y) => `<text class="small mono${isNow ? "" : " quiet"}" ${isNow ? 'font-weight="700"' : ""} text-anchor="${anchor}" x="${n1(x)}" y="${n1(y)}">`
    + `${title ? `<title>${escaped(title)}</title>` : ""}${escaped(text)}</text>`;
  // Names of the control's states stand on two lines in turn, and as many as have room.
  const isControl = bank.kind === "control", every = isControl ? Math.max(1, Math.ceil((longestLabel(run, bank) * LETTER_WIDTH + 3) / (2 * grid.X))) : 1;
  const high = c => isControl && Math.floor(c / every) % 2 ? LABEL_LINES[0] : LABEL_LINES[1];
  const at = bars ? markedIn(bank, bars) : -1, marked = grid.isSeen(at) ? at : -Infinity;
  let body = "";
  for (let c = grid.first[0]; c <= grid.last[0]; c++) {
    const x = grid.cx(c), isNow = c === marked, isOut = c % every !== 0 || every > 1 && Math.abs(c - marked) < 2 * every;
    if (x <= left - P * .2 || x >= width || !isNow && (isOut || isSlice)) continue;
    const words = labelOf(run, bank, c);
    if (x + words[0].length * LETTER_WIDTH / 2 < width) body += label(words, isNow, "middle", x, high(c));
  }
  for (let r = grid.first[1]; r <= Math.min(grid.last[1], rows - 1) && !isSlice; r++) {
    const y = grid.cy(r), isNow = place === 4 * (bank.base + r) + WEST;
    const line = lineSaid(run.layout, bank, r);
    if (y > TOP && y < height - 6) body += label([line.name, `port ${r + 1}: ${line.words}`], isNow, "end", left - P * .32 - 3, y + 3);
  }
  return body;
}

// The whole bank in little: columns, the mark, bars that lie, the signal, and the part that is seen.
export function overviewPicture(run, {bank, bars, place, trail, width, height, seen: view}) {
  const w = width / bank.columns, h = height / (bank.rows + 1), column = k => Math.floor(k / (bank.rows + 1)), row = k => k % (bank.rows + 1);
  const inBank = line => line === null || (line >> 2) < bank.base || (line >> 2) >= bank.base + bank.count ? null : (line >> 2) - bank.base;
  const middle = k => [n1((column(k) + .5) * w), n1((row(k) + .5) * h)];
  let body = `<rect class="column" width="${width}" height="${height}" rx="3"/>`, lying = "", way = "", last = null;
  bars?.forEach((bar, k) => {
    if (!bar) return;
    if (row(k) === bank.rows) body += `<rect class="column marked" x="${n1(column(k) * w)}" y="0" width="${n1(Math.max(2, w))}" height="${height}"/>`;
    else lying += `M${n1(column(k) * w)},${n1(row(k) * h)}h${n1(Math.max(1.5, w * .8))}v${n1(Math.max(1.2, h * .8))}h${n1(-Math.max(1.5, w * .8))}z`;
  });
  for (const line of trail) {
    const k = inBank(line), point = k === null ? null : middle(k).join();
    if (point !== null && point !== last) way += (last === null ? "M" : "L") + point;
    last = point;
  }
  body += `<path d="${lying}" fill="var(--markline)"/><path class="trail" stroke-width="1" opacity=".55" d="${way}"/>`;
  const now = inBank(place);
  if (now !== null) body += `<circle class="signal" cx="${middle(now)[0]}" cy="${middle(now)[1]}" r="3.4"/>`;
  const [x, y] = [view.x * w, view.y * h], wide = Math.min(width - 1.2 - x, view.columns * w), high = Math.min(height - 1.2 - y, view.rows * h);
  body += `<rect class="frame" x="${n1(Math.max(.6, x))}" y="${n1(Math.max(.6, y))}" width="${n1(wide)}" height="${n1(high)}" rx="2"/>`;
  return svg(width, height, body, "overview", 'aria-hidden="true"');
}
