// The drawing as SVG: boxes, ports and wires, each a node that is changed only if it differs; the signal, what is being dragged, and the
// visible part.
import {placeName, SIDES} from "../texts.js";
import {desk, shown} from "./desk.js";
import {BOX, sourcesOf, wireFault} from "./drawing.js";
import {columnsIn} from "./lay.js";
import {pathOf, portAt} from "./route.js";

export const UNIT = 12;
const NAMESPACE = "http://www.w3.org/2000/svg";
const LEAST_SIZE = .12, MOST_SIZE = 3, FIT_ROOM = 5, REACH = 10, WIDE = 1100, MOST_COVERED = .55, SPAN = .5;
const DX = [0, 1, 0, -1], DY = [-1, 0, 1, 0];
export const isStill = () => matchMedia("(prefers-reduced-motion: reduce)").matches;

/** @typedef {{node: SVGGElement, kept: Record<string, string>, parts: SVGElement[]}} Kept */
/** @type {{svg: SVGSVGElement, world: SVGGElement, spans: SVGGElement & {kept?: string}, wires: SVGGElement, boxes: SVGGElement, over: SVGGElement, lens: SVGGElement, dots: Element}} */
const seen = /** @type {any} */ ({});
/** @type {Map<number, Kept>} */
const boxNodes = new Map();
/** @type {Map<number, Kept>} */
const wireNodes = new Map();

/** @type {(name: string, more?: Record<string, string | number>, inner?: string) => any} */
function make(name, more = {}, inner = "") {
  const node = document.createElementNS(NAMESPACE, name);
  for (const [key, value] of Object.entries(more)) node.setAttribute(key, String(value));
  if (inner) node.innerHTML = inner;
  return node;
}
// Sets an attribute only if it differs.
/** @type {(it: Kept, node: Element, key: string, value: string, name?: string) => void} */
function set(it, node, key, value, name = key) {
  if (it.kept[key] === value) return;
  it.kept[key] = value;
  node.setAttribute(name, value);
}

/** @type {(room: HTMLElement) => SVGSVGElement} */
export function makeCanvas(room) {
  seen.svg = make("svg", {id: "g-canvas", class: "g-canvas", tabindex: 0, role: "application", "aria-describedby": "g-keys"}, `
    <defs><pattern id="g-dots" width="${UNIT}" height="${UNIT}" patternUnits="userSpaceOnUse"><circle class="dot" cx="0" cy="0" r=".9"/><circle class="dot" cx="${UNIT}" cy="0" r=".9"/><circle class="dot" cx="0" cy="${UNIT}" r=".9"/><circle class="dot" cx="${UNIT}" cy="${UNIT}" r=".9"/></pattern></defs>
    <rect class="ground" width="100%" height="100%" fill="url(#g-dots)"/><g class="world"><g class="spans"></g><g class="wires"></g><g class="boxes"></g><g class="over"></g><g class="lens"></g></g>`);
  /** @type {(selector: string) => any} */
  const part = selector => seen.svg.querySelector(selector);
  Object.assign(seen, {world: part(".world"), spans: part(".spans"), wires: part(".wires"), boxes: part(".boxes"), over: part(".over"), lens: part(".lens"), dots: part("#g-dots")});
  room.append(seen.svg);
  return seen.svg;
}

// ---- screen and grid

/** @type {(event: {clientX: number, clientY: number}) => number[]} */
export function gridAt({clientX, clientY}) {
  const box = seen.svg.getBoundingClientRect(), {x, y, size} = desk.view;
  return [(clientX - box.left - x) / (size * UNIT), (clientY - box.top - y) / (size * UNIT)];
}
// Zooms; one point of the screen stays fixed.
/** @param {number} factor @param {{clientX: number, clientY: number}} [at] */
export function zoomBy(factor, at) {
  const box = seen.svg.getBoundingClientRect(), {view} = desk;
  const [x, y] = at ? [at.clientX - box.left, at.clientY - box.top] : [box.width / 2, box.height / 2];
  const size = Math.min(MOST_SIZE, Math.max(LEAST_SIZE, view.size * factor)), share = size / view.size;
  desk.view = {size, x: x - (x - view.x) * share, y: y - (y - view.y) * share};
  drawView();
}
/** @type {(dx: number, dy: number) => void} */
export function panBy(dx, dy) {
  desk.view = {...desk.view, x: desk.view.x + dx, y: desk.view.y + dy};
  drawView();
}
// The bounds of the drawing with its wires: left, top, right, bottom.
function bounds() {
  const {drawing, ways} = desk, xs = [], ys = [];
  for (const [x, y] of drawing.at) { xs.push(x - 1, x + BOX + 1); ys.push(y - 1, y + BOX + 1); }
  for (const [x, y] of [...ways.values()].flat()) { xs.push(x); ys.push(y); }
  if (!xs.length) return [0, 0, 30, 20];
  return [Math.min(...xs), Math.min(...ys), Math.max(...xs), Math.max(...ys)];
}
// The free part of the canvas: right of the card of a puzzle, if there is room.
function free() {
  const box = seen.svg.getBoundingClientRect(), card = seen.svg.closest(".g-mid")?.querySelector("#g-card")?.getBoundingClientRect();
  const left = card?.width && card.width < MOST_COVERED * box.width ? card.right - box.left : 0;
  return {left, width: box.width - left, height: box.height, x: box.left, y: box.top};
}
/** @type {(most?: number) => void} */
export function fit(most = 0) {
  const box = free(), [left, top, right, bottom] = bounds();
  if (!box.width) return;
  most ||= box.width > WIDE ? 2 : 1.5;
  const wide = (right - left + FIT_ROOM) * UNIT, high = (bottom - top + FIT_ROOM) * UNIT;
  const size = Math.min(most, Math.max(LEAST_SIZE, Math.min(box.width / wide, box.height / high)));
  desk.view = {size, x: box.left + box.width / 2 - (left + right) / 2 * UNIT * size, y: box.height / 2 - (top + bottom) / 2 * UNIT * size};
  drawView();
}
// The centre of the visible part, in units of the grid.
export function middle() {
  const {x, y, left, width, height} = free();
  return gridAt({clientX: x + left + width / 2, clientY: y + height / 2});
}
// Scrolls an element into view.
/** @type {(element: number) => void} */
export function bringIn(element) {
  const at = desk.drawing.at[element], box = seen.svg.getBoundingClientRect(), {x, y, size} = desk.view, room = 3 * UNIT;
  if (!at) return;
  const left = x + at[0] * UNIT * size, top = y + at[1] * UNIT * size, far = BOX * UNIT * size;
  const dx = left < room ? room - left : left + far > box.width - room ? box.width - room - left - far : 0;
  const dy = top < room ? room - top : top + far > box.height - room ? box.height - room - top - far : 0;
  if (dx || dy) panBy(dx, dy);
}
export function drawView() {
  const {x, y, size} = desk.view;
  seen.world.setAttribute("transform", `translate(${x} ${y}) scale(${size})`);
  const coarse = size < .55 ? 4 : 1;
  seen.dots.setAttribute("patternTransform", `translate(${x} ${y}) scale(${size * coarse})`);
  seen.svg.classList.toggle("far", size < .45);
}

// ---- drawing

// The mark of a port beside its box: an arrow out of the box or into it.
/** @type {(side: number, isOut: boolean) => string} */
function portMark(side, isOut) {
  const [x, y] = portAt([0, 0], side, isOut).map(it => it * UNIT), [dx, dy] = [DX[side], DY[side]], [near, far] = isOut ? [1, 8.5] : [8.5, 1];
  const wide = 4.2, base = [x + dx * near, y + dy * near], tip = [x + dx * far, y + dy * far];
  return `M${tip} L${base[0] + dy * wide},${base[1] - dx * wide} L${base[0] - dy * wide},${base[1] + dx * wide} z`;
}
/** @type {(element: number) => Kept} */
function makeBox(element) {
  const size = BOX * UNIT, half = size / 2;
  const ports = [0, 1, 2, 3].flatMap(side => [false, true].map(isOut => {
    const [x, y] = portAt([0, 0], side, isOut).map(it => it * UNIT);
    return `<g class="port" data-port="${4 * element + side}" data-out="${isOut ? 1 : 0}" id="g-p${4 * element + side}${isOut ? "o" : "i"}"><circle class="reach" cx="${x + DX[side] * 5}" cy="${y + DY[side] * 5}" r="${REACH}"/>`
      + `<path class="mark" d="${portMark(side, isOut)}"/></g>`;
  }));
  const letters = [0, 1, 2, 3].map(side => `<text class="letter" x="${half + DX[side] * (half + 8)}" y="${half + DY[side] * (half + 8) + 4}">${SIDES[side]}</text>`);
  const node = make("g", {"data-element": element, id: `g-e${element}`, role: "group"},
    `<rect class="box" width="${size}" height="${size}" rx="7"/><text class="number" x="6" y="13">${element}</text><g class="turn" data-bar="1" transform="translate(${half} ${half})"><rect class="grip" x="-18" y="-9" width="36" height="18" rx="9"/><line class="bar" x1="-14.500" x2="14.500"/></g>${letters.join("")}${ports.join("")}`);
  return {node, kept: {}, parts: [...node.querySelectorAll(".turn,.port")]};
}
/** @type {() => void} */
export function draw() {
  const {drawing, ways} = shown(), sources = sourcesOf(drawing), {hand, chosen, focus} = desk, count = drawing.bars.length;
  seen.svg.classList.toggle("wiring", hand?.kind === "wire");
  for (const [element, it] of boxNodes) if (element >= count) { it.node.remove(); boxNodes.delete(element); }
  for (let element = 0; element < count; element++) {
    let it = boxNodes.get(element);
    if (!it) {
      boxNodes.set(element, it = makeBox(element));
      seen.boxes.append(it.node);
    }
    const bar = drawing.bars[element], isChosen = chosen.has(element), at = drawing.at[element];
    const isTurned = element === desk.turned, isOther = desk.began[element] !== undefined && desk.began[element] !== bar;
    set(it, it.node, "class", `element${isChosen ? " chosen" : ""}${isTurned ? " turned" : isOther ? " other" : ""}${isChosen && chosen.size === 1 ? " one" : ""}${focus.element === element && focus.port < 0 ? " focus" : ""}`);
    set(it, it.node, "transform", `translate(${at[0] * UNIT} ${at[1] * UNIT})`);
    set(it, it.node, "aria-label", `element ${element}, ${barWord(bar)}`);
    set(it, it.parts[0], "class", `turn ${bar}`);
    for (let side = 0; side < 4; side++) {
      const port = 4 * element + side;
      for (const isOut of [false, true]) {
        const node = it.parts[1 + 2 * side + Number(isOut)], isFree = isOut ? drawing.targets[port] < 0 : sources[port] < 0;
        const isHand = hand?.kind === "wire" && hand.port === port && hand.isOut === isOut;
        const isFocus = focus.element === element && focus.port === port && focus.isOut === isOut;
        set(it, node, `${side}${isOut}`, `port ${isOut ? "out" : "in"} ${isFree ? "free" : "held"}${legality(port, isOut)}${isHand ? " hand" : ""}${isFocus ? " focus" : ""}`, "class");
      }
    }
  }
  drawSpans(drawing);
  drawWires(drawing, ways);
  drawOver();
}
// A background for each column whose elements are in one vertical line; it is tinted if the column is marked.
/** @type {(drawing: Drawing) => void} */
function drawSpans(drawing) {
  let body = "";
  for (const elements of columnsIn(drawing)) {
    const boxes = elements.map(element => drawing.at[element]), [[left, top]] = boxes, last = boxes[boxes.length - 1];
    if (boxes.some((at, k) => at[0] !== left || k > 0 && at[1] <= boxes[k - 1][1])) continue;
    const isMarked = drawing.bars[elements[elements.length - 1]] === "H";
    body += `<rect class="span${isMarked ? " marked" : ""}" x="${(left - SPAN) * UNIT}" y="${(top - SPAN) * UNIT}" width="${(BOX + 2 * SPAN) * UNIT}" height="${(last[1] - top + BOX + 2 * SPAN) * UNIT}" rx="9"/>`;
  }
  if (seen.spans.kept === body) return;
  seen.spans.kept = seen.spans.innerHTML = body;
}
/** @type {(bar: Bar) => string} */
export const barWord = bar => bar === "H" ? "lying" : "upright";
// Whether the wire that is being drawn may end at this port.
/** @type {(port: number, isOut: boolean) => string} */
function legality(port, isOut) {
  const {hand, drawing} = desk;
  if (hand?.kind !== "wire" || hand.isOut === isOut) return "";
  const fault = hand.isOut ? wireFault(drawing, hand.port, port) : wireFault(drawing, port, hand.port);
  return fault ? " barred" : !hand.isOut && drawing.targets[port] >= 0 ? "" : " legal";
}
/** @type {(drawing: Drawing, ways: Map<number, Way>) => void} */
function drawWires(drawing, ways) {
  for (const [out, it] of wireNodes) if (!ways.has(out)) { it.node.remove(); wireNodes.delete(out); }
  const last = desk.trail[desk.trail.length - 1], now = drawing.hasLeft || desk.trail.length ? last : sourcesOf(drawing)[drawing.place];
  const past = new Set(desk.trail);
  for (const [out, way] of ways) {
    let it = wireNodes.get(out);
    if (!it) {
      const node = make("g", {"data-wire": out}, '<title></title><path class="halo"/><path class="wire"/><path class="grip"/>');
      wireNodes.set(out, it = {node, kept: {}, parts: [...node.children]});
      seen.wires.append(node);
    }
    const path = pathOf(way, UNIT), isNow = out === now && !drawing.hasLeft;
    for (const part of [1, 2, 3]) set(it, it.parts[part], `d${part}`, path, "d");
    const kind = `${isNow ? "now" : past.has(out) ? "past" : ""}${desk.wire === out ? " chosen" : ""}`;
    if (it.kept.class !== kind && /now|chosen/.test(kind)) seen.wires.append(it.node);
    set(it, it.node, "class", kind);
    const title = `${placeName(out)} leads to ${placeName(drawing.targets[out])}`;
    if (it.kept.title !== title) it.kept.title = it.parts[0].textContent = title;
  }
}

// The centre of the mark of a port, in pixels.
/** @type {(drawing: Drawing, port: number, isOut: boolean, far?: number) => number[]} */
export function portSpot(drawing, port, isOut, far = 5) {
  const [x, y] = portAt(drawing.at[port >> 2], port, isOut);
  return [x * UNIT + DX[port & 3] * far, y * UNIT + DY[port & 3] * far];
}
/** @type {(drawing: Drawing) => string} */
function namedPorts(drawing) {
  let body = "";
  for (const [name, port, isOut] of /** @type {[string, number, boolean][]} */ ([["start", drawing.start, false], ["end", drawing.end, true]])) {
    if (port < 0 || !drawing.at[port >> 2]) continue;
    const side = port & 3, [x, y] = portSpot(drawing, port, isOut, 11), [a, b] = portSpot(drawing, port, isOut, 23);
    // Two names at one side are moved apart.
    const isRight = side === 1 || side === 0 && isOut || side === 2 && !isOut, by = DX[side] ? 5 : -8;
    body += `<path class="stub" d="M${x},${y} L${a},${b}"/><text class="name" text-anchor="${isRight ? "start" : "end"}" x="${a + (isRight ? by : -by)}" y="${b + 4 + DY[side] * 8}">${name}</text>`;
  }
  return body;
}
export function drawOver() {
  const {drawing} = shown(), {hand, band} = desk;
  let body = namedPorts(drawing);
  if (drawing.place >= 0 && drawing.at[drawing.place >> 2]) {
    const [x, y] = portSpot(drawing, drawing.place, drawing.hasLeft, drawing.hasLeft ? 19 : 10);
    body += `<g class="at" transform="translate(${x} ${y})"><circle class="ring" r="10"/><circle class="signal" r="6"/></g>`;
  }
  if (hand?.kind === "wire") {
    const [x, y] = portSpot(desk.drawing, hand.port, hand.isOut, hand.isOut ? 9 : 9), [a, b] = hand.at.map(it => it * UNIT), side = hand.port & 3;
    const bend = Math.min(60, Math.hypot(a - x, b - y) / 2);
    body += `<path class="inhand" d="M${x},${y} C${x + DX[side] * bend},${y + DY[side] * bend} ${a - (a - x) * .2},${b - (b - y) * .2} ${a},${b}"/><circle class="inhand-end${hand.isAimed ? " aimed" : ""}" cx="${a}" cy="${b}" r="${hand.isAimed ? 11 : 4}"/>`;
  }
  if (hand?.kind === "part" && hand.at) {
    for (const [x, y] of hand.group.at) body += `<rect class="ghost" x="${(hand.at[0] + x) * UNIT}" y="${(hand.at[1] + y) * UNIT}" width="${BOX * UNIT}" height="${BOX * UNIT}" rx="7"/>`;
  }
  if (band) {
    const [x, y, a, b] = band.map(it => it * UNIT);
    body += `<rect class="band" x="${Math.min(x, a)}" y="${Math.min(y, b)}" width="${Math.abs(a - x)}" height="${Math.abs(b - y)}"/>`;
  }
  seen.over.innerHTML = body;
}

// Animates the signal through the element and along the wire.
/** @type {(before: Drawing, after: Drawing, ms: number) => void} */
export function glide(before, after, ms) {
  if (isStill() || ms < 60 || before.place === after.place && before.hasLeft === after.hasLeft) return;
  const isBack = Number(after.steps) < Number(before.steps), [from, to] = isBack ? [after, before] : [before, after];
  const out = to.hasLeft ? to.place : sourcesOf(to)[to.place];
  if (out < 0 || from.hasLeft || out >> 2 !== from.place >> 2) return;
  const [x, y] = portSpot(from, from.place, false, 10), box = from.at[out >> 2], half = BOX / 2, [cx, cy] = [(box[0] + half) * UNIT, (box[1] + half) * UNIT];
  const port = portAt(box, out, true).map(it => it * UNIT), way = desk.ways.get(out);
  const tail = to.hasLeft || !way ? `L${portSpot(to, out, true, 19)}` : pathOf(way, UNIT).slice(1).replace(/^[^LQ]*/, "");
  const path = make("path", {d: `M${x},${y} Q${cx},${cy} ${port} ${tail}`, fill: "none"});
  const length = path.getTotalLength(), began = performance.now(), dot = make("circle", {class: "signal glide", r: 6});
  seen.lens.replaceChildren(dot);
  seen.over.classList.add("gliding");
  const tick = () => {
    const share = Math.min(1, (performance.now() - began) / ms), eased = share < .5 ? 2 * share * share : 1 - (2 - 2 * share) ** 2 / 2;
    if (dot.parentNode !== seen.lens) return;
    const it = path.getPointAtLength(length * (isBack ? 1 - eased : eased));
    dot.setAttribute("cx", it.x);
    dot.setAttribute("cy", it.y);
    if (share < 1) requestAnimationFrame(tick);
    else endGlide();
  };
  tick();
}
export function endGlide() {
  seen.lens.replaceChildren();
  seen.over.classList.remove("gliding");
}
