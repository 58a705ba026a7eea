// Mouse, pen and touch on the canvas.
import {
  cutWire, endWire, enter, focusOn, letGo, moveChosen, putGroup, takeWire, turnOne,
} from "./acts.js";
import {drawOver, gridAt, panBy, portSpot, UNIT, zoomBy} from "./canvas.js";
import {choose, desk, deskChanged, tellDesk} from "./desk.js";
import {BOX, moved, oneElement, wireFault} from "./drawing.js";
import {portAt, waysMoved, waysOf} from "./route.js";
import {placeName} from "../texts.js";

const LEAST_MOVE = 4, MOST_DRAGGED = 24, WHEEL = .0016, NEAR = 2.4;
// What a pressed pointer does.
/** @typedef {{kind: string, x: number, y: number, isMoved: boolean, grid: number[], element: number, port: number,
 *   isOut: boolean, isBar: boolean, isMore: boolean, by: number[]}} Held */
/** @type {{held: Held | null, fingers: Map<number, {x: number, y: number}>, pinch: number}} */
const pointers = {held: null, fingers: new Map(), pinch: 0};

/** @type {(svg: SVGSVGElement) => void} */
export function takeGestures(svg) {
  svg.addEventListener("pointerdown", event => onDown(svg, event));
  svg.addEventListener("pointermove", onMove);
  svg.addEventListener("pointerup", onUp);
  svg.addEventListener("pointercancel", event => {
    pointers.fingers.delete(event.pointerId);
    pointers.held = null;
    letGo();
  });
  svg.addEventListener("wheel", onWheel, {passive: false});
  svg.addEventListener("dblclick", event => {
    if (/** @type {Element} */ (event.target).closest("[data-element],[data-wire]") || desk.hand) return;
    const [x, y] = gridAt(event);
    putGroup(oneElement("H"), [x - BOX / 2, y - BOX / 2]);
  });
  svg.addEventListener("contextmenu", event => { if (event.button === 2 && event.ctrlKey) event.preventDefault(); });
}
/** @type {(event: WheelEvent) => void} */
function onWheel(event) {
  event.preventDefault();
  // Two fingers on a touchpad pan, and pinch with Ctrl; a mouse wheel moves by whole notches and zooms.
  const isNotch = event.deltaMode !== 0 || event.deltaY % 100 === 0 || event.deltaY % 120 === 0;
  const isWheel = !event.ctrlKey && !event.shiftKey && event.deltaX === 0 && isNotch;
  if (event.ctrlKey || isWheel) zoomBy(Math.exp(-event.deltaY * (event.ctrlKey && Math.abs(event.deltaY) < 50 ? .01 : WHEEL) * (event.deltaMode ? 30 : 1)), event);
  else if (event.shiftKey && !event.deltaX) panBy(-event.deltaY, 0);
  else panBy(-event.deltaX, -event.deltaY);
}
/** @type {(target: any) => {element: number, port: number, isOut: boolean, isBar: boolean, wire: number}} */
function hitOf(target) {
  const port = target.closest("[data-port]"), element = target.closest("[data-element]"), wire = target.closest("[data-wire]");
  return {element: element ? Number(element.dataset.element) : -1, port: port ? Number(port.dataset.port) : -1,
    isOut: port?.dataset.out === "1", isBar: Boolean(target.closest("[data-bar]")), wire: wire ? Number(wire.dataset.wire) : -1};
}
// The port under the pointer; while a wire is drawn, the nearest port where it may end.
/** @type {(event: PointerEvent) => {port: number, isOut: boolean, isNear?: boolean} | null} */
function portUnder(event) {
  const it = hitOf(document.elementFromPoint(event.clientX, event.clientY) ?? event.target), {hand, drawing} = desk;
  if (it.port >= 0 || hand?.kind !== "wire") return it.port >= 0 ? it : null;
  const [x, y] = gridAt(event), isOut = !hand.isOut;
  let best = -1, least = NEAR;
  for (const [element, at] of drawing.at.entries()) {
    if (Math.hypot(at[0] + BOX / 2 - x, at[1] + BOX / 2 - y) > BOX + NEAR) continue;
    for (let port = 4 * element; port < 4 * element + 4; port++) {
      const [a, b] = portSpot(drawing, port, isOut), far = Math.hypot(a / UNIT - x, b / UNIT - y);
      const fault = isOut ? wireFault(drawing, port, hand.port) : wireFault(drawing, hand.port, port);
      if (far < least && !fault) [best, least] = [port, far];
    }
  }
  return best < 0 ? null : {port: best, isOut, isNear: true};
}
/** @type {(svg: SVGSVGElement, event: PointerEvent) => void} */
function onDown(svg, event) {
  svg.focus();
  pointers.fingers.set(event.pointerId, {x: event.clientX, y: event.clientY});
  if (pointers.fingers.size === 2) {
    pointers.held = null;
    Object.assign(desk, {band: null, draft: null});
    pointers.pinch = spread();
    return;
  }
  if (event.button > 1) return;
  const it = hitOf(event.target), grid = gridAt(event), isMore = event.shiftKey || event.ctrlKey || event.metaKey;
  /** @type {Held} */
  const held = {kind: "", x: event.clientX, y: event.clientY, isMoved: false, grid, element: it.element, port: it.port, isOut: it.isOut, isBar: it.isBar, isMore, by: [0, 0]};
  pointers.held = held;
  svg.setPointerCapture(event.pointerId);
  if (event.button === 1 || event.altKey) held.kind = "pan";
  else if (desk.hand?.kind === "part") held.kind = "part";
  else if (desk.hand?.kind === "wire") held.kind = portUnder(event) ? "end" : it.element >= 0 ? "wait" : "let";
  else if (it.port >= 0) held.kind = "port";
  else if (it.element >= 0) {
    held.kind = "element";
    desk.focus = {element: it.element, port: -1, isOut: true};
    if (isMore) choose(desk.chosen.has(it.element) ? [...desk.chosen].filter(one => one !== it.element) : [...desk.chosen, it.element]);
    else if (!desk.chosen.has(it.element)) choose([it.element]);
    else deskChanged("chosen");
  } else if (it.wire >= 0) {
    held.kind = "wire";
    choose([], it.wire);
    tellDesk(`${placeName(it.wire)} leads to ${placeName(desk.drawing.targets[it.wire])}. Press Delete to delete the wire.`);
  } else held.kind = event.pointerType === "touch" ? "pan" : "band";
  if (event.button === 1) event.preventDefault();
}
/** @type {(event: PointerEvent) => void} */
function onMove(event) {
  const finger = pointers.fingers.get(event.pointerId), {held} = pointers, grid = gridAt(event);
  if (finger && pointers.fingers.size === 2) {
    pinchTo(event, finger);
    return;
  }
  if (desk.hand?.kind === "part") {
    desk.hand.at = atPart(desk.hand.group, grid);
    drawOver();
    return;
  }
  if (desk.hand?.kind === "wire") moveWire(event, grid);
  if (!held || !finger) return;
  const dx = event.clientX - finger.x, dy = event.clientY - finger.y;
  if (!held.isMoved && Math.hypot(event.clientX - held.x, event.clientY - held.y) < LEAST_MOVE) return;
  const isFirst = !held.isMoved;
  held.isMoved = true;
  if (held.kind === "pan") panBy(dx, dy);
  else if (held.kind === "port" && isFirst) {
    takeWire(held.port, held.isOut, grid);
    held.kind = "end";
  } else if (held.kind === "element") dragTo(held, grid);
  else if (held.kind === "band") {
    desk.band = [...held.grid, ...grid];
    drawOver();
  }
  if (held.kind === "pan") pointers.fingers.set(event.pointerId, {x: event.clientX, y: event.clientY});
}
/** @type {(group: Group, grid: number[]) => number[]} */
function atPart(group, grid) {
  const far = [0, 1].map(k => (Math.max(...group.at.map(at => at[k])) + BOX) / 2);
  return grid.map((it, k) => Math.round(it - far[k]));
}
/** @type {(event: PointerEvent, grid: number[]) => void} */
function moveWire(event, grid) {
  const {hand, drawing} = desk, under = portUnder(event);
  if (hand?.kind !== "wire") return;
  hand.at = under?.isNear ? portSpot(drawing, under.port, under.isOut).map(it => it / UNIT) : grid;
  hand.isAimed = false;
  if (under && under.isOut !== hand.isOut) {
    const [out, into] = hand.isOut ? [hand.port, under.port] : [under.port, hand.port];
    const fault = drawing.targets[out] === into ? "" : wireFault(drawing, out, into);
    hand.isAimed = !fault;
    tellDesk(fault || `${placeName(out)} to ${placeName(into)}`, Boolean(fault));
  }
  drawOver();
}
// Drags the selection by whole units. If it is large, wires to other elements are routed only at the end.
/** @type {(held: Held, grid: number[]) => void} */
function dragTo(held, grid) {
  const by = grid.map((it, k) => Math.round(it - held.grid[k]));
  if (by[0] === held.by[0] && by[1] === held.by[1]) return;
  held.by = by;
  const {drawing, chosen} = desk, made = moved(drawing, chosen, by), ways = waysMoved(desk.ways, drawing, chosen, by);
  if (chosen.size <= MOST_DRAGGED) desk.draft = {drawing: made, ways: waysOf(made, ways)};
  else {
    for (const out of ways.keys()) {
      const into = drawing.targets[out];
      if (chosen.has(out >> 2) !== chosen.has(into >> 2)) ways.set(out, [portAt(made.at[out >> 2], out, true), portAt(made.at[into >> 2], into, false)]);
    }
    desk.draft = {drawing: made, ways};
  }
  deskChanged("hand");
}
/** @type {(event: PointerEvent) => void} */
function onUp(event) {
  const {held} = pointers;
  pointers.fingers.delete(event.pointerId);
  pointers.held = null;
  if (!held) return;
  const under = portUnder(event);
  if (held.kind === "part" && desk.hand?.kind === "part") {
    const {group, title} = desk.hand, at = atPart(group, gridAt(event));
    if (!event.shiftKey) desk.hand = null;
    putGroup(group, at, title);
    deskChanged("hand");
  } else if (held.kind === "end") {
    if (under) {
      // A refused wire is cancelled if it was dragged; otherwise it stays.
      if (!endWire(under.port, under.isOut) && held.isMoved) letGo();
    } else if (held.isMoved) dropWire();
  } else if (held.kind === "let") dropWire();
  else if (held.kind === "port") clickPort(held, gridAt(event));
  else if (held.kind === "element" && held.isMoved) {
    desk.draft = null;
    moveChosen(held.by);
    deskChanged("hand");
  } else if (held.kind === "element" && !held.isMore) {
    if (held.isBar) turnOne(held.element);
    choose([held.element]);
  } else if (held.kind === "band") endBand(held);
}
// A wire that is dropped on nothing is not drawn; a detached wire is deleted.
function dropWire() {
  const {hand} = desk;
  letGo();
  tellDesk("");
  if (hand?.kind === "wire" && hand.isPulled) cutWire(hand.port);
}
/** @type {(held: Held, grid: number[]) => void} */
function clickPort(held, grid) {
  focusOn(held.element, held.port, held.isOut);
  if (held.isOut) takeWire(held.port, true, grid);
  else enter(held.port);
}
/** @type {(held: Held) => void} */
function endBand(held) {
  const {band} = desk;
  desk.band = null;
  if (!band) {
    choose(held.isMore ? desk.chosen : []);
    return;
  }
  const [[left, right], [top, bottom]] = [0, 1].map(k => [Math.min(band[k], band[2 + k]), Math.max(band[k], band[2 + k])]);
  const inside = [...desk.drawing.at.keys()].filter(element => {
    const [x, y] = desk.drawing.at[element];
    return x < right && x + BOX > left && y < bottom && y + BOX > top;
  });
  choose(held.isMore ? [...desk.chosen, ...inside] : inside);
  drawOver();
}
// ---- two fingers
function spread() {
  const [a, b] = [...pointers.fingers.values()];
  return Math.hypot(a.x - b.x, a.y - b.y);
}
/** @type {(event: PointerEvent, finger: {x: number, y: number}) => void} */
function pinchTo(event, finger) {
  panBy((event.clientX - finger.x) / 2, (event.clientY - finger.y) / 2);
  pointers.fingers.set(event.pointerId, {x: event.clientX, y: event.clientY});
  const [a, b] = [...pointers.fingers.values()], now = spread();
  zoomBy(now / (pointers.pinch || now), {clientX: (a.x + b.x) / 2, clientY: (a.y + b.y) / 2});
  pointers.pinch = now;
}
