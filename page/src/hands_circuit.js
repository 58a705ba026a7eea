// What is done to the circuit: its bank is dragged, made larger and smaller, and an element of it is looked at.
import {dragBy, lookAt, moveBy, nextModule, openModule, seen, zoomBy} from "./bank.js";
import {frame} from "./frame.js";
import {cellModule} from "./layout.js";
import {closeLens, isLensOpen, openLens} from "./lens.js";
import {isCommand, on, takeKey} from "./listen.js";
import {redraw} from "./notices.js";
import {byId, current, isEarly, state} from "./state.js";

const LEAST_DRAG = 4, ZOOM = 1.35, WHEEL_ZOOM = 1.15;
/** @type {Record<string, () => void>} */
const BANK_KEYS = {
  ArrowLeft: () => moveBy(-1, 0), ArrowRight: () => moveBy(1, 0),
  ArrowUp: () => moveBy(0, -1), ArrowDown: () => moveBy(0, 1),
  "+": () => zoomBy(ZOOM), "-": () => zoomBy(1 / ZOOM), 0: fitBank, Enter: lookAtElement,
};
/** @type {Record<string, () => void>} */
const MAP_KEYS = {
  ArrowLeft: () => nextModule(-1, false), ArrowRight: () => nextModule(1, false), ArrowUp: () => nextModule(-1, true), ArrowDown: () => nextModule(1, true), Escape: fitBank,
};

export function onCircuit() {
  onBank();
  on("bank", "wheel", event => {
    event.preventDefault();
    zoomBy(event.deltaY < 0 ? WHEEL_ZOOM : 1 / WHEEL_ZOOM);
  }, {passive: false});
  on("bank", "keydown", event => {
    const act = BANK_KEYS[event.key];
    if (!act || isCommand(event) || event.shiftKey && event.key !== "+") return;
    takeKey(event);
    act();
  });
  on("map", "click", event => {
    const it = event.target.closest("[data-bank],[data-cell]");
    if (!it || isEarly()) return;
    const {bank, tape, cell} = it.dataset, number = bank ? Number(bank) : cellModule(current.run.layout, Number(tape), Number(cell))?.number;
    if (number !== undefined) openModule(number);
  });
  on("map", "keydown", event => {
    const act = MAP_KEYS[event.key];
    if (!act || isCommand(event) || isEarly() || event.key === "Escape" && state.module === null) return;
    takeKey(event);
    act();
  });
  on("zoom", "click", event => {
    const kind = event.target.dataset.zoom;
    if (kind === "in" || kind === "out") zoomBy(kind === "in" ? ZOOM : 1 / ZOOM);
    if (kind === "fit") fitBank();
  });
  on("overview", "pointerdown", event => {
    const {bank} = frame(), box = byId("overview").getBoundingClientRect();
    if (bank) lookAt(bank, (event.clientX - box.left) / box.width, (event.clientY - box.top) / box.height);
  });
  document.addEventListener("pointerdown", ({target}) => {
    const it = /** @type {Element | null} */ (target);
    if (isLensOpen() && !it?.closest("#lens,[data-element],#diagram [data-state]")) closeLens();
  });
}
function onBank() {
  /** @type {{x: number, y: number, isMoved: boolean, view: any} | null} */
  let drag = null;
  on("bank", "pointerdown", event => {
    drag = {x: event.clientX, y: event.clientY, isMoved: false, view: {...seen.view}};
    byId("bank").setPointerCapture(event.pointerId);
  });
  on("bank", "pointermove", event => {
    if (!drag || !seen.view) return;
    const dx = event.clientX - drag.x, dy = event.clientY - drag.y;
    drag.isMoved ||= Math.hypot(dx, dy) >= LEAST_DRAG;
    if (drag.isMoved) dragBy(drag.view, dx, dy);
  });
  on("bank", "pointerup", ({clientX: x, clientY: y}) => {
    const isClick = drag && !drag.isMoved;
    drag = null;
    // The signal and its way lie over the elements.
    const hit = isClick ? document.elementsFromPoint(x, y) : [];
    const it = hit.map(one => one.closest("[data-element]")).find(Boolean);
    if (it) openLens({kind: "element", element: Number(it.dataset.element)}, [x, y]);
  });
}
// Details of the element before which the signal is, or of the one in the middle of what is seen.
function lookAtElement() {
  const here = byId("bank").querySelector(".element.now") ?? middleElement();
  if (!here) return;
  const box = here.getBoundingClientRect();
  openLens({kind: "element", element: Number(/** @type {any} */ (here).dataset.element)}, [box.x + box.width / 2, box.y + box.height / 2]);
}
function middleElement() {
  const box = byId("bank").getBoundingClientRect(), far = it => {
    const {x, y, width, height} = it.getBoundingClientRect();
    return Math.hypot(x + width / 2 - box.x - box.width / 2, y + height / 2 - box.y - box.height / 2);
  };
  return [...byId("bank").querySelectorAll("[data-element]")].sort((a, b) => far(a) - far(b))[0];
}
function fitBank() {
  state.module = null;
  state.zoom = null;
  redraw(false);
}
