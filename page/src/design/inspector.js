// The selected element with its ports and where they lead; and the list of all elements, which screen readers can use.
import {sideOf} from "../svg.js";
import {placeName, SIDES} from "../texts.js";
import {counted, cutWire, drawWire, duplicateChosen, endAt, enter, focusOn, removeChosen, rotateChosen, turnChosen, turnOne} from "./acts.js";
import {barWord} from "./canvas.js";
import {choose, desk} from "./desk.js";
import {freeInputs, freeOutputs, sourcesOf, wireCount} from "./drawing.js";

/** @type {(port: number) => string} */
const chip = port => `<button class="link" data-go="${port >> 2}">${placeName(port)}</button>`;

/** @type {(box: HTMLElement) => void} */
export function showElement(box) {
  const {drawing, chosen, wire} = desk;
  if (wire >= 0) {
    box.innerHTML = `<h3>Wire</h3><p>${chip(wire)} leads to ${chip(drawing.targets[wire])}.</p><p class="row"><button data-act="remove">Delete the wire</button></p>`;
    return;
  }
  if (chosen.size === 1) {
    box.innerHTML = oneHtml([...chosen][0]);
    return;
  }
  box.innerHTML = chosen.size ? manyHtml(chosen.size) : allHtml();
}
/** @type {(element: number) => string} */
function oneHtml(element) {
  const {drawing} = desk, sources = sourcesOf(drawing), bar = drawing.bars[element];
  const free = freeInputs(drawing);
  const rows = [0, 1, 2, 3].map(side => {
    const port = 4 * element + side, fed = sources[port], into = drawing.targets[port];
    const isHere = drawing.place === port && !drawing.hasLeft, labels = [drawing.start === port ? " · start" : "", isHere ? " · signal" : ""].join("");
    const listed = [...into >= 0 ? [into] : [], ...free];
    const options = listed.map(it => `<option value="${it}"${it === into ? " selected" : ""}>${placeName(it)}</option>`);
    return `<tr><th scope="row">${SIDES[side]}</th><td>${fed >= 0 ? `from ${chip(fed)}` : `<button data-enter="${port}" title="let the signal enter here"${isHere ? " disabled" : ""}>Enter</button>`}<i>${labels}</i></td>
      <td><select data-out="${port}" aria-label="where the ${sideOf(side)} output leads"><option value="-1">nowhere</option>${options.join("")}</select>${drawing.end === port ? "<i> end</i>" : into < 0 ? `<button data-end="${port}" title="make this output the end that the text names">End</button>` : ""}</td></tr>`;
  });
  return `<div class="row"><h3>Element ${element}</h3><span class="quiet">the bar is ${barWord(bar)} (${bar})</span></div>
    <div class="row g-acts"><button data-act="turn" title="Space">Turn the bar</button><button data-act="rotate" title="R">Rotate 90°</button><button data-act="copy" title="Ctrl D">Duplicate</button><button data-act="remove" title="Delete">Delete</button></div>
    <table class="g-ports"><thead><tr><th></th><th>in</th><th>out, leads to</th></tr></thead><tbody>${rows.join("")}</tbody></table>`;
}
/** @type {(many: number) => string} */
const manyHtml = many => `<h3>${many} elements</h3><div class="row g-acts"><button data-act="turn" title="Space">Turn the bars</button><button data-act="rotate" title="R">Rotate 90°</button><button data-act="copy" title="Ctrl D">Duplicate</button><button data-act="remove" title="Delete">Delete</button></div>
  <p class="quiet">Rotate turns positions, port names and bars together, so the circuit behaves as before. Turning the bars alone gives another configuration.</p>`;
function allHtml() {
  const {drawing} = desk, count = drawing.bars.length;
  if (!count) return '<h3>The canvas is empty</h3><p>Drag an element from the left, or double-click the canvas. Then drag from an output <b>▸</b> to an input.</p>';
  const ins = freeInputs(drawing), outs = freeOutputs(drawing);
  return `<h3>${counted(count, "element")}, ${counted(wireCount(drawing), "wire")}</h3>
    <p>${counted(ins.length, "free input")}. The signal can enter at any of them:</p><p class="g-chips">${ins.slice(0, 60).map(it => `<button data-enter="${it}"${it === drawing.place && !drawing.hasLeft ? " disabled" : ""}>${placeName(it)}</button>`).join("")}${ins.length > 60 ? " …" : ""}</p>
    <p>${counted(outs.length, "free output")}:</p><p class="g-chips">${outs.slice(0, 60).map(it => `<span>${placeName(it)}</span>`).join("")}${outs.length > 60 ? " …" : ""}</p>`;
}
/** @type {(box: HTMLElement) => void} */
export function showList(box) {
  const {drawing, chosen} = desk;
  const rows = drawing.bars.map((bar, element) => {
    const cells = [0, 1, 2, 3].map(side => drawing.targets[4 * element + side]).map(into => `<td>${into < 0 ? "–" : placeName(into)}</td>`);
    const isHere = drawing.place >> 2 === element, where = isHere ? `, the signal ${drawing.hasLeft ? "has left by the" : "is about to enter by the"} ${sideOf(drawing.place & 3)}` : "";
    return `<tr${chosen.has(element) ? ' class="chosen"' : ""}><th scope="row"><button class="link" data-go="${element}" aria-label="element ${element}, ${barWord(bar)}${where}">${element}</button></th><td>${bar}${isHere ? ` <b aria-hidden="true">${drawing.hasLeft ? "◂" : "▸"}${SIDES[drawing.place & 3]}</b>` : ""}</td>${cells.join("")}</tr>`;
  });
  box.innerHTML = `<p class="quiet">The table shows where each output leads. Select an element to change it under Element or on the canvas.</p><table class="g-list"><thead><tr><th>element</th><th>bar</th><th>north</th><th>east</th><th>south</th><th>west</th></tr></thead><tbody>${rows.join("")}</tbody></table>`;
}

/** @type {Record<string, () => any>} */
const ACTS = {turn: () => desk.chosen.size === 1 ? turnOne([...desk.chosen][0]) : turnChosen(), rotate: rotateChosen, copy: duplicateChosen, remove: removeChosen};
/** @type {(box: HTMLElement) => void} */
export function takeInspector(box) {
  box.addEventListener("click", event => {
    const it = /** @type {any} */ (event.target).closest("button");
    if (!it) return;
    const {act, enter: into, go, end} = it.dataset;
    if (act) ACTS[act]();
    else if (into !== undefined) enter(Number(into));
    else if (end !== undefined) endAt(Number(end));
    else if (go !== undefined) {
      choose([Number(go)]);
      focusOn(Number(go));
    }
  });
  box.addEventListener("change", event => {
    const it = /** @type {any} */ (event.target), out = Number(it.dataset.out);
    if (it.dataset.out === undefined) return;
    if (it.value === "-1") cutWire(out);
    else drawWire(out, Number(it.value));
  });
}
