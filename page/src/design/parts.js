// The palette: an element and groups, which are dragged onto the canvas, or clicked and placed by a second click; saved parts; and pasted
// configuration texts or tables, from which the program builds a bank.
import {circuitFault, circuitText} from "../circuits.js";
import {escaped} from "../state.js";
import {LANES, STATUS} from "../answer.js";
import {counted, letGo, putGroup} from "./acts.js";
import {gridAt} from "./canvas.js";
import {commit, desk, deskChanged, tellDesk} from "./desk.js";
import {BOX, groupOf as chosenGroup, oneElement} from "./drawing.js";
import {laidOut} from "./lay.js";
import {drawingOf} from "./reading_text.js";
import {pathOf, waysOf} from "./route.js";
import {keepGroups, savedGroups} from "./saved.js";

const PITCH = 7, MOST_ROWS = 30, MOST_GROUPS = 40;
// A group of elements by their bars, wires as E.L E.L, and positions.
/** @type {(bars: string, wires: string, at: number[][], ends?: string) => Group} */
export function groupOf(bars, wires, at, ends = "0.w 0.e") {
  const targets = new Array(4 * bars.length).fill(-1);
  /** @type {(word: string) => number} */
  const port = word => 4 * parseInt(word) + "nesw".indexOf(word.slice(-1));
  for (const it of wires.split(",").filter(it => it)) {
    const [out, into] = it.trim().split(" ");
    targets[port(out)] = port(into);
  }
  const [start, end] = ends.split(" ").map(port);
  return {bars: /** @type {Bar[]} */ ([...bars]), targets, at, start, end};
}
// An unmarked column with this number of rows: docs/use/formats.md, Column and bank.
/** @type {(rows: number) => Group} */
export function column(rows) {
  const wires = [`${rows}.s ${rows}.s`, `${rows}.w 0.n`, `0.n ${rows}.e`];
  for (let k = 0; k < rows; k++) wires.push(`${k}.s ${k + 1}.n`, `${k + 1}.n ${k}.s`);
  return groupOf("V".repeat(rows + 1), wires.join(","), Array.from({length: rows + 1}, (_, k) => [0, k * PITCH]));
}
// `puzzle` is the key of the puzzle that the group solves, if any.
/** @type {{key: string, title: string, about: string, puzzle?: string, make: (rows: number) => Group}[]} */
export const PARTS = [
  {key: "lying", title: "Lying", about: "a rotary element with its bar lying, west to east", make: () => oneElement("H")},
  {key: "upright", title: "Upright", about: "a rotary element with its bar upright, north to south", make: () => oneElement("V")},
  {key: "column", title: "Column", about: "rows above a bottom element: one state of a bank", puzzle: "column2", make: column},
  {key: "toggle", title: "Toggle", about: "a signal from the north leaves by the north and the west in turn", puzzle: "toggle", make: () => groupOf("V", "0.s 0.e", [[0, 0]], "0.n 0.w")},
  {key: "counter", title: "Two-bit counter", about: "two toggles; the second receives the carry of the first", puzzle: "counter", make: () => groupOf("VV", "0.s 0.e, 0.w 1.n, 1.s 1.e", [[9, 0], [0, 3]], "0.n 1.w")},
  {key: "back", title: "Reflector", about: "a signal leaves by the side where it entered", puzzle: "back", make: () => groupOf("H", "0.e 0.e", [[0, 0]], "0.w 0.w")},
];

/** @type {(group: Group) => string} */
function small(group) {
  const it = {...desk.drawing, bars: group.bars, targets: group.targets, at: group.at}, unit = 5, ways = [...waysOf(it).values()];
  const all = [...group.at.flatMap(([x, y]) => [[x - 1, y - 1], [x + BOX + 1, y + BOX + 1]]), ...ways.flat()];
  const [[left, right], [top, bottom]] = [0, 1].map(k => [Math.min(...all.map(at => at[k])), Math.max(...all.map(at => at[k]))]);
  const boxes = group.at.map(([x, y], k) => {
    const [cx, cy] = [(x + 2) * unit, (y + 2) * unit], turn = group.bars[k] === "V" ? " rotate(90)" : "";
    return `<rect class="box" x="${x * unit}" y="${y * unit}" width="${BOX * unit}" height="${BOX * unit}" rx="3"/><line class="bar" x1="-6" x2="6" transform="translate(${cx} ${cy})${turn}"/>`;
  });
  const wide = (right - left) * unit, high = (bottom - top) * unit;
  return `<svg aria-hidden="true" width="${Math.min(64, wide)}" height="${Math.min(52, high)}" viewBox="${left * unit} ${top * unit} ${wide} ${high}">${ways.map(way => `<path class="wire" d="${pathOf(way, unit)}"/>`).join("")}${boxes.join("")}</svg>`;
}
// During a puzzle, groups are locked that solve it, or whose own puzzle is not solved yet.
/** @type {(box: HTMLElement, puzzle: string | null, solved: Record<string, number>) => void} */
export function lockParts(box, puzzle, solved) {
  for (const tile of /** @type {NodeListOf<HTMLButtonElement>} */ (box.querySelectorAll("[data-group]"))) tile.disabled = puzzle !== null;
  for (const it of PARTS) {
    const tile = box.querySelector(`[data-part=${it.key}]`), isLocked = puzzle !== null && it.puzzle !== undefined && (it.puzzle === puzzle || !solved[it.puzzle]);
    if (!tile) continue;
    tile.disabled = isLocked;
    tile.setAttribute("title", isLocked ? "available after you solve its puzzle" : `${it.about}: drag it onto the canvas, or click it and then the canvas`);
  }
}
/** @type {(box: HTMLElement) => void} */
export function makeParts(box) {
  const tiles = PARTS.map(it => `<button class="g-tile" data-part="${it.key}">${small(it.make(2))}<span>${it.title}</span></button>`);
  box.innerHTML = `<div class="g-tiles">${tiles.join("")}</div>
    <label class="g-rows">Rows of the column <input id="g-rows" type="number" min="1" max="${MOST_ROWS}" value="2"></label>
    <div id="g-groups" class="g-tiles"></div><p class="row"><button id="g-keepgroup" title="save the selected elements as a part of your own">Save the selection as a part</button></p>
    <details id="g-paste" aria-label="Paste a text"><summary>Paste a text</summary><p class="quiet">A configuration text, or a table with lines of state, port in, next state, port out. The program builds a bank from a table.</p>
      <textarea id="g-pasted" rows="7" spellcheck="false" aria-label="the pasted text"></textarea>
      <p class="e-fault" id="g-pastefault" role="status"></p>
      <div class="row"><button id="g-pasteto" title="add it beside the drawing">Add</button><button id="g-pasteas" title="replace the drawing; undo restores it">Replace</button></div></details>`;
  for (const tile of /** @type {NodeListOf<HTMLElement>} */ (box.querySelectorAll("[data-part]"))) takeTile(box, tile, undefined);
  lockParts(box, null, {});
  showGroups(box);
  const keepGroup = /** @type {HTMLElement} */ (box.querySelector("#g-keepgroup"));
  keepGroup.onclick = () => {
    if (!desk.chosen.size) {
      tellDesk("Select the elements of the part first.", true);
      return;
    }
    const groups = savedGroups();
    keepGroups([...groups, {title: `Part ${groups.length + 1}`, group: chosenGroup(desk.drawing, desk.chosen)}].slice(-MOST_GROUPS));
    showGroups(box);
    tellDesk(`Saved ${counted(desk.chosen.size, "element")} as a part.`);
  };
  /** @type {(id: string) => any} */
  const part = id => box.querySelector(`#${id}`);
  part("g-pasteto").onclick = () => paste(box, false);
  part("g-pasteas").onclick = () => paste(box, true);
}
// The parts that were saved, each to be added by a click, and deleted.
/** @type {(box: HTMLElement) => void} */
function showGroups(box) {
  const room = /** @type {HTMLElement} */ (box.querySelector("#g-groups")), groups = savedGroups();
  room.innerHTML = groups.map(({title, group}, k) => `<div class="g-own"><button class="g-tile" data-group="${k}">${small(group)}<span>${escaped(title)}</span></button><button class="plain" data-forget="${k}" aria-label="delete ${escaped(title)}">×</button></div>`).join("");
  for (const tile of /** @type {NodeListOf<HTMLElement>} */ (room.querySelectorAll(".g-tile"))) takeTile(box, tile, groups[Number(tile.dataset.group)]);
  for (const it of /** @type {NodeListOf<HTMLElement>} */ (room.querySelectorAll("[data-forget]"))) it.onclick = () => {
    keepGroups(savedGroups().filter((_, k) => k !== Number(it.dataset.forget)));
    showGroups(box);
  };
}
/** @type {(box: HTMLElement, tile: HTMLElement, own: {title: string, group: Group} | undefined) => void} */
function takeTile(box, tile, own) {
  const it = own ? {title: own.title, make: (/** @type {number} */ _) => own.group} : PARTS.find(one => one.key === tile.dataset.part) ?? PARTS[0];
  const group = () => it.make(Math.min(MOST_ROWS, Math.max(1, Number(/** @type {any} */ (box.querySelector("#g-rows")).value) || 1)));
  /** @type {{x: number, y: number, isMoved: boolean} | null} */
  let held = null;
  // A click by the keyboard has no position: the group goes to the centre.
  tile.addEventListener("click", event => {
    if (event.detail === 0) putGroup(group(), undefined, it.title);
  });
  tile.addEventListener("pointerdown", event => {
    if (event.button) return;
    held = {x: event.clientX, y: event.clientY, isMoved: false};
    tile.setPointerCapture(event.pointerId);
  });
  tile.addEventListener("pointermove", event => {
    if (!held) return;
    if (!held.isMoved && Math.hypot(event.clientX - held.x, event.clientY - held.y) < 5) return;
    if (!held.isMoved) takeInHand(group(), it.title);
    held.isMoved = true;
    if (desk.hand?.kind === "part") desk.hand.at = placeAt(desk.hand.group, event);
    deskChanged("hand");
  });
  tile.addEventListener("pointerup", event => {
    const was = held;
    held = null;
    if (!was) return;
    if (!was.isMoved) {
      takeInHand(group(), it.title);
      tellDesk(`${it.title}: click the canvas to add it. With Shift you can add several; Esc cancels.`);
      deskChanged("hand");
      return;
    }
    const over = document.elementFromPoint(event.clientX, event.clientY);
    const hand = desk.hand;
    letGo();
    if (over?.closest("#g-canvas") && hand?.kind === "part") putGroup(hand.group, placeAt(hand.group, event), it.title);
  });
  tile.addEventListener("pointercancel", () => { held = null; letGo(); });
}
/** @type {(group: Group, title: string) => void} */
function takeInHand(group, title) { desk.hand = {kind: "part", group, at: null, title}; }
/** @type {(group: Group, event: PointerEvent) => number[]} */
function placeAt(group, event) {
  const far = [0, 1].map(k => (Math.max(...group.at.map(at => at[k])) + BOX) / 2);
  return gridAt(event).map((it, k) => Math.round(it - far[k]));
}
/** @type {(box: HTMLElement, isInPlace: boolean) => Promise<void>} */
async function paste(box, isInPlace) {
  /** @type {(id: string) => any} */
  const part = id => box.querySelector(`#${id}`);
  const given = part("g-pasted").value, text = /\n$/.test(given) || !given ? given : `${given}\n`;
  const reply = await circuitText(text, "1", "1", LANES.design);
  part("g-pastefault").textContent = circuitFault(reply);
  if (reply.status !== STATUS.done) return;
  const it = drawingOf(reply.text), at = laidOut(it);
  if (isInPlace) {
    desk.chosen = new Set();
    commit({...it, at}, {ways: new Map()});
    tellDesk(`Loaded ${counted(it.bars.length, "element")}.`);
    deskChanged("view");
  } else putText(reply.text);
}
// Adds the circuit of an accepted text beside the drawing.
/** @type {(text: string) => boolean} */
export function putText(text) {
  const it = drawingOf(text);
  return putGroup({bars: it.bars, targets: it.targets, at: laidOut(it), start: it.start, end: it.end}, undefined, counted(it.bars.length, "element"));
}
