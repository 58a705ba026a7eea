// What is typed and chosen (`state`), the machine and the run that are shown (`current`), and small helpers of the page.
// `text` is the table as it was typed, `names` how the program knows the names in it that it can't read. `accept` and
// `reject` have names of states as they were typed, `places` where the diagram's states were put, as shares of its size.
/** @type {Layer[]} */
export const LAYERS = ["machine", "quadruple", "module", "element"];
/** @type {Typed} */
export const state = {
  text: "", names: {}, asStandard: false, blank: null, word: "", window: null, example: null,
  accept: [], reject: [], tried: [], places: {},
  e: 0, layer: "quadruple", playing: 0, speed: 40, breaks: [], cell: null, module: null, zoom: null, span: null, editions: 0,
  middle: "moves", asTyped: false, lesson: null,
};
// A table of 4,000 rules, which is the most, has at most so many characters. What is longer has its verdict, and nothing that
// goes through it line by line while it is typed: no numbers beside it, nothing turned, nothing kept to be taken back.
export const MOST_EDITED = 400000;
export const isTooLong = (text = state.text) => text.length > MOST_EDITED;

// The breakpoints of one kind.
/** @template {Break["kind"]} K @param {K} kind @returns {Extract<Break, {kind: K}>[]} */
export function breaksOf(kind) { return /** @type {any[]} */ (state.breaks.filter(it => it.kind === kind)); }

// `run` has the answers of one run; `found` what the machine does by itself, and the window; `machine` the table that runs.
// They are there once a run is shown; who may come before asks for it.
export const current = /** @type {{run: import("./run.js").Run, found: Found, machine: Machine}} */ ({});

// Whether what runs has no circuit yet, or none at all; whether it has a layer, and on which its steps are.
export const isEarly = () => current.run?.circuit.count === 0;
/** @type {(layer: Layer) => boolean} */
export const hasLayer = layer => !current.run || current.run.layers.includes(layer);
export const layerNow = () => hasLayer(state.layer) ? state.layer : current.run.layers[current.run.layers.length - 1];

/** @type {(id: string) => Box} */
export const byId = id => /** @type {Box} */ (document.getElementById(id));
// A part of a box, by its name.
/** @type {(box: HTMLElement, id: string) => Box} */
export const partOf = (box, id) => /** @type {Box} */ (box.querySelector("#" + id));
/** @type {Record<string, string>} */
const ENTITIES = {"&": "&amp;", "<": "&lt;", ">": "&gt;", '"': "&quot;"};
/** @type {(it: string | number) => string} */
export const escaped = it => String(it).replace(/[&<>"]/g, c => ENTITIES[c]);
/** @type {(it: string | number) => string} */
export const minus = it => String(it).replace("-", "−");

const STOP_AFTER = 1200, TIME_AFTER = 2;
/** @type {{since: number | null, ticking: ReturnType<typeof setInterval> | undefined}} */
const work = {since: null, ticking: undefined};
// Says what is waited for; where that takes long, for how long by now, and a button offers to stop it.
/** @type {(words: string) => void} */
export function busy(words) {
  const isOn = words.endsWith("…"), now = performance.now();
  byId("busy").textContent = words;
  work.since = isOn ? work.since ?? now : null;
  if (isOn) work.ticking ??= setInterval(tellTime, 200);
  else {
    clearInterval(work.ticking);
    work.ticking = undefined;
  }
  tellTime();
}
function tellTime() {
  const spent = work.since === null ? 0 : performance.now() - work.since, seconds = Math.floor(spent / 1000);
  byId("stop").hidden = spent < STOP_AFTER;
  byId("busytime").textContent = seconds >= TIME_AFTER ? `${seconds} s` : "";
}
/** @type {(words: string) => void} */
export function toast(words) {
  byId("toast")?.remove();
  const it = Object.assign(document.createElement("div"), {id: "toast", textContent: words});
  document.body.append(it);
  setTimeout(() => it.remove(), 2600);
}
/** @type {(html: string) => void} */
export function dialog(html) {
  byId("dialogbody").innerHTML = html;
  const head = byId("dialogbody").querySelector("h2");
  if (head) head.id = "dialoghead";
  byId("dialog").showModal();
}

// The names that are shown: those that were typed, through what was turned and through `standard`.
/** @type {(name: string) => string} */
export function nameOf(name) {
  const {machine} = current;
  let it = name;
  if (machine?.isStandard) {
    if (it === "I") return machine.userStates.includes("start") ? "I" : "start";
    if (it === "O") return machine.userStates.includes("end") ? "O" : "end";
    it = machine.userStates[Number(it.slice(1)) - 1] ?? it;
  }
  return state.names[it] ?? it;
}
// The line in the editor of a rule of the machine that runs, or null where `standard` added the rule.
/** @type {(rule: number | null) => number | null} */
export function editorLine(rule) {
  const {machine} = current;
  if (!machine || !rule) return null;
  if (!machine.isStandard) return machine.rules[rule - 1]?.line ?? null;
  return machine.userRules[rule - 2]?.line ?? null;
}
