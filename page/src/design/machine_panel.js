// The panel Machine: the table of the circuit, whose entries can be played, and the comparison with another table, with the shortest inputs that
// show a difference.
import {STATUS, answer, LANES} from "../answer.js";
import {circuitFault} from "../circuits.js";
import {escaped} from "../state.js";
import {placeName} from "../texts.js";
import {inTurn} from "../turns.js";
import {number} from "../words.js";
import {counted} from "./acts.js";
import {behaviour, compared, isProved, kindsOf, MOST_STATES, tableOf} from "./behaviour.js";
import {commit, desk, showRun, tellDesk} from "./desk.js";
import {entered, textOf, withBars} from "./drawing.js";
import {putText} from "./parts.js";
import {go, pause, running} from "./running.js";

// Up to how many ports the table is a grid; and how many milliseconds a table takes that is always up to date.
const MOST_ACROSS = 6, QUICK = 100;
/** @type {{box: HTMLElement, found: Behaviour | null, text: string, isStopped: boolean, isAsking: boolean, isQuick: boolean}} */
const panel = /** @type {any} */ ({found: null, text: "", isStopped: false, isAsking: false, isQuick: false});
/** @type {(id: string) => any} */
const part = id => panel.box.querySelector(`#${id}`);

/** @type {(box: HTMLElement) => void} */
export function makeMachinePanel(box) {
  panel.box = box;
  box.innerHTML = `<h3>Which machine is it?</h3><p class="quiet">A circuit is a reversible sequential machine. Its states are the positions of the bars. An entry shows where a signal leaves that enters by a port, and the next state.</p>
    <div class="row"><button id="g-find" class="main">Find its table</button><button id="g-stopfind" hidden>Stop</button><button id="g-copytable" hidden>Copy the table</button><button id="g-bank" hidden title="the circuit that the program builds from this table, with one column for each state">Add its bank</button></div>
    <p id="g-found" role="status"></p><div id="g-table"></div>
    <h3>Is it this table?</h3><textarea id="g-wanted" rows="4" spellcheck="false" aria-label="the table: state, port in, next state, port out" placeholder="1,1,2,1&#10;2,1,1,2"></textarea>
    <label><input type="checkbox" id="g-anyorder" checked> a line of the table may be any port of the circuit</label>
    <div class="row"><button id="g-compare">Compare</button><button id="g-playword" hidden>Play the difference</button></div><p id="g-compared" role="status"></p>`;
  part("g-find").onclick = find;
  part("g-stopfind").onclick = () => { panel.isStopped = true; };
  part("g-copytable").onclick = copyTable;
  part("g-bank").onclick = putBank;
  part("g-compare").onclick = compare;
  part("g-table").onclick = (/** @type {any} */ event) => {
    const it = event.target.closest("[data-entry]");
    if (it && panel.found) playEntry(panel.found, panel.found.entries[Number(it.dataset.entry)]);
  };
}
// Marks the table as out of date if the circuit has changed.
export function forgetMachine() {
  if (!panel.box || panel.isAsking) return;
  const {found} = panel;
  if (!found) return;
  const isOther = !sameCircuit();
  part("g-table").classList.toggle("stale", isOther);
  if (!isOther) return;
  part("g-found").textContent = "The circuit has changed; find its table again.";
  // While the panel is visible, a table that is found quickly follows the drawing.
  if (panel.isQuick && desk.drawing.bars.length && part("g-table").offsetParent) find();
}
const circuitKey = () => JSON.stringify(desk.drawing.targets);
const sameCircuit = () => panel.text === circuitKey();

async function find() {
  const text = textOf(desk.drawing);
  if (!text) return;
  const began = performance.now();
  Object.assign(panel, {isStopped: false, isAsking: true, text: circuitKey()});
  part("g-stopfind").hidden = false;
  try {
    panel.found = await behaviour(text, {isStopped: () => panel.isStopped, tell: states => { part("g-found").textContent = `${counted(states, "state")} so far …`; }});
    showFound(panel.found);
  } catch (fault) {
    part("g-found").textContent = `Not found: ${fault instanceof Error ? fault.message : fault}`;
  }
  Object.assign(panel, {isAsking: false, isQuick: performance.now() - began < QUICK});
  part("g-stopfind").hidden = true;
  forgetMachine();
}
/** @type {(it: Behaviour) => void} */
function showFound(it) {
  const many = `${counted(it.states.length, "state")}, ${counted(it.inputs.length, "port")}, ${counted(it.entries.length, "entry", "entries")}`;
  const kinds = kindsOf(it.states.length, it.entries), apart = !it.isWhole || kinds === it.states.length ? "" : kinds === 1 ? " All its states are equivalent." : ` Only ${kinds} of its states are inequivalent.`;
  part("g-found").textContent = it.isWhole ? `Complete: ${many}.${apart}` : it.fault ? "Stopped." : `The circuit has more than ${MOST_STATES} states, or a crossing of more than a million steps, so its table is not shown.`;
  part("g-copytable").hidden = part("g-bank").hidden = !it.entries.length;
  part("g-table").classList.remove("stale");
  part("g-table").innerHTML = (it.inputs.length > MOST_ACROSS ? listHtml : gridHtml)(it);
}
/** @type {(it: Behaviour) => string} */
const portsHtml = it => it.inputs.map((port, k) => `<span><b>${k + 1}</b> in ${placeName(port)}, out ${placeName(it.outputs[k])}</span>`).join("");
/** @type {(it: Behaviour, entry: Entry, k: number) => string} */
function entryHtml(it, entry, k) {
  const words = `state ${entry.state}, in by ${placeName(it.inputs[entry.input - 1])}: out by ${placeName(it.outputs[entry.output - 1])} after ${counted(entry.steps ?? 0, "step")}, state ${entry.next}`;
  return `<button data-entry="${k}" title="${escaped(`${words}: play it`)}" aria-label="${escaped(words)}">${placeName(it.outputs[entry.output - 1])}<i>${entry.next === entry.state ? "" : ` ▸${entry.next}`}</i></button>`;
}
/** @type {(it: Behaviour) => string} */
function gridHtml(it) {
  const head = it.inputs.map(port => `<th scope="col">${placeName(port)}</th>`);
  const rows = it.states.map((bars, state) => {
    const cells = it.inputs.map((_, input) => {
      const k = it.entries.findIndex(entry => entry.state === state + 1 && entry.input === input + 1);
      return `<td>${k < 0 ? "–" : entryHtml(it, it.entries[k], k)}</td>`;
    });
    return `<tr><th scope="row" title="${bars}">${state + 1}<small>${escaped(bars.length > 12 ? `${bars.slice(0, 11)}…` : bars)}</small></th>${cells.join("")}</tr>`;
  });
  return `<div class="g-scroll"><table class="g-grid"><thead><tr><th>state</th>${head.join("")}</tr></thead><tbody>${rows.join("")}</tbody></table></div><p class="quiet">Each entry is the port where the signal leaves; ▸ shows the next state if it changes. Click an entry to play it. The table numbers the ports like this:</p><p class="g-chips">${portsHtml(it)}</p>`;
}
/** @type {(it: Behaviour) => string} */
function listHtml(it) {
  const rows = it.entries.map((entry, k) => `<tr><td>${entry.state}</td><td>${placeName(it.inputs[entry.input - 1])}</td><td>${entryHtml(it, entry, k)}</td><td>${number(entry.steps ?? 0)}</td></tr>`);
  return `<div class="g-scroll"><table class="g-grid"><thead><tr><th>state</th><th>in</th><th>out ▸ state</th><th>steps</th></tr></thead><tbody>${rows.join("")}</tbody></table></div>`;
}
async function copyTable() {
  const text = tableOf(panel.found?.entries ?? []);
  part("g-wanted").value = text;
  try { await navigator.clipboard.writeText(text); } catch { /* it stands below */ }
  tellDesk("Table copied; it is also in the field below.");
}

// Adds the bank of the same machine beside the circuit.
async function putBank() {
  const reply = await answer(["realise", "1", "1"], tableOf(panel.found?.entries ?? []), {lane: LANES.design});
  if (reply.status !== STATUS.done) tellDesk(circuitFault(reply), true);
  else if (putText(reply.text)) tellDesk("Added the bank of this table: one column for each state. It is the same machine.");
}

// ---- playing

// Lets the signal enter in a state and pass through.
/** @type {(it: Behaviour, entry: Entry) => void} */
function playEntry(it, entry) {
  if (!sameCircuit()) {
    tellDesk("The circuit has changed; find its table again.", true);
    return;
  }
  playWord(it.states[entry.state - 1], [it.inputs[entry.input - 1]]);
}
// Lets the signal enter by one port after another.
/** @type {(bars: string, ports: number[]) => Promise<void>} */
export async function playWord(bars, ports) {
  pause();
  commit(entered(withBars(desk.drawing, /** @type {Bar[]} */ ([...bars])), ports[0]));
  running.playing = 1;
  for (const [k, port] of ports.entries()) {
    // All of it is one change for undo.
    Object.assign(desk, {trail: [], turned: -1});
    showRun(entered(desk.drawing, port));
    tellDesk(`${ports.length > 1 ? `${k + 1} of ${ports.length}: in` : "In"} at ${placeName(port)} …`);
    do {
      await new Promise(done => setTimeout(done, running.pace));
      if (running.playing !== 1) return;
    } while (await inTurn(() => go(1)));
    tellDesk(`${ports.length > 1 ? `${k + 1} of ${ports.length}: in` : "In"} at ${placeName(port)}, out at ${placeName(desk.drawing.place)}.`);
    await new Promise(done => setTimeout(done, running.pace));
    if (running.playing !== 1) return;
  }
  pause();
}

// ---- comparing

async function compare() {
  const said = part("g-compared"), table = part("g-wanted").value, text = textOf(desk.drawing);
  part("g-playword").hidden = true;
  said.className = "";
  if (!text) return;
  // The program checks the table.
  const judged = await answer(["realise", "1", "1"], table.endsWith("\n") ? table : `${table}\n`, {lane: LANES.design});
  if (judged.status !== STATUS.done) {
    said.textContent = circuitFault(judged);
    said.className = "fault";
    return;
  }
  said.textContent = "Comparing …";
  try {
    const it = await compared(text, table, {anyOrder: part("g-anyorder").checked});
    const isSure = it.isSame && await isProved(text, table, it);
    said.className = it.isSame ? "right" : "fault";
    said.textContent = isSure ? `Equal: ${lineWords(it)}.` : it.isSame ? `As the table says, and more: ${lineWords(it)}.` : it.said;
    const ports = it.word.map(line => it.inputs[line]), bars = desk.drawing.bars.join("");
    part("g-playword").hidden = it.isSame || !ports.length;
    part("g-playword").onclick = () => playWord(bars, ports);
  } catch (fault) {
    said.textContent = `Not compared: ${fault instanceof Error ? fault.message : fault}`;
  }
}
// Which port is which line of the table.
/** @type {(it: Compared) => string} */
export function lineWords({inputs, outputs}) {
  /** @type {(ports: number[]) => string} */
  const listed = ports => [...ports.keys()].filter(line => line > 0 && ports[line] >= 0).map(line => `${line} is ${placeName(ports[line])}`).join(", ");
  return `in ${listed(inputs)}; out ${listed(outputs)}`;
}
