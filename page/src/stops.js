// Breakpoints and cells by name, for those who don't point: a state, a cell or an element is chosen from lists and
// numbers, as a click in the pictures chooses it.
import {toggleBreak} from "./breaks.js";
import {redraw} from "./notices.js";
import {byId, current, dialog, escaped, nameOf, state} from "./state.js";

const CHOICES = `<h2>Stop at</h2><p class="quiet">A click on a state, a cell or an element shows details, and can set a breakpoint there too.</p>
  <p class="row"><label for="stopstate">state</label> <select id="stopstate"></select><button id="addstate">Stop
  there</button></p>
  <p class="row"><label for="stoptape">tape</label> <select id="stoptape"><option value="1">work</option><option
  value="2">history</option>
    <option value="3">output</option></select><label for="stopcell">cell</label> <input id="stopcell" class="cells"
    type="number" value="1">
    <button id="addcell">Stop where it changes</button><button id="seecell">When was it first changed?</button></p>
  <p class="row"><label for="stopelement">element</label> <input id="stopelement" class="cells" type="number" min="0"
  value="0">
    <button id="addelement">Stop there</button></p><p id="stopsaid" class="e-fault" role="status"></p>`;

export function openStops() {
  const {run} = current;
  if (!run) return;
  dialog(CHOICES);
  byId("stopstate").innerHTML =
    run.states.map((it, k) => `<option value="${k}">${escaped(nameOf(it))}</option>`).join("");
  byId("stopelement").max = String(run.circuit.count - 1);
  byId("addstate").onclick = () => addStop({kind: "state", state: run.states[Number(byId("stopstate").value)]});
  byId("addcell").onclick = () => withCell(it => addStop({kind: "cell", ...it}));
  byId("seecell").onclick = () => withCell(it => {
    state.cell = it;
    byId("dialog").close();
    redraw(false);
    byId("cellbox").querySelector("button")?.focus();
  });
  byId("addelement").onclick = () => {
    const element = Number(byId("stopelement").value);
    if (Number.isInteger(element) && element >= 0 && element < run.circuit.count) addStop({kind: "element", element});
    else byId("stopsaid").textContent = `Elements are numbered from 0 to ${run.circuit.count - 1}.`;
  };
}
function withCell(act) {
  const tape = Number(byId("stoptape").value), cell = Number(byId("stopcell").value),
    {first, symbols} = current.run.tapesAt(0)[tape - 1] ?? {first: 0, symbols: []};
  const last = first + symbols.length - 1;
  if (Number.isInteger(cell) && cell >= first && cell <= last) act({tape, cell});
  else byId("stopsaid").textContent = `This tape has the cells from ${first} to ${last}.`;
}
function addStop(it) {
  byId("dialog").close();
  toggleBreak(it);
}
