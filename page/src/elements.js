// Any circuit, element by element: a configuration text, or a table of moves of which the program makes a bank.
import {STATUS} from "./answer.js";
import {circuitFault, CIRCUITS, circuitText, isConfiguration} from "./circuits.js";
import {partOf} from "./state.js";
import {Stepper} from "./stepper.js";
import {inTurn} from "./turns.js";

const DESK_PACE = 420, DESK_REST = 300;
const DESK_OPTIONS = CIRCUITS.map((it, k) => `<option value="${k}">${it.title}</option>`).join("");
const DESK_PAGE = `<div class="e-left">
    <select id="e-examples" aria-label="Circuits to begin with">${DESK_OPTIONS}</select>
    <p id="e-about" class="quiet"></p>
    <label for="e-text">A table (state, port in, next state, port out), or a configuration text</label>
    <textarea id="e-text" spellcheck="false"></textarea>
    <div id="e-moves"><label for="e-state">in state</label> <input id="e-state" size="2" value="1" inputmode="numeric">
      <label for="e-line">the signal at port</label> <input id="e-line" size="2" value="1" inputmode="numeric"></div>
    <p id="e-fault" class="e-fault" role="status"></p>
    <p class="quiet">A box is an element with its bar. Along the bar the signal goes straight on; across it, it turns
    right
      and turns the bar. No two of the eight cases end alike, so each step can be taken back.</p></div>
  <div class="e-right"><div id="e-picture" class="e-picture"></div><div class="e-foot"><button id="e-first">To the
  start</button>
    <button id="e-back">◂ Step back</button><button id="e-forth">Step ▸</button>
    <button id="e-play" class="main">Play</button><span id="e-place" class="e-place" role="status"></span></div></div>`;

// The box and the circuit are there once the page was opened.
const desk = /** @type {{stepper: Stepper, playing: number, box: HTMLElement}} */ ({playing: 0});
const deskPart = id => partOf(desk.box, id);

async function takeCircuit() {
  stopDesk();
  const given = deskPart("e-text").value;
  deskPart("e-moves").hidden = isConfiguration(given);
  const reply = await circuitText(given, deskPart("e-state").value.trim() || "1", deskPart("e-line").value.trim()
    || "1");
  deskPart("e-fault").textContent = circuitFault(reply);
  if (reply.status === STATUS.done) desk.stepper.take(reply.text);
}
function stopDesk() {
  clearTimeout(desk.playing);
  desk.playing = 0;
  if (desk.box) deskPart("e-play").textContent = "Play";
}
function playDesk() {
  if (desk.playing) {
    stopDesk();
    return;
  }
  deskPart("e-play").textContent = "Pause";
  const tick = async () => {
    const went = await inTurn(() => desk.stepper.go(1));
    if (!desk.playing) return;
    if (went) desk.playing = setTimeout(tick, DESK_PACE);
    else stopDesk();
  };
  desk.playing = setTimeout(tick, 10);
}
const rewindDesk = () => {
  stopDesk();
  return inTurn(() => desk.stepper.far(-1));
};
const stepDesk = direction => {
  stopDesk();
  return inTurn(() => desk.stepper.go(direction));
};

// Shows one of the circuits to begin with, or another text.
export function chooseCircuit(k, text = CIRCUITS[k].text, [state, line] = ["1", "1"]) {
  deskPart("e-examples").value = k;
  deskPart("e-text").value = text;
  deskPart("e-about").textContent = CIRCUITS[k].about;
  deskPart("e-state").value = state;
  deskPart("e-line").value = line;
  return inTurn(takeCircuit);
}

export const elementsPage = {
  key: "elements", title: "Elements",
  make(box) {
    desk.box = box;
    box.innerHTML = DESK_PAGE;
    desk.stepper = new Stepper(deskPart("e-picture"), deskPart("e-place"));
    let later = 0;
    deskPart("e-examples").onchange = () => chooseCircuit(Number(deskPart("e-examples").value));
    for (const id of ["e-text", "e-state", "e-line"]) {
      deskPart(id).oninput = () => { clearTimeout(later); later = setTimeout(() => inTurn(takeCircuit), DESK_REST); };
    }
    deskPart("e-forth").onclick = () => stepDesk(1);
    deskPart("e-back").onclick = () => stepDesk(-1);
    deskPart("e-first").onclick = rewindDesk;
    deskPart("e-play").onclick = playDesk;
    chooseCircuit(0);
  },
  open() { desk.stepper.draw(); },
  take(text, start) { if (text) chooseCircuit(Math.max(0, CIRCUITS.findIndex(it => it.text === text)), text, start); },
  close: stopDesk,
  keys: {ArrowRight: () => stepDesk(1), ArrowLeft: () => stepDesk(-1), " ": playDesk, Home: rewindDesk},
  stepper: () => desk.stepper,
  calls: () => [{words: ["step", "1"], input: desk.stepper.text, what: "the configuration text"},
    {words: ["back", "1"], input: desk.stepper.text, what: "the configuration text"}],
};
