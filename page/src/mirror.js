// A circuit and its mirror, side by side: the mirror is what `mirror` makes of the circuit as it stands, and each of
// its steps on takes a step of the circuit back. Both are stepped by the program, and their bars are compared.
import {answer, STATUS} from "./answer.js";
import {readConfiguration} from "./circuit.js";
import {circuitFault, CIRCUITS, circuitText} from "./circuits.js";
import {partOf} from "./state.js";
import {Stepper} from "./stepper.js";
import {inTurn} from "./turns.js";

const GLASS_REST = 300, FIRST_GLASS = 0;
const GLASS_OPTIONS = CIRCUITS.map((it, k) => `<option value="${k}">${it.title}</option>`).join("");
const GLASS_PAGE = `<div class="e-left">
    <select id="m-examples" aria-label="Circuits to begin with">${GLASS_OPTIONS}</select>
    <label for="m-text">A table (state, port in, next state, port out), or a configuration text</label>
    <textarea id="m-text" spellcheck="false"></textarea><p id="m-fault" class="e-fault" role="status"></p>
    <p class="quiet">In the inverse circuit each wire is reversed, and east and west are exchanged. It is built from the same
    element,
      so what it does isn't a step back: it is another circuit, going on.</p></div>
  <div class="e-right two">
    <figure><figcaption>The circuit</figcaption><div id="m-circuit" class="e-picture"></div>
      <div class="e-foot"><button id="m-start">To the start</button><button id="m-back">◂ Step back</button>
        <button id="m-forth" class="main">Step ▸</button><button id="m-end">To its end</button></div>
      <p id="m-place" class="e-place"></p></figure>
    <figure><figcaption>Its inverse circuit</figcaption><div id="m-mirror" class="e-picture"></div>
      <div class="e-foot"><button id="m-mback">◂ Step back</button><button id="m-mforth" class="main">Step of the
      inverse ▸</button></div>
      <p id="m-mplace" class="e-place"></p></figure>
    <p id="m-said" class="e-said" role="status"></p></div>`;

// The box and both circuits are there once the page was opened.
const glass = /** @type {{box: HTMLElement, circuit: Stepper, mirror: Stepper, made: string | null}} */ ({made: null});
const glassPart = id => partOf(glass.box, id);

async function takeGlass() {
  const reply = await circuitText(glassPart("m-text").value);
  glassPart("m-fault").textContent = circuitFault(reply);
  if (reply.status !== STATUS.done) return;
  glass.circuit.take(reply.text);
  await makeMirror();
}
// The mirror of the circuit as it stands now.
async function makeMirror() {
  const reply = await answer(["mirror"], glass.circuit.text ?? "");
  if (reply.status !== STATUS.done) return;
  glass.made = reply.text;
  glass.mirror.take(reply.text);
  await compare();
}
const stepCircuit = act => inTurn(async () => {
  await act();
  await makeMirror();
});
const stepMirror = direction => inTurn(async () => {
  if (await glass.mirror.go(direction)) await compare();
});

// What the mirror has undone: its bars beside those of the circuit so many steps back, as `back` gives it.
async function compare() {
  const made = glass.mirror.steps(), left = glass.circuit.steps() - made, bars = glass.mirror.bars();
  const before = await answer(["back", String(made)], glass.circuit.text ?? "");
  const isEqual = readConfiguration(before.text).bars.join("") === bars;
  const atStart = left ? "." : ", at its start. Everything is undone.";
  const count = made === 1 ? "one step" : `${made} steps`;
  glassPart("m-said").textContent = !glass.circuit.steps() ? "Step the circuit, then let its inverse undo the steps."
    : !made ? `The inverse circuit starts at this configuration, after ${glass.circuit.steps()} steps of the circuit.`
      : left < 0 ? "The inverse circuit has run beyond the start of the circuit."
        : isEqual ? `After ${count} of the inverse circuit its bars are those of the circuit ${count} earlier${atStart}`
          : "The bars of the inverse circuit differ from those of the circuit.";
}

export function chooseGlass(text) {
  const k = CIRCUITS.findIndex(it => it.text === text);
  glassPart("m-examples").value = String(k < 0 ? FIRST_GLASS : k);
  glassPart("m-text").value = text;
  return inTurn(takeGlass);
}

export const mirrorPage = {
  key: "mirror", title: "Inverse",
  make(box) {
    glass.box = box;
    box.innerHTML = GLASS_PAGE;
    glass.circuit = new Stepper(glassPart("m-circuit"), glassPart("m-place"));
    glass.mirror = new Stepper(glassPart("m-mirror"), glassPart("m-mplace"));
    let later = null;
    glassPart("m-examples").onchange = () => chooseGlass(CIRCUITS[Number(glassPart("m-examples").value)].text);
    glassPart("m-text").oninput = () => { clearTimeout(later); later = setTimeout(() => inTurn(takeGlass), GLASS_REST);
      };
    const {circuit} = glass;
    glassPart("m-start").onclick = () => stepCircuit(() => circuit.far(-1));
    glassPart("m-back").onclick = () => stepCircuit(() => circuit.go(-1));
    glassPart("m-forth").onclick = () => stepCircuit(() => circuit.go(1));
    glassPart("m-end").onclick = () => stepCircuit(() => circuit.far(1, "10000"));
    glassPart("m-mback").onclick = () => stepMirror(-1);
    glassPart("m-mforth").onclick = () => stepMirror(1);
    chooseGlass(CIRCUITS[FIRST_GLASS].text);
  },
  open() {
    glass.circuit.draw();
    glass.mirror.draw();
  },
  close() {},
  take: text => chooseGlass(text),
  keys: {
    ArrowRight: () => stepCircuit(() => glass.circuit.go(1)), ArrowLeft: () => stepCircuit(() => glass.circuit.go(-1)),
    ArrowUp: () => stepMirror(-1), ArrowDown: () => stepMirror(1),
  },
  steppers: () => [glass.circuit, glass.mirror],
  calls: () => [{words: ["mirror"], input: glass.circuit.text, what: "the configuration text"},
    {words: ["step", String(glass.mirror.steps())], input: glass.made, what: "the text of the inverse circuit"},
                {words: ["back", String(glass.mirror.steps())], input: glass.circuit.text, what: "the configuration text"}],
};
