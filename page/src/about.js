// What is seen, in words: for each panel what it shows, and what stands in it at this step. All of it is looked up in
// the program's answers.
import {controlSaid} from "./control.js";
import {frame} from "./frame.js";
import {byId, current, dialog, escaped, hasLayer, isEarly, layerNow, nameOf} from "./state.js";
import {symbolWord} from "./table.js";
import {bankName, countWords, endWords, exitWords, number, ruleAt, TAPES} from "./words.js";

const PANELS = {
  machine: {title: "The machine", words: [
    "The table has one quintuple, a rule of the machine, per line: state, symbol read, symbol written, shift, next state. + is " +
      "right, − is left, 0 is no move, _ is the blank.",
    "Below the table are the program's verdict, the word on the tape, the machine alone, and its state " +
      "diagram. The present rule is marked in the table and in the diagram. A click on a state shows " +
        "details.",
    "⤢ opens the diagram in a large view, where you can edit the machine. Answers sets which states accept and " +
      "which reject, and runs many words. If a line has two numbers, the second is the number of its rule, which " +
        "the history contains.",
  ]},
  tapes: {title: "Bennett's reversible machine", words: [
    "The same machine, made reversible. It has three tapes: the work tape of the machine; the " +
      "history, which keeps the number of each rule; the output tape for the copy.",
    "First it computes and keeps the history, then it copies the output, then it undoes every step and clears " +
      "the history. A triangle marks each head, a darker cell the last symbol written. Between two moments a dashed " +
        "cell has changed; its corner shows its present symbol. Below are the moves of the " +
        "circuit for one quadruple, with the element steps of each, or Bennett's table.",
  ]},
  circuit: {title: "The circuit", words: [
    "The whole machine as one circuit of rotary elements with one signal. The map shows the control and one " +
      "module for each cell of each tape. The signal is in the module with the pink frame. Each tape has its colour.",
    "Below is this module as a bank of rotary elements: boxes with a bar. The amber column is marked: it is the state of the module. " +
      "Along a bar the signal goes straight on; across it, it turns right, and the bar turns. The pink line is its path. A click on an element shows details.",
  ]},
  time: {title: "The time line", words: [
    "The whole run as one picture. Time goes to the right; each band is a tape and each line in it a cell. The hill " +
      "is the history: it grows, stays while the output is copied, and is cleared.",
    "The pink line is the present. + and − and the wheel zoom; the strip below shows " +
      "the whole run with the visible part in a frame that you can drag. A dot is a place where a breakpoint " +
        "holds.",
    "The second strip shows the moves of the present quadruple; the width is the number of element steps. The four buttons set the unit of " +
      "a step; the arrow keys make one step, forward or back.",
  ]},
};
const PAGES_ABOUT = {
  elements: ["Any circuit, element by element. Type a table, from which the program builds a bank, or a configuration " +
    "text.", "The pink ring is the signal, the pink line its wire, the dashed lines its path. The " +
      "element that turned last is tinted; an amber column is marked."],
  design: ["An editor for circuits. Drag elements onto the canvas, and drag wires from an output, which points out of its box, " +
    "to an input, which points into it. Each input takes one wire. Click a bar to turn it, or a free input to let the signal " +
      "enter there.",
    "The pink ring is the signal, and the dotted wires are its path. Amber bars have turned since the start. A column has a grey " +
      "background, a marked column an amber one. The program computes each step."],
  mirror: ["At the left a circuit, at the right its inverse circuit: each wire reversed, east and west exchanged.",
    "The inverse circuit starts at the present configuration. Each of its steps undoes one step of the circuit; " +
      "the line below says whether the bars agree."],
  farm: ["Two independent circuits and a schedule of events: + 1 5 is five steps " +
    "forward of circuit 1, - 2 1 is one step back of circuit 2.",
      "At the lower right is the schedule that undoes the events so far. Run it to restore the first " +
        "circuits byte for byte."],
  pebbles: ["A pebble on a segment stores the configuration after it. A pebble is put or taken only if the segment before has one. " +
    "The aim is a pebble on the last segment alone.",
    "In the picture time goes down: filled boxes are pebbles, and pink marks the move. The numbers at the left are the fewest moves, and " +
      "those of the strategy that halves the way. Nothing here is computed by the program."],
  erase: ["Bennett's machine leaves its input beside the output. If a second machine computes the input from the " +
    "output, both composed leave only the output.",
      "The table at the right is the composed machine; the two lines above show what each machine leaves."],
  reversible: ["A machine of quadruples on three tapes: each quadruple reads and writes a symbol or shifts the head on each tape. " +
    "No two quadruples overlap in domain or in range, so each step can be undone.",
      "At the left is its run, at the right the run of its inverse machine, which starts where the first run ended. " +
        "Below is the run of the circuit that is built from the table."],
  plan: ["The elements are in one line. Each wire goes up to its track, along it, and down again.",
    "Two wires share a track if they cover no position in common. The dashed line marks the position that most wires cover: " +
      "that many tracks are needed, and no more are used."],
  command: ["Any command of the program, with the same arguments and the same input as in a terminal, and its " +
      "output.",
    "Each command in the documents has a link that opens it here."],
};

const STEP_WORDS = {machine: "machine step", quadruple: "quadruple step", module: "move of a module", element: "element step"};

export function openAbout(panel) {
  const {title, words} = PANELS[panel], now = current.run ? nowWords(panel) : ["No run yet."];
  dialog(`<h2>${title}</h2>${words.map(it => `<p>${it}</p>`).join("")}<h3>At this
      step</h3>${now.map(it => `<p>${escaped(it)}</p>`).join("")}`);
}
export function openAboutPage({key, title}) {
  const seen = [...document.querySelectorAll(`#page-${key} .e-place, #page-${key} .e-said`)].map(it =>
    it.textContent).filter(Boolean);
  const now = seen.length ? `<h3>Now</h3>${seen.map(it => `<p>${escaped(it ?? "")}</p>`).join("")}` : "";
  dialog(`<h2>${title}</h2>${PAGES_ABOUT[key].map(it => `<p>${it}</p>`).join("")}${now}`);
}

// What stands in a panel now.
function nowWords(panel) {
  return {machine: machineWords, tapes: tapeWords, circuit: circuitWords, time: timeWords}[panel](frame());
}
function machineWords({moment, q}) {
  const {run, found} = current, {own} = found, rule = ruleAt(run, q, nameOf), word = run.word || "the empty word";
  const end = {
    halted: `halts after ${number(own.steps)} steps with ${own.output || "an empty output"}`, running: "runs on",
    stuck: `is stuck in ${nameOf(own.state)} on ${symbolWord(own.letter)} after ${number(own.steps)} steps`,
  }[own.outcome];
  const said = byId("verdict").querySelector("span")?.textContent ?? "";
  return [`${said}. On ${word} the machine ${end}.`, moment.stage === "compute" ? `Step ${moment.step}. ${rule.head}`
    : "The machine alone has halted."];
}
function tapeWords({moment, q}) {
  const rule = ruleAt(current.run, q, nameOf);
  const tapes = moment.tapes.map((tape, k) => {
    const symbols = tape.symbols.map(symbolWord).join(" "), head = tape.head === null ? "no head is visible"
      : `the head is at cell ${tape.head}`;
    return `The ${TAPES[k + 1]} tape from cell ${tape.first} on: ${symbols}; ${head}.`;
  });
  return [`Stage: ${moment.stage}. Quadruple step ${q} of ${current.run.count - 1}, from state ${moment.name}.`,
    `${rule.head} ${rule.more}`, ...tapes];
}
function circuitWords({e, at, bank, move}) {
  const {run} = current;
  if (isEarly()) return [run.lacking];
  const {banks, tapes} = run.layout, [work, history, output] = tapes.map(it => it.cells.size);
  const count = `${number(run.circuit.count)} elements in ${number(banks.length)} modules.`;
  const window = `The work tape has ${work} cells, the history ${history}, the output tape ${output}.`;
  if (!at) return [count, window];
  const where = at.hasLeft ? exitWords(run.outcome.exit, nameOf)
    : `The signal is in ${bankName(bank)}, at element ${number(at.place >> 2)}.`;
  const far = move.from !== null && move.to !== null && !at.hasLeft
    ? ` It is step ${number(e - move.from)} of ${number(move.to - move.from)} of this move.` : "";
  const {full} = controlSaid(run, frame());
  return [count, window, where + far, full ? `The control: ${full}.` : ""].filter(Boolean);
}
function timeWords({e, q}) {
  if (!hasLayer("quadruple")) return [`The machine alone makes ${number(current.run.end)} steps. Now: step ${number(e)}.`];
  const {run} = current, parts = run.stageParts(), stages = parts.map((it, k) => {
    const isOpen = !run.isWhole && k === parts.length - 1;
    return `${it.stage} from quadruple step ${it.from} ${isOpen ? "on, as far as computed" : `to ${it.to - 1}`}`;
  });
  const isOne = isEarly(), count = `${countWords(run)} quadruple steps${isOne ? "" : ` and ${endWords(run)} element steps`}`;
  return [`The run has ${count}: ${stages.join(", ")}.`,
          `Now: quadruple step ${number(q)}${isOne ? "" : `, element step ${number(e)}`}. The unit of a step is a ${STEP_WORDS[layerNow()]}.`];
}
