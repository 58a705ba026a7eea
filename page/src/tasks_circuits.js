// Exercises about circuits. Each has its words, where it is done, the fields to fill in, and a check that asks the
// program.
import {CIRCUITS} from "./circuits.js";
import {ask, barsOf, isNumber, isSame, judged, numberIn, placeOf, plain, exampleTable, rowsOf} from "./task_tools.js";

const ONE_ELEMENT = (bar, side) =>
  `rotary 1\nelements 1\nstart 0.${side}\nend 0.${side}\nsteps 0\nat 0.${side}\ne 0 ${bar} - - - -\n`;
const UNDO = "rotary 1\nelements 2\nstart 0.n\nend 0.n\nsteps 3\nleft 0.n\ne 0 H - - 1.w -\ne 1 H - - 0.e -\n";
const BANK = "1,1,2,2\n2,2,1,1\n", LEAST_WINDOW = ["=", "0", "2", "2", "1"], FAR = "1000", COUNTED = 10;
// So many steps are looked at, one by one, for a signal that comes back to the control.
const WATCHED = 600;
const CASES = ["H", "V"].flatMap(bar => ["n", "e", "s", "w"].map(side => ({bar, side})));

async function checkRows(values) {
  const wrong = [];
  for (const {bar, side} of CASES) {
    const text = await ask(["step", "1"], ONE_ELEMENT(bar, side)),
      right = `${placeOf(text).slice(-1)} ${barsOf(text)[0]}`;
    if (!isSame(values[bar + side], right)) wrong.push(`${bar}, in by ${side}`);
  }
  return judged(!wrong.length,
    "Right, all eight. No two of the ports out and bars after are alike, so each has one row before it.",
                `Not yet: ${wrong.join("; ")}.`);
}
async function checkUndo(values) {
  const wrong = [];
  for (let back = 1; back <= 3; back++) {
    const text = await ask(["back", String(back)], UNDO), right = `${placeOf(text)} ${barsOf(text).join(" ")}`;
    if (!isSame(values[`after${3 - back}`], right)) wrong.push(["none", "one step", "two steps"][3 - back]);
  }
  return judged(!wrong.length, "Right. Each step had one past.", `Not yet: after ${wrong.join(", after ")}.`);
}
// The texts of the first move of the bank, up to the column of state 2.
async function moveOfBank() {
  const first = await ask(["realise", "1", "1"], BANK), texts = [await ask(["step", "0"], first)];
  while (parseInt(placeOf(texts.at(-1))) < 3
    && texts.length < COUNTED) texts.push(await ask(["step", String(texts.length)], first));
  return texts;
}
async function checkColumn(values) {
  const texts = await moveOfBank(), bars = texts.map(barsOfBank), turned = new Set();
  for (let k = 1; k < bars.length; k++) bars[k].forEach((bar, element) =>
    { if (bar !== bars[k - 1][element]) turned.add(element); });
  const ended = [...turned].filter(element => bars[0][element] === bars.at(-1)?.[element]),
    list = it => [...it].sort((a, b) => a - b).join(" ");
  const isRight = isNumber(values.steps, texts.length - 1) && isSame(values.turned, list(turned))
    && isSame(values.ended, list(ended));
  return judged(isRight, "Right. The bottom's bar has turned once, so the mark is gone from the first column.",
                "Not yet. Step it in the picture: an element that has just turned is tinted.");
}
// Of a text of version 2: a column's rows are upright, and its entry has the bottom's bar.
function barsOfBank(text) {
  const bars = [];
  for (const line of text.split("\n")) {
    const words = line.split(" ");
    if (words[0] === "e") bars.push(words[2]);
    if (words[0] === "c") bars.push(...Array(Number(words[2])).fill("V"), words[3]);
  }
  return bars;
}
async function checkMove(values) {
  const text = await ask(["step", FAR], await ask(["realise", "2", "2"], BANK));
  return judged(isNumber(values.steps, numberIn("steps", text)), "Right: 4, 4, 4 and 6.",
                "Not so. Four crossings: over the first column, into the marked one, back to the first, and over the " +
                  "second.");
}
// The ways into modules from step 6540 on, up to the control's: of each the module and the step, as the program's views
// name them.
async function waysOfReading() {
  const script = "step 6540\n" + "view\nstep 1\n".repeat(WATCHED);
  const said = rowsOf(await ask(["session", ...LEAST_WINDOW], `${exampleTable("least")}%\n${script}`)), ways = [];
  for (let k = 0; k + 1 < said.length; k++) {
    const step = /^element at \S+ steps (\d+)$/.exec(said[k]), way = /^module (control|tape \d cell -?\d+) line /.exec(said[k + 1]);
    if (step && way) ways.push({module: way[1], step: Number(step[1])});
    if (way?.[1] === "control") break;
  }
  return ways;
}
async function checkReading(values) {
  const ways = await waysOfReading(), cells = ways.length - 1, costs = ways.slice(1).map((it, k) => it.step - ways[k].step);
  const isRight = isNumber(values.cells, cells) && isNumber(values.steps, ways.at(-1)?.step);
  return judged(isRight, `Right: ${costs.join(", ")} steps behind 6,540.`,
                "Not yet. The command passes a cell without the head, is answered by the one with it, and the answer " +
                  "passes again.", isRight ? ways.map(it => `${it.step} ${it.module}`).join("\n") : "");
}
async function checkByte() {
  const first = await ask(["compile", ...LEAST_WINDOW], exampleTable("least")),
    last = await ask(["step", "70000"], first);
  const again = await ask(["back", "70000"], last), count = new TextEncoder().encode(first).length;
  return judged(again === first,
    "The first text again, byte for byte. Now say why: the eight rows, the wires, the line of steps, the spelling.",
                "Otherwise than at first.",
                  `compile: ${count} bytes\nstep 70000: ${placeOf(last)} after ${numberIn("steps", last)} steps\n`
                    + `back 70000: ${again === first ? "the same bytes" : "other bytes"}`);
}
async function checkMirror(values) {
  const text = await ask(["step", "3"], await ask(["mirror"], UNDO));
  return judged(isSame(values.place, placeOf(text)) && isSame(values.bars, barsOf(text).join(" ")),
                "Right: the bars stand as they did before any of the three steps.",
                `Not yet. ${plain(values.place) ? "Step the mirror three times." : "Where does the signal leave?"}`);
}

export const CIRCUIT_TASKS = [
  {number: 1, title: "The eight rows", page: "elements", text: CIRCUITS[2].text,
   ask: ["Along the bar the signal goes straight on, and the bar stays. Across the bar it turns right, and turns the " +
     "bar. Write the eight rows: the port out and the bar after, as “w\u00a0V”.",
         "Then read your table backward. Is there one row behind each port out and bar after?"],
   fields: CASES.map(({bar, side}) => ({key: bar + side, label: `${bar}, in by ${side}`, size: 4})), check: checkRows},
  {number: 2, title: "Undo by hand", page: "elements", text: UNDO,
   ask: ["Three steps were made, and the signal has left. Say where it was after two steps, after one and after " +
     "none, and the bars of elements 0 and 1: as “1.w V V”."],
   fields: [["after2", "after two"], ["after1", "after one"], ["after0", "after none"]].map(([key, label]) =>
     ({key, label, size: 9})), check: checkUndo},
  {number: 7, title: "A marked column", page: "elements", text: BANK,
   ask: ["In state 1 the first column is marked, and the signal comes in by port 1. Follow it to the column of state " +
     "2. How many steps are these, which bars turn on the way, and which of those end as they began?"],
   fields: [{key: "steps", label: "steps", size: 3}, {key: "turned", label: "elements that turn", size: 7},
     {key: "ended", label: "as they began", size: 7}], check: checkColumn},
  {number: 8, title: "What a move costs", page: "elements", text: BANK, start: ["2", "2"],
   ask: ["In a column of k rows without a mark, a signal that comes in by row i from the west takes 2(k − i) + 4 " +
     "steps to the east. Why?",
         "The machine is in state 2, and the signal comes in by port 2. How many steps does the whole move take?"],
   fields: [{key: "steps", label: "steps", size: 4}], check: checkMove},
  {number: 9, title: "How far a reading goes", machine: {key: "least", word: "", window: [0, 2, 2, 1], e: 6540},
   ask: ["The circuit of the least machine has made its first quadruple step after 6,540 steps. The control has just sent " +
     "a command that reads tape 2, whose head is at cell 1.",
         "How many cells does the signal go through, there and back, before the answer is at the control? And after " +
           "how many element steps, from the start, is it there?"],
   fields: [{key: "cells", label: "cells", size: 3}, {key: "steps", label: "element steps", size: 6}],
     check: checkReading},
  {number: 12, title: "Back to the byte", machine: {key: "least", word: "", window: [0, 2, 2, 1], e: 0},
   ask: ["The circuit of 1,244 elements runs 70,000 steps to its exit, and goes 70,000 steps back. Why is the text " +
     "at the end the first one to the byte?"],
   fields: [], act: "Let the program do it", check: checkByte},
  {number: 16, title: "Undone by a circuit", page: "mirror", text: UNDO,
   ask: ["Write the mirror of this circuit by hand: each wire turned round, east and west exchanged. Run it three " +
     "steps on paper. By which port does the signal leave, and how do the bars stand?"],
   fields: [{key: "place", label: "leaves by", size: 5}, {key: "bars", label: "bars", size: 5}], check: checkMirror},
];
