// Two dialogs: the window by hand; keys, colours and words.
import {GLOSSARY} from "./glossary.js";
import {typed} from "./machine.js";
import {byId, current, dialog, escaped, state} from "./state.js";

const MOST_CELLS = 1048576;
const ENDS = ["work tape, to the left", "work tape, to the right", "history", "output tape"];

export function openWindow() {
  if (!current.run) return;
  const rows = ENDS.map((it, k) =>
    `<tr><td>${it}</td><td><input id="w${k}" class="cells" type="number" min="0" max="${MOST_CELLS}"
        value="${current.run.window[k]}"></td></tr>`);
  dialog('<h2>The window</h2><p class="quiet">How many cells each tape has in the circuit. The program finds a ' +
    'window that is large enough for '
    + "the run. In a smaller one a head can run off the tape, and the run ends there.</p>"
    + `<table>${rows.join("")}</table><p><button id="usewindow" class="main">Use this window</button> <button
        id="findwindow">Find a window</button></p>`);
  const use = window => {
    state.window = window;
    byId("dialog").close();
    typed(0);
  };
  const cells = k => Math.max(0, Math.min(MOST_CELLS, Math.floor(Number(byId(`w${k}`).value) || 0)));
  byId("usewindow").onclick = () => use(ENDS.map((_, k) => cells(k)));
  byId("findwindow").onclick = () => use(null);
}

export function openHelp() {
  const keys = [
    ["<kbd>space</kbd>", "play and pause; with <kbd>shift</kbd> backward"],
      ["<kbd>←</kbd> <kbd>→</kbd>", "a step back, a step forward"],
    ["<kbd>shift</kbd> <kbd>↑</kbd> <kbd>↓</kbd>",
      "unit of a step: machine step, quadruple step, module move, element step"],
    ["<kbd>shift</kbd> <kbd>←</kbd> <kbd>→</kbd>", "back, or forward, to a breakpoint"],
      ["<kbd>Home</kbd> <kbd>End</kbd>", "the start, the end"],
    ["<kbd>ctrl</kbd> <kbd>Z</kbd>", "undo the last change of the machine; with <kbd>shift</kbd> redo it"],
  ];
  const colours = [["work", "work tape"], ["history", "history"], ["output", "output"],
    ["signal", "the signal and its path"],
                   ["mark", "the marked column: the module's state"]];
  const rows = keys.map(([key, words]) => `<tr><td>${key}</td><td>${words}</td></tr>`);
  const samples = colours.map(([colour, words]) =>
    `<span class="key" style="background:var(--${colour})"></span>${words}`);
  const words = GLOSSARY.map(([word, sentence]) => `<dt>${word}</dt><dd>${escaped(sentence)}</dd>`);
  dialog(`<h2>Keys and colours</h2><table>${rows.join("")}</table><p class="samples">${samples.join(" ")}</p>
    <p class="quiet">In the time line each horizontal line is a cell and each vertical line a moment. The history grows, stays while the
    output is copied, and is cleared.</p>
    <p class="quiet">A rotary element is a box with a bar. A signal along the bar goes straight on. A signal across the bar turns
    right, and the bar turns. No two cases give the same result, so each can be undone.</p>
    <p class="quiet">Every step shown is computed by a verified program, which runs in this page. Nothing is sent anywhere.</p>
    <details aria-label="Words"><summary>Words</summary><dl class="words">${words.join("")}</dl></details>`);
}
