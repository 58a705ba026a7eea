// The steps of the lesson: for each its level, its sentences, and a thing to try; `done` says whether it was tried. The lesson uses the
// machine of the workbench, whichever it is.
import {columnSaid, lineSaid} from "../module_words.js";
import {SHIFT_WORDS, symbolWord} from "../table.js";

// The names that a bank's picture has beside its rows and above its columns: one of each kind, in words.
export function namesOf(run, bank) {
  const found = new Map();
  for (let row = 0; row < bank.rows; row++) {
    const {name, words} = lineSaid(run.layout, bank, row), kind = name.split(" ")[0];
    if (!found.has(kind)) found.set(kind, [name, words]);
  }
  for (const {kind, label, words, many} of bank.kind === "control" ? columnsSaid(run) : [headSaid(run, bank)]) {
    const known = found.get(kind);
    // One that keeps a symbol in mind tells more.
    if (!known || many && !known[2]) found.set(kind, [label, words, many]);
  }
  return [...found.values()].map(it => it.slice(0, 2));
}
const columnsSaid = run => run.layout.control.columns.map((it, column) =>
  ({kind: it.kind, many: it.symbols?.length ?? 0, ...columnSaid(run, run.layout.banks[0], column)}));
// The column of a letter with the head.
function headSaid(run, bank) {
  const letter = run.layout.tapes[bank.tape - 1].letters.find(it => it !== "_") ?? "_";
  return {kind: "head", many: 0, label: `▾${letter}`, words: `the column of a cell that holds ${symbolWord(letter)} and has the head`};
}
// The signs of the machine's picture: the blank, and a rule at its arrow.
const SHIFT_LETTERS = {"+": "R", "-": "L", "0": "N"};
/** @type {(rules: Rule[]) => string[][]} */
function machineNames(rules) {
  const {read, write, shift} = rules.find(it => it.read !== it.write) ?? rules[0], isKept = read === write;
  return [["· and _", "blank: the empty symbol"],
    [`${read}${isKept ? "" : `→${write}`} ${SHIFT_LETTERS[shift]}`,
     `a rule: on ${symbolWord(read)} ${isKept ? "" : `write ${symbolWord(write)} and `}${SHIFT_WORDS[shift]}; R: right, L: left, N: no move`]];
}
const isHalting = ({found}) => found?.own.outcome === "halted";

/** @type {LessonStep[]} */
export const STEPS = [
  {key: "machine", level: "machine", title: "A machine",
   words: () => ["A Turing machine has a tape, a head that reads one cell, and a state. In each step it applies one quintuple, a rule of the machine: it writes a symbol, moves the head and changes the state.",
     "The picture shows the states. The thick arrow is the rule that was applied last."],
   names: ({run}) => machineNames(run.rules),
   ask: "Press Play.", done: ({seen}) => seen.has("played")},
  {key: "past", level: "machine", title: "Can a step be undone?",
   words: () => ["You see the present configuration only. If two rules lead to it, it has two possible pasts, and the machine has kept nothing to tell them apart.",
     "Such a step can't be undone. It erases information, and erasing information dissipates heat."],
   ask: "Press Undo.", done: ({seen}) => seen.has("refused")},
  {key: "history", level: "history", title: "A history",
   words: () => ["A second tape keeps a history: the machine writes the number of each rule that it applies.",
     "The last number says which rule to undo. Undoing the rule also removes its number: nothing is lost, because the rule determines it."],
   ask: "Press Play for a while, then Undo.", done: ({seen}) => seen.has("took")},
  {key: "stages", level: "stages", title: "Compute, copy, retrace",
   words: shown => ["Undoing every step clears the history, but it would undo the output too.",
     isHalting(shown) ? "So Bennett's machine of 1973 copies the output to a third tape before it retraces. The purple hill is the history: it grows, stays, and shrinks to nothing."
       : "So Bennett's machine of 1973 copies the output to a third tape before it retraces. On this word the machine does not halt, so you see only the growing history."],
   ask: "Play to the end, or drag along the purple hill.", done: ({shown, e}) => e >= shown.run.end || !isHalting(shown)},
  {key: "row", level: "row", title: "Inside a quadruple",
   words: () => ["Bennett's machine has quadruples instead of quintuples. In the circuit, one signal performs a quadruple: it goes from the control to cells of the tapes and returns with their answers.",
     "The list shows these moves. Each one can be undone: no two moves of a module end alike."],
   names: () => [["module", "a part of the circuit: the control, or one cell of a tape"],
     ["control", "the module that stores the state of Bennett's machine"],
     ["quadruple", "what Bennett's machine does in one step, on each of its three tapes"]],
   ask: "Step forward, move by move.", done: ({seen}) => seen.has("stepped")},
  {key: "column", level: "column", title: "Inside a module",
   words: () => ["A module is a bank of columns. The amber column stores the state: it is marked, and it stands for the state of the module, such as the symbol of a cell.",
     "The signal passes along the columns until it meets the marked one. A move may mark another column."],
   names: () => [["bank", "the columns of a module; a reversible sequential machine"], ["column", "one state of the module"]],
   ask: "Play forward and back.", done: ({seen}) => seen.has("played") || seen.has("took")},
  {key: "ports", level: "column", title: "Questions and answers",
   words: () => ["The port where the signal enters says what the module is asked, such as “read”, or answered.",
     "The port where it leaves is the module's answer or next request. Each port has one row of the bank, with its name at the left."],
   names: ({run}, f) => [["port", "where the signal enters or leaves; the list has the names in the picture"], ...(f.bank ? namesOf(run, f.bank) : [])],
   ask: "Play forward and back.", done: ({seen}) => seen.has("played") || seen.has("took")},
  {key: "element", level: "element", title: "One rotary element",
   words: () => ["The whole circuit is built from one kind of part, the rotary element. A signal along the bar goes straight on. A signal across the bar turns right, and the bar turns.",
     "No two of the eight cases give the same result. So the output port and the bar show what came before, and each step of the circuit can be undone."],
   ask: "Step forward and back, and find the case in the table each time.", done: ({seen}) => seen.has("stepped")},
  {key: "out", level: "machine", title: "Back to the machine",
   words: () => ["You went from a machine to one element, at one moment of one run. The trail above leads to every level.",
     "The workbench shows all levels at once. Paste your own machine there; Learn then uses that machine."],
   ask: "Follow the trail, or go to the workbench.", done: ({seen}) => seen.has("walked")},
];
export const stepOf = key => STEPS.find(it => it.key === key) ?? STEPS[0];
