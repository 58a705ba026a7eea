// What is said of a module's lines and columns: their names are those that `layout` tells, and their words are made of them.
import {controlInFull, controlLabel, controlState} from "./control.js";
import {cellState} from "./layout.js";
import {symbolWord} from "./table.js";
import {TAPES} from "./words.js";

/** @type {Record<string, string>} */
const CELL_WORDS = {
  Rd: "read", SR: "pass the head to the right", SL: "pass the head to the left", TakeR: "take the head from the left",
  TakeL: "take the head from the right", DoneW: "“written”, returning", DoneR: "“moved right”, returning",
  DoneL: "“moved left”, returning",
};
/** @type {Record<string, string>} */
const DONE_WORDS = {DoneW: "has written", DoneR: "has moved right", DoneL: "has moved left"};
// The lines by which a signal comes back from a tape, and from a right neighbour.
const BACK = /^(A|Done[WRL]|TakeL)$/;

// An input line of a module: its name and what it means.
/** @type {(layout: Layout, bank: Bank, row: number) => LineSaid} */
export function lineSaid(layout, bank, row) {
  return bank.kind === "cell" ? cellLine(layout.tapes[(bank.tape ?? 1) - 1], row) : controlLine(layout, row);
}
/** @type {(tape: TapeLayout, row: number) => LineSaid} */
function cellLine({lines, letters}, row) {
  const name = lines[row], [kind, symbol] = name.split(" "), letter = symbolWord(letters[Number(symbol)]);
  const words = kind === "W" ? `write ${letter}` : kind === "A" ? `the answer “${letter}”, returning` : CELL_WORDS[kind];
  return {name, words, isBack: BACK.test(kind), tape: null};
}
/** @type {(layout: Layout, row: number) => LineSaid} */
function controlLine({control, tapes}, row) {
  const name = control.lines[row].into, words = name.split(" "), [kind] = words;
  if (kind === "Start") return {name, words: "begin", isBack: false, tape: null};
  const tape = Number(words[words.length - 1]), letter = symbolWord(tapes[tape - 1].letters[Number(words[1])]);
  const does = kind === "A" ? `answers “${letter}”` : DONE_WORDS[kind];
  return {name, words: `the ${TAPES[tape]} tape ${does}`, isBack: true, tape};
}

// The state for which a column stands: short as it stands above it, and in words.
/** @type {(run: import("./run.js").Run, bank: Bank, column: number) => {label: string, words: string}} */
export function columnSaid(run, bank, column) {
  if (bank.kind === "control") {
    const it = controlState(run, column);
    return it ? {label: controlLabel(it), words: controlInFull(it)} : {label: "", words: ""};
  }
  const {letter, hasHead} = cellState(run.layout, bank, column);
  const [tip, more] = hasHead ? ["▾", ", and the head is there"] : ["", ""];
  return {label: `${tip}${letter}`, words: `the cell holds ${symbolWord(letter)}${more}`};
}
