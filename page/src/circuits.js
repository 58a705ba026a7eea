// The circuits to begin with, what the program makes of what is typed, and what is wrong with that in words.
import {answer, LANES, STATUS} from "./answer.js";

export const CIRCUITS = [
  {title: "A bank of two moves", about: "Two states, two ports. The marked column is the state.",
    text: "1,1,2,2\n2,2,1,1\n"},
  {title: "One element, along the bar", about: "Along the bar the signal goes straight on.",
   text: "rotary 1\nelements 1\nstart 0.n\nend 0.s\nsteps 0\nat 0.n\ne 0 V - - - -\n"},
  {title: "One element, across the bar", about: "Across the bar the signal turns right, and the bar turns.",
   text: "rotary 1\nelements 1\nstart 0.n\nend 0.w\nsteps 0\nat 0.n\ne 0 H - - - -\n"},
  {title: "Two elements", about: "The signal returns, and both bars have turned.",
   text: "rotary 1\nelements 2\nstart 0.n\nend 0.n\nsteps 0\nat 0.n\ne 0 V - - 1.n -\ne 1 H - - - 0.e\n"},
  {title: "Undo by hand", about: "Three steps were made. Undo them.",
   text: "rotary 1\nelements 2\nstart 0.n\nend 0.n\nsteps 3\nleft 0.n\ne 0 H - - 1.w -\ne 1 H - - 0.e -\n"},
  {title: "A bank of three states", about: "A counter to three and back.",
   text: "1,1,2,1\n2,1,3,1\n3,1,1,1\n1,2,3,2\n2,2,1,2\n3,2,2,2\n"},
];
const FAULTS = {
  syntax: "has a syntax error", "too many": "is one line too many",
    target: "names an element that does not exist",
  "end wired": "has a wire from the end port", "left wired": "has a wire from the port where the signal has left",
  "start fed": "has a wire into the start port", "two sources": "leads to an input that already has a wire",
    order: "is not the next element",
  spelling: "begins a column, which version 2 writes as one entry",
};
const SAYINGS = {
  "text: empty\n": "The text is empty.", "word: state\n": "This state does not exist.",
    "word: line\n": "This port does not exist.",
  "text: no schedule\n": "The schedule is missing.", "usage\n": "States and ports are numbered from 1.",
};

export const isConfiguration = given => /^\s*rotary/.test(given);
// A configuration text as it is, or the text of the bank of a table of moves.
export const circuitText = (given, state = "1", line = "1", lane = LANES.now) =>
  answer(isConfiguration(given) ? ["step", "0"] : ["realise", state, line], given, {lane});

// What the program refused, in words; nothing where it refused nothing.
export function circuitFault({status, text, words}) {
  if (words) return words;
  if (status === STATUS.done) return "";
  const line = /^text: (board \d+ )?line (\d+) (.*)$/m.exec(text),
    record = /^text: record (\d+) (?:field (\d) )?(.*)$/m.exec(text);
  const pair = /^machine: (domain|range) (\d+) (\d+)/.exec(text),
    schedule = /^text: schedule line (\d+) (form|board)/.exec(text);
  if (line) {
    const where = line[1] ? `B${line[1].trim().slice(1)}, line` : "Line";
    return `${where} ${line[2]} ${FAULTS[line[3]] ?? line[3]}.`;
  }
  if (record?.[3].startsWith("fields")) {
    return `Line ${record[1]}: an entry has four numbers: state, port in, next state, port out.`;
  }
  if (record) {
    const place = record[2] ? `, number ${record[2]}` : "";
    return `Line ${record[1]}${place}: ${record[3] === "number" ? "not a number from 1 on" : record[3]}.`;
  }
  if (pair?.[1] === "domain") return `Entries ${pair[2]} and ${pair[3]} have the same state and port in.`;
  if (pair) return `Entries ${pair[2]} and ${pair[3]} have the same next state and port out, so the table is not reversible.`;
  if (schedule) return `Schedule, line ${schedule[1]}: ${schedule[2] === "board" ? "this circuit " +
    "does not exist" : "it must be + or -, a circuit, a number"}.`;
  return SAYINGS[text] ?? `The program refused: ${text.trim()}`;
}
