// Reads what the program prints. It judges nothing: the texts are the program's own.
export const SIDES = "nesw";
export const GREATEST = "4611686018427387904";

// What a pattern finds in a text of the program's that has it; a text of another form is a fault.
/** @type {(pattern: RegExp, text: string) => RegExpExecArray} */
export function matchOf(pattern, text) {
  const it = pattern.exec(text);
  if (!it) throw new Error(`The page can't read what the program said: ${text.slice(0, 80)}`);
  return it;
}

/** @type {(line: string) => Tape} */
export function readTape(line) {
  const [, tape, first, head, symbols] = matchOf(/^tape (\d) from (-?\d+) head (-?\d+|\?):(.*)$/, line);
  return {tape: Number(tape), first: Number(first), head: head === "?" ? null : Number(head), symbols: symbols.trim().split(" ")};
}

// The seven lines of a view.
/** @type {(lines: string[], at?: number) => View} */
export function readView(lines, at = 0) {
  const element = matchOf(/^element (left )?(?:at )?(\S+) steps (\d+)$/, lines[at]);
  const machine = matchOf(/^machine (\S+) (?:state (\S+)|quintuple (\d+)) step (\S+)$/, lines[at + 6]);
  return {
    hasLeft: Boolean(element[1]), place: readPlace(element[2]), steps: Number(element[3]), module: lines[at + 1],
    name: lines[at + 2].slice("quadruple ".length), tapes: [3, 4, 5].map(k => readTape(lines[at + k])),
    stage: /** @type {Stage} */ (machine[1]), state: machine[2] ?? null, rule: machine[3] ? Number(machine[3]) : null,
    step: Number(machine[4]),
  };
}

// A text line of `moments`: the step, the state, the three tapes, and which row of the table is applied next, from 1. No name has a
// space, and each tape says how many of its symbols follow.
/** @type {(line: string) => MomentTold} */
export function readMoment(line) {
  const words = line.split(" "), tapes = [];
  let at = 2;
  while (words[at] === "tape") {
    const [, tape, , first, , head, , cells] = words.slice(at, at + 8), end = at + 8 + parseInt(cells);
    tapes.push({tape: Number(tape), first: Number(first), head: Number(head), symbols: words.slice(at + 8, end)});
    at = end;
  }
  return {step: Number(words[0]), state: words[1], tapes, row: words[at] === "rule" ? Number(words[at + 1]) : null};
}

// A line E.L as one number, 4E + its side.
/** @type {(word: string) => number} */
export const readPlace = word => 4 * parseInt(word) + SIDES.indexOf(word.slice(-1));
/** @type {(place: number) => string} */
export const placeName = place => `${place >> 2}.${SIDES[place & 3]}`;

/** @type {(text: string) => Outcome} */
export function readRun(text) {
  /** @type {Outcome} */
  const it = {elements: 0, exit: null, steps: 0, quadruples: null, output: null, tapes: []};
  for (const line of text.split("\n").slice(0, -1)) {
    const [word, ...rest] = line.split(" ");
    if (word === "elements") it.elements = Number(rest[0]);
    else if (word === "exit") it.exit = rest.join(" ");
    else if (word === "steps") it.steps = Number(rest[0]);
    else if (word === "quadruple") it.quadruples = Number(rest[1]);
    else if (word === "tape") it.tapes.push(readTape(line));
    else if (word === "output") it.output = rest.join(" ").slice(1);
  }
  return it;
}

// Of a configuration text of either version: where the signal is, its bars (1 lies, 0 stands), for each output line the input to which it
// leads, or -1, and for each input line the output from which it is fed. In version 2 a column is one entry, and its own
// wires and upright bars aren't written.
/** @type {(text: string) => Circuit} */
export function readCircuit(text) {
  const lines = text.split("\n"), count = Number(lines[1].split(" ")[1]);
  const bars = new Uint8Array(count), targets = new Int32Array(4 * count).fill(-1), sources = new Int32Array(4 * count).fill(-1);
  /** @type {(element: number, side: number, into: number) => void} */
  const wire = (element, side, into) => {
    targets[4 * element + side] = into;
    sources[into] = 4 * element + side;
  };
  /** @type {(element: number, side: number, word: string) => void} */
  const wireTo = (element, side, word) => { if (word !== "-") wire(element, side, readPlace(word)); };
  const [north, east, south, west] = [0, 1, 2, 3];
  let element = 0;
  for (let at = 6; element < count;) {
    const words = lines[at++].split(" ");
    if (words[0] === "e") {
      bars[element] = words[2] === "H" ? 1 : 0;
      for (let side = 0; side < 4; side++) wireTo(element, side, words[3 + side]);
      element++;
      continue;
    }
    const top = element, rows = Number(words[2]), bottom = top + rows;
    for (let row = top; row < bottom; row++) {
      const [, rightward, leftward] = lines[at++].split(" ");
      wireTo(row, east, rightward);
      wireTo(row, west, leftward);
      wire(row, south, 4 * (row + 1) + north);
      wire(row + 1, north, 4 * row + south);
    }
    wire(bottom, south, 4 * bottom + south);
    wire(bottom, west, 4 * top + north);
    wire(top, north, 4 * bottom + east);
    bars[bottom] = words[3] === "H" ? 1 : 0;
    element = bottom + 1;
  }
  return {count, start: readPlace(lines[5].split(" ")[1]), bars, targets, sources};
}

// The bars of a configuration text alone, of either version.
/** @type {(text: string, count: number) => Uint8Array} */
export function readBars(text, count) {
  const bars = new Uint8Array(count);
  let at = 0, element = 0;
  for (let k = 0; k < 6; k++) at = text.indexOf("\n", at) + 1;
  while (element < count) {
    const end = text.indexOf("\n", at);
    if (text[at] === "e") {
      bars[element++] = text[text.indexOf(" ", at + 2) + 1] === "H" ? 1 : 0;
      at = end + 1;
      continue;
    }
    const [, , rows, bar] = text.slice(at, end).split(" ");
    element += Number(rows);
    bars[element++] = bar === "H" ? 1 : 0;
    at = end + 1;
    for (let row = 0; row < Number(rows); row++) at = text.indexOf("\n", at) + 1;
  }
  return bars;
}
