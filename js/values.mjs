// What the program prints, read: refusals, tapes, outcomes, runs, looks, sessions. Nothing is computed here; names are given to
// parts. hithwelor.mjs and client.mjs stand on this, and so does machines.mjs.
const STATUSES = {
  2: "usage", 3: "text", 4: "machine", 5: "word", 6: "size", 7: "read fault", 8: "write fault", 9: "no memory",
  11: "window", 12: "inside",
};
const BLANK = "_";
const coder = new TextEncoder();
export const decoder = new TextDecoder();

// The program refused the words or the input: `status` is its exit code, `text` the line that it printed.
export class Refused extends Error {
  constructor(status, text) {
    super(`${text.trim()} (status ${status}, ${STATUSES[status] ?? "unknown"})`);
    Object.assign(this, {name: "Refused", status, text});
  }
}

// The program ran out of memory (status 9), or its memory or its stack was at its end; the next answer begins anew.
export class NoMemory extends Error {
  constructor(why = "the program ran out of memory", options) {
    super(why, options);
    this.name = "NoMemory";
  }
}

export function bytesOf(data, what) {
  if (typeof data === "string") return coder.encode(data);
  if (data instanceof Uint8Array) return data;
  if (data instanceof ArrayBuffer) return new Uint8Array(data);
  throw new TypeError(`${what} is a string or bytes, and not ${data === null ? "null" : typeof data}`);
}

// The words, each as bytes.
export function listed(words) {
  if (typeof words === "string" || typeof words?.[Symbol.iterator] !== "function") {
    throw new TypeError("words is a sequence of words, and not one text");
  }
  const list = Array.from(words, word => bytesOf(word, "a word"));
  if (list.some(word => word.includes(0))) throw new RangeError("a word has no byte 0");
  return list;
}

// The words as bytes with a byte 0 between them.
export function joined(words) {
  const list = listed(words), all = new Uint8Array(list.reduce((sum, word) => sum + word.length + 1, -1 + (list.length === 0)));
  let at = 0;
  for (const word of list) {
    all.set(word, at);
    at += word.length + 1;
  }
  return all;
}

// A number as a word. One that is no longer exact is refused: it would be spelled as another.
export function spelled(number) {
  if (typeof number === "bigint" || Number.isSafeInteger(number)) return String(number);
  throw new RangeError(`${number} is no whole number up to 2^53 - 1; give a greater one as a BigInt`);
}

// A number of a text, where it is exact.
export function counted(text) {
  const number = Number(text);
  if (!Number.isSafeInteger(number)) throw new RangeError(`${text} is above 2^53 - 1; the text has it`);
  return number;
}

// A word of letters.
export function lettered(word) {
  if (typeof word === "string") return `=${word}`;
  throw new TypeError(`the word is a string of letters, and not ${Array.isArray(word) ? "a list" : typeof word}`);
}

export const windowWords = window => {
  const numbers = Array.from(window);
  if (numbers.length !== 4) throw new RangeError(`a window is four numbers, l1, r1, n and r3, and not ${numbers.length}`);
  return numbers.map(spelled);
};
// A word on tape 1, or one on each of three tapes, as the program reads them: letters, or names of symbols.
export const tapeWords = words => {
  const list = typeof words === "string" || words.names ? [words] : [...words];
  if (list.length !== 1 && list.length !== 3) throw new TypeError(`a machine of quadruples starts with one word, or three, and not ${list.length}`);
  return list.map(word => typeof word === "string" ? `=${word}` : `:${word.names.join(",")}`);
};
export const behind = (text, front) => text.startsWith(front) ? text.slice(front.length) : text;
export const linesOf = text => text.split("\n").slice(0, -1);

// The symbols without the blanks at both ends: joined if each has one letter, else with spaces between them.
function wordOf(symbols) {
  const from = symbols.findIndex(it => it !== BLANK), to = symbols.findLastIndex(it => it !== BLANK);
  return from < 0 ? "" : symbols.slice(from, to + 1).join(symbols.every(it => it.length === 1) ? "" : " ");
}

// A tape, from the first cell that is shown to the last one. Its fields are plain values, so it can be cloned; `new Tape` of
// a clone has the calls again.
export class Tape {
  constructor({number, first, head, symbols}) {
    Object.assign(this, {number, first, head, symbols: [...symbols], word: wordOf(symbols)});
  }

  get length() {
    return this.symbols.length;
  }

  get positions() {
    return this.symbols.map((_, place) => this.first + place);
  }

  at(position) {
    const symbol = this.symbols[position - this.first];
    if (symbol === undefined) {
      throw new RangeError(`tape ${this.number} is shown from ${this.first} to ${this.first + this.length - 1}`);
    }
    return symbol;
  }

  [Symbol.iterator]() {
    return this.symbols[Symbol.iterator]();
  }
}

export function readTape(line) {
  const found = /^tape ([123]) from (-?\d+) head (-?\d+|\?):((?: \S+)*)$/.exec(line);
  if (!found) throw new Error(`${JSON.stringify(line)} isn't the line of a tape`);
  return new Tape({number: Number(found[1]), first: Number(found[2]), head: found[3] === "?" ? null : Number(found[3]),
                   symbols: found[4].split(" ").slice(1)});
}

// How a machine runs by itself. A trace's last line has no output; a machine of quadruples is stuck at three symbols.
export function readOutcome(text) {
  const [first, second] = text.split("\n"), [kind, ...words] = first.split(" ");
  const none = {kind, steps: counted(words.at(-1)), output: null, state: null, letter: null, symbols: [], text};
  if (kind === "stuck") {
    const symbols = words.slice(1, -1);
    return {...none, state: words[0], ...(symbols.length === 1 ? {letter: symbols[0]} : {symbols})};
  }
  return {...none, output: kind === "halted" && second?.startsWith("output =") ? behind(second, "output =") : null};
}

// A line of `trace` or `moments`: its tapes are `from F head H cells C:` and so many symbols, each of which may be any word.
function readMoment(line) {
  let [steps, state, ...rest] = line.split(" ");
  const tapes = [];
  while (rest[0] === "from" || rest[0] === "tape") {
    const number = rest[0] === "tape" ? Number(rest[1]) : 1, from = rest[0] === "tape" ? rest.slice(2) : rest;
    const end = 6 + parseInt(from[5]);
    tapes.push(new Tape({number, first: Number(from[1]), head: Number(from[3]), symbols: from.slice(6, end)}));
    rest = from.slice(end);
  }
  return {steps: counted(steps), state, tapes, tape: tapes[0], rule: rest.length ? Number(rest[1]) : null};
}

// The moments of a run and how it ends: an iterable of moments, each read when it is asked for.
export class Trace {
  constructor(text) {
    this.text = text;
    const lines = linesOf(text);
    this.outcome = readOutcome(lines.pop());
    Object.defineProperty(this, "lines", {value: lines});
  }

  get length() {
    return this.lines.length;
  }

  at(place) {
    const line = this.lines.at(place);
    if (line === undefined) throw new RangeError(`the trace has ${this.length} moments, and none at ${place}`);
    return readMoment(line);
  }

  *[Symbol.iterator]() {
    for (const line of this.lines) yield readMoment(line);
  }
}

const MODULE = /^module (\d+) (?:control|tape (\d) cell (-?\d+)) from (\d+) columns (\d+) lines (\d+)$/;
const numbered = text => text === undefined ? null : Number(text);

// What a circuit consists of: its modules; and by a module's kind (`control`, `tape 1`, ..) the names of columns and of lines.
export class Layout {
  constructor(text) {
    const [first, ...rest] = linesOf(text);
    Object.assign(this, {elements: Number(first.split(" ")[1]), modules: [], columns: {}, lines: {}, text});
    for (const line of rest) {
      const module = MODULE.exec(line), named = /^(column|line) \d+ of (control|tape \d) (.*)$/.exec(line);
      if (module) {
        const [number, tape, cell, from, columns, lines] = module.slice(1).map(numbered);
        this.modules.push({number, kind: tape === null ? "control" : `tape ${tape}`, tape, cell, first: from, columns, lines});
      } else if (named?.[1] === "column") (this.columns[named[2]] ??= []).push(named[3]);
      else if (named) {
        const both = /^in (.*) out (.*)$/.exec(named[3]);
        (this.lines[named[2]] ??= []).push(both ? [both[1], both[2]] : [named[3], named[3]]);
      }
    }
  }

  // Where an element is: its module, its column and row in the module's bank, and what that column stands for.
  spot(element) {
    const module = this.modules.findLast(it => it.first <= element);
    if (!module || !(element < this.elements)) throw new RangeError(`the circuit has ${this.elements} elements, and no element ${element}`);
    const column = Math.floor((element - module.first) / (module.lines + 1));
    return {module, column, row: (element - module.first) % (module.lines + 1), name: this.columns[module.kind][column]};
  }
}

export function readExit(words) {
  const [kind, ...rest] = words.split(" ");
  const none = {kind, state: null, letter: null, tape: null, side: null, symbols: []};
  if (kind === "stuck" && rest.length === 4) return {...none, state: rest[0], symbols: rest.slice(1)};
  if (kind === "stuck") return {...none, state: rest[0], letter: rest[1]};
  if (kind === "window") return {...none, tape: Number(rest[0]), side: rest[1]};
  return none;
}

export function readRun(text, window) {
  const told = new Map(), tapes = [];
  for (const line of linesOf(text)) {
    if (line.startsWith("tape ")) tapes.push(readTape(line));
    else told.set(line.split(" ", 1)[0], line.slice(line.indexOf(" ") + 1));
  }
  if (told.has("window")) window = told.get("window").split(" ").map(Number);
  // A generated run tells no window: it is the one that is shown.
  window ??= [0 - tapes[0].first, ...tapes.map(it => it.positions.at(-1))];
  const quadruple = told.get("quadruple"), output = told.get("output");
  return {window, elements: counted(told.get("elements")), exit: readExit(told.get("exit") ?? "inside"),
          steps: counted(told.get("steps")), quadrupleSteps: quadruple ? counted(behind(quadruple, "steps ")) : null, tapes,
          output: output === undefined ? null : behind(output, "="), text};
}

export const LOOK_LINES = 6, VIEW_LINES = 7;

export function readLook(lines) {
  const element = /^element (at|left) (\S+) steps (\d+)$/.exec(lines[0]);
  return {place: element[2], hasLeft: element[1] === "left", steps: counted(element[3]), module: lines[1],
          quadruple: behind(lines[2], "quadruple "), tapes: lines.slice(3, 6).map(readTape),
          text: lines.map(line => `${line}\n`).join("")};
}

export function readView(lines) {
  const layer = behind(lines[6], "machine "), cut = layer.indexOf(" ");
  return {...readLook(lines.slice(0, LOOK_LINES)), stage: cut < 0 ? layer : layer.slice(0, cut),
          machine: cut < 0 ? "" : layer.slice(cut + 1), text: lines.map(line => `${line}\n`).join("")};
}

const WALK_PLACE = /^(at|left) (\S+)$/;

// What a walk shows: where the signal is, and which elements have turned since the circuit that was given.
export function readWalkView(lines) {
  const place = WALK_PLACE.exec(lines[0]), [steps, turned] = lines.slice(1).map(line => line.split(" ").slice(1));
  return {place: place[2], hasLeft: place[1] === "left", steps: counted(steps[0]), turned: turned.map(Number),
          text: lines.map(line => `${line}\n`).join("")};
}

// The answers to a walk's script.
export const readWalk = text => readSession(text, 3, readWalkView, line => WALK_PLACE.test(line));

// The answers to a script, one an entry, in order, read as they are asked for; `read` reads so many lines as are shown.
export function* readSession(text, count, read, begins = line => line.startsWith("element ")) {
  const lines = linesOf(text);
  for (let at = 0; at < lines.length; at++) {
    if (!begins(lines[at])) yield lines[at];
    else {
      yield read(lines.slice(at, at + count));
      at += count - 1;
    }
  }
}

