// The classes of machines: each call asks the program by `answer`, and reads what it prints.
import {circuitClasses} from "./circuits.mjs";
import {
  LOOK_LINES, Layout, Refused, Trace, VIEW_LINES, behind, decoder, lettered, linesOf, readLook, readOutcome, readRun, readSession,
  readView, spelled, tapeWords, windowWords,
} from "./values.mjs";

const DONE = 0, MACHINE = 4, STUCK = 10, WINDOW = 11, INSIDE = 12;
const MOST_STEPS = 1048576;
const MOST_DRIVE_STEPS = 2n ** 61n;
const BLANK = "_";

// The records of a table, each as its fields: as the csv library reads them.
function entriesOf(table) {
  const rows = [];
  let row = [], rest = table.replace(/^\uFEFF/, "");
  while (rest) {
    const found = /^(?:"((?:[^"]|"")*)"([^",\r\n]*)|([^",\r\n]*))(,|\r\n|\n|\r|$)/.exec(rest);
    if (!found) throw new Error(`${JSON.stringify(rest.slice(0, 40))} begins no field of a table`);
    row.push(found[1] === undefined ? found[3] : found[1].replaceAll('""', '"') + found[2]);
    rest = rest.slice(found[0].length);
    if (found[4] !== "," || !rest) {
      if (found[4] === ",") row.push("");
      if (row.length > 1 || row[0]) rows.push(row);
      row = [];
    }
  }
  return rows;
}

const quoted = field => /[",\r\n]/.test(field) ? `"${field.replaceAll('"', '""')}"` : String(field);

// The window of a line of `window` or `room`.
const readWindow = text => linesOf(text)[0].split(" ").slice(1).map(Number);

// The classes of machines whose calls this `answer` answers.
export function machineClasses(answer) {
  const {Circuit, farm} = circuitClasses(answer, table => new SequentialMachine(table));

  class Table {
    constructor(table) {
      if (typeof table !== "string" && !ArrayBuffer.isView(table) && !(table instanceof ArrayBuffer)) {
        throw new TypeError(`a table is a text or bytes, and not ${table === null ? "null" : typeof table}`);
      }
      this.table = typeof table === "string" ? table : decoder.decode(table);
    }

    // The machine of these rules, each with the fields of `rules`, or a list of fields.
    static fromRules(rules) {
      const rows = Array.from(rules, rule => Array.isArray(rule) ? rule : this.FIELDS.map(name => rule[name]));
      return new this(rows.map(row => `${row.map(quoted).join(",")}\n`).join(""));
    }

    // The fields of each entry of the table.
    get entries() {
      return entriesOf(this.table);
    }

    get rules() {
      const names = this.constructor.FIELDS;
      return this.entries.map(entry => Object.fromEntries(names.map((name, place) => [name, entry[place]])));
    }

    // The names of the states, in the order of their first appearance.
    get states() {
      return [...new Set(this.rules.flatMap(rule => [rule.state, rule.next]))];
    }

    // Whether another machine is of this kind, with the same entries in the same order.
    equals(other) {
      return other?.constructor === this.constructor && JSON.stringify(other.entries) === JSON.stringify(this.entries);
    }

    // States and rules as nodes and links, as drawing libraries take them.
    graph() {
      const links = this.rules.map(({state, next, ...rest}, place) => ({source: state, target: next, rule: place + 1, ...rest}));
      return {nodes: this.states.map(id => ({id})), links};
    }

    // The program's answer as text; a status that isn't one of these is Refused.
    ask(words, statuses = [DONE], input = this.table) {
      const {status, text} = answer(words, input);
      if (!statuses.includes(status)) throw new Refused(status, text);
      return text;
    }

    // The table, the line %, and a second text.
    beside(second) {
      const table = this.table.endsWith("\n") ? this.table : `${this.table}\n`;
      return `${table}%\n${second}`;
    }

    // The same with a script: its commands as a sequence, or as one text.
    withScript(script) {
      return this.beside(typeof script === "string" ? script : Array.from(script, line => `${line}\n`).join(""));
    }
  }

  class Machine extends Table {
    static FIELDS = ["state", "read", "write", "move", "next"];

    // The letters in the order of their first appearance, without the blank.
    get letters() {
      return [...new Set(this.rules.flatMap(({read, write}) => [read, write]))].filter(it => it !== BLANK).join("");
    }

    check() {
      return this.ask(["check"]).trim();
    }

    get isStandard() {
      try {
        this.check();
        return true;
      } catch (refused) {
        if (refused instanceof Refused && refused.status === MACHINE) return false;
        throw refused;
      }
    }

    standard() {
      return new Machine(this.ask(["standard"]));
    }

    bennett() {
      return this.ask(["bennett"]);
    }

    reversible() {
      return new ReversibleMachine(this.bennett());
    }

    // The reversible machine that leaves only its output: this machine's, and then the second's run backward.
    erase(second) {
      if (!(second instanceof Machine)) throw new TypeError("the second machine is a Machine");
      return new ErasingMachine(this, second);
    }

    byItself(word, steps = MOST_STEPS) {
      return readOutcome(this.ask(["machine", lettered(word), spelled(steps)], [DONE, STUCK, INSIDE]));
    }

    // The least window in which the machine's circuit ends as the machine does. Refused where it doesn't end in so many steps.
    leastWindow(word, steps = MOST_STEPS) {
      return readWindow(this.ask(["window", lettered(word), spelled(steps)]));
    }

    // The moments of that run.
    trace(word, steps = MOST_STEPS) {
      return new Trace(this.ask(["trace", lettered(word), spelled(steps)], [DONE, STUCK, INSIDE]));
    }

    run(word, window = "auto", steps = null) {
      if (window === "auto") {
        if (steps !== null) throw new TypeError("a run of so many steps needs a window");
        return readRun(this.ask(["run", lettered(word), "auto"], [DONE, STUCK, WINDOW]), null);
      }
      const words = ["run", lettered(word), ...windowWords(window), ...(steps === null ? [] : [spelled(steps)])];
      return readRun(this.ask(words, [DONE, STUCK, WINDOW, INSIDE]), words.slice(2, 6).map(Number));
    }

    view(word, window, steps) {
      return readView(linesOf(this.ask(["view", lettered(word), ...windowWords(window), spelled(steps)])));
    }

    // The answers to a script.
    session(word, window, script) {
      const words = ["session", lettered(word), ...windowWords(window)];
      return [...readSession(this.ask(words, [DONE], this.withScript(script)), VIEW_LINES, readView)];
    }

    // Its circuit at the start.
    compile(word, window) {
      return new Circuit(this.ask(["compile", lettered(word), ...windowWords(window)]));
    }

    // What that circuit consists of.
    layout(word, window) {
      return new Layout(this.ask(["layout", lettered(word), ...windowWords(window)]));
    }
  }

  // A machine of quadruples.
  class ReversibleMachine extends Table {
    static FIELDS = ["state", "read1", "read2", "read3", "act1", "act2", "act3", "next"];

    verdicts() {
      return this.ask(["reversible"]);
    }

    get isReversible() {
      return this.verdicts() === "deterministic yes\nreversible yes\n";
    }

    inverse() {
      return new ReversibleMachine(this.ask(["inverse"]));
    }

    // The moments of a run from a word on tape 1, or one on each of the three tapes.
    moments(words, steps = MOST_STEPS) {
      const list = typeof words === "string" ? [words] : [...words];
      if (list.length !== 1 && list.length !== 3) throw new TypeError(`a run begins with one word, or three, and not ${list.length}`);
      return new Trace(this.ask(["moments", ...list.map(lettered), spelled(steps)], [DONE, STUCK, INSIDE]));
    }

    // The least window, [l1, r1, r2, r3], in which the machine's circuit ends as the machine does. Refused with status 12 where it
    // doesn't end in so many steps, and with status 11 where no window has room for its run.
    leastWindow(words, steps = MOST_STEPS) {
      return readWindow(this.ask(["room", ...tapeWords(words), spelled(steps)]));
    }

    build(words, window) {
      return new Circuit(this.ask(["build", ...tapeWords(words), ...windowWords(window)]));
    }

    // The run of that circuit, to its exit or of at most so many element steps.
    drive(words, window, steps = MOST_DRIVE_STEPS) {
      const list = ["drive", ...tapeWords(words), ...windowWords(window), spelled(steps)];
      return readRun(this.ask(list, [DONE, STUCK, WINDOW, INSIDE]), list.slice(-5, -1).map(Number));
    }

    // Every layer of that circuit after at most so many element steps.
    look(words, window, steps) {
      return readLook(linesOf(this.ask(["look", ...tapeWords(words), ...windowWords(window), spelled(steps)])));
    }

    // The answers to a script that is played on that circuit.
    play(words, window, script) {
      const list = ["play", ...tapeWords(words), ...windowWords(window)];
      return [...readSession(this.ask(list, [DONE], this.withScript(script)), LOOK_LINES, readLook)];
    }
  }

  // The reversible machine that `first.erase(second)` gives.
  class ErasingMachine extends ReversibleMachine {
    constructor(first, second) {
      super(first.ask(["erase"], [DONE], first.beside(second.table)));
      Object.assign(this, {first, second});
    }

    byItself(word, steps = MOST_STEPS) {
      const {first, second} = this;
      const text = first.ask(["erase", lettered(word), spelled(steps)], [DONE, STUCK, INSIDE], first.beside(second.table));
      const [[kind, ...words], ...rest] = linesOf(text).map(line => line.split(" "));
      const [work, output] = kind === "halted" ? rest.map(line => behind(line[1], "=")) : [null, null];
      return {kind, steps: Number(words.at(-1)), work, output, state: kind === "stuck" ? words[0] : null};
    }
  }

  // A reversible sequential machine, by its table of moves: numbers from 1.
  class SequentialMachine extends Table {
    static FIELDS = ["state", "input", "next", "output"];

    // The reversible element with one bit of memory, from 1 to 10 lines, and this number, counted from 0 (Morita 2017).
    static element(lines, number) {
      const {status, text} = answer(["element", spelled(lines), spelled(number)], "");
      if (status !== DONE) throw new Refused(status, text);
      return new SequentialMachine(text);
    }

    // Its bank of rotary elements, in a state, with the signal at an input line.
    realise(state, line) {
      return new Circuit(this.ask(["realise", spelled(state), spelled(line)]));
    }

    // The least difference between a state of this machine and one of another; null where both answer every sequence of input
    // lines alike.
    difference(other, state = 1, otherState = 1) {
      const told = linesOf(this.ask(["equal", spelled(state), spelled(otherState)], [DONE], this.beside(other.table)));
      if (told[0] === "equal") return null;
      const [first, second] = told.slice(1).map(line => line.split(" ")[1]).map(it => it === "-" ? null : Number(it));
      return {lines: told[0].split(" ").slice(1).map(Number), first, second};
    }

    // Whether a state of this machine and one of another answer every sequence of input lines alike.
    equals(other, state = 1, otherState = 1) {
      return other instanceof SequentialMachine && this.difference(other, state, otherState) === null;
    }
  }

  // The run of a machine that adds one so many times, from 1 to 4, in its own window.
  function generate(increments) {
    const {status, text} = answer(["generate", spelled(increments)], "");
    if (status !== DONE) throw new Refused(status, text);
    return readRun(text.slice(text.indexOf("\n") + 1));
  }

  return {Circuit, ErasingMachine, Machine, ReversibleMachine, SequentialMachine, farm, generate};
}

