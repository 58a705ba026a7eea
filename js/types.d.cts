// The types of the package, without any of the DOM or of Node.js.

/** A text, which is taken in UTF-8, or its bytes. */
export type Bytes = string | Uint8Array | ArrayBuffer;
/** A whole number; above 2^53 - 1 a bigint. */
export type Count = number | bigint;
/** A WebAssembly.Module. */
export type CompiledModule = object;
/** A module: a compiled one, its bytes, a Response with them, or its address. */
export type ModuleSource = CompiledModule | Uint8Array | ArrayBuffer | {arrayBuffer(): Promise<ArrayBuffer>} | string | {readonly href: string};
/** What an AbortSignal has. */
export interface Signal {
  readonly aborted: boolean;
  readonly reason?: any;
  addEventListener(type: "abort", listener: () => void, options?: {once?: boolean}): void;
  removeEventListener(type: "abort", listener: () => void): void;
}
/** A window of the three tapes: l1, r1, n, r3. */
export type Window = readonly [number, number, number, number];

/** The program refused the words or the input. */
export class Refused extends Error {
  readonly status: number;
  /** The line that the program printed. */
  readonly text: string;
  constructor(status: number, text: string);
}

/** The program ran out of memory (status 9), or an answer was cut off; the next one begins in a fresh instance. */
export class NoMemory extends Error {}

/** A tape. A loop over it gives the symbols from the first cell that is shown to the last one; it can be cloned. */
export class Tape implements Iterable<string> {
  /** A tape of the fields of another one, as of a clone, which has no calls. */
  constructor(fields: {number: 1 | 2 | 3; first: number; head: number | null; symbols: Iterable<string>});
  /** 1 is the work tape, 2 the history, 3 the output. */
  readonly number: 1 | 2 | 3;
  /** The position of the first cell that is shown. */
  readonly first: number;
  readonly head: number | null;
  /** A blank is `_`. */
  readonly symbols: readonly string[];
  /** The symbols without the blanks at both ends. */
  readonly word: string;
  /** How many cells are shown. */
  readonly length: number;
  /** The positions of the cells that are shown. */
  readonly positions: number[];
  /** The symbol at a position; beyond the cells that are shown that is a RangeError. */
  at(position: number): string;
  [Symbol.iterator](): IterableIterator<string>;
}

export interface Outcome {
  readonly kind: "halted" | "stuck" | "running";
  readonly steps: number;
  /** The output, if it was printed. */
  readonly output: string | null;
  readonly state: string | null;
  readonly letter: string | null;
  /** Where a machine of quadruples is stuck, the symbols under its three heads. */
  readonly symbols: readonly string[];
  readonly text: string;
}

/** A configuration of a run. */
export interface Moment {
  readonly steps: number;
  readonly state: string;
  /** One tape, or three of a machine of quadruples. */
  readonly tapes: readonly Tape[];
  /** The first of them. */
  readonly tape: Tape;
  /** The number of the rule that is applied next, from 1. */
  readonly rule: number | null;
}

/** The moments of a run, from the one before the first step, and how it ends. */
export class Trace implements Iterable<Moment> {
  constructor(text: string);
  readonly outcome: Outcome;
  readonly length: number;
  readonly lines: readonly string[];
  readonly text: string;
  /** The moment at a place; below 0 from the end. */
  at(place: number): Moment;
  [Symbol.iterator](): IterableIterator<Moment>;
}

/** A module of a circuit: the control, or a cell of a tape. */
export interface Module {
  readonly number: number;
  /** `control`, or the tape, as `tape 2`. */
  readonly kind: string;
  readonly tape: number | null;
  readonly cell: number | null;
  /** Its bank's first element. */
  readonly first: number;
  readonly columns: number;
  /** How many lines it has; a column has one element more. */
  readonly lines: number;
}

/** What a circuit consists of; `columns` and `lines` by a module's kind. */
export class Layout {
  constructor(text: string);
  readonly elements: number;
  readonly modules: readonly Module[];
  readonly columns: Readonly<Record<string, readonly string[]>>;
  /** The names of each line, the input's and the output's. */
  readonly lines: Readonly<Record<string, readonly [string, string][]>>;
  readonly text: string;
  /** Where an element is, and what its column stands for. */
  spot(element: number): {module: Module; column: number; row: number; name: string};
}

export interface Exit {
  readonly kind: "end" | "stuck" | "window" | "inside";
  readonly state: string | null;
  readonly letter: string | null;
  readonly tape: number | null;
  readonly side: string | null;
  /** Where a machine of quadruples is stuck, the symbols under its three heads. */
  readonly symbols: readonly string[];
}

export interface Run {
  readonly window: Window;
  readonly elements: number;
  readonly exit: Exit;
  readonly steps: number;
  readonly quadrupleSteps: number | null;
  readonly tapes: readonly Tape[];
  readonly output: string | null;
  readonly text: string;
}

/** Every layer of the circuit of a machine of quadruples. */
export interface Look {
  readonly place: string;
  readonly hasLeft: boolean;
  readonly steps: number;
  readonly module: string;
  readonly quadruple: string;
  readonly tapes: readonly Tape[];
  readonly text: string;
}

/** Every layer of the circuit of Bennett's machine of a machine. */
export interface View extends Look {
  readonly stage: string;
  readonly machine: string;
}

/** What a walk shows of a circuit. */
export interface WalkView {
  /** The input that the signal is about to enter, or the output by which it has left. */
  readonly place: string;
  readonly hasLeft: boolean;
  readonly steps: number;
  /** The numbers of the elements whose bars differ from those of the circuit with which the walk began. */
  readonly turned: readonly number[];
  readonly text: string;
}

/** A rotary element: its bar, `H` or `V`, and for each output the input, as `3.n`, to which it leads. */
export interface Element {
  readonly number: number;
  readonly bar: "H" | "V";
  readonly n: string | null;
  readonly e: string | null;
  readonly s: string | null;
  readonly w: string | null;
}

export interface Plan {
  readonly elements: number;
  readonly tracks: number;
  readonly densest: number;
  readonly wires: readonly {readonly source: string; readonly target: string; readonly track: number}[];
}

/** Nodes and links, as drawing libraries take them. */
export interface Graph<Node, Link> {
  readonly nodes: Node[];
  readonly links: Link[];
}

/** A circuit of rotary elements with its signal, by its configuration text. */
/** How a circuit is explored: the ports that are lines, as "3.n", and the greatest numbers of states and of element steps of a
 * crossing. */
export interface Exploration {
  inputs?: Iterable<string>;
  outputs?: Iterable<string>;
  states?: Count;
  steps?: Count;
}

/** A crossing: the states before and after, from 1, the ports, as "3.n", and the element steps. */
export interface Crossing {
  state: number;
  input: string;
  next: number;
  output: string;
  steps: number;
}

/** What tells two states apart: a shortest sequence of input lines, and the output lines that answer the last; null for no move. */
export interface Difference {
  lines: number[];
  first: number | null;
  second: number | null;
}

export interface Circuit extends Iterable<Element> {
  readonly text: string;
  readonly elements: number;
  readonly start: string;
  readonly end: string;
  /** How many element steps were made; above 2^53 - 1 a bigint. */
  readonly steps: Count;
  readonly hasLeft: boolean;
  readonly place: string;
  ask(words: Iterable<Bytes>): string;
  /** The circuit after, or before, at most so many element steps. */
  step(steps?: Count): Circuit;
  back(steps?: Count): Circuit;
  /** The answers to a script of steps and breakpoints on this circuit. */
  walk(script: string | Iterable<string>): (WalkView | string)[];
  /** The inverse circuit. */
  mirror(): Circuit;
  /** The same in version 2. */
  migrate(): Circuit;
  plan(): Plan;
  /** The reversible sequential machine that the circuit is, its bars as state 1, by its free ports or by those that are named. */
  behaviour(options?: Exploration): SequentialMachine;
  /** The crossings of `behaviour`, one for each of its moves. */
  crossings(options?: Exploration): Crossing[];
  /** The circuit after each further chunk of so many element steps, up to where the signal has left. */
  chunks(size?: Count): IterableIterator<Circuit>;
  graph(): Graph<{id: number; bar: string}, {source: number; target: number; output: string; input: string}>;
  equals(other: unknown): boolean;
  toString(): string;
}

/** A table that the program is asked about. */
export interface Table<Entry> {
  readonly table: string;
  readonly entries: string[][];
  readonly rules: Entry[];
  readonly states: string[];
  ask(words: Iterable<Bytes>, statuses?: readonly number[], input?: Bytes): string;
  /** Whether another machine is of this kind, with the same entries in the same order. */
  equals(other: unknown): boolean;
  graph(): Graph<{id: string}, {source: string; target: string; rule: number} & Omit<Entry, "state" | "next">>;
}

export interface Rule {
  state: string;
  read: string;
  write: string;
  move: string;
  next: string;
}

/** A machine, by its table: a quintuple a line, `state,read,write,shift,next`. What the program refuses is Refused. */
export interface Machine extends Table<Rule> {
  readonly letters: string;
  check(): string;
  readonly isStandard: boolean;
  standard(): Machine;
  bennett(): string;
  /** Bennett's reversible machine of this one. */
  reversible(): ReversibleMachine;
  /** The reversible machine that leaves only its output. */
  erase(second: Machine): ErasingMachine;
  byItself(word: string, steps?: Count): Outcome;
  /** The least window in which the machine's circuit ends as the machine does. */
  leastWindow(word: string, steps?: Count): Window;
  /** The moments of that run. */
  trace(word: string, steps?: Count): Trace;
  run(word: string, window?: "auto"): Run;
  run(word: string, window: Iterable<Count>, steps?: Count | null): Run;
  view(word: string, window: Iterable<Count>, steps: Count): View;
  session(word: string, window: Iterable<Count>, script: string | Iterable<string>): (View | string)[];
  /** Its circuit at the start. */
  compile(word: string, window: Iterable<Count>): Circuit;
  /** What that circuit consists of. */
  layout(word: string, window: Iterable<Count>): Layout;
}

/** A word on a tape of a machine of quadruples: letters, or the names of its symbols. */
export type Word = string | {readonly names: readonly string[]};

export interface Quadruple {
  state: string;
  read1: string;
  read2: string;
  read3: string;
  act1: string;
  act2: string;
  act3: string;
  next: string;
}

/** A machine of quadruples, by its table: a state, what is read on three tapes, what is done there, the next state. */
export interface ReversibleMachine extends Table<Quadruple> {
  /** Whether the machine is deterministic, and reversible, as the program prints it. */
  verdicts(): string;
  readonly isReversible: boolean;
  /** The machine that takes the steps of this one back. */
  inverse(): ReversibleMachine;
  /** The moments of its run from a word on tape 1, or from three words. */
  moments(words: string | Iterable<string>, steps?: Count): Trace;
  /** The least window l1, r1, r2, r3 in which the machine's circuit ends as the machine does. */
  leastWindow(words: Word | Iterable<Word>, steps?: Count): Window;
  /** Its circuit at the start, in a window l1, r1, r2, r3. */
  build(words: Word | Iterable<Word>, window: Iterable<Count>): Circuit;
  /** The run of that circuit, to its exit or of at most so many element steps. */
  drive(words: Word | Iterable<Word>, window: Iterable<Count>, steps?: Count): Run;
  /** Every layer of that circuit after at most so many element steps. */
  look(words: Word | Iterable<Word>, window: Iterable<Count>, steps: Count): Look;
  /** The answers to a script that is played on that circuit. */
  play(words: Word | Iterable<Word>, window: Iterable<Count>, script: string | Iterable<string>): (Look | string)[];
}

/** How an erasing machine runs: what stands on tape 1, `work`, and its `output`. */
export interface Erasure {
  readonly kind: "halted" | "stuck" | "running";
  readonly steps: number;
  readonly work: string | null;
  readonly output: string | null;
  readonly state: string | null;
}

/** The reversible machine that `first.erase(second)` returns. */
export interface ErasingMachine extends ReversibleMachine {
  readonly first: Machine;
  readonly second: Machine;
  byItself(word: string, steps?: Count): Erasure;
}

/** A reversible sequential machine, by its table of moves: numbers from 1. */
export interface SequentialMachine extends Table<Move> {
  /** Its bank of rotary elements, in a state, with the signal at an input line. */
  realise(state: Count, line: Count): Circuit;
  /** The least difference between a state of this machine and one of another; null where both answer alike. */
  difference(other: SequentialMachine, state?: Count, otherState?: Count): Difference | null;
  /** Whether a state of this machine and one of another answer every sequence of input lines alike. */
  equals(other: unknown, state?: Count, otherState?: Count): boolean;
}

/** A class of machines. */
export interface Kind<It, Entry> {
  new (table: string | Uint8Array | ArrayBuffer): It;
  fromRules(rules: Iterable<Entry | readonly string[]>): It;
}

/** A move of a sequential machine. */
export interface Move {
  state: string;
  input: string;
  next: string;
  output: string;
}

/** The class of sequential machines. */
export interface SequentialKind extends Kind<SequentialMachine, Move> {
  /** The reversible element with one bit of memory, from 1 to 10 lines, and this number, counted from 0. */
  element(lines: Count, number: Count): SequentialMachine;
}

export interface Hithwelor {
  /** The status and the text of the program's answer to words and an input. */
  answer(words: Iterable<Bytes>, input?: Bytes): {status: number; text: string};
  answerBytes(words: Iterable<Bytes>, input?: Bytes): {status: number; text: Uint8Array};
  readonly Machine: Kind<Machine, Rule>;
  readonly ReversibleMachine: Kind<ReversibleMachine, Quadruple>;
  readonly SequentialMachine: SequentialKind;
  readonly ErasingMachine: {new (first: Machine, second: Machine): ErasingMachine};
  readonly Circuit: {new (text: string | Uint8Array): Circuit};
  /** Several circuits under a schedule of a circuit's number, from 1, and its steps, below 0 for back. */
  farm(circuits: Iterable<Circuit>, schedule: Iterable<readonly [Count, Count]>): {circuits: Circuit[]; undo: [number, number][]};
  /** The run of a machine that adds one so many times, from 1 to 4, in its own window. */
  generate(increments: Count): Run;
  readonly Layout: typeof Layout;
  readonly Trace: typeof Trace;
  readonly Refused: typeof Refused;
  readonly NoMemory: typeof NoMemory;
  readonly Tape: typeof Tape;
  /** The compiled module, to be handed to a worker. */
  readonly module: CompiledModule;
  /** How many bytes the module's memory has by now. */
  memory(): number;
}

export interface Options {
  /** Aborting it rejects the promise with the signal's reason, and ends the worker if it has this request. */
  readonly signal?: Signal;
}

/** A worker that has one request at a time; the others wait in their order. */
export interface Client {
  /** The status and the text of the program's answer to words and an input. */
  answer(words: Iterable<Bytes>, input?: Bytes, options?: Options): Promise<{status: number; text: string}>;
  answerBytes(words: Iterable<Bytes>, input?: Bytes, options?: Options): Promise<{status: number; text: Uint8Array}>;
  /** What a call of a Machine, Circuit, .. of this text returns; circuits and machines are their texts. */
  call(kind: "Machine" | "ReversibleMachine" | "SequentialMachine" | "Circuit", text: string, name: string,
       args?: Iterable<unknown>, options?: Options): Promise<any>;
  /** Ends the worker; requests that have no answer yet are rejected. */
  close(): void;
}
