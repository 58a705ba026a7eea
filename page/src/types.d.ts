// The types of what the page holds, for tsc alone: nothing of it is in the page. docs/use/formats.md says where the numbers
// come from. Unless it is said otherwise, what is counted is counted from 0: element steps from the start of the run,
// elements as the circuit's text lists them, cells from the one on which a word begins, and left of it below 0. Tapes,
// rules and the lines of a text are counted from 1, as the program counts them.

declare module "*.wasm" { const bytes: Uint8Array; export default bytes; }
declare module "*.txt" { const text: string; export default text; }

// ---- files of other programs

/** A rule as it stands in a file, with its place there. A blank is null. */
interface FoundRule { state: string; read: string | null; write: string | null; shift: string; following: string; place: string }
/** A machine of a file: its rules, its first state, its halting states, whether these may be taken for one, and the program's name. */
interface FoundMachine { rules: FoundRule[]; start: string; halting: string[]; haltsAlike: boolean; program: string }
/** A text as it was read: the table, the names in it that are spelled, what it was taken for, what was turned, in words, and what is
    proposed: which states accept and reject, and a word where the text has one. */
interface Reading {
  text: string; names: Record<string, string>; what: string; said: string[]; accept: string[]; reject: string[]; word: string | null;
}
/** An element of XML: its tag, its attributes, the elements in it, and the text before the first of these. */
interface XmlElement { tag: string; attributes: Map<string, string>; parts: XmlElement[]; text: string }

// ---- what is typed

/** A rule of a table, with the text line on which it stands, from 1. */
interface Rule { state: string; read: string; write: string; shift: string; next: string; line: number }
/** A machine as it runs: its table, what of it was typed, and the rules and states of both. */
interface Machine {
  table: string; given: string; isStandard: boolean; rules: Rule[]; userRules: Rule[]; userStates: string[];
}
/** How many cells the work tape has left and right of cell 0, and the last cells of history and output. */
type Window4 = number[];
type Layer = "machine" | "quadruple" | "module" | "element";
/** What a run stops at: a state, a cell of a tape, or an element. */
type Break = { kind: "state"; state: string } | { kind: "cell"; tape: number; cell: number }
  | { kind: "element"; element: number };
interface Cell { tape: number; cell: number }
/** A part of the time line, in moments, with shares of them. */
interface Span { from: number; to: number }
/** The part of a bank that is seen: pixels from row to row, and the column and the row at its left upper corner. */
interface Seen {
  bank: number; pitch: number; wide: number; x: number; y: number; columns: number; rows: number; needsMap: boolean;
}
interface Zoom { pitch: number; bank: number; follows: boolean; x: number; y: number }
/** What is typed and chosen. With `asTyped` a text is taken for a table as it stands, in whatever notation it is. `e` is the element step that is shown, `speed` in steps of the layer a second, `playing` the
    direction of play or 0. */
interface Typed {
  text: string; names: Record<string, string>; asStandard: boolean; blank: string | null; word: string;
  window: Window4 | null; example: string | null; accept: string[]; reject: string[]; tried: string[];
  places: Record<string, number[]>; e: number; layer: Layer; playing: number; speed: number; breaks: Break[];
  cell: Cell | null; module: number | null; zoom: Zoom | null; span: Span | null; editions: number; middle: string; isMaking?: boolean;
  asTyped: boolean; lesson: string | null;
}

// ---- what the program answers

/** The status and the text of an answer; `words` is what is said where it was cut off, else "". */
interface Reply { status: number; text: string; words: string }
/** Places of the signal, and where among them moves begin: those of a reply that is done. */
interface PlacesReply extends Reply { places: Int32Array; bounds: Int32Array; hasLeft: boolean }
/** A tape: its number from 1, its first cell, the head's cell, and the symbols from the first cell on. */
interface Tape { tape: number; first: number; head: number | null; symbols: string[] }
/** A text line of `moments`. A row is one of the table of quadruples, from 1; null where none is applied next. */
interface MomentTold { step: number; state: string; tapes: Tape[]; row: number | null }
/** How `drive` says that the signal ran: the exit, or null where it is inside, and null for what isn't told. */
interface Driven { elements: number; exit: string | null; steps: number; quadruples: number | null; tapes: Tape[] }
type Stage = "compute" | "copy" | "retrace";
/** What `view` prints. A place is 4E + side of a line E.L, with the sides n, e, s, w as 0 to 3; `steps` are element steps,
    `step` is the machine's, `rule` is counted from 1. */
interface View {
  hasLeft: boolean; place: number; steps: number; module: string; name: string; tapes: Tape[]; stage: Stage;
  state: string | null; rule: number | null; step: number;
}
/** What `run` prints: how many elements and element steps, and the tapes; the exit and the quadruple steps where the signal
    has left, the output where it left by the end. */
interface Outcome {
  elements: number; exit: string | null; steps: number; quadruples: number | null; output: string | null; tapes: Tape[];
}
/** A circuit: the place of the signal at the start; a bar lies (1) or stands (0); for each output line the input to which it leads, and for each input line the
    output from which it is fed, as places, or -1. */
interface Circuit { count: number; start: number; bars: Uint8Array; targets: Int32Array; sources: Int32Array }
/** How a machine runs by itself, in its own steps. */
interface Own { outcome: string; steps: number; output: string | null; state: string; letter: string }
/** What was found of a machine and a word: `isOpen` where the run is long, and its end isn't asked for at first. */
interface Found { own: Own; window: Window4; text: string; isFound?: boolean; isOpen?: boolean }

// ---- a run

/** A time at which Bennett's machine comes to a state, `steps` in element steps, `step` in the machine's; what the tapes
    show there is null where it isn't known. */
interface Moment {
  name: string; stage: Stage; state: string | null; rule: number | null; steps: number; place: number;
  hasLeft: boolean; tapes: Tape[] | null; step: number | null;
}
/** What the commands that tell have told of a run: rules from 1 on, or null, by the machine's steps; places in Bennett's table from 0
    on, or -1, by the moments. */
interface RunTold { rules: (number | null)[]; rows: number[] }
/** A module of the circuit, as `layout` tells it: its number, its first element, how many columns it has, of how many rows beside the
    bottom, and how many elements; of a cell its tape and its position. */
interface Bank {
  kind: "control" | "cell"; base: number; rows: number; columns: number; count: number; number: number;
  tape?: number; cell?: number;
}
/** A state of the control. Symbols are numbers of letters of the tapes to which they belong. */
type ControlState = { kind: "begin" } | { kind: "end" } | { kind: "reads"; state: string; symbols: number[] }
  | { kind: "shifts"; quadruple: number; tape: number } | { kind: "writes"; state: string; tape: number; symbols: number[] };
/** A state of a cell. */
interface CellState { letter: string; hasHead: boolean }
/** What all cells of a tape have alike: a state a column, a name a line, and the letters in the order of their numbers; and the
    cells themselves by their positions. */
interface TapeLayout { columns: CellState[]; lines: string[]; letters: string[]; cells: Map<number, Bank> }
/** What the board of a run is made of, as `layout` tells it: docs/use/formats.md, Layout. `tapes` has those of tape 1, 2 and 3; `bases` and
    `rows` are those of the banks, in their order. */
interface Layout {
  count: number; banks: Bank[]; control: { columns: ControlState[]; lines: { into: string; out: string }[] }; tapes: TapeLayout[];
  bases: Int32Array; rows: Int32Array;
}
/** A line of a module in words: its name, what it means, whether it comes back from a tape or a right neighbour, and of the control's
    the tape from which it comes. */
interface LineSaid { name: string; words: string; isBack: boolean; tape: number | null }
/** A state of the control with what Bennett's table says of it: the tape that is asked, the letters that are kept, which way a head goes. */
interface ControlSaid {
  kind: "begin" | "end" | "reads" | "shifts" | "writes"; state?: string; tape?: number; symbols?: string[]; quadruple?: number; way?: string;
}
/** Places of the signal that were fetched together, from step `from` on: piece `c` of the run; `bounds` are the steps at
    which moves begin. */
interface Piece { c: number; places: Int32Array; bounds: Float64Array; hasLeft: boolean; from: number }
/** A piece that is there, or is asked for. */
type Asked = { c: number; promise: Promise<Piece | null> } & Partial<Piece>;
interface Move { step: number; place: number }
/** Moves of one quadruple: `isPart` where some aren't fetched. */
type Moves = Move[] & { isPart?: boolean };
interface Place { place: number; hasLeft: boolean }
/** What the answers say of step `e`: the moment at or before it, `q`, the place of the signal, and the move it is in. */
interface Frame {
  e: number; q: number; moment: Moment; at: Place | null; bank: Bank | null; row: number;
  move: { from: number | null; to: number | null };
}

/** What is wrong with a table, and what the page can do about it; or the table that runs. */
interface Judged {
  table: string; isStandard: boolean; good?: string; fault?: string; also?: any; lines?: number[]; turn?: any;
  standard?: any; blanks?: string[]; again?: boolean; read?: boolean; isLong?: boolean; reading?: Reading; given?: string;
}

// ---- workshop and exercises

/** A call of the program, as it is handed out to copy, with what its input is. */
interface Call { words: string[]; input: string | null; what: string }
/** A page of the workshop: how it is made, and what is done as it comes and goes; which pictures are saved, where that aren't all. */
interface WorkshopPage {
  key: string; title: string; make(box: HTMLElement): void; open(): void; close(): void; calls(): Call[];
  keys: Record<string, () => any>; pictures?: string; take?: (text: any, start?: any) => any;
}
/** What is said of what was filled in, and what the program answered, which is shown where it gives nothing away. */
interface Judgement { isRight: boolean | null; words: string; told: string }
interface Field { key: string | number; label: string | number; size?: number | string; rows?: number; value?: string }
/** An exercise: its words, its fields, and what judges them. It is done on a machine or on a page of the workshop. */
interface Task {
  number: number; title: string; ask: string[]; fields: Field[]; act?: string;
  choices?: { title: string; machine: any }[]; machine?: any; page?: string; text?: any; start?: any;
  check(values: any, choice: number): Promise<Judgement>;
}

// ---- pictures that are saved

/** A part of a path, as SVG names it, with its points: M to one, L in a line, C in a cubic curve, Z back to where it began. */
type PathPart = [string, ...number[][]];
/** Red, green and blue up to 255, and how much of the colour covers. */
interface Colour { rgb: number[]; alpha: number }
/** What is drawn: a path, or words on a base line. `clip` is a box by its left, top, right and lower end, beyond which nothing of it
    is seen; `alpha` covers as `Colour` has it. All lengths are pixels, y goes down. */
type Shape = {fill: Colour | null; alpha: number; isGrey: boolean; clip: number[] | null} & ({
  kind: "path"; parts: PathPart[]; stroke: Colour | null; width: number; dashes: number[]; isRound: boolean; joinsRound: boolean;
} | {
  kind: "words"; text: string; x: number; y: number; size: number; anchor: string; halo: {colour: Colour; width: number} | null;
  isBold: boolean; isMono: boolean;
});
/** A picture: its size, what it is drawn on, and its shapes from the lowest to the uppermost. */
interface Scene { width: number; height: number; ground: number[]; shapes: Shape[] }
type PathShape = Extract<Shape, {kind: "path"}>;
type WordsShape = Extract<Shape, {kind: "words"}>;
/** How a picture is saved: in black and white or not, in which family of letters, and what it shows, in words. */
interface SaveStyle { isGrey: boolean; family: "sans" | "serif" | "mono"; made: string }

// ---- boxes of the page

/** A box by its name: any of those that the page asks for; `kept` is what was put into it last. */
interface Box extends HTMLElement {
  kept?: string | null; held?: any; value: string; checked: boolean; disabled: boolean; max: string; readOnly: boolean;
  selectionStart: number; selectionEnd: number; files: FileList;
  close(): void; showModal(): void; open: boolean;
}
// What is found by a selector is taken for what it is mostly.
interface Element {
  dataset: DOMStringMap; style: CSSStyleDeclaration; disabled: boolean; value: string; held?: any; focus(): void;
  onclick: ((event: MouseEvent) => any) | null; onchange: ((event: Event) => any) | null;
}
interface Element { setAttribute(name: string, value: any): void }
interface EventTarget {
  closest(selector: string): any; value: string; dataset: DOMStringMap; files: FileList; checked: boolean;
}
interface Array<T> {
  findLast(holds: (it: T, at: number) => any): T | undefined;
  findLastIndex(holds: (it: T, at: number) => any): number;
}
interface Float64Array { findLast(holds: (it: number, at: number) => any): number | undefined }
declare class CompressionStream { constructor(format: string); readable: any; writable: any }
declare class DecompressionStream { constructor(format: string); readable: any; writable: any }
