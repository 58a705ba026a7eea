// The types of the circuit editor, for tsc only. A port is the number 4E + side; lengths are in units of the grid.

type Bar = "H" | "V";
/** A drawn circuit: for each output port the input to which it leads, or -1; the upper left corner of each box. An empty drawing has -1
    for start, end and signal. */
interface Drawing {
  bars: Bar[]; targets: number[]; at: number[][]; start: number; end: number; place: number; hasLeft: boolean; steps: string;
}
/** Elements with the wires between them, which can be added anywhere. */
interface Group { bars: Bar[]; targets: number[]; at: number[][]; start?: number; end?: number }
/** The route of a wire, corner by corner. */
type Way = number[][];

/** A passage of the signal from an input: the output, the bars afterwards, and the number of steps. */
interface Crossing { bars: string; input: number; output: number; next: string; steps: number }
/** An entry of a sequential machine's table, all counted from 1. */
interface Entry { state: number; input: number; next: number; output: number; steps?: number }
/** The behaviour of a circuit: its states as bars, its free ports in order, its entries, and whether they are complete. */
interface Behaviour { states: string[]; inputs: number[]; outputs: number[]; entries: Entry[]; isWhole: boolean; fault: string }
/** The comparison of a circuit with a table: the ports of the lines, and the inputs that show a difference. */
interface Compared {
  isSame: boolean; inputs: number[]; outputs: number[]; word: number[]; said: string; wanted: number; given: number;
}
/** A puzzle: its goal as a table, names for the lines, the least number of elements, and one solution; a puzzle that came by a link has
    none. */
interface Puzzle {
  key: string; chapter: string; title: string; ask: string; table: string; sides: boolean; most: number; hint: string; ins: string[];
  outs: string[]; solution?: {text: string; places: number[][]};
}
