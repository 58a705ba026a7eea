// Reads a configuration text of either version, which the program has accepted, as a drawing without positions.
import {readCircuit, readPlace} from "../texts.js";

/** @type {(text: string, at?: number[][]) => Drawing} */
export function drawingOf(text, at = []) {
  const circuit = readCircuit(text), head = text.split("\n", 6).map(line => line.split(" "));
  return {
    bars: [...circuit.bars].map(bar => bar ? "H" : "V"), targets: [...circuit.targets], at,
    start: readPlace(head[2][1]), end: readPlace(head[3][1]), steps: head[4][1], hasLeft: head[5][0] === "left",
    place: readPlace(head[5][1]),
  };
}
// The same circuit with the bars, the signal and the steps of a text.
/** @type {(it: Drawing, text: string) => Drawing} */
export function stepped(it, text) {
  const other = drawingOf(text);
  return {...it, bars: other.bars, place: other.place, hasLeft: other.hasLeft, steps: other.steps};
}
