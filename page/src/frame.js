// What the answers say of the step that is shown.
import {lineInto, moduleWith} from "./layout.js";
import {current, state} from "./state.js";

/** @type {() => Frame} */
export function frame() {
  const {run} = current, e = state.e, q = run.momentIndex(e), at = run.placeAt(e);
  const bank = at ? moduleWith(run.layout, at.place >> 2) : null, row = at && !at.hasLeft ? lineInto(run.layout, at.place) : -1;
  return {e, q, moment: run.moments[q], at, bank, row, move: run.moveAt(e)};
}
