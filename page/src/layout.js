// Looks up in what `layout` told: in which module an element stands, and where there; by which line the signal is about to come
// in; a tape's cells; and for which state of a cell a column stands.

// The last of rising numbers that isn't above one.
/** @type {(rising: Int32Array, most: number) => number} */
export function lastUpTo(rising, most) {
  let low = 0, high = rising.length;
  while (high - low > 1) {
    const middle = (low + high) >> 1;
    if (rising[middle] <= most) low = middle; else high = middle;
  }
  return low;
}

/** @type {(layout: Layout, element: number) => Bank} */
export const moduleWith = (layout, element) => layout.banks[lastUpTo(layout.bases, element)];
// Where an element stands in its module; the row behind the last line is a column's bottom.
/** @type {(bank: Bank, element: number) => {column: number, row: number}} */
export function placeIn(bank, element) {
  const at = element - bank.base, high = bank.rows + 1;
  return {column: Math.floor(at / high), row: at % high};
}
/** @type {(bank: Bank, column: number) => number} */
export const bottomOf = (bank, column) => column * (bank.rows + 1) + bank.rows;
// The column that is marked among the bars of a module, or -1 where none is.
/** @type {(bank: Bank, bars: Uint8Array) => number} */
export function markedIn(bank, bars) {
  for (let column = 0; column < bank.columns; column++) if (bars[bottomOf(bank, column)] === 1) return column;
  return -1;
}
// The line of a module by which the signal is about to come into its first column, or -1: there a move begins.
/** @type {(layout: Layout, place: number) => number} */
export function lineInto(layout, place) {
  if ((place & 3) !== 3) return -1;
  const bank = moduleWith(layout, place >> 2), {column, row} = placeIn(bank, place >> 2);
  return column === 0 && row < bank.rows ? row : -1;
}
/** @type {(layout: Layout, tape: number, cell: number) => Bank | null} */
export const cellModule = (layout, tape, cell) => layout.tapes[tape - 1].cells.get(cell) ?? null;
// The state for which a column of a cell stands, and the column of a state.
/** @type {(layout: Layout, bank: Bank, column: number) => CellState} */
export const cellState = (layout, {tape = 1}, column) => layout.tapes[tape - 1].columns[column];
/** @type {(layout: Layout, bank: Bank, state: CellState) => number} */
export function columnWith(layout, {tape = 1}, {letter, hasHead}) {
  return layout.tapes[tape - 1].columns.findIndex(it => it.letter === letter && it.hasHead === hasHead);
}
