// Bennett's pebble game (1989): segments of a run, a pebble on each configuration that is stored. A pebble is put on a segment, or taken from it,
// if it is the first one or the one before has a pebble. Nothing of it is the program's.

/** @typedef {{count: number, most: number}} Board */

// Positions are sets of segments: bit i - 1 is segment i.
/** @type {(at: number, i: number) => boolean} */
export const has = (at, i) => Boolean(at >> (i - 1) & 1);
/** @type {(at: number, i: number) => number} */
export const toggled = (at, i) => at ^ 1 << (i - 1);
/** @type {(at: number) => number} */
export const inUse = at => [...at.toString(2)].filter(bit => bit === "1").length;
// Why a move on a segment is not allowed; nothing where it is.
/** @type {(board: Board, at: number, i: number) => string} */
export function obstacle({most}, at, i) {
  if (i > 1 && !has(at, i - 1)) return `segment ${i - 1} has no pebble, so ${i} can't be computed or undone`;
  return !has(at, i) && inUse(at) >= most ? `all ${most} pebbles are in use` : "";
}
// The position that is asked for: the last segment alone.
/** @type {(board: Board) => number} */
export const goal = ({count}) => 1 << (count - 1);

// The least number of moves for so many segments with so many pebbles; Infinity where they are too few (Knill 1995).
/** @type {Map<string, [number, number]>} */
const known = new Map();
/** @type {(count: number, most: number) => [number, number]} */
function least(count, most) {
  if (count === 0) return [0, 0];
  if (most === 0) return [Infinity, 0];
  if (count === 1) return [1, 0];
  const key = `${count} ${most}`;
  let best = known.get(key);
  if (best) return best;
  best = [Infinity, 0];
  for (let m = 1; m < count; m++) {
    const moves = least(m, most)[0] + least(count - m, most - 1)[0] + least(m, most - 1)[0];
    if (moves < best[0]) best = [moves, m];
  }
  known.set(key, best);
  return best;
}
/** @type {(count: number, most: number) => number} */
export const leastMoves = (count, most) => least(count, most)[0];

// The moves of the recursive strategy, each a segment: reach a middle, go on from there, and clear the middle. With `halves` the middle is half of
// the way; else it is where the number of moves is the least.
/** @type {(board: Board, halves: boolean) => number[]} */
export function strategy({count, most}, halves) {
  /** @type {(from: number, segments: number, pebbles: number) => number[]} */
  const reach = (from, segments, pebbles) => {
    if (segments === 1) return [from + 1];
    const m = halves ? segments >> 1 : least(segments, pebbles)[1];
    const first = reach(from, m, pebbles), rest = reach(from + m, segments - m, pebbles - 1);
    return [...first, ...rest, ...reach(from, m, pebbles - 1).reverse()];
  };
  return halves && 2 ** (most - 1) < count || !halves && leastMoves(count, most) === Infinity ? [] : reach(0, count, most);
}

// A shortest sequence of moves from a position to the goal; null where there is none.
/** @type {(board: Board, from: number) => number[] | null} */
export function shortest(board, from) {
  const before = new Map([[from, [0, 0]]]), queue = [from];
  for (const at of queue) {
    if (at === goal(board)) {
      const moves = [];
      for (let here = at; here !== from;) {
        const [move, last] = /** @type {number[]} */ (before.get(here));
        moves.unshift(move);
        here = last;
      }
      return moves;
    }
    for (let i = 1; i <= board.count; i++) {
      const next = toggled(at, i);
      if (obstacle(board, at, i) || before.has(next)) continue;
      before.set(next, [i, at]);
      queue.push(next);
    }
  }
  return null;
}
