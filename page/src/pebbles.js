// The pebble game as a page of the workshop: moves by hand or by a strategy, the count of moves and pebbles, and the optimum beside them.
import {goal, has, inUse, leastMoves, obstacle, shortest, strategy, toggled} from "./pebble_game.js";
import {partOf} from "./state.js";

const MOST_SEGMENTS = 12, MOST_PEBBLES = 6, CELL = 26, ROW = 12, MARGIN = 30;
const options = (most, chosen) => Array.from({length: most}, (_, k) => `<option ${k + 1 === chosen ? "selected" : ""}>${k + 1}</option>`).join("");
const PEBBLE_PAGE = `<div class="e-left"><p>A run is cut into segments. A pebble on a segment stores the configuration after it. Put a pebble on a
      segment, or take it away, only if the segment before has one: from there it is computed, or undone.</p>
    <p>Reach the last segment with one pebble on it and no other. Use few pebbles, and few moves.</p>
    <p class="row"><label>segments <select id="b-count">${options(MOST_SEGMENTS, 4)}</select></label>
      <label>pebbles <select id="b-most">${options(MOST_PEBBLES, 3)}</select></label></p>
    <p class="row"><label>strategy <select id="b-strategy"><option value="best">fewest moves</option><option value="halves">halves</option></select></label></p>
    <p id="b-optimum"></p><p class="quiet">The history of Bennett's first machine is a pebble on each segment. With log n pebbles, time grows a
      little faster than n (Bennett 1989).</p></div>
  <div class="e-right"><div id="b-segments" class="e-foot" role="group" aria-label="segments"></div>
    <div class="e-foot"><button id="b-again">Start again</button><button id="b-undo">◂ Undo</button><button id="b-redo">Redo ▸</button>
      <button id="b-next" class="main">Next move of the strategy ▸</button></div>
    <p id="b-said" class="e-said" role="status"></p><div id="b-picture" class="e-picture"></div></div>`;

// The moves that were made and undone; the box is there once the page was opened.
const game = /** @type {{box: HTMLElement, board: {count: number, most: number}, moves: number[], undone: number[]}} */ (
  /** @type {any} */ ({board: {count: 4, most: 3}, moves: [], undone: []}));
const part = id => partOf(game.box, id);
/** @type {(moves: number[]) => number} */
const reached = moves => moves.reduce(toggled, 0);

function begin() {
  game.board = {count: Number(part("b-count").value), most: Number(part("b-most").value)};
  Object.assign(game, {moves: [], undone: []});
  show();
}
/** @type {(i: number) => void} */
function move(i) {
  const why = obstacle(game.board, reached(game.moves), i);
  if (why) {
    part("b-said").textContent = `Not allowed: ${why}.`;
    return;
  }
  game.moves.push(i);
  game.undone = [];
  show();
}
function undo() {
  if (game.moves.length) game.undone.push(/** @type {number} */ (game.moves.pop()));
  show();
}
function redo() {
  if (game.undone.length) game.moves.push(/** @type {number} */ (game.undone.pop()));
  show();
}
// The next move of the chosen strategy where it was followed so far; else one of a shortest sequence from here.
function next() {
  const {board, moves} = game, plan = strategy(board, part("b-strategy").value === "halves");
  const isFollowed = moves.length < plan.length && moves.every((it, k) => it === plan[k]);
  const rest = isFollowed ? plan.slice(moves.length) : shortest(board, reached(moves));
  if (rest?.length) move(rest[0]);
  else part("b-said").textContent = rest ? "The goal is reached." : "With so many pebbles the last segment can't be reached.";
}

function show() {
  const {board, moves} = game, at = reached(moves), optimum = leastMoves(board.count, board.most), halves = strategy(board, true).length;
  const boxes = Array.from({length: board.count}, (_, k) => {
    const i = k + 1, why = obstacle(board, at, i), deed = has(at, i) ? "take its pebble" : "put a pebble";
    return `<button data-segment="${i}" aria-pressed="${has(at, i)}" ${why ? `aria-disabled="true" title="${why}"` : ""}
      aria-label="segment ${i}: ${why || deed}">${has(at, i) ? "●" : "○"} ${i}</button>`;
  });
  const chosen = document.activeElement?.getAttribute("data-segment");
  part("b-segments").innerHTML = boxes.join("");
  if (chosen) part("b-segments").querySelector(`[data-segment="${chosen}"]`)?.focus();
  part("b-undo").disabled = !moves.length;
  part("b-redo").disabled = !game.undone.length;
  part("b-optimum").textContent = `Fewest moves for ${board.count} with ${board.most}: ${optimum === Infinity ? "none, the pebbles are too few" : optimum}. By halves: ${halves || "not possible"}.`;
  const most = moves.reduce(({here, most: used}, i) => ({here: toggled(here, i), most: Math.max(used, inUse(toggled(here, i)))}), {here: 0, most: 0}).most;
  const done = at === goal(board) ? moves.length === optimum ? " Reached, with the fewest moves." : ` Reached; ${optimum} moves are enough.` : "";
  part("b-said").textContent = `${moves.length} ${moves.length === 1 ? "move" : "moves"}, ${inUse(at)} in use, at most ${most}.${done}`;
  part("b-picture").innerHTML = pictureOf(board.count, moves);
}
// Time goes down; each row has the pebbles after a move.
/** @type {(count: number, moves: number[]) => string} */
function pictureOf(count, moves) {
  const width = MARGIN + CELL * count + 10, height = 24 + ROW * (moves.length + 1);
  const heads = Array.from({length: count}, (_, k) => `<text x="${MARGIN + CELL * k + CELL / 2}" y="14" text-anchor="middle" font-size="12">${k + 1}</text>`);
  let at = 0;
  const rows = moves.map((i, k) => {
    at = toggled(at, i);
    const y = 22 + ROW * k;
    const cells = Array.from({length: count}, (_, n) => has(at, n + 1) ? `<rect x="${MARGIN + CELL * n + 2}" y="${y}" width="${CELL - 4}" height="${ROW - 1}" fill="${n + 1 === i ? "#c2307a" : "#6b4fa0"}"/>` : "");
    const gone = has(at, i) ? "" : `<rect x="${MARGIN + CELL * (i - 1) + 2}" y="${y}" width="${CELL - 4}" height="${ROW - 1}" fill="none" stroke="#c2307a"/>`;
    return `<text x="${MARGIN - 6}" y="${y + ROW - 2}" text-anchor="end" font-size="11">${k + 1}</text>${cells.join("")}${gone}`;
  });
  return `<svg xmlns="http://www.w3.org/2000/svg" width="${width}" height="${height}" viewBox="0 0 ${width} ${height}" fill="currentColor" role="img"
    aria-label="pebbles after each move">${heads.join("")}${rows.join("")}</svg>`;
}

export const pebblesPage = {
  key: "pebbles", title: "Pebbles",
  make(box) {
    game.box = box;
    box.innerHTML = PEBBLE_PAGE;
    for (const id of ["b-count", "b-most"]) part(id).onchange = begin;
    part("b-again").onclick = begin;
    part("b-undo").onclick = undo;
    part("b-redo").onclick = redo;
    part("b-next").onclick = next;
    part("b-segments").onclick = (/** @type {any} */ event) => {
      const it = event.target.closest("[data-segment]");
      if (it) move(Number(it.dataset.segment));
    };
    begin();
  },
  open() {},
  close() {},
  keys: {
    ArrowRight: next, ArrowLeft: undo, z: undo, y: redo,
    ...Object.fromEntries(Array.from({length: 9}, (_, k) => [String(k + 1), () => k < game.board.count && move(k + 1)])),
  },
  calls: () => [],
};
