// What is done to the tapes and to what stands below them: cells that are picked, moves that are gone to, and the tabs.
import {goToFirst} from "./cell.js";
import {isWithOthers, on, shareAcross, takeKey} from "./listen.js";
import {listed} from "./moves.js";
import {redraw} from "./notices.js";
import {goTo, pause} from "./play.js";
import {chooseMiddle} from "./quadruples.js";
import {byId, current, state} from "./state.js";
import {takeTabs} from "./tabs.js";

/** @type {Record<string, number[]>} */
const CELL_KEYS = {ArrowLeft: [0, -1], ArrowRight: [0, 1], ArrowUp: [-1, 0], ArrowDown: [1, 0]};

export function onTapes() {
  for (const id of ["three", "map"]) on(id, "click", event => {
    const it = event.target.closest("[data-cell]");
    if (!it) return;
    const cell = {tape: Number(it.dataset.tape), cell: Number(it.dataset.cell)};
    const isSame = state.cell?.tape === cell.tape && state.cell.cell === cell.cell;
    pick(isSame ? null : cell);
  });
  on("three", "keydown", onCells);
  on("moves", "click", event => {
    const it = event.target.closest("[data-step]");
    if (!it) return;
    pause();
    goTo(Number(it.dataset.step));
  });
  on("strip", "pointerdown", event => {
    if (!current.run || !listed.moves) return;
    pause();
    const {from, to, list} = listed.moves, e = Math.round(from + (to - from) * shareAcross("strip", event));
    goTo(state.layer === "element" ? e : list.findLast(it => it.step <= e)?.step ?? from);
  });
  takeTabs(byId("middle"), it => {
    chooseMiddle(it.dataset.middle ?? "moves");
    if (current.run) redraw(false);
  });
}
/** @param {Cell | null} cell */
function pick(cell) {
  state.cell = cell;
  redraw(false);
}
// Cells by keys: arrows pick one, Enter goes to where it was first changed.
/** @param {KeyboardEvent} event */
function onCells(event) {
  const {key} = event, {run} = current;
  if (!run || isWithOthers(event)) return;
  const tapes = run.tapesAt(0), it = state.cell ?? {tape: 1, cell: tapes[0].first - 1}, by = CELL_KEYS[key];
  if (by) {
    const tape = Math.max(1, Math.min(tapes.length, it.tape + by[0])), {first, symbols} = tapes[tape - 1];
    pick({tape, cell: Math.max(first, Math.min(first + symbols.length - 1, it.cell + by[1]))});
  } else if (key === "Enter" && state.cell) goToFirst(state.cell);
  else if (key === "Escape" && state.cell) pick(null);
  else return;
  takeKey(event);
}
