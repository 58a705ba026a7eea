// The circuit's moves for the quadruple that is at work: a list with what each costs, and a strip as wide as they cost. Of
// very many moves those near the one at work are listed.
import {lineInto, moduleWith} from "./layout.js";
import {lineSaid} from "./module_words.js";
import {put} from "./sizes.js";
import {byId, current, escaped, state} from "./state.js";
import {number, shortBank} from "./words.js";

// The moves that are listed: from and to which step, the list, and the place of the one at work.
/** @type {{moves: {from: number, to: number, list: Moves} | null, at: number | null, key: string | null}} */
export const listed = {moves: null, at: -1, key: null};

const MOST_ROWS = 160, ROWS_ON = 40, MOST_PIECES_OF_STRIP = 300;

export function resetMoves() {
  Object.assign(listed, {moves: null, at: -1, key: null});
}

export function renderMoves(f) {
  const {run} = current, from = run.starts[f.q], to = run.starts[f.q + 1] ?? run.end;
  const list = run.movesBetween(from, Math.max(to, from + 1));
  const moves = {from, to, list};
  listed.moves = moves;
  if (to <= from) {
    put("moves", `<h3><span>The run is over</span><span class="quiet">${number(run.end)} element steps</span></h3>`);
    put("strip", "");
    return;
  }
  const at = list.findLastIndex(it => it.step <= f.e), first = firstRow(list, at);
  const key = `${f.q} ${list.length} ${list.isPart} ${state.playing && !list.length} ${first}`;
  if (listed.key !== key) {
    Object.assign(listed, {key, at: null});
    put("moves", tableOf(moves, first));
    put("strip", stripOf(moves));
  }
  if (listed.at !== at) mark(at, first);
  const now = byId("strip").querySelector("b");
  if (now) now.style.left = `${(f.e - from) / (to - from) * 100}%`;
}

// The first of the moves that are listed, so that the one at work is among them.
function firstRow(list, at) {
  if (list.length <= MOST_ROWS) return 0;
  return Math.max(0, Math.min(list.length - MOST_ROWS, Math.floor((at - MOST_ROWS / 2) / ROWS_ON) * ROWS_ON));
}
function tableOf({from, to, list}, first) {
  const head = `<h3><span>Moves of this quadruple</span><span class="quiet">${number(to - from)} element steps</span></h3>`;
  if (list.isPart && !list.length) {
    return head + `<p class="quiet">${state.playing ? "Pause or play slower to list the moves." : "Listing the moves …"}</p>`;
  }
  const shown = list.slice(first, first + MOST_ROWS), behind = list.length - first - shown.length;
  const rows = shown.map((it, k) => {
    const {layout} = current.run, bank = moduleWith(layout, it.place >> 2), line = lineSaid(layout, bank, lineInto(layout, it.place));
    const next = list[first + k + 1]?.step ?? (list.isPart ? null : to), cost = next === null ? "" : number(next - it.step);
    return `<tr data-step="${it.step}"><td><i class="m${bank.tape ?? 0}"></i><button class="link">${escaped(shortBank(bank))}</button></td>`
      + `<td>${escaped(line.words)}</td><td class="no">${cost}</td></tr>`;
  });
  const before = first ? `<p class="quiet">${number(first)} earlier moves</p>` : "";
  const more = [behind ? `${number(behind)} later moves` : "", list.isPart ? "the last moves are not loaded" : ""].filter(Boolean).join("; ");
  return `${head}${before}<table>${rows.join("")}</table>${more ? `<p class="quiet">${more}</p>` : ""}`;
}
function stripOf({from, to, list}) {
  const share = steps => steps / (to - from) * 100;
  const tapeOf = it => moduleWith(current.run.layout, it.place >> 2).tape ?? 0, isDense = list.length > MOST_PIECES_OF_STRIP;
  // Of very many moves neighbours on one tape are one piece.
  const drawn = isDense ? list.filter((it, k) => k === 0 || tapeOf(it) !== tapeOf(list[k - 1])) : list;
  const pieces = drawn.map((it, k) => {
    const tape = tapeOf(it), wide = (drawn[k + 1]?.step ?? to) - it.step;
    return `<i class="m${tape}" style="left:${share(it.step - from)}%;width:${share(wide)}%"></i>`;
  });
  return pieces.join("") + "<b></b>";
}

// Marks the move that is at work, and brings its row into sight.
function mark(at, first) {
  listed.at = at;
  const box = byId("moves"), table = box.querySelector("table"), row = table?.rows[at - first], strip = byId("strip").querySelectorAll("i");
  if (table) [...table.rows].forEach((it, k) => {
    it.classList.toggle("now", k === at - first);
    if (k === at - first) it.setAttribute("aria-current", "step");
    else it.removeAttribute("aria-current");
  });
  if (row) {
    const inner = row.getBoundingClientRect(), outer = box.getBoundingClientRect();
    if (inner.top < outer.top + 24 || inner.bottom > outer.bottom - 4) box.scrollTop += inner.top - outer.top - outer.height * .45;
  }
  if (strip.length <= MOST_PIECES_OF_STRIP) strip.forEach((it, k) => it.classList.toggle("now", k === at));
}
