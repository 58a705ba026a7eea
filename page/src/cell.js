// What is said of a cell that was picked: what it holds, and when it was first changed. Of a long run that is asked of the
// program, moment by moment, when it is wanted.
import {sameBreak, toggleBreak} from "./breaks.js";
import {redraw} from "./notices.js";
import {goTo, pause} from "./play.js";
import {busy, byId, current, escaped, minus, state, toast} from "./state.js";
import {number, TAPES} from "./words.js";

// The first change that was found of a cell, by its run and its name: a moment, or null where there is none.
const firsts = new Map();
const nameOfCell = ({tape, cell}) => `${TAPES[tape]} tape, cell ${minus(cell)}`;
const keptAs = (run, {tape, cell}) => JSON.stringify([run.table, run.words, tape, cell]);
// The moment, null where the cell is never changed, or undefined where it isn't known.
const firstOf = (run, it) => run.isSmall && run.isWhole ? run.firstWritten(it.tape, it.cell) : firsts.get(keptAs(run, it));

export function renderCell() {
  const it = state.cell, box = byId("cellbox");
  box.hidden = !it;
  if (!it) {
    box.kept = null;
    return;
  }
  const {run} = current, first = firstOf(run, it), now = run.cellAt(run.momentIndex(state.e), it.tape, it.cell);
  const isBreak = state.breaks.some(other => sameBreak(other, {kind: "cell", ...it}));
  const key = JSON.stringify([it, now, isBreak, first, first === undefined, run.hasView(first)]);
  if (box.kept === key) return;
  box.kept = key;
  const name = nameOfCell(it), said = first === undefined ? "" : changeWords(run, first);
  box.innerHTML = `<span><b>${name}</b>: ${now === "_" ? "blank" : escaped(now)}. ${said}</span>`;
  const add = (text, act) => {
    const made = Object.assign(document.createElement("button"), {textContent: text, onclick: act});
    box.append(made);
    return made;
  };
  if (first !== null) add(first === undefined ? "When was it first changed?" : "Go there", () => goToFirst(it));
  add(isBreak ? "Delete the breakpoint" : "Break where it changes", () => toggleBreak({kind: "cell", ...it}));
  add("×", () => {
    state.cell = null;
    redraw(false);
  }).setAttribute("aria-label", "close");
}
// What is said of the moment at which a cell was first changed, once what the tapes show there is known.
function changeWords(run, first) {
  if (first === null) return "Never changed.";
  const at = run.moments[first];
  if (!at.tapes) return `First changed at quadruple step ${number(first)}, in ${at.stage}.`;
  const rule = at.stage === "compute" ? at.rule ?? Number(at.tapes[1]?.symbols[at.step]) : null;
  return `First changed at quadruple step ${number(first)}, in ${at.stage}${rule ? `, step ${at.step || 1}, by rule ${rule}` : ""}.`;
}

// Goes to the first moment at which a cell is otherwise than at the start; where that isn't known it is looked for.
export async function goToFirst(it) {
  const {run} = current, key = keptAs(run, it);
  pause();
  let first = firstOf(run, it);
  if (first === undefined) {
    const told = q => busy(`${nameOfCell(it)}: searched to quadruple step ${number(q)} …`);
    told(0);
    first = await run.findFirst(it.tape, it.cell, told);
    busy("");
    if (run !== current.run) return;
    if (first === undefined) return;
    firsts.set(key, first);
  }
  if (first === null) toast(`The ${nameOfCell(it)} is never changed.`);
  else goTo(run.starts[first]);
  redraw(false);
}
