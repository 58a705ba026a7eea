// Marks on the time line, where a breakpoint holds. Those on states and cells are looked up in the moments; where the
// signal comes to an element is asked of the program, some of it, for the part of the time line that is seen.
import {LANES, STATUS} from "./answer.js";
import {holdsAt} from "./breaks.js";
import {marksChanged} from "./notices.js";
import {spanOf} from "./span.js";
import {breaksOf, byId, current, hasLayer, state} from "./state.js";
import {matchOf} from "./texts.js";
import {number} from "./words.js";

const MOST_MARKS = 400, MOST_COMES = 200, MARK_PARTS = 32, MARKS_REST = 180;
// What was asked of the elements: for which part, and the steps by their numbers.
/** @type {{run: import("./run.js").Run | null, key: string | null, comes: Map<number, {steps: number[], isMore: boolean}>,
 *   later: ReturnType<typeof setTimeout> | undefined, isMore: boolean}} */
const marks = {run: null, key: null, comes: new Map(), later: undefined, isMore: false};

// Where the signal comes to an element between two steps, the second one included: at most so many steps, and whether
// there are more of them. The way is gone in parts, so that it ends soon behind the second step.
export async function comesTo(run, element, from, to, most = MOST_COMES) {
  const part = Math.max(1, Math.ceil((to - from) / MARK_PARTS));
  const script = `break e element ${element}\nstep ${from}\n` + `go ${part}\n`.repeat(most + MARK_PARTS + 1);
  const reply = await run.session(script, {lane: LANES.long});
  if (reply.status !== STATUS.done) return null;
  const comes = [];
  let at = from;
  for (const line of reply.text.split("\n").slice(2, -1)) {
    const [, where, steps, label] = matchOf(/^(at|left) \S+ steps (\d+)( break e)?$/, line), hasLeft = where === "left";
    at = hasLeft ? Infinity : Number(steps);
    if (label && Number(steps) <= to) comes.push(Number(steps));
    if (at > to || hasLeft) break;
  }
  return {steps: comes.slice(0, most), isMore: comes.length > most || at < to};
}

export function showMarks() {
  const {run} = current;
  if (!run) return;
  const {from, to} = spanOf(), seen = marksSeen(run, from, to), dots = seen.slice(0, MOST_MARKS);
  const places = dots.map(it => `<i class="${it.kind}" style="left:${(it.time - from) / (to - from) * 100}%"></i>`);
  marks.isMore = seen.length > MOST_MARKS;
  byId("breakmarks").innerHTML = places.join("");
  askElements(run);
  marksChanged();
}
function marksSeen(run, from, to) {
  const others = state.breaks.filter(it => it.kind !== "element"), found = [];
  for (let q = Math.floor(from); others.length && q < to && q < run.moments.length; q++) {
    if (others.some(it => holdsAt(it, q))) found.push({time: q, kind: "moment"});
  }
  for (const {element} of elementsWanted()) {
    for (const step of marks.comes.get(element)?.steps ?? []) if (run.isKnown(step)) found.push({time: run.timeOf(step), kind: "element"});
  }
  return found.filter(it => it.time >= from && it.time <= to);
}
const elementsWanted = () => breaksOf("element");

// Asks for the marks of the part that is seen, once it has come to rest.
function askElements(run) {
  const {from, to} = spanOf(), first = run.stepAt(from), last = run.stepAt(Math.min(to, run.moments.length)), wanted = elementsWanted();
  const key = JSON.stringify([run.words, run.table, first, last, wanted]);
  if (marks.key === key) return;
  clearTimeout(marks.later);
  if (marks.run !== run || !wanted.length) marks.comes.clear();
  Object.assign(marks, {run, key});
  if (!wanted.length || !run.layers.includes("element")) return;
  marks.later = setTimeout(async () => {
    for (const {element} of wanted) {
      const comes = await comesTo(run, element, Math.max(0, first - 1), last);
      if (marks.key !== key) return;
      if (comes) marks.comes.set(element, comes);
    }
    showMarks();
  }, MARKS_REST);
}
// What is said where not all marks are shown, or a run is still looked through.
export function marksWords() {
  const wanted = hasLayer("element") ? elementsWanted() : [], said = wanted.map(({element}) => {
    const it = marks.comes.get(element);
    if (!it) return `the program looks for element ${number(element)} …`;
    return it.isMore ? `of element ${number(element)} the first ${number(it.steps.length)} marks, there are more` : "";
  });
  if (marks.isMore) said.push(`the first ${number(MOST_MARKS)} marks are drawn`);
  return said.filter(Boolean);
}
