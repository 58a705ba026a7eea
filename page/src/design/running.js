// Runs: the program computes each step forward and back from the configuration text.
import {answer, LANES, STATUS, stopLane} from "../answer.js";
import {sideOf} from "../svg.js";
import {placeName} from "../texts.js";
import {inTurn} from "../turns.js";
import {number} from "../words.js";
import {commit, desk, deskChanged, showRun, tellDesk} from "./desk.js";
import {entered, sourcesOf, textOf} from "./drawing.js";
import {stepped} from "./reading_text.js";

const MOST_TRAIL = 400, MOST_OUT = 1000000, MOST_SINGLE = 400;
// `most` is the last step that this run has come to.
/** @type {{playing: number, pace: number, isFar: boolean, most: number, later: ReturnType<typeof setTimeout> | undefined}} */
export const running = {playing: 0, pace: 420, isFar: false, most: 0, later: undefined};

// Asks the program about the drawing; an answer is ignored if the drawing has changed meanwhile.
/** @type {(words: any[]) => Promise<Drawing | null>} */
async function asked(words) {
  const before = desk.drawing;
  if (!before.bars.length) return null;
  const reply = await answer(words, textOf(before), {lane: LANES.design});
  if (desk.drawing !== before) return null;
  if (reply.status !== STATUS.done) {
    if (reply.status > 0) tellDesk(`The program refused: ${reply.text.trim()}`, true);
    return null;
  }
  return stepped(before, reply.text);
}
/** @type {(before: Drawing, after: Drawing) => boolean} */
const isSame = (before, after) => before.steps === after.steps;
// Updates the trail and the element that turned last, after one step.
/** @type {(before: Drawing, after: Drawing, direction: number) => void} */
function mark(before, after, direction) {
  desk.turned = before.bars.findIndex((bar, k) => bar !== after.bars[k]);
  if (direction < 0) {
    desk.trail = desk.trail.slice(0, -1);
    return;
  }
  if (before.steps === "0") Object.assign(desk, {began: before.bars, trail: []});
  if (!after.hasLeft) desk.trail = [...desk.trail, sourcesOf(after)[after.place]].slice(-MOST_TRAIL);
}
// One step forward or back; returns whether there was one.
/** @type {(direction: number) => Promise<boolean>} */
export async function go(direction) {
  const before = desk.drawing, after = await asked([direction > 0 ? "step" : "back", "1"]);
  if (!after || isSame(before, after)) return false;
  mark(before, after, direction);
  showRun(after);
  return true;
}
// A signal that has left enters at the start again, with the present bars; returns whether it had left.
function again() {
  const {drawing} = desk;
  if (!drawing.bars.length || !drawing.hasLeft) return false;
  commit(entered(drawing, drawing.start), {key: "again"});
  tellDesk(`The signal enters again at ${placeName(drawing.start)}, the start. The bars stay as they are.`);
  return true;
}
// To the exit, or back to the start.
/** @type {(direction: number) => Promise<void>} */
export async function far(direction) {
  pause();
  tellDesk("");
  if (direction > 0) again();
  const before = desk.drawing;
  running.isFar = true;
  deskChanged("run");
  const after = await asked([direction > 0 ? "step" : "back", direction > 0 ? MOST_OUT : "4611686018427387904"]);
  running.isFar = false;
  if (!after || isSame(before, after)) {
    deskChanged("run");
    return;
  }
  const made = direction > 0 ? Number(after.steps) - Number(before.steps) : Infinity;
  // If the path is not long, the same steps are made one by one to draw it.
  let at = before;
  if (before.steps === "0") Object.assign(desk, {began: before.bars, trail: []});
  for (let k = 0; made <= MOST_SINGLE && k < made; k++) {
    const reply = await answer(["step", "1"], textOf(at), {lane: LANES.design});
    if (desk.drawing !== before || reply.status !== STATUS.done) break;
    const next = stepped(at, reply.text);
    mark(at, next, 1);
    at = next;
  }
  if (desk.drawing !== before) return;
  if (made > MOST_SINGLE) desk.trail = [];
  desk.turned = -1;
  showRun(after);
  if (direction > 0 && !after.hasLeft) tellDesk(`After ${number(made)} more steps the signal is still inside. It may be in a loop; a signal that entered by a free port always leaves.`);
}
export const stopFar = () => stopLane(LANES.design);

/** @type {(direction?: number) => void} */
export function play(direction = 1) {
  if (running.playing === direction) {
    pause();
    return;
  }
  pause();
  tellDesk("");
  if (direction > 0) again();
  running.playing = direction;
  deskChanged("run");
  const tick = async () => {
    const went = await inTurn(() => go(direction));
    if (running.playing !== direction) return;
    if (went) running.later = setTimeout(tick, running.pace);
    else pause();
  };
  running.later = setTimeout(tick, 10);
}
export function pause() {
  clearTimeout(running.later);
  if (!running.playing) return;
  running.playing = 0;
  deskChanged("run");
}
/** @type {(direction: number) => Promise<any>} */
export function stepOnce(direction) {
  pause();
  tellDesk("");
  if (direction > 0 && again()) return Promise.resolve(true);
  return inTurn(() => go(direction));
}
/** @type {(direction: number) => Promise<any>} */
export const goFar = direction => inTurn(() => far(direction));

// Goes to a step of the run so far.
/** @type {(step: number) => Promise<any>} */
export function scrubTo(step) {
  pause();
  return inTurn(async () => {
    const by = step - Number(desk.drawing.steps), after = by ? await asked([by > 0 ? "step" : "back", Math.abs(by)]) : null;
    if (!after) return;
    Object.assign(desk, {trail: [], turned: -1});
    showRun(after);
  });
}

// Where the signal is, in words.
/** @type {(it: Drawing) => string} */
export function placeWords(it) {
  if (!it.bars.length) return "the canvas is empty";
  const where = `${sideOf(it.place & 3)} port of element ${it.place >> 2}`;
  return it.hasLeft ? `the signal has left by the ${where}` : `the signal is about to enter the ${where}`;
}
