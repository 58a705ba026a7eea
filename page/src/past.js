// What was changed of the machine, to be taken back and made again: its text with the names in it, the word, what accepts
// and rejects, and where the states of the diagram stand.
import {byId, isTooLong, state} from "./state.js";

const IN_PAST = ["text", "names", "accept", "reject", "places", "word", "asStandard", "blank", "window", "example"];
const MOST_KEPT_BACK = 200, TYPING = 900;
/** @type {{behind: Partial<Typed>[], ahead: Partial<Typed>[], typed: number}} */
const past = {behind: [], ahead: [], typed: -TYPING};

const copyOf = () => structuredClone(Object.fromEntries(IN_PAST.map(key => [key, state[key]])));

// Keeps what stands there, before it is changed. What is typed without a rest is one change.
export function keepPast(isTyping = false) {
  const now = performance.now(), goesOn = isTyping && now - past.typed < TYPING;
  past.typed = isTyping ? now : -TYPING;
  if (goesOn || isTooLong()) return;
  past.behind.push(copyOf());
  if (past.behind.length > MOST_KEPT_BACK) past.behind.shift();
  past.ahead = [];
  showPast();
}
// Takes the last change back, or makes it again; whether there was one.
export function takeBack(direction = -1) {
  const [from, to] = direction < 0 ? [past.behind, past.ahead] : [past.ahead, past.behind];
  if (!from.length) return false;
  to.push(copyOf());
  Object.assign(state, from.pop());
  past.typed = -TYPING;
  showPast();
  return true;
}
export const hasPast = () => past.behind.length > 0;
function showPast() {
  byId("undo").disabled = !hasPast();
  byId("redo").disabled = !past.ahead.length;
}
