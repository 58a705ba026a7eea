// How a machine runs by itself, and the run of its circuit in a window that has room for it. The program finds the
// window: the first line of `run =W auto` names it, and the rest is what `run` says in it. Where the machine makes many
// steps by itself, the whole run takes long: then the window is as wide as its steps and its output want, and how the
// run goes on is asked for while it is looked at.
import {answer, isCutOff, LANES, STATUS, stopBusy} from "./answer.js";
import {matchOf} from "./texts.js";

// How many steps a machine is run by itself, how many are shown of one that runs on, and above how many a run is long.
const MOST_OWN_STEPS = 100000, SHOWN_STEPS = 40, MOST_TRACED = 10000;
// Above how many steps of the machine the window is that of its trace, and above how many the circuit's end isn't asked for at first.
export const longRuns = {above: 200, open: 2000};

export class Refused extends Error {
  /** @param {Reply} reply */
  constructor(reply) {
    super(reply.text.trim());
    this.reply = reply;
    // What is shown without a circuit.
    /** @type {any} */ this.early = null;
  }
}

// An answer that wasn't cut off.
/** @type {(reply: Reply) => Reply} */
export function whole(reply) {
  if (reply.status === -1 || isCutOff(reply)) throw new Refused(reply);
  return reply;
}

// A window that is given, by a link or by hand, stays. For a machine that runs on there is none that has room: so many
// of its steps are shown.
// `told` hears how the machine runs by itself, before a circuit is looked for.
/** @type {(table: string, word: string, given?: Window4 | null, told?: (own: Own) => void) => Promise<Found>} */
export async function findRun(table, word, given = null, told = () => {}) {
  const own = await ownRun(table, word), shown = [SHOWN_STEPS, Math.max(word.length, SHOWN_STEPS), SHOWN_STEPS, 1];
  told(own);
  const isLong = !given && own.outcome === "halted" && own.steps > longRuns.above, isOpen = isLong && own.steps > longRuns.open;
  const asked = given ?? (own.outcome === "running" ? shown : isLong ? await leastWindow(table, word, own) : null);
  // It may take long, so what is asked of the next machine doesn't queue behind it.
  stopBusy(LANES.long);
  const words = ["run", "=" + word, ...(asked ?? ["auto"]), ...(isOpen ? ["0"] : [])], ran = await answer(words, table, {lane: LANES.long});
  if (![STATUS.done, STATUS.stuck, STATUS.window, STATUS.inside].includes(ran.status)) throw new Refused(ran);
  const window = asked ?? matchOf(/^window (\d+) (\d+) (\d+) (\d+)$/m, ran.text).slice(1).map(Number);
  return {own, window, text: ran.text, isFound: !asked, isOpen};
}
/** @type {(table: string, word: string) => Promise<Own>} */
export async function ownRun(table, word) {
  const ran = await answer(["machine", "=" + word, MOST_OWN_STEPS], table);
  if (![STATUS.done, STATUS.stuck, STATUS.inside].includes(ran.status)) throw new Refused(ran);
  const words = ran.text.split(/\s+/), outcome = words[0], steps = Number(outcome === "stuck" ? words[3] : words[1]);
  return {outcome, steps, output: /^output =(.*)$/m.exec(ran.text)?.[1] ?? null, state: words[1], letter: words[2]};
}

// ---- windows of long runs

// The least window in which a machine that halts has room: how far its head goes, a cell of the history for each step, and the output with
// the cell behind it. This is the only place that finds a window here.
/** @type {(table: string, word: string, own: Own) => Promise<Window4>} */
async function leastWindow(table, word, own) {
  const traced = own.steps <= MOST_TRACED && await answer(["trace", "=" + word, own.steps], table);
  if (!traced || traced.status !== STATUS.done) return longWindow(table, word, own);
  const heads = [...traced.text.matchAll(/ head (-?\d+) cells /g)].map(it => Number(it[1]));
  const [left, right] = heads.reduce(([low, high], it) => [Math.min(low, it), Math.max(high, it)], [0, word.length]);
  return [0 - left, right, own.steps, (own.output ?? "").length + 1];
}

// The ends of the work tape that were too near, and were put farther, by machine and word.
const widened = new Map();
/** @type {(table: string, word: string) => string} */
const widenedAs = (table, word) => JSON.stringify([table, word]);
// The history wants a cell for each step, the output one behind its end. How far the machine goes on its own tape shows;
// at first there is room for its word and its output, one behind the other.
/** @type {(table: string, word: string, own: Own) => Window4} */
function longWindow(table, word, {steps, output: told}) {
  const output = told ?? "";
  const [left, right] = widened.get(widenedAs(table, word)) ?? [1, word.length + output.length + 2];
  return [left, right, steps, output.length + 1];
}
// Where the signal has left a window by an end of the work tape, that end is put twice as far. Whether it was so.
/** @type {(run: import("./run.js").Run) => Promise<boolean>} */
export async function widen(run) {
  const ran = await answer(["run", ...run.words], run.table, {lane: LANES.long}), side = /^exit window 1 (left|right)$/m.exec(ran.text)?.[1];
  if (!side) return false;
  const [left, right] = run.window;
  widened.set(widenedAs(run.table, run.word), side === "left" ? [2 * left, right] : [left, 2 * right]);
  return true;
}
