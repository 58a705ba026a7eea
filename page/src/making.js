// From a table to a run: a window, the machine alone and Bennett's machine while the circuit is built, and the run with its circuit.
import {LANES, stopBusy} from "./answer.js";
import {bennettEarly, ownEarly} from "./early.js";
import {LongRun} from "./long.js";
import {limits} from "./moments.js";
import {Run} from "./run.js";
import {busy, current, state} from "./state.js";
import {readRun} from "./texts.js";
import {findRun, Refused} from "./window.js";

const EARLY_AFTER = 150;
/** @typedef {(early: any) => void} ShowEarly */
// The run in the window that is chosen, or in the one that the program finds.
/** @type {(table: string, isOld: () => boolean, showEarly: ShowEarly) => Promise<{run: Run, found: Found}>} */
export async function makeRun(table, isOld, showEarly) {
  busy("Looking for a window …");
  // What is typed meanwhile is another run's.
  const {word, window} = state, made = {isThere: false, first: Promise.resolve(), bennett: /** @type {Promise<any>} */ (Promise.resolve(null)), early: /** @type {any} */ (null), told: /** @type {RunTold} */ ({rules: [], rows: []})};
  try {
    const told = own => { made.first = tellEarly({table, word, own, window}, made, isOld, showEarly); };
    const found = await findRun(table, word, window, told);
    if (!isOld()) busy("Building the circuit …");
    const run = Object.assign(await (await runOf(table, word, found, made)).open(), {told: made.told});
    made.isThere = true;
    return {run, found};
  } catch (fault) {
    if (fault instanceof Refused) {
      await made.first;
      fault.early = made.early;
    }
    throw fault;
  }
}
// A run whose moments are told already, where it is long, or one that asks its circuit for them.
/** @type {(table: string, word: string, found: Found, made: {first: Promise<any>, bennett: Promise<any>}) => Promise<Run>} */
async function runOf(table, word, found, made) {
  const {exit, steps, quadruples} = readRun(found.text);
  if (found.isOpen || exit !== "end" || steps <= limits.quick) return new Run(table, word, found);
  await made.first;
  const bennett = await made.bennett;
  return bennett?.total === (quadruples ?? 0) + 1 ? new LongRun(table, word, found, bennett) : new Run(table, word, found);
}
// While the circuit is looked for the machine by itself is shown, and then Bennett's, which has both layers above the circuit;
// where another machine is seen, a moment later, since most circuits are found by then. It is waited for the first of them.
/** @type {(asked: any, made: any, isOld: () => boolean, showEarly: ShowEarly) => Promise<void>} */
async function tellEarly(asked, made, isOld, showEarly) {
  const rest = new Promise(done => setTimeout(done, current.run ? EARLY_AFTER : 0)), {editions: edition} = state;
  stopBusy(LANES.beside);
  const tell = async asking => {
    const run = await asking.catch(() => null);
    if (!run || isOld()) return;
    // What was told of one is known of the other, and of the run with its circuit; what is said of the circuit is said of both.
    Object.assign(made.told, run.told.rules.length ? {rules: run.told.rules} : {rows: run.told.rows});
    Object.assign(run, {edition, told: made.told, lacking: made.early?.run.lacking ?? run.lacking});
    made.early = {run, found: {own: asked.own, window: run.window, text: ""}};
    await rest;
    if (!isOld() && !made.isThere) showEarly(made.early);
  };
  await tell(ownEarly(asked));
  made.bennett = bennettEarly(asked).catch(() => null);
  tell(made.bennett).catch(console.error);
}
