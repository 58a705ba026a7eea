// What the program says of a table, in whatever notation it came: the table that runs, or what is wrong and what the page can do about it.
import {answer, isCutOff, STATUS} from "./answer.js";
import {readingsOf} from "./reading.js";
import {isTooLong, state} from "./state.js";
import {blankCandidates, faultOf, spelled, turned} from "./table.js";
import {number} from "./words.js";

// The text that came as a whole, and is to be read in whatever notation it is; and the one that was made of it, with what stood
// there before.
/** @type {{text: string | null, part: string | null, made: {text: string, reading: Reading, before: Partial<Typed>} | null}} */
export const pasted = {text: null, made: null, part: null};

// What stands there came as a whole: it is read in any notation, once.
export function asPasted() {
  state.asTyped = false;
  pasted.text = state.text;
}

// What a text that came as a whole is read as: the first reading that is a machine as the program takes it.
/** @type {(text: string, isOld: () => boolean) => Promise<Partial<Judged> | null>} */
async function readAs(text, isOld) {
  const {readings, fault} = readingsOf(text, state.names);
  for (const reading of readings) {
    const given = spelled(reading.text, reading.names), checked = await answer(["check"], given);
    if (isOld()) return null;
    if (checked.status === STATUS.done) return {reading, given, table: given, isStandard: false, good: checked.text};
    const standard = await answer(["standard"], given);
    if (isOld()) return null;
    if (standard.status === STATUS.done) return {reading, given, table: standard.text, isStandard: true};
  }
  return fault ? {fault} : null;
}

const tooLongWords = text => `With its ${number(text.length)} characters it is too long to edit here; its beginning is shown.`;
// What the program says of a table, as it was typed and as it is given to it: the table that runs, or the fault and what
// the page offers.
/** @type {(text: string, given: string, isOld: () => boolean) => Promise<Partial<Judged>>} */
export async function judge(text, given, isOld) {
  const checked = await answer(["check"], given);
  if (isOld() || checked.status === STATUS.done) {
    state.asStandard = false;
    return {table: given, isStandard: false, good: checked.text};
  }
  const standard = await answer(["standard"], given);
  const cut = [checked, standard].find(isCutOff);
  if (cut) return {fault: cut.words, again: true};
  if (isTooLong()) return {fault: faultOf(checked.text, text).text, also: tooLongWords(text), isLong: true};
  const fault = faultOf(checked.text, text), turn = turned(text, state.blank ?? null, state.names), offers = {};
  const read = pasted.text === text && !(state.asStandard && standard.status === STATUS.done && !turn.said.length) ? await readAs(text, isOld) : null;
  if (read || isOld()) return read ?? {fault: ""};
  if (turn.said.length && (await answer(["check"], spelled(turn.text, turn.names))).status !== STATUS.text) offers.turn = turn;
  if (!offers.turn && standard.status === STATUS.done) {
    if (state.asStandard) return {table: standard.text, isStandard: true};
    offers.standard = true;
  }
  if (!offers.turn && !offers.standard && (await readAs(text, isOld))?.reading) offers.read = true;
  if (!offers.turn && fault.standard) {
    const other = standard.status === STATUS.machine ? faultOf(standard.text, text) : fault;
    if (other.text !== fault.text) offers.also = `Nor can it start on its first letter. ${other.text}`;
    offers.blanks = blankCandidates(text);
  }
  return {fault: fault.text, lines: fault.lines, ...offers};
}
