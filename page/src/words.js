// What stands there, in words. Everything is looked up in the program's answers and in the table.
import {minus} from "./state.js";
import {finalOf, SHIFT_BACK, SHIFT_WORDS, symbolWord} from "./table.js";

export const TAPES = ["", "work", "history", "output"];
export const STAGES = {compute: "compute and keep a history", copy: "copy the output", retrace: "retrace and clear the history"};
const numbers = new Intl.NumberFormat("en");
/** @type {(it: number) => string} */
export const number = it => numbers.format(it);
/** @typedef {import("./moments.js").Moments} Moments
 * @typedef {(state: string) => string} Naming
 * @typedef {{rule: number | null, isBack?: boolean, head: string, more: string}} RuleSaid */
// How many element steps a run has, where that is known by now.
/** @type {(run: Moments) => string} */
export const endWords = run => Number.isFinite(run.end) ? number(run.end) : "…";
// How many quadruples it has, or has at least.
/** @type {(run: Moments) => string} */
export const countWords = run => run.total || run.isWhole ? number(run.count - 1) : `${number(run.count - 1)} …`;

// The four counters at a step. Beyond the moments that are known only the element step is.
/** @type {(shown: {run: import("./run.js").Run, found: Found}, f: Frame, listed: any, isShort: boolean) => Record<string, string>} */
export function counterWords({run, found}, {e, q, moment}, {moves, at}, isShort) {
  const steps = found.own.outcome === "running" ? "…" : number(found.own.steps);
  const about = run.isExact(q) ? "" : "≈ ", element = isShort ? about + number(e) : `${about}${number(e)} of ${endWords(run)}`;
  if (!run.layers.includes("quadruple")) return {machine: `${number(e)} of ${steps}`, quadruple: "…", module: "·", element: "…"};
  if (!run.isKnown(e)) return {machine: `… of ${steps}`, quadruple: `… of ${countWords(run)}`, module: "·", element};
  const isWhole = !moves?.list.isPart && (moves?.to ?? 0) > (moves?.from ?? 0), step = moment.step ?? "…";
  return {
    machine: {compute: `${step} of ${steps}`, copy: "copying", retrace: `back at ${step}`}[moment.stage],
    quadruple: `${number(q)} of ${countWords(run)}`,
    module: isWhole ? `${(at ?? -1) + 1} of ${moves.list.length}` : "·",
    element: run.circuit.count ? element : "…",
  };
}

/** @type {(bank: Bank) => string} */
export const bankName = ({kind, tape = 0, cell = 0}) => kind === "control" ? "control" : `${TAPES[tape]} tape, cell ${minus(cell)}`;
/** @type {(bank: Bank) => string} */
export const shortBank = ({kind, tape = 0, cell = 0}) => kind === "control" ? "control" : `${TAPES[tape]} ${minus(cell)}`;

/** @type {(exit: string | null, name: Naming) => string} */
export const exitWords = (exit, name) => {
  if (exit === null) return "";
  if (exit === "end") return "The machine has halted, and the signal has left by the end port.";
  const stuck = /^stuck (\S+) (\S+)$/.exec(exit);
  if (stuck) return `Stuck: no rule for state ${name(stuck[1])} on ${symbolWord(stuck[2])}.`;
  const window = /^window ([123]) (left|right)$/.exec(exit);
  return window ? `The head of the ${TAPES[Number(window[1])]} tape would leave its window to the ${window[2]}.` : exit;
};

// The rule that is at work at a moment: its number in the table, and sentences about what comes next.
/** @type {(run: Moments, q: number, name: Naming) => RuleSaid} */
export function ruleAt(run, q, name) {
  const it = run.moments[q];
  if (it.hasLeft && run.outcome.exit === "end") {
    const output = run.outcome.output ? `“${run.outcome.output}”` : "(empty)";
    return {rule: null, head: "Done.", more: `The input is back on the work tape and the history is blank. Only the output ${output} is new.`};
  }
  return {compute: computing, copy: copying, retrace: retracing}[it.stage](run, it, name);
}
/** @type {(it: Moment, tape: number) => string} */
function scannedOn({tapes}, tape) {
  const {symbols, head, first} = (tapes ?? [])[tape - 1];
  return symbols[(head ?? 0) - first];
}
/** @type {(rule: Rule) => boolean} */
const isKept = rule => rule.write === rule.read;
/** @type {(rule: Rule, name: Naming) => string} */
export function ruleWords(rule, name) {
  const write = isKept(rule) ? "" : `write ${symbolWord(rule.write)}, `, then = rule.next === rule.state ? "" : `, then ${name(rule.next)}`;
  return `In ${name(rule.state)}, on ${symbolWord(rule.read)}: ${write}${SHIFT_WORDS[rule.shift]}${then}.`;
}
/** @type {(run: Moments, it: Moment, name: Naming) => RuleSaid} */
function computing(run, it, name) {
  const scanned = scannedOn(it, 1);
  if (it.rule !== null) {
    const rule = run.rules[it.rule - 1];
    return {rule: it.rule, head: ruleWords(rule, name), more: `Now: write ${it.rule} to the history, ${SHIFT_WORDS[rule.shift]}.`};
  }
  // Of a long run that isn't told so far it is looked up.
  const next = run.ruleNext(it), number = next === undefined ? run.rules.findIndex(rule => rule.state === it.state && rule.read === scanned) + 1 : next ?? 0;
  const rule = run.rules[number - 1];
  if (rule) {
    const does = isKept(rule) ? `keep the ${symbolWord(rule.read)}` : `write ${symbolWord(rule.write)}`;
    return {rule: number, head: ruleWords(rule, name), more: `Now: ${does}, advance the history head.`};
  }
  const state = it.state ?? "";
  if (state === finalOf(run.rules)) {
    return {rule: null, head: `${name(state)}: the machine halts.`, more: "Next its output is copied, then every step is undone."};
  }
  return {rule: null, head: `Stuck: no rule for state ${name(state)} on ${symbolWord(scanned)}.`, more: ""};
}
/** @type {(run: Moments, it: Moment) => RuleSaid} */
function copying(run, it) {
  const scanned = scannedOn(it, 1), isEnd = scanned === "_";
  /** @type {Record<string, string[]>} */
  const sentences = {
    "B1'": ["Copy the output: next letter.", "Both heads move right."],
    B1: isEnd ? ["The end of the output.", "The copy is complete; the heads move back."]
      : [`Copy the letter ${scanned}.`, "It is written on a blank cell, so nothing is erased."],
    "B2'": ["Back to the start of the output.", "Both heads move left."],
    B2: isEnd ? ["The copy is complete.", "Next the history is cleared."]
      : ["Back over the output.", "The work tape and the output tape hold the same letter here."],
  };
  const [head, more] = sentences[it.name] ?? ["Copy the output.", ""];
  return {rule: null, head, more};
}
/** @type {(run: Moments, it: Moment, name: Naming) => RuleSaid} */
function retracing(run, it, name) {
  if (it.rule !== null) {
    const rule = run.rules[it.rule - 1], was = rule.read === "_" ? "a blank" : rule.read;
    const more = isKept(rule) ? `Now: keep the ${symbolWord(rule.read)}.` : `Now: replace ${symbolWord(rule.write)} by ${was}, which was there before.`;
    return {rule: it.rule, isBack: true, head: `Undo rule ${it.rule}: back to ${name(rule.state)}.`, more};
  }
  const last = Number(scannedOn(it, 2));
  if (!last) return {rule: null, head: "Back at the start.", more: "The history is blank again."};
  const more = `Now: erase the ${last} from the history, ${SHIFT_BACK[run.rules[last - 1].shift]}.`;
  return {rule: last, isBack: true, head: "Undo the last rule in the history.", more};
}
// What changed on the tapes since the moment before; at the start all that is written on them.
/** @type {(tapes: Tape[], before: Tape[]) => string[]} */
export function changesOf(tapes, before) {
  return tapes.flatMap((tape, k) => {
    const was = before[k], name = capital(TAPES[k + 1]);
    if (!was) return tape.symbols.some(it => it !== "_") ? [`${name} tape: ${heardOf(tape).symbols.filter(it => it !== "_").map(symbolWord).join(" ")}, head at ${tape.head ?? "no cell"}.`] : [];
    const cells = tape.symbols.flatMap((it, n) => it === was.symbols[n] ? [] : [`cell ${tape.first + n} is ${symbolWord(it)}`]);
    const moved = tape.head === was.head ? [] : [`head at ${tape.head ?? "no cell"}`], said = [...cells, ...moved];
    return said.length ? [`${name} tape: ${said.join(", ")}.`] : [];
  });
}
/** @type {(it: string) => string} */
const capital = it => it[0].toUpperCase() + it.slice(1);
// Of a long tape the cells near its head are heard.
const MOST_HEARD = 120, HEARD_NEAR = 20;
/** @type {(tape: Tape) => {first: number, symbols: string[]}} */
export function heardOf({symbols, first, head}) {
  if (symbols.length <= MOST_HEARD) return {first, symbols};
  const from = Math.max(0, (head ?? first) - first - HEARD_NEAR);
  return {first: first + from, symbols: symbols.slice(from, from + 2 * HEARD_NEAR + 1)};
}
/** @type {(run: Moments, e: number, q: number, name: Naming) => string} */
export const spoken = (run, e, q, name) => {
  const it = run.moments[q], words = ruleAt(run, q, name);
  return `${it.stage}, quadruple step ${q} of ${run.count - 1}, element step ${number(e)}. ${words.head} ${words.more} ` +
    changesOf(it.tapes ?? [], run.moments[q - 1]?.tapes ?? []).join(" ");
};
