// A machine of quadruples, typed or taken: its run moment by moment, that of its inverse from where it ended, and the
// circuit that is built of it, with how the signal runs there. All of it is told by the program, which judges the table too.
import {answer, LANES, STATUS} from "./answer.js";
import {current, escaped, partOf} from "./state.js";
import {tapePicture} from "./tape_picture.js";
import {exampleTable} from "./task_tools.js";
import {readMoment, readRun} from "./texts.js";
import {inTurn} from "./turns.js";
import {number, TAPES} from "./words.js";

const REST = 300, MOST_MOMENTS = 2000, MOST_DRIVEN = "1000000000", CELL = 28;
// The rows of a table, as they stand in a line with spaces between them.
/** @type {(rows: string) => string} */
const tableOf = rows => rows.split(" ").join("\n") + "\n";
const COUNTER = tableOf("S,_,/,/,_,0,0,M M,/,/,/,+,0,0,C C,1,/,/,0,0,0,M C,0,/,/,1,0,0,D C,_,/,/,_,0,0,D D,/,/,/,-,0,0,L "
  + "L,0,/,/,0,0,0,D L,_,/,/,_,0,0,F");
const ADDER = tableOf("S,_,_,_,_,_,_,K0 K0,/,/,/,+,+,+,N0 K1,/,/,/,+,+,+,N1 N0,/,/,_,0,0,_,F N1,/,/,_,0,0,1,F "
  + "F,0,0,_,0,0,_,K0 F,0,0,1,0,0,1,K0 F,0,1,_,0,1,_,K0 F,0,1,1,0,1,1,K1 F,1,0,_,1,0,_,K0 F,1,0,1,1,0,1,K1 "
  + "F,1,1,_,1,1,_,K1 F,1,1,1,1,1,1,K1 F,_,0,_,_,0,_,L0 F,_,0,1,_,1,_,L1 L0,/,/,/,-,-,-,M0 L1,/,/,/,-,-,-,M1 "
  + "M0,0,0,_,0,0,_,L0 M0,0,0,1,0,1,_,L1 M0,0,1,_,0,1,_,L0 M0,1,0,_,1,1,_,L0 M1,0,1,1,0,0,_,L1 M1,1,0,1,1,0,_,L1 "
  + "M1,1,1,_,1,0,_,L0 M1,1,1,1,1,1,_,L1 M0,_,_,_,_,_,_,Z");
const NOT = tableOf("I,_,_,+,Q1 Q1,0,1,+,Q1 Q1,1,0,+,Q1 Q1,_,_,-,Q2 Q2,0,0,-,Q2 Q2,1,1,-,Q2 Q2,_,_,0,O");
// Each with its table, which some ask the program for, and the words on its tapes.
/** @typedef {{title: string, table: () => string | Promise<string>, words: () => string[]}} Taken */
const told = async (words, input) => (await answer(words, input)).text;
/** @type {Taken[]} */
const MACHINES = [
  {title: "A reversible counter: adds one", table: () => COUNTER, words: () => ["110", "", ""]},
  {title: "A reversible adder: maps a and b to a and a + b", table: () => ADDER, words: () => ["11", "110", ""]},
  {title: "Bennett's machine of the workbench's machine", table: () => told(["bennett"], shownTable()),
   words: () => [current.run ? current.run.word : "", "", ""]},
  {title: "The machine that inverts each letter and erases its input", table: () => told(["erase"], `${NOT}%\n${NOT}`),
   words: () => ["101", "", ""]},
];
const shownTable = () => current.run ? current.run.table : exampleTable("increment");

const SIDES = [["on", "The machine"], ["back", "Its inverse, from the final configuration"]];
/** @type {(side: string[]) => string} */
const sideBox = ([key, title]) => `<figure><figcaption>${title}</figcaption>
      <div id="r-${key}" class="e-picture"></div>
      <div class="e-foot"><button id="r-${key}-first">To the start</button><button id="r-${key}-back">◂ Step back</button>
        <button id="r-${key}-forth" class="main">Step ▸</button><button id="r-${key}-last">To its end</button></div>
      <p id="r-${key}-place" class="e-place"></p></figure>`;
/** @type {(id: string, label: string, more: string) => string} */
const fieldBox = (id, label, more) => `<div class="r-word"><label for="${id}">${label}</label>
    <input id="${id}" ${more} spellcheck="false" autocomplete="off"></div>`;
/** @type {(tape: number) => string} */
const wordBox = tape => fieldBox(`r-word${tape}`, `Word on the ${TAPES[tape]} tape`, 'size="9"');
const OPTIONS = MACHINES.map((it, k) => `<option value="${k}">${it.title}</option>`).join("");
const PAGE = `<div class="e-left">
    <select id="r-examples" aria-label="Machines to begin with">${OPTIONS}</select>
    <label for="r-table">Quadruples: state, symbols read on three tapes, symbols written or shifts, next state</label>
    <textarea id="r-table" spellcheck="false"></textarea>
    ${[1, 2, 3].map(wordBox).join("")}
    ${fieldBox("r-window", "Window", 'size="14" placeholder="automatic"')}
    <p id="r-fault" class="e-fault" role="status"></p></div>
  <div class="e-right two">${SIDES.map(sideBox).join("")}
    <p id="r-said" class="e-said" role="status"></p><p id="r-circuit" class="e-said" role="status"></p></div>`;

// A run that is shown: its moments, with all tapes as wide at each, and the one that is seen.
/** @typedef {{moments: MomentTold[], at: number, outcome: string[]}} Side */
/** @type {{box: HTMLElement | null, on: Side | null, back: Side | null, calls: Call[]}} */
const machine = {box: null, on: null, back: null, calls: []};
/** @type {(id: string) => Box} */
const part = id => partOf(machine.box ?? document.body, `r-${id}`);

// ---- what was refused, in words

/** @type {Record<string, (it: string[]) => string>} */
const FAULTS = {
  domain: ([a, b]) => `Quadruples ${a} and ${b} overlap in domain, so the next step is not unique.`,
  range: ([a, b]) => `Quadruples ${a} and ${b} overlap in range, so the machine is not reversible.`,
  reads: ([a, b]) => `Quadruples ${a} and ${b} leave one state and read different tapes, so there is no circuit.`,
  writes: ([a, b]) => `Quadruples ${a} and ${b} lead to one state and write different tapes, so there is no circuit.`,
  silent: ([a]) => `Quadruple ${a} reads no tape and shifts no head, so there is no circuit.`,
  initial: ([a]) => `Quadruple ${a} leads to the initial state, so there is no circuit.`,
  final: ([a]) => `Quadruple ${a} leaves the final state, so there is no circuit.`,
};
/** @type {Record<string, string>} */
const FIELDS = {name: "is not the name of a state", symbol: "is not a symbol", shift: "is not a shift: + is right, - is left, 0 is no move"};
/** @type {(reply: Reply) => string} */
export function quadrupleFault({status, text, words}) {
  if (words) return words;
  if ([STATUS.done, STATUS.stuck, STATUS.inside, STATUS.window].includes(status)) return "";
  const [kind, first, ...rest] = text.trim().split(" "), said = `The program refused: ${text.trim()}`;
  if (kind === "text:") return textFault(text, rest);
  if (kind === "machine:" && FAULTS[first]) return FAULTS[first](rest);
  if (kind === "word:") {
    return rest.length ? `Letter ${rest[0]} of the word on the ${TAPES[Number(first)]} tape is not a symbol of this tape.`
      : `Letter ${first} of the word is not a symbol of the table.`;
  }
  return kind === "size:" ? sizeFault(first, rest) ?? said : said;
}
/** @type {(text: string, rest: string[]) => string} */
function textFault(text, [record, kind, place, fault]) {
  if (text.startsWith("text: empty")) return "The table is empty. Type one quadruple per line.";
  if (kind === "fields") return `Quadruple ${record}: it must have eight fields.`;
  if (kind === "field") return `Quadruple ${record}: field ${place} ${FIELDS[fault] ?? fault}.`;
  return "The table is too long; it may have at most 20,000 quadruples.";
}
/** @type {(what: string, rest: string[]) => string | undefined} */
function sizeFault(what, rest) {
  const last = rest[rest.length - 1], count = number(Number(last));
  return {
    elements: `The circuit would have ${count} elements; the limit is 4,194,304.`,
    word: `A word has ${count} letters, but its tape has fewer cells from cell 1 on.`,
    symbols: `The ${TAPES[Number(rest[0])]} tape has ${count} symbols; the limit is 4,001.`,
  }[what];
}

// ---- what was told

/** @type {(reply: Reply) => Side} */
function sideOf({text}) {
  const lines = text.split("\n").slice(0, -1), moments = lines.slice(0, -1).map(readMoment);
  return {moments: widened(moments), at: 0, outcome: lines[lines.length - 1].split(" ")};
}
// The same with each tape as wide at each moment; what isn't told of a tape is blank.
/** @type {(moments: MomentTold[]) => MomentTold[]} */
function widened(moments) {
  const ends = [0, 1, 2].map(k => moments.reduce(([low, high], {tapes: {[k]: it}}) =>
    [Math.min(low, it.first), Math.max(high, it.first + it.symbols.length - 1)], [0, 1]));
  return moments.map(it => ({...it, tapes: it.tapes.map((tape, k) => {
    const [low, high] = ends[k], symbols = Array(high - low + 1).fill("_");
    tape.symbols.forEach((symbol, at) => { symbols[tape.first - low + at] = symbol; });
    return {...tape, first: low, symbols};
  })}));
}
// A tape as the word that stands on it from cell 1 on, with the head at 0; or null where it is no such tape.
/** @type {(tape: Tape) => string | null} */
function wordOn({first, head, symbols}) {
  const word = symbols.slice(1 - first).join("").replace(/_+$/, ""), before = symbols.slice(0, 1 - first);
  return head === 0 && before.every(it => it === "_") && symbols.every(it => it.length === 1) && !word.includes("_") ? word : null;
}
/** @type {(it: {tapes: Tape[]}) => string} */
const tapesKey = ({tapes}) => JSON.stringify(tapes.map(({first, head, symbols}) =>
  [head, symbols.flatMap((it, k) => it === "_" ? [] : [[first + k, it]])]));
// The window in which all cells of a run stand.
/** @type {(side: Side) => string[]} */
function windowOf({moments: [{tapes}]}) {
  const last = tapes.map(it => it.first + it.symbols.length - 1);
  return [-tapes[0].first, ...last].map(String);
}

// ---- both runs, and the circuit

async function take() {
  const table = part("table").value.replace(/\n*$/, "\n");
  const words = [1, 2, 3].map(tape => "=" + part(`word${tape}`).value.trim());
  machine.calls = [{words: ["moments", ...words, String(MOST_MOMENTS)], input: table, what: "the table"}];
  const ran = await answer(machine.calls[0].words, table), fault = quadrupleFault(ran);
  part("fault").textContent = fault;
  Object.assign(machine, {on: fault ? null : sideOf(ran), back: null});
  part("said").textContent = part("circuit").textContent = "";
  if (machine.on?.outcome[0] === "halted") await takeBack(table, machine.on);
  else if (machine.on) say(machine.on, "Only a run that has halted is undone here.");
  draw();
  if (machine.on && machine.on.outcome[0] !== "running") await build(table, words, machine.on);
}
/** @type {(table: string, on: Side) => Promise<void>} */
async function takeBack(table, on) {
  const inverse = await answer(["inverse"], table), words = lastOf(on).tapes.map(wordOn);
  machine.calls.push({words: ["inverse"], input: table, what: "the table"});
  if (words.includes(null)) {
    say(on, "The final tapes are not words with the heads at 0, so the inverse can't start there.");
    return;
  }
  const asked = ["moments", ...words.map(it => "=" + it), String(MOST_MOMENTS)], ran = await answer(asked, inverse.text);
  machine.calls.push({words: asked, input: inverse.text, what: "the inverse table"});
  if (quadrupleFault(ran)) return;
  const back = machine.back = sideOf(ran), [kind, steps] = back.outcome;
  const isBack = kind === "halted" && tapesKey(lastOf(back)) === tapesKey(on.moments[0]);
  say(on, isBack ? `The inverse returns to the start in ${number(Number(steps))} steps.`
    : "The inverse does not return to the start.");
}
/** @type {(side: Side) => MomentTold} */
const lastOf = ({moments}) => moments[moments.length - 1];
/** @type {(on: Side, more: string) => void} */
const say = (on, more) => { part("said").textContent = `${outcomeWords(on)} ${more}`; };
/** @type {(table: string, words: string[], on: Side) => Promise<void>} */
async function build(table, words, on) {
  const typed = part("window").value.trim().split(/[\s,]+/).filter(Boolean);
  const window = typed.length === 4 ? typed : windowOf(on);
  const calls = [["build", ...words, ...window], ["drive", ...words, ...window, MOST_DRIVEN]];
  part("circuit").textContent = "Building the circuit …";
  machine.calls.push(...calls.map(it => ({words: it, input: table, what: "the table"})));
  const [built, driven] = await Promise.all([answer(calls[0], table), answer(calls[1], table, {lane: LANES.long})]);
  const fault = quadrupleFault(built) || quadrupleFault(driven);
  part("circuit").textContent = fault || drivenWords(readRun(driven.text), window, on);
}
/** @type {(side: Side) => string} */
function outcomeWords({outcome: [kind, ...rest]}) {
  if (kind === "halted") return `Halts after ${number(Number(rest[0]))} steps.`;
  if (kind === "running") return `Runs on; ${number(Number(rest[0]))} steps are shown.`;
  return `Stuck in ${rest[0]} on ${rest.slice(1, 4).join(" ")} after ${number(Number(rest[4]))} steps.`;
}
/** @type {(it: Outcome, window: string[], on: Side) => string} */
function drivenWords({elements, exit, steps, quadruples, tapes}, window, on) {
  const size = `Its circuit in the window ${window.join(" ")} has ${number(elements)} elements`;
  const made = `${number(steps)} element steps`;
  const rows = quadruples === null ? "" : `; the machine has made ${number(quadruples)} steps by then`;
  const isSame = exit === "end" && tapesKey({tapes}) === tapesKey(lastOf(on));
  const same = isSame ? " Its cells show the final tapes of the machine." : "";
  return `${size}; ${leaving(exit)} after ${made}${rows}.${same}`;
}
/** @type {(exit: string | null) => string} */
function leaving(exit) {
  if (exit === null) return "the signal is still inside";
  if (exit === "end") return "the signal leaves by the end port";
  const [kind, tape, side] = exit.split(" ");
  return kind === "stuck" ? "the signal leaves where the machine is stuck"
    : `the head of the ${TAPES[Number(tape)]} tape would leave its window to the ${side}`;
}

// ---- what is seen

function draw() {
  for (const [key] of SIDES) drawSide(key, machine[key]);
}
/** @type {(key: string, side: Side | null) => void} */
function drawSide(key, side) {
  const room = part(key), {moments, at} = side ?? {moments: [], at: 0}, it = moments[at], before = moments[at - 1];
  const width = Math.max(120, room.clientWidth - 12), last = Math.max(0, moments.length - 1);
  const pictures = it ? it.tapes.map((tape, k) => tapePicture(tape, {width, size: CELL, before: before?.tapes[k]})) : [];
  room.innerHTML = pictures.join("");
  const place = it && `moment <b>${number(at)}</b> of ${number(last)} · state <b>${escaped(it.state)}</b>`;
  part(`${key}-place`).innerHTML = it ? place + (it.row === null ? "" : ` · quadruple ${it.row} is next`) : "";
  for (const id of ["first", "back"]) part(`${key}-${id}`).disabled = at === 0;
  for (const id of ["forth", "last"]) part(`${key}-${id}`).disabled = at === last;
}
const STEPS = {first: -Infinity, back: -1, forth: 1, last: Infinity};
// So many moments on or back.
/** @type {(key: string, by: number) => void} */
function step(key, by) {
  const side = /** @type {Side | null} */ (machine[key]);
  if (!side) return;
  side.at = Math.max(0, Math.min(side.moments.length - 1, side.at + by));
  drawSide(key, side);
}
/** @type {(k: number) => Promise<any>} */
function choose(k) {
  return inTurn(async () => {
    part("table").value = await MACHINES[k].table();
    MACHINES[k].words().forEach((word, at) => { part(`word${at + 1}`).value = word; });
    part("window").value = "";
    await take();
  });
}

/** @type {WorkshopPage} */
export const reversiblePage = {
  key: "reversible", title: "Reversible",
  make(box) {
    machine.box = box;
    box.innerHTML = PAGE;
    let later = /** @type {any} */ (null);
    part("examples").onchange = () => choose(Number(part("examples").value));
    for (const id of ["table", "word1", "word2", "word3", "window"]) {
      part(id).oninput = () => { clearTimeout(later); later = setTimeout(() => inTurn(take), REST); };
    }
    for (const [key] of SIDES) {
      for (const [id, by] of Object.entries(STEPS)) part(`${key}-${id}`).onclick = () => step(key, by);
    }
    choose(0);
  },
  open: draw,
  close() {},
  keys: {
    ArrowRight: () => step("on", 1), ArrowLeft: () => step("on", -1),
    ArrowDown: () => step("back", 1), ArrowUp: () => step("back", -1),
  },
  calls: () => machine.calls,
};
