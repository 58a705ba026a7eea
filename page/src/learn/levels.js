// The pictures of the lesson's levels, each of the same moment of the same run, filling the room that they get.
import {bankPicture} from "../bank_picture.js";
import {betweenAt} from "../between.js";
import {diagramPicture} from "../diagram_picture.js";
import {lineInto, moduleWith, placeIn} from "../layout.js";
import {mapPicture} from "../map_picture.js";
import {lineSaid} from "../module_words.js";
import {quadrupleAt, rowWords} from "../quadruples.js";
import {current, escaped, nameOf, state} from "../state.js";
import {tapePicture} from "../tape_picture.js";
import {markOf} from "../verdicts.js";
import {bankName, number, ruleAt, ruleWords, shortBank, TAPES} from "../words.js";
import {casesTable, elementPicture} from "./element.js";
import {pastsOf} from "./pasts.js";

const NAMES_WIDTH = 58, MOST_TRAIL = 600, MOST_MOVES = 60, MOST_PASTS = 3, LEAST_BETWEEN = 34;
// From which width on the eight cases stand beside the element, how much room they take, and its size where they stand below.
const LEAST_BESIDE = 560, CASES_WIDTH = 345, LITTLE_ELEMENT = .62;
const TAPE_NOTES = ["the machine's", "rule numbers", "the copy"];

const sizeFor = (width, longest, most) => Math.max(24, Math.min(most, Math.floor((width - 40) / longest)));
const ruleHead = f => {
  const rule = ruleAt(current.run, f.q, nameOf), tag = rule.rule ? `<span class="tagno">rule ${rule.rule}${rule.isBack ? ", undone" : ""}</span> ` : "";
  return `<p class="l-rule">${tag}${escaped(rule.head)}</p>`;
};

// The rules with their numbers, which the history tape has; the one at work is marked.
const RULES_HEIGHT = 100, LARGE_WIDTH = 560, LARGE_HEIGHT = 220;
function rulesList(run, now) {
  const kind = k => k + 1 === now ? ' class="now" aria-current="step"' : "";
  const rules = run.rules.map((it, k) => `<li${kind(k)}><b>${k + 1}</b> ${escaped(ruleWords(it, nameOf))}</li>`);
  return `<ol class="l-rules" tabindex="0" aria-label="the machine's rules">${rules.join("")}</ol>`;
}
// Where the run is over no rule is at work: then a way leads into one.
function overWords(run) {
  return `<p class="l-rule">The run is complete; no rule is being applied.</p>
    <p><button class="link" data-go="${insideRule(run)}">Go to a rule</button></p>`;
}
// The moment in the middle of the machine's own steps: there a rule is at work, wherever the run is.
export const insideRule = run => run.starts[run.moments.findLastIndex(it => it.stage === "compute") >> 1];
export function isOver(run, e) {
  const q = run.momentIndex(e);
  return e >= run.end || run.hasView(q) && quadrupleAt(run, q) < 0;
}

// ---- the machine alone

// The moment at which the machine by itself stands, at a moment of the whole.
export function ownMoment(run, q) {
  const {moments} = run, end = moments.findIndex(it => it.stage !== "compute");
  let at = end >= 0 && q >= end ? end - 1 : q;
  while (at > 0 && moments[at].rule !== null) at--;
  return at;
}
export function machineLevel(f, {width, height, isRefused, from = null}) {
  const {run} = current, at = ownMoment(run, f.q), moment = run.moments[at], [work, history] = moment.tapes ?? [];
  if (!work) return '<p class="quiet">Loading the tape …</p>';
  const tape = {...work, tape: 1}, size = sizeFor(width, tape.symbols.length, Math.min(76, height / 6)), before = run.moments[at - 1]?.tapes?.[0];
  const name = moment.state, hasHalted = name === run.rules[run.rules.length - 1].next;
  // The history, which isn't shown here, has the number of the rule that was followed.
  const last = history ? Number(history.symbols[(history.head ?? 0) - history.first]) || null : run.told.rules[at - 1] ?? null;
  const words = `<p class="l-rule">${hasHalted ? "Halted" : `Step ${moment.step}`}, state <b>${escaped(nameOf(name ?? ""))}</b>.</p>`;
  const picture = `<div class="l-tape">${tapePicture(tape, {width, size, before: before ?? null})}</div>`;
  // Which rule was its own the machine doesn't know, so none is marked there.
  const list = rulesList(run, isRefused ? null : last);
  if (isRefused) return words + picture + pastsPicture(run, at, {width, size: Math.min(size, 40), from}) + list;
  const free = Math.max(120, Math.floor(height - size - 118 - RULES_HEIGHT));
  return words + picture + `<div class="l-diagram">${diagramPicture(run.rules, {
    width, height: Math.min(free, 520), isLarge: width >= LARGE_WIDTH && free >= LARGE_HEIGHT, now: name, rule: last, stage: "compute", stops: new Set(), name: nameOf, places: state.places, mark: markOf,
  })}</div>${list}`;
}
// 'Take it back' fails: what may have been before is drawn, and whether it is one thing or several is said.
function pastsPicture(run, at, {width, size, from}) {
  const moment = run.moments[at], pasts = pastsOf(run.rules, moment);
  const shown = pasts.slice(0, MOST_PASTS).map(it => `<figure><figcaption>by <b>rule ${it.rule}</b>, from <b>${escaped(nameOf(it.state))}</b></figcaption>
    ${tapePicture(it.tape, {width: Math.max(160, Math.floor(width / Math.min(pasts.length, innerWidth <= 760 ? 1 : MOST_PASTS)) - 24), size: innerWidth <= 760 ? 24 : size, isNumbered: false})}</figure>`);
  const many = {2: "Two", 3: "Three"}[pasts.length] ?? pasts.length;
  // Where one rule alone fits, the nearest step is shown at which several do.
  const why = from ? `At step ${from} only one rule fits` : "Step 0 is the start";
  const went = from === null ? "" : `${why}, so here is the nearest step at which several fit: step ${moment.step}. `;
  const here = `${many} rules lead to this configuration, so it has ${String(many).toLowerCase()} possible pasts. The machine can't tell which came before:`;
  const said = pasts.length > 1 ? `${went}This step can't be undone. ${here}`
    : pasts.length ? "Only one rule fits here, and at every step on this word so far. But the table has no rules for running backward."
      : "This is the start, so there is no past.";
  return `<div class="l-pasts" role="group" aria-label="possible pasts"><p class="fault">${said}</p><div class="l-row">${shown.join("")}</div></div>`;
}

// ---- Bennett's three tapes

export function tapesLevel(f, {width, height}, many = 3) {
  const {run} = current, {moment} = f, before = f.q > 0 ? run.moments[f.q - 1] : null;
  const longest = Math.max(...moment.tapes.slice(0, many).map(it => it.symbols.length)), room = innerWidth <= 760 ? width : width - 130;
  const free = height - 98 - RULES_HEIGHT;
  const size = sizeFor(room, longest, Math.min(72, Math.floor(free / many) - 34));
  // In small cells there is no room for what has changed since the moment.
  const between = size < LEAST_BETWEEN ? [] : betweenAt(run, f);
  const tapes = moment.tapes.slice(0, many).map((tape, k) => `<div class="tape"><div><b>${TAPES[k + 1][0].toUpperCase()}${TAPES[k + 1].slice(1)}</b><span>${TAPE_NOTES[k]}</span></div>${
    tapePicture(tape, {width: room, size, before: before?.tapes?.[k], now: between.filter(it => it.tape === k + 1)})}</div>`);
  return `${ruleHead(f)}<div class="l-tapes">${tapes.join("")}</div>${rulesList(run, ruleAt(run, f.q, nameOf).rule)}`;
}
export function stagesLevel(f, room) {
  const said = {compute: ["Compute", "keep a history"], copy: ["Copy", "the output"], retrace: ["Retrace", "clear the history"]};
  const chips = Object.entries(said).map(([key, [title, words]]) =>
    `<li data-stage="${key}" class="${f.moment.stage === key ? "now" : ""}"><b>${title}</b><span>${words}</span></li>`);
  return `<ol class="l-stages">${chips.join("")}</ol>${tapesLevel(f, {...room, height: room.height - 70})}`;
}

// ---- a row, and its moves

export function rowLevel(f, {width, height}) {
  const {run} = current;
  if (isOver(run, f.e)) return overWords(run);
  const from = run.starts[f.q], to = run.starts[f.q + 1] ?? run.end;
  const list = run.movesBetween(from, Math.max(to, from + 1));
  const row = quadrupleAt(run, f.q), told = row < 0 ? "" : `quadruple ${row + 1} of Bennett's table: ${rowWords(run.quadruples[row])}`;
  const map = mapPicture(run, {bank: f.bank, row: f.row, moment: f.moment, hasLeft: Boolean(f.at?.hasLeft), width, height: Math.min(200, Math.max(118, height * .34))});
  const at = list.findLastIndex(it => it.step <= f.e), first = Math.max(0, Math.min(list.length - MOST_MOVES, at - MOST_MOVES / 2));
  const rows = list.slice(first, first + MOST_MOVES).map((it, k) => {
    const bank = moduleWith(run.layout, it.place >> 2), line = lineSaid(run.layout, bank, lineInto(run.layout, it.place)), isNow = first + k === at;
    return `<li class="${isNow ? "now" : ""}"${isNow ? ' aria-current="step"' : ""}><button class="link" data-go="${it.step}"><i class="m${bank.tape ?? 0}"></i>${escaped(shortBank(bank))}</button>: ${escaped(line.words)}</li>`;
  });
  const open = list.isPart && !list.length ? '<p class="quiet">Listing the moves …</p>' : "";
  return `${ruleHead(f)}<p class="quiet">${escaped(told)}</p><div class="l-map">${map}</div>${open}<ol class="l-moves" tabindex="0" aria-label="the moves of this quadruple">${rows.join("")}</ol>`;
}

// ---- a column of a module

export function columnLevel(f, {width, height}) {
  const {run} = current, {bank} = f;
  if (isOver(run, f.e)) return overWords(run);
  if (!bank || !f.at) return '<p class="quiet">Loading the path of the signal …</p>';
  const bars = run.bankBars(bank, f.e), place = f.at.place, free = Math.max(160, height - 74);
  const {column, row} = placeIn(bank, place >> 2), fit = (free - 34) / (bank.rows + 1);
  const pitch = Math.max(20, Math.min(44, fit)), wide = 1.7, columns = (width - NAMES_WIDTH) / (pitch * wide), rows = (free - 33) / pitch;
  const clamp = (it, most) => Math.max(0, Math.min(Math.max(0, most), it));
  const how = {bank, bars, place, hasLeft: Boolean(f.at.hasLeft), trail: f.move.from !== null ? run.trail(f.e, f.move.from, MOST_TRAIL) : [place], width, height: free,
    pitch, wide, x: clamp(column + .5 - columns / 2, bank.columns - columns), y: clamp(row + .5 - rows / 2, bank.rows + 1 - rows),
    left: NAMES_WIDTH, isPlain: true};
  const line = entryLine(run, f);
  return `<p class="l-rule">${escaped(bankName(bank)[0].toUpperCase() + bankName(bank).slice(1))}${line ? `: ${escaped(line.words)}` : ""}</p>
    <p class="quiet">${moveWords(f)}</p><div class="l-bank">${bankPicture(run, how)}</div>`;
}
const moveWords = f => f.move.from !== null && f.move.to !== null ? `step ${number(f.e - f.move.from)} of ${number(f.move.to - f.move.from)} of this move` : "passing through";
// The line by which the signal came into its module.
export function entryLine(run, f) {
  if (!f.bank) return null;
  const entry = f.move.from !== null ? run.placeAt(f.move.from)?.place : f.row >= 0 ? f.at?.place : null;
  const row = entry === null || entry === undefined ? -1 : lineInto(run.layout, entry);
  return row < 0 ? null : lineSaid(run.layout, moduleWith(run.layout, entry >> 2), row);
}

// ---- one element

export function elementLevel(f, {width, height}) {
  const {run} = current, {at} = f;
  if (isOver(run, f.e)) return overWords(run);
  if (!at) return '<p class="quiet">Loading the path of the signal …</p>';
  const element = at.place >> 2, bank = moduleWith(run.layout, element), bars = run.bankBars(bank, f.e), side = "nesw"[at.place & 3];
  if (!bars) return '<p class="quiet">Loading the bar …</p>';
  const bar = bars[element - bank.base] ? "H" : "V", isBeside = width >= LEAST_BESIDE;
  const size = isBeside ? Math.max(.6, Math.min(1.5, (width - CASES_WIDTH) / 335, (height - 50) / 295)) : LITTLE_ELEMENT;
  return `<p class="l-rule">Element ${number(element)}, in ${escaped(bankName(bank))}</p><div class="l-row l-one">${elementPicture({bar, side, size})}<div class="l-cases">${casesTable({bar, side})}</div></div>`;
}
