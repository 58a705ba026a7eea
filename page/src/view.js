// What is seen at one step: the stage and the rule in words, three tapes, the machine by itself, and the circuit.
import {renderBank} from "./bank.js";
import {betweenAt, betweenWords} from "./between.js";
import {renderCell} from "./cell.js";
import {markLine} from "./editor.js";
import {renderTime} from "./film.js";
import {frame} from "./frame.js";
import {renderMoves} from "./moves.js";
import {renderQuadruples} from "./quadruples.js";
import {diagramPicture} from "./diagram_picture.js";
import {isLecture} from "./lecture.js";
import {heightOf, isPhone, put, widthOf} from "./sizes.js";
import {breaksOf, byId, current, editorLine, escaped, hasLayer, isEarly, nameOf, state} from "./state.js";
import {tapePicture} from "./tape_picture.js";
import {markOf} from "./verdicts.js";
import {bankName, ruleAt, spoken, TAPES} from "./words.js";

const TAPE_NOTES = ["the machine's", "rule numbers", "the copy"];
const LEAST_DIAGRAM = 104, LOW = 560, LOW_CELL = 25;
const REST = 350;

export function render(isLive = !state.playing) {
  if (!current.run || state.lesson !== null) return;
  const f = frame(), {stage} = f.moment, isLate = !current.run.isKnown(f.e) || !current.run.hasViews(f.q);
  // What the tapes show isn't there yet: all stays as it was, but for the place on the time line.
  document.body.classList.toggle("late", isLate);
  if (isLate) {
    renderTime(f);
    return;
  }
  const rule = ruleAt(current.run, f.q, nameOf);
  byId("machine").className = "panel " + stage;
  for (const it of byId("stages").children) {
    it.classList.toggle("now", it.dataset.stage === stage);
    it.setAttribute("aria-current", it.dataset.stage === stage ? "step" : "false");
  }
  const tag = rule.rule ? `<span class="tagno">rule ${rule.rule}${rule.isBack ? ", undone" : ""}</span> ` : "";
  const between = betweenAt(current.run, f), told = betweenWords(between), aside = between.length ? ` <span class="aside" title="${escaped(told)}">${escaped(told)}</span>` : "";
  const more = hasLayer("quadruple") ? escaped(rule.more) : "";
  put("rule", `<p class="head">${tag}${escaped(rule.head)}</p><p class="more">${more}${aside}</p>`);
  renderTapes(f, between);
  renderCell();
  markLine(editorLine(rule.rule));
  renderItself(f, rule);
  if (isEarly()) renderLacking();
  else {
    renderBank(f);
    renderMoves(f);
  }
  renderQuadruples(f);
  renderTime(f);
  if (isLive) say(f);
}

// In place of a circuit it is said why there is none.
function renderLacking() {
  for (const id of ["map", "controlsaid", "where", "overview", "bank", "strip"]) put(id, "");
  const words = `<span class="quiet">${escaped(current.run.lacking)}</span>`;
  put("what", words);
  put("moves", words);
}

// As large as the height allows, and small enough that the longest tape is seen whole, where that can be.
function cellSize(room, longest) {
  if (isLecture()) return Math.max(30, Math.min(68, Math.floor((heightOf("tapes") - 250) / 3) - 30, Math.floor((room - 110) / longest)));
  const fits = Math.floor((room - (isPhone() ? 26 : 110)) / longest);
  const most = isPhone() ? 30 : Math.min(44, Math.floor((heightOf("tapes") - 430) / 3));
  return fits >= 28 ? Math.max(28, Math.min(most, fits)) : Math.max(30, Math.min(most, 32));
}
const capital = word => word[0].toUpperCase() + word.slice(1);
function renderTapes({q, moment}, between) {
  const room = widthOf("three"), width = isPhone() ? room : room - 84, before = q > 0 ? current.run.moments[q - 1] : null;
  // In a low window, as at 200 %, the cells are small and without numbers, so that all three tapes are in sight.
  const isLow = isPhone() && innerHeight <= LOW, longest = Math.max(...moment.tapes.map(it => it.symbols.length));
  const size = isLow ? LOW_CELL : cellSize(room, longest);
  // The tapes that are told later have their room before.
  const later = [2, 3].filter(tape => tape > moment.tapes.length).map(tape =>
    `<div class="tape" style="height:${size + 28}px"><div><b>${capital(TAPES[tape])}</b></div></div>`).join("");
  put("three", moment.tapes.map((tape, k) => {
    const title = capital(TAPES[k + 1]);
    const picked = breaksOf("cell").filter(it => it.tape === k + 1).map(it => it.cell);
    if (state.cell && state.cell.tape === k + 1) picked.push(state.cell.cell);
    const now = between.filter(it => it.tape === k + 1);
    return `<div class="tape"><div><b>${title}</b><span>${TAPE_NOTES[k]}</span></div>`
      + tapePicture(tape, {width, size, before: before?.tapes?.[k], picked, now, isNumbered: !isLow}) + "</div>";
  }).join("") + later);
}

// The machine by itself: its tape and its state, which stay once it has halted; and its diagram.
function renderItself({moment}, rule) {
  const {run} = current, isOver = moment.stage !== "compute";
  const copying = run.moments.find(it => it.stage === "copy");
  const last = run.moments.findLast(it => it.stage === "compute") ?? moment;
  const stateAt = it => it.state ?? run.rules[it.rule - 1].state;
  const ownState = isOver ? copying?.state ?? last.state : stateAt(moment), shown = isOver ? copying ?? last : moment;
  const words = isOver ? "<b>Alone</b>, the machine has halted; it can't go back."
    : `<b>Alone</b>, step ${moment.step}: state <b>${escaped(nameOf(ownState))}</b>`;
  const tape = tapePicture({...(shown.tapes ?? moment.tapes)[0], tape: 1}, {width: widthOf("own"), size: 24, isNumbered: false});
  put("own", `<p>${words}</p><div class="${isOver ? "over" : ""}">${tape}</div>`);
  const high = heightOf("diagram"), stops = new Set(breaksOf("state").map(it => it.state));
  byId("diagrambox").classList.toggle("low", high < LEAST_DIAGRAM);
  put("diagram", high < LEAST_DIAGRAM ? "" : diagramPicture(run.rules, {
    width: widthOf("diagram"), height: isLecture() ? high - 2 : Math.min(280, high - 2), now: moment.stage === "retrace" ? stateAt(moment) : ownState,
    rule: rule.rule, stage: moment.stage, stops, name: nameOf, places: state.places, mark: markOf,
  }));
}

let saying = null;
// Speaks what is shown, once it has come to rest.
export function say(f) {
  clearTimeout(saying);
  saying = setTimeout(() => {
    const where = f.bank ? ` The signal is in ${bankName(f.bank)}.` : "";
    byId("live").textContent = spoken(current.run, f.e, f.q, nameOf) + where;
  }, REST);
}
