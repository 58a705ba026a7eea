// A circuit in one line: its elements side by side, and each wire on the track that `plan` gave it. No way to put the
// wires on tracks needs fewer, since so many of them cover the densest position.
import {answer, STATUS} from "./answer.js";
import {readConfiguration} from "./circuit.js";
import {circuitFault, CIRCUITS, circuitText} from "./circuits.js";
import {partOf} from "./state.js";
import {SIDES} from "./texts.js";
import {inTurn} from "./turns.js";
import {number} from "./words.js";

const PLAN_REST = 300, MOST_PLANNED = 60, FIRST_PLAN = 0, PLACES = 8;
const LEFT = 14, TRACK_HEIGHT = 16, BOX_HEIGHT = 40, HEAD = 22, LEAST_UNIT = 7, MOST_UNIT = 16;
const OPTIONS_OF_PLAN = CIRCUITS.map((it, k) => `<option value="${k}">${it.title}</option>`).join("");
const PLAN_PAGE = `<div class="e-left">
    <select id="l-examples" aria-label="Circuits to begin with">${OPTIONS_OF_PLAN}</select>
    <label for="l-text">A table (state, port in, next state, port out), or a configuration text</label>
    <textarea id="l-text" spellcheck="false"></textarea><p id="l-fault" class="e-fault" role="status"></p>
    <p class="quiet">Each element has eight places: its outputs n, e, s, w and then its inputs. A wire leads from an
    output up to
      its track, along it, and down to an input. Two wires of one track cover no place both.</p></div>
  <div class="e-right"><div id="l-picture" class="e-picture l-picture" tabindex="0" role="group"
  aria-label="the floor plan"></div>
    <p id="l-said" class="e-said" role="status"></p></div>`;

const planner = /** @type {{box: HTMLElement, text: string | null, answer: any}} */ ({text: null, answer: null});
const plannerPart = id => partOf(planner.box, id);
// What `plan` said: numbers by their names, and the wires.
/** @type {(text: string) => Record<string, any>} */
export function readPlan(text) {
  const lines = text.split("\n").filter(Boolean).map(line => line.split(" "));
  const numbers = Object.fromEntries(lines.filter(it => it[0] !== "wire").map(([name, value]) =>
    [name, Number(value)]));
  return {...numbers, list: lines.filter(it => it[0] === "wire").map(([, from, to, , track]) =>
    ({from, to, track: Number(track)}))};
}
// The position of an element's output or input line, from 0.
const positionOf = (line, isInput) => PLACES * parseInt(line) + (isInput ? 4 : 0) + SIDES.indexOf(line.slice(-1));

async function takePlan() {
  const reply = await circuitText(plannerPart("l-text").value);
  plannerPart("l-fault").textContent = circuitFault(reply);
  if (reply.status !== STATUS.done) return;
  const planned = await answer(["plan"], reply.text);
  Object.assign(planner, {text: reply.text, answer: planned.text});
  drawPlan();
}
function drawPlan() {
  if (!planner.answer) return;
  const plan = readPlan(planner.answer), room = plannerPart("l-picture"), {bars} = readConfiguration(planner.text);
  const isDrawn = plan.elements <= MOST_PLANNED;
  if (isDrawn) room.innerHTML = planSvg(plan, bars, room.clientWidth);
  else room.textContent = `${number(plan.elements)} elements are too many to draw here.`;
  const densest = plan.wires
    ? ` Position ${plan.densest}, which the broken line marks, is covered by ${plan.tracks} of them, `
      + "so fewer tracks are not possible." : "";
  plannerPart("l-said").textContent = `${number(plan.wires)} wires on ${number(plan.tracks)} tracks.${densest}`;
}
function planSvg(plan, bars, width) {
  const unit = Math.max(LEAST_UNIT, Math.min(MOST_UNIT, (width - 2 * LEFT) / (PLACES * plan.elements)));
  const base = HEAD + (plan.tracks + 1) * TRACK_HEIGHT, x = position => LEFT + (position + .5) * unit,
    y = track => base - track * TRACK_HEIGHT;
  const wires = plan.list.map(it => {
    const from = x(positionOf(it.from, false)), to = x(positionOf(it.to, true)), at = y(it.track);
    return `<g data-wire="${it.from} ${it.to} ${it.track}"><title>${it.from} leads to ${it.to}, on track
        ${it.track}</title>`
      + `<path class="halo" d="M${from},${base} V${at} H${to} V${base}"/><path class="wire"
          d="M${from},${base} V${at} H${to} V${base}"/>`
      + `<path class="tip" d="M${to},${base} l-3.5,-7 h7 z"/></g>`;
  });
  const boxes = bars.map((bar, k) => boxOf(bar, k, x(PLACES * k) - unit / 2, base, unit));
  const mark = plan.wires ? `<path class="densest" d="M${x(plan.densest)},4 V${base}"/>` : "";
  const wide = 2 * LEFT + PLACES * plan.elements * unit, high = base + BOX_HEIGHT + 18;
  return `<svg class="circuit plan" xmlns="http://www.w3.org/2000/svg" width="${wide}" height="${high}"
      viewBox="0 0 ${wide} ${high}" role="img" `
    + `aria-label="${plan.wires} wires of ${plan.elements} elements on ${plan.tracks} tracks">`
    + `${wires.join("")}${mark}${boxes.join("")}</svg>`;
}
function boxOf(bar, k, left, base, unit) {
  const wide = PLACES * unit, middle = left + wide / 2, turn = bar === "H" ? "" : " rotate(90)";
  const letters = [...SIDES, ...SIDES].map((side, at) =>
    `<text class="letter" text-anchor="middle" x="${left + (at + .5) * unit}"
        y="${base + BOX_HEIGHT + 12}">${side}</text>`);
  return `<g><title>element ${k}</title><rect class="box" x="${left + 2}" y="${base}" width="${wide - 4}"
      height="${BOX_HEIGHT}" rx="5"/>`
    + `<line class="bar" x1="-12" x2="12" transform="translate(${middle} ${base + BOX_HEIGHT / 2})${turn}"/>`
    + `<text x="${left + 6}" y="${base + 13}">${k}</text>${unit >= 10 ? letters.join("") : ""}</g>`;
}

function choosePlan(k) {
  plannerPart("l-examples").value = k;
  plannerPart("l-text").value = CIRCUITS[k].text;
  return inTurn(takePlan);
}
export const planPage = {
  key: "plan", title: "Floor plan",
  make(box) {
    planner.box = box;
    box.innerHTML = PLAN_PAGE;
    let later = null;
    plannerPart("l-examples").onchange = () => choosePlan(Number(plannerPart("l-examples").value));
    plannerPart("l-text").oninput = () => { clearTimeout(later); later = setTimeout(() => inTurn(takePlan), PLAN_REST);
      };
    choosePlan(FIRST_PLAN);
  },
  open: drawPlan,
  close() {},
  keys: {},
  calls: () => [{words: ["plan"], input: planner.text, what: "the configuration text"}],
};
