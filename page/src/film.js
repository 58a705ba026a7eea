// The time line: the run as one picture, time to the right; the cursor; and the four counters. Of a long run as many
// moments are drawn as have room, and what their tapes show is asked of the program.
import {LANES} from "./answer.js";
import {marksWords, showMarks} from "./marks.js";
import {listed, resetMoves} from "./moves.js";
import {bandsOf, filmPicture} from "./film_picture.js";
import {redraw} from "./notices.js";
import {speedWords} from "./play.js";
import {heightOf, isPhone, put, widthOf} from "./sizes.js";
import {followTime, renderWhole, spanOf, spanWords} from "./span.js";
import {byId, current, hasLayer, layerNow, state} from "./state.js";
import {counterWords} from "./words.js";

const LEAST_NAME = 60, MOST_WHOLE = 4000, MOST_COLUMNS = 720, LEAST_COLUMNS = 48, FILM_SYMBOLS = 2e6, FIRST_PASS = 8;
// How many moments stand between two that are drawn, and whether they are being asked for.
/** @type {{stride: number, stages: {stage: Stage, from: number, to: number}[], asking: Promise<void> | null}} */
const film = {stride: 1, stages: [], asking: null};

export function resetFilm() {
  Object.assign(film, {stride: 1, stages: [], asking: null});
  resetMoves();
}
// Goes on asking for the moments of a long run while the page is used.
export async function followRun(run) {
  const came = () => {
    if (run !== current.run) return;
    renderFilm();
    if (!state.playing) redraw(false);
  };
  if (!run.isWhole) await run.moreUntil(() => run !== current.run, came);
  return run.isWhole;
}

// The moments that are drawn, each up to the next one.
function drawnColumns(run) {
  const {from, to} = spanOf(), most = run.isSmall ? MOST_WHOLE : Math.max(LEAST_COLUMNS, Math.min(MOST_COLUMNS, FILM_SYMBOLS / run.cells));
  const {stride, list} = run.drawn(from, to, most), there = list.filter(q => run.hasView(q));
  film.stride = stride;
  run.pinned = new Set(list);
  const missing = list.filter(q => !run.hasView(q));
  if (missing.length && !film.asking) askColumns(run, missing);
  const end = Math.min(to, run.moments.length);
  return there.map((q, k) => ({from: q, to: there[k + 1] ?? end, moment: run.moments[q]}));
}
// Asks for what the tapes show there: first for a few over all, then for the rest.
function askColumns(run, missing) {
  const first = missing.filter((_, k) => k % FIRST_PASS === 0), rest = missing.filter((_, k) => k % FIRST_PASS !== 0);
  const isOn = () => run === current.run;
  film.asking = (async () => {
    for (const list of [first, rest]) {
      for (let at = 0; at < list.length && isOn(); at += run.block) {
        const part = run.missing(list.slice(at, at + run.block)).filter(q => run.pinned.has(q));
        if (!(await run.askViews(part, {lane: LANES.long}))) return false;
        if (isOn() && part.length) drawFilm(run);
      }
    }
    return true;
  })().catch(console.error).finally(() => { film.asking = null; }).then(isDone => { if (isDone && isOn()) renderFilm(); });
}

export function renderFilm() {
  const {run} = current, height = heightOf("film");
  film.stages = run.stageParts();
  drawFilm(run);
  const bands = bandsOf(run, height);
  [...byId("filmnames").children].forEach((it, k) => {
    /** @type {HTMLElement} */ (it).hidden = !bands[k];
    if (bands[k]) it.style.top = `${bands[k].y + bands[k].height / 2}px`;
  });
  put("stagenames", stageNames());
  renderWhole(film.stages, run.timeOf(state.e));
  showMarks();
}
function drawFilm(run) {
  byId("filmpic").innerHTML = filmPicture(run, drawnColumns(run), {...spanOf(), stages: film.stages}, widthOf("film"), heightOf("film"));
  saySpan();
}
export function saySpan() {
  if (current.run) put("spansaid", [...spanWords(current.run, film.stride), ...marksWords()].join(" · "));
}
function stageNames() {
  const {from, to} = spanOf(), width = widthOf("film"), seen = film.stages.map(it =>
    ({stage: it.stage, from: Math.max(from, it.from), to: Math.min(to, it.to)}));
  return seen.filter(it => (it.to - it.from) / (to - from) * width > LEAST_NAME).map(it =>
    `<span data-stage="${it.stage}" style="left:${(it.from - from) / (to - from) * 100}%">${it.stage}</span>`).join("");
}

export function renderTime(f) {
  const {run} = current, it = byId("film"), time = run.timeOf(f.e);
  followTime(time, f.e);
  const {from, to} = spanOf(), share = (time - from) / (to - from);
  byId("cursor").hidden = share < 0 || share > 1;
  byId("cursor").style.left = `${Math.min(99.9, share * 100)}%`;
  renderWhole(film.stages, time);
  it.setAttribute("aria-valuemin", 0);
  it.setAttribute("aria-valuemax", Number.isFinite(run.end) ? run.end : run.starts.at(-1));
  it.setAttribute("aria-valuenow", f.e);
  it.setAttribute("aria-valuetext", !hasLayer("quadruple") ? `step ${f.e} of ${run.end}, by itself` : run.isKnown(f.e) ? `${f.moment.stage}, quadruple step ${f.q} of ${run.count - 1}`
    : `element step ${f.e}, loading`);
  const values = counterWords(current, f, listed, isPhone());
  for (const button of byId("layers").children) {
    button.setAttribute("aria-pressed", button.dataset.layer === layerNow());
    button.disabled = !hasLayer(/** @type {Layer} */ (button.dataset.layer));
    const span = button.querySelector("span"), value = values[button.dataset.layer ?? ""];
    if (span && span.textContent !== value) span.textContent = value;
  }
  byId("speedtext").textContent = speedWords();
  byId("speed").setAttribute("aria-valuetext", speedWords());
}
