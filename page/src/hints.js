// Four short hints at a first visit, each at its place. That they were seen is kept in the browser; where nothing can
// be kept, none is shown.
import {stepSentence} from "./glossary.js";
import {byId, state} from "./state.js";

const KEPT_AS = "hithwelor hints", HINT_GAP = 10;
const HINTS = [
  {at: "#stages", words: "A step that erases information dissipates heat and can't be undone. This machine erases nothing: it keeps a " +
    "history, copies its output, and undoes every step."},
  {at: "#play", words: "Space plays forward, Shift Space backward; → and ← make one step. Choose the unit of a step beside the buttons. " +
    `Now it is a ${stepSentence("quadruple")}`},
  {at: ".editor", words: "Paste or type a machine here, in a textbook's notation too. The program's verdict appears below."},
  {at: "#map", words: "The same step in the circuit. Click a state, a cell or an element for details; ? describes each panel."},
];
let shownHint = -1;

// Whether the hints were seen; true where the browser keeps nothing.
function wereSeen() {
  try {
    localStorage.setItem(`${KEPT_AS} tried`, "1");
    return localStorage.getItem(KEPT_AS) !== null;
  } catch {
    return true;
  }
}
function keepSeen() {
  try { localStorage.setItem(KEPT_AS, "seen"); } catch { /* nothing is kept, so none was shown */ }
}

export function beginHints() {
  if (shownHint < 0 && state.lesson === null && !wereSeen()) showHint(0);
}
export function endHints() {
  if (!byId("hint")) return;
  byId("hint").remove();
  markTarget(null);
  keepSeen();
}
/** @type {(it: Element | null) => void} */
function markTarget(it) {
  for (const one of document.querySelectorAll(".hinted")) if (one !== it) one.classList.remove("hinted");
  it?.classList.add("hinted");
}
function showHint(k) {
  byId("hint")?.remove();
  markTarget(null);
  shownHint = k;
  if (k >= HINTS.length) {
    keepSeen();
    return;
  }
  const box = document.createElement("aside"), isLast = k === HINTS.length - 1;
  box.id = "hint";
  box.setAttribute("aria-label", `Hint ${k + 1} of ${HINTS.length}`);
  box.innerHTML = `<p>${HINTS[k].words}</p><p class="row"><span class="quiet">${k + 1} of ${HINTS.length}</span>
    <button id="hintend">${isLast ? "Close" : "Skip"}</button>
    ${isLast ? "" : '<button id="hintnext" class="main">Next</button>'}</p>`;
  document.querySelector("header")?.after(box);
  byId("hintend").onclick = endHints;
  if (!isLast) byId("hintnext").onclick = () => {
    showHint(k + 1);
    (byId("hintnext") ?? byId("hintend")).focus();
  };
  placeHint();
}
// Above the time line, below what it is about, so that it covers nothing of that; a frame marks what it is about.
export function placeHint() {
  const box = byId("hint");
  if (!box) return;
  const it = document.querySelector(HINTS[shownHint].at);
  if (!it) return;
  const place = it.getBoundingClientRect();
  // The first hint leaves the page where it is: on a phone the machine comes first.
  if (shownHint > 0 && (place.top < 0 || place.bottom > innerHeight)) it.scrollIntoView({block: "center"});
  const target = it.getBoundingClientRect(), {width, height} = box.getBoundingClientRect();
  const left = Math.max(HINT_GAP, Math.min(innerWidth - width - HINT_GAP, target.left));
  const above = Math.min(innerHeight, byId("time").getBoundingClientRect().top, target.top > innerHeight / 2 ? target.top : Infinity) - height - HINT_GAP;
  box.style.left = `${left}px`;
  box.style.top = `${Math.max(HINT_GAP, above)}px`;
  markTarget(it);
}
