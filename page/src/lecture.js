// Lecture mode: one panel fills the window, with the time line below it, and all text is 1.6 times as large.
import {redraw} from "./notices.js";
import {renderFilm} from "./film.js";
import {forgetSizes} from "./sizes.js";
import {byId, current} from "./state.js";

const PANELS = {machine: "Machine", tapes: "Tapes", circuit: "Circuit"};

export const isLecture = () => document.body.classList.contains("lecture");
// Shows one panel large, or all again.
export function showLecture(panel) {
  const {body} = document;
  body.classList.toggle("lecture", panel !== null);
  if (panel) body.dataset.lecture = panel;
  else delete body.dataset.lecture;
  byId("lecture").setAttribute("aria-pressed", String(panel !== null));
  byId("lecturelayers").hidden = panel === null;
  for (const it of byId("lecturelayers").querySelectorAll("button")) it.setAttribute("aria-pressed", String(it.dataset.panel === panel));
  forgetSizes();
  if (!current.run) return;
  renderFilm();
  redraw(false);
}
export function takeLecture() {
  byId("lecturelayers").innerHTML = Object.entries(PANELS).map(([key, title]) => `<button data-panel="${key}" aria-pressed="false">${title}</button>`).join("");
  byId("lecturelayers").onclick = event => {
    const it = /** @type {any} */ (event.target).closest("[data-panel]");
    if (it) showLecture(it.dataset.panel);
  };
  byId("lecture").onclick = () => showLecture(isLecture() ? null : "tapes");
}
