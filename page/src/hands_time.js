// What is done to time: steps, playing both ways, its speed and its layer, breakpoints, and work that is stopped.
import {stopAll} from "./answer.js";
import {dropBreak} from "./breaks.js";
import {dropWantedTime, onFilm} from "./hands_film.js";
import {stepSentence} from "./glossary.js";
import {on} from "./listen.js";
import {giveUp} from "./machine.js";
import {chooseLayer, goTo, goToEnd, goToKnown, pause, runBreak, speedWords, step, togglePlay} from "./play.js";
import {busy, byId, current, state, toast} from "./state.js";
import {openStops} from "./stops.js";

export function onTime() {
  byId("first").onclick = () => { pause(); goTo(0); };
  byId("last").onclick = goToEnd;
  byId("back").onclick = () => step(-1);
  byId("forth").onclick = () => step(1);
  byId("play").onclick = () => togglePlay(1);
  byId("playback").onclick = () => togglePlay(-1);
  byId("addstop").onclick = () => { pause(); openStops(); };
  byId("breakon").onclick = () => runBreak(1);
  byId("breakback").onclick = () => runBreak(-1);
  byId("stop").onclick = stopWork;
  on("speed", "input", () => {
    state.speed = Number(byId("speed").value);
    byId("speedtext").textContent = speedWords();
    byId("speed").setAttribute("aria-valuetext", speedWords());
  });
  for (const it of byId("layers").querySelectorAll("[data-layer]")) {
    it.setAttribute("title", stepSentence(it.dataset.layer ?? ""));
  }
  on("layers", "click", event => {
    const it = event.target.closest("[data-layer]");
    if (it) chooseLayer(it.dataset.layer);
  });
  on("chips", "click", event => {
    const it = event.target.closest("[data-drop]");
    if (it) dropBreak(Number(it.dataset.drop));
  });
  onFilm();
}
// A run that isn't there yet is given up; of one that is shown, what is asked for beside it.
function stopWork() {
  const isMaking = state.isMaking || !current.run;
  state.editions++;
  dropWantedTime();
  stopAll();
  busy("");
  if (isMaking) giveUp();
  else goToKnown();
  const advice = isMaking ? "Make the word shorter, or choose the window by hand." : "A step or a click asks again.";
  toast(`Stopped. ${advice}`);
}
