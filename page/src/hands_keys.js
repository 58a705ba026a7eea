// What keys do wherever no field has them.
import {endHints} from "./hints.js";
import {closeLens, isLensOpen} from "./lens.js";
import {isCommand} from "./listen.js";
import {chooseLayer, pause, play, runBreak, step, togglePlay} from "./play.js";
import {TIME_FACTOR, wholeTime, zoomTime} from "./span.js";
import {byId, LAYERS, state} from "./state.js";

/** @type {Record<string, () => any>} */
const ZOOM_KEYS = {"+": () => zoomTime(TIME_FACTOR), "-": () => zoomTime(1 / TIME_FACTOR), 0: wholeTime};
/** @type {Record<string, () => any>} */
const SHIFT_KEYS = {
  " ": () => togglePlay(-1), ArrowRight: () => runBreak(1), ArrowLeft: () => runBreak(-1),
  ArrowUp: () => layerBy(-1), ArrowDown: () => layerBy(1),
};
/** @type {Record<string, () => any>} */
const KEYS = {
  " ": () => state.playing ? pause() : play(1), ArrowRight: () => step(1), ArrowLeft: () => step(-1),
  Home: () => byId("first").click(), End: () => byId("last").click(),
  Escape: () => isLensOpen() ? closeLens() : endHints(),
};
/** @param {number} by */
const layerBy = by => chooseLayer(LAYERS[Math.max(0, Math.min(LAYERS.length - 1, LAYERS.indexOf(state.layer) + by))]);

export function onKeys() {
  document.addEventListener("keydown", onKey);
}
/** @param {import("./listen.js").Told<"keydown">} event */
function onKey(event) {
  const {target, key, shiftKey} = event, isRange = target.matches("input[type=range]");
  if (target.matches("textarea,input:not([type=range]),select") || document.querySelector("dialog[open]")) return;
  if (isCommand(event) || isRange && !shiftKey && key !== " ") return;
  const act = ZOOM_KEYS[key] ?? (shiftKey ? SHIFT_KEYS : KEYS)[key];
  if (!act) return;
  event.preventDefault();
  if (key === " " && target.matches("button")) target.blur();
  act();
}
