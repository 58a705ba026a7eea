// Hands on: what each field, button, picture and key does, panel by panel, and what follows the size of the window.
import {renderFilm} from "./film.js";
import {onCircuit} from "./hands_circuit.js";
import {onDiagram} from "./hands_diagram.js";
import {onKeys} from "./hands_keys.js";
import {onMachine} from "./hands_machine.js";
import {onPanels} from "./hands_panels.js";
import {onTapes} from "./hands_tapes.js";
import {onTime} from "./hands_time.js";
import {placeHint} from "./hints.js";
import {redraw} from "./notices.js";
import {forgetSizes} from "./sizes.js";
import {current} from "./state.js";

const RESIZING_REST = 80;

export function takeHands() {
  for (const take of [onMachine, onDiagram, onTime, onTapes, onCircuit, onPanels, onKeys]) take();
  /** @type {ReturnType<typeof setTimeout> | undefined} */
  let resting;
  addEventListener("resize", () => {
    clearTimeout(resting);
    resting = setTimeout(fitWindow, RESIZING_REST);
  });
}
function fitWindow() {
  forgetSizes();
  placeHint();
  if (!current.run) return;
  renderFilm();
  redraw(false);
}
