// What is done to the state diagram: a state is moved or clicked, and the whole is made large.
import {openDiagram} from "./diagram.js";
import {takeDrag} from "./drag.js";
import {openLens} from "./lens.js";
import {redraw} from "./notices.js";
import {pause} from "./play.js";
import {byId, nameOf} from "./state.js";

export function onDiagram() {
  takeDrag(byId("diagram"), {
    nameAt: nameOf,
    draw: () => redraw(false),
    click: (/** @type {string} */ it, /** @type {number[]} */ place) => openLens({kind: "state", state: it}, place),
  });
  byId("diagram").addEventListener("keydown", event => {
    const it = /** @type {any} */ (event.target).closest("[data-state]");
    if (!it || event.key !== "Enter" && event.key !== " ") return;
    event.preventDefault();
    event.stopPropagation();
    const box = it.getBoundingClientRect();
    openLens({kind: "state", state: it.dataset.state}, [box.x + box.width / 2, box.y + box.height / 2]);
  });
  byId("larger").onclick = () => { pause(); openDiagram(); };
}
