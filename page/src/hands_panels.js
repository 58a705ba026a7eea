// What opens beside the panels: what they are about, their texts, the dialogs of the page's head, a link to what is
// seen and a picture of it.
import {openAbout} from "./about.js";
import {openDesign} from "./design/design.js";
import {openHelp, openWindow} from "./dialogs.js";
import {takeLecture} from "./lecture.js";
import {linkOf} from "./links.js";
import {openPicture} from "./picture.js";
import {pause} from "./play.js";
import {openSaidOf} from "./said.js";
import {openTasks} from "./sheet.js";
import {byId, current, isEarly, state, toast} from "./state.js";
import {openWorkshop} from "./workshop.js";
import {endWords, number} from "./words.js";

export function onPanels() {
  for (const it of document.querySelectorAll("[data-about]")) {
    it.onclick = () => { pause(); openAbout(it.dataset.about); };
  }
  for (const it of document.querySelectorAll("[data-said]")) {
    it.onclick = () => { pause(); openSaidOf(it.dataset.said); };
  }
  byId("size").onclick = openWindow;
  byId("help").onclick = openHelp;
  byId("skip").onclick = () => byId("play").focus();
  takeLecture();
  byId("tasks").onclick = openTasks;
  byId("opendesign").onclick = () => { pause(); openDesign(); };
  byId("openworkshop").onclick = () => { pause(); openWorkshop(); };
  byId("share").onclick = share;
  byId("picture").onclick = savePicture;
}
async function share() {
  history.replaceState(null, "", linkOf());
  try {
    await navigator.clipboard.writeText(location.href);
    toast("Link copied, with machine, word and step.");
  } catch {
    toast("The link is in the address bar.");
  }
}
function savePicture() {
  const {run} = current;
  if (!run) return;
  pause();
  const row = `quadruple step ${number(run.momentIndex(state.e))} of ${number(run.count - 1)}`;
  const element = isEarly() ? "" : `, element step ${number(state.e)} of ${endWords(run)}`;
  openPicture(`Hithwelor · word ${state.word || "empty"} · ${row}${element}`);
}
