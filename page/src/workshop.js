// The workshop: a dialog with pages of one kind, each with something of its own to type, to step and to look at. A page
// says how it is made, and what is done as it comes and goes.
import {openAboutPage} from "./about.js";
import {commandPage} from "./command.js";
import {designPage} from "./design/design.js";
import {elementsPage} from "./elements.js";
import {erasePage} from "./erase.js";
import {farmPage} from "./farm.js";
import {mirrorPage} from "./mirror.js";
import {pebblesPage} from "./pebbles.js";
import {planPage} from "./plan.js";
import {openPicture} from "./picture.js";
import {reversiblePage} from "./reversible.js";
import {openSaid} from "./said.js";
import {byId, partOf} from "./state.js";
import {markTab, takeTabs} from "./tabs.js";

/** @type {WorkshopPage[]} */
const PAGES = [elementsPage, designPage, mirrorPage, farmPage, erasePage, reversiblePage, planPage, pebblesPage, commandPage];
// The box is there once the workshop was opened, and the page that is shown.
const workshop = /** @type {{box: HTMLDialogElement, page: WorkshopPage, made: Set<WorkshopPage>}} */ ({made: new Set()});
const part = id => partOf(workshop.box, id);
const pageBox = page => part(`page-${page.key}`);
const pageTab = page => part(`tab-${page.key}`);

function makeWorkshop() {
  workshop.box = Object.assign(document.createElement("dialog"), {id: "workshop"});
  workshop.box.setAttribute("aria-label", "Workshop");
  const tabs = PAGES.map(it =>
    `<button role="tab" id="tab-${it.key}" data-page="${it.key}" aria-controls="page-${it.key}" aria-selected="false"
        tabindex="-1">${it.title}</button>`);
  const boxes = PAGES.map(it =>
    `<div role="tabpanel" id="page-${it.key}" class="e-body" aria-labelledby="tab-${it.key}" hidden></div>`);
  workshop.box.innerHTML = `<div class="e-head"><h2>Workshop</h2><div role="tablist"
      aria-label="Pages of the workshop">${tabs.join("")}</div>
    <span class="mini"><button id="e-picture" title="save the picture as SVG, PDF or TikZ">Picture</button><button id="e-texts" aria-label="program output for this page">Texts</button><button
    id="e-about-page" aria-label="about this page">?</button></span>
    <button id="e-close" class="plain" aria-label="close the workshop">×</button></div><div
    id="e-sheet"></div>${boxes.join("")}`;
  document.body.append(workshop.box);
  takeTabs(workshop.box, it => choosePage(pageOf(it.dataset.page ?? "")));
  part("e-close").onclick = () => workshop.box.close();
  part("e-picture").onclick = () => openPicture(`Hithwelor · ${workshop.page.title}`, [
    {key: workshop.page.key, title: workshop.page.title.toLowerCase(), pictures: workshop.page.pictures ?? `#page-${workshop.page.key} svg`, texts: ""},
  ]);
  part("e-texts").onclick = () => openSaid(workshop.page.title.toLowerCase(), workshop.page.calls());
  part("e-about-page").onclick = () => openAboutPage(workshop.page);
  workshop.box.addEventListener("keydown", onWorkshopKey);
  workshop.box.addEventListener("close", () => {
    workshop.page.close();
    const sheet = part("sheet");
    if (sheet) byId("sheetplace").append(sheet);
  });
}
function onWorkshopKey(event) {
  if (event.target.matches("textarea,input,select,[role=tab]") || event.ctrlKey || event.metaKey
    || event.altKey) return;
  if (event.key === " " && event.target.matches("button")) return;
  const act = workshop.page.keys[event.key];
  if (!act) return;
  event.preventDefault();
  act();
}
function choosePage(page) {
  workshop.page?.close();
  workshop.page = page;
  for (const it of PAGES) pageBox(it).hidden = it !== page;
  markTab(workshop.box, pageTab(page));
  part("e-picture").disabled = page === commandPage;
  part("e-texts").disabled = page === pebblesPage;
  if (workshop.made.has(page)) {
    page.open();
    return;
  }
  workshop.made.add(page);
  page.make(pageBox(page));
}

// Opens the workshop at a page, or where it was left.
export function openWorkshop(key = workshop.page?.key ?? PAGES[0].key) {
  if (!workshop.box) makeWorkshop();
  if (!workshop.box.open) workshop.box.showModal();
  choosePage(pageOf(key));
}
// Whether the workshop stands open at this page.
/** @type {(key: string) => boolean} */
export const isWorkshopAt = key => Boolean(workshop.box?.open) && workshop.page.key === key;
/** @type {() => HTMLDialogElement | undefined} */
export const workshopBox = () => workshop.box;
/** @type {(key: string) => WorkshopPage} */
export const pageOf = key => PAGES.find(it => it.key === key) ?? PAGES[0];
