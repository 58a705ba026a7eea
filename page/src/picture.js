// Saves what is seen as a picture: all of it or a part, as SVG, PDF or TikZ, in colour or in black and white.
import {pdfOf} from "./figure_pdf.js";
import {svgOf, tikzOf} from "./figures.js";
import {isSeen, sceneOf} from "./scene.js";
import {byId, dialog, escaped, state, toast} from "./state.js";

// What may be saved: the pictures, and the texts that belong to them. What isn't seen isn't offered.
const AROUND = ["#own p", "#stages b", "#stages span", "#rule .head", "#rule .more", "#three b",
                "#three .tape>div>span", "#size", "#where", "#what"];
const STAGES = "#filmnames span,#stagenames span", IN_LESSON = [".l-rule", ".tape b", ".l-cases td", ".l-cases th"];
/** @typedef {{key: string, title: string, pictures: string, texts: string}} Part */
/** @type {Part[]} */
const PARTS = [
  {key: "all", title: "the whole view", pictures: "main .pic,#filmpic .pic", texts: `${AROUND.join()},${STAGES}`},
  {key: "tapes", title: "the three tapes", pictures: "#three .pic", texts: "#three b"},
  {key: "hill", title: "the hill of the history", pictures: "#filmpic .pic", texts: STAGES},
  {key: "diagram", title: "the state diagram", pictures: "#diagram .pic", texts: ""},
  {key: "map", title: "the modules of the circuit", pictures: "#map .pic", texts: ""},
  {key: "bank", title: "the module as a bank", pictures: "#bank>.pic", texts: ""},
  {key: "lesson", title: "the lesson's picture", pictures: "#learnpicture .pic",
   texts: IN_LESSON.map(it => `#learnpicture ${it}`).join()},
];
const KINDS = {
  svg: {title: "SVG", type: "image/svg+xml", ending: "svg"},
  pdf: {title: "PDF", type: "application/pdf", ending: "pdf"},
  tikz: {title: "TikZ, for LaTeX", type: "text/x-tex", ending: "tex"},
};
const GONE_AFTER = 5000;
// What was chosen last.
const chosen = {part: "all", kind: "svg", isGrey: false, family: /** @type {SaveStyle["family"]} */ ("sans")};

/** @type {CanvasRenderingContext2D | null} */
let canvas = null;
function measure(text, font) {
  canvas ??= document.createElement("canvas").getContext("2d");
  if (!canvas) return 0;
  canvas.font = font;
  return canvas.measureText(text).width;
}
const bytesOf = text => Uint8Array.from({length: text.length}, (_, k) => text.charCodeAt(k));

// The bytes of a picture, or null where nothing is seen of it.
/** @type {(part: Part, kind: string, style: SaveStyle) => BlobPart | null} */
function pictureOf({key, pictures, texts}, kind, style) {
  const scene = sceneOf(pictures, texts, key === "all" ? style.made : "");
  if (!scene) return null;
  if (kind === "pdf") return bytesOf(pdfOf(scene, style, measure));
  return kind === "tikz" ? tikzOf(scene, style) : svgOf(scene, style);
}
/** @type {(part: Part, made: string) => void} */
function save(part, made) {
  const {kind, isGrey, family} = chosen, {type, ending} = KINDS[kind];
  const text = pictureOf(part, kind, {isGrey, family, made});
  if (!text) {
    toast("This part is not visible.");
    return;
  }
  const link = document.createElement("a");
  link.href = URL.createObjectURL(new Blob([text], {type}));
  link.download = `hithwelor-${part.key}.${ending}`;
  link.click();
  setTimeout(() => URL.revokeObjectURL(link.href), GONE_AFTER);
}

/** @type {(id: string, list: string[][], now: string) => string} */
const choiceOf = (id, list, now) => `<select id="${id}">${list.map(([value, title]) =>
  `<option value="${value}"${value === now ? " selected" : ""}>${escaped(title)}</option>`).join("")}</select>`;
const FAMILIES = ["sans", "serif", "mono"].map(it => [it, it]);
// Asks what of it is saved, and how; `made` says what it shows. Other parts than the page's are given where a dialog
// has some.
/** @type {(made: string, parts?: Part[]) => void} */
export function openPicture(made, parts = PARTS) {
  const isOpen = it => state.lesson === null || it.key !== "all";
  const seen = parts.filter(it => isOpen(it) && [...document.querySelectorAll(it.pictures)].some(isSeen));
  const kinds = Object.entries(KINDS).map(([key, {title}]) => [key, title]);
  if (!seen.some(it => it.key === chosen.part)) chosen.part = seen[0]?.key ?? "";
  dialog(`<h2>Save a picture</h2>
    <p><label>What ${choiceOf("p-part", seen.map(it => [it.key, it.title]), chosen.part)}</label></p>
    <p><label>As ${choiceOf("p-kind", kinds, chosen.kind)}</label>
      <label>Letters ${choiceOf("p-family", FAMILIES, chosen.family)}</label></p>
    <p><label><input type="checkbox" id="p-grey"${chosen.isGrey ? " checked" : ""}> black and white</label></p>
    <p class="quiet">All three are drawings that stay sharp. TikZ is for <code>\\input</code> in a document that loads
      <code>tikz</code>, and has that document's letters.</p>
    <p><button id="p-save" class="main"${seen.length ? "" : " disabled"}>Save</button></p>`);
  byId("p-save").onclick = () => {
    const part = seen.find(it => it.key === byId("p-part").value), family = byId("p-family").value;
    Object.assign(chosen, {part: part?.key, kind: byId("p-kind").value, isGrey: byId("p-grey").checked, family});
    if (part) save(part, made);
  };
}
