// How a drawing is saved: the configuration text, which has no positions, and the positions beside it. A file is JSON, a link is deflated, and
// the browser keeps the last drawing if it keeps anything.
import {textOf} from "./drawing.js";

const FORM = "hithwelor design 1", KEPT_AS = "hithwelor design", SOLVED_AS = "hithwelor puzzles", GROUPS_AS = "hithwelor groups";
const MOST_LINK = 400000;

/** @type {(it: Drawing) => string} */
export const fileOf = it => `${JSON.stringify({form: FORM, text: textOf(it), places: it.at}, null, 1).replace(/\n\s+(?=[-\d\]])/g, "")}\n`;
// The content of a file: its text and its positions. A configuration text has no positions.
/** @type {(given: string) => {text: string, places: number[][]}} */
export function readFile(given) {
  try {
    const it = JSON.parse(given);
    return {text: String(it.text ?? ""), places: placesIn(it.places)};
  } catch {
    return {text: given, places: []};
  }
}
/** @type {(given: any) => number[][]} */
function placesIn(given) {
  /** @type {(it: any) => boolean} */
  const isPlace = it => Array.isArray(it) && it.length === 2 && it.every(one => Number.isInteger(one) && Math.abs(one) < 1e5);
  return Array.isArray(given) && given.every(isPlace) ? given : [];
}

// ---- in a link

/** @type {(bytes: Uint8Array, through: any) => Promise<Uint8Array>} */
const passed = async (bytes, through) =>
  new Uint8Array(await new Response(new Blob([/** @type {any} */ (bytes)]).stream().pipeThrough(through)).arrayBuffer());
// A text, deflated, in letters that an address may have; and back.
/** @type {(text: string) => Promise<string>} */
export async function packed(text) {
  const bytes = await passed(new TextEncoder().encode(text), new CompressionStream("deflate-raw"));
  let binary = "";
  for (const byte of bytes) binary += String.fromCharCode(byte);
  return btoa(binary).replace(/\+/g, "-").replace(/\//g, "_").replace(/=+$/, "");
}
/** @type {(word: string) => Promise<string>} */
export async function unpacked(word) {
  if (word.length > MOST_LINK) throw new Error("too long");
  const binary = atob(word.replace(/-/g, "+").replace(/_/g, "/"));
  return new TextDecoder().decode(await passed(Uint8Array.from(binary, it => it.charCodeAt(0)), new DecompressionStream("deflate-raw")));
}
/** @type {(it: Drawing) => Promise<string>} */
export const wordOf = it => packed(JSON.stringify([textOf(it), it.at.flat()]));
// The circuit of a link, or null.
/** @type {(word: string) => Promise<{text: string, places: number[][]} | null>} */
export async function readWord(word) {
  try {
    const [text, flat] = JSON.parse(await unpacked(word));
    const places = Array.from({length: flat.length / 2}, (_, k) => flat.slice(2 * k, 2 * k + 2));
    return {text: String(text), places: placesIn(places)};
  } catch {
    return null;
  }
}

// ---- in the browser

/** @type {(key: string, text: string) => void} */
function keep(key, text) {
  try { localStorage.setItem(key, text); } catch { /* where nothing is kept, a file or a link keeps it */ }
}
/** @type {(key: string) => string | null} */
function keptAs(key) {
  try { return localStorage.getItem(key); } catch { return null; }
}
/** @type {(it: Drawing) => void} */
export const keepDrawing = it => keep(KEPT_AS, it.bars.length ? fileOf(it) : "");
export function keptDrawing() {
  const given = keptAs(KEPT_AS);
  return given ? readFile(given) : null;
}
// Groups of elements that were saved as parts.
/** @type {() => {title: string, group: Group}[]} */
export function savedGroups() {
  try {
    const found = JSON.parse(keptAs(GROUPS_AS) ?? "[]");
    return Array.isArray(found) ? found.filter(it => it?.group?.bars?.length && placesIn(it.group.at).length === it.group.bars.length) : [];
  } catch {
    return [];
  }
}
/** @type {(groups: {title: string, group: Group}[]) => void} */
export const keepGroups = groups => keep(GROUPS_AS, JSON.stringify(groups));
// The number of elements with which each puzzle was solved.
/** @type {() => Record<string, number>} */
export function solved() {
  try {
    const found = JSON.parse(keptAs(SOLVED_AS) ?? "{}");
    return found && typeof found === "object" ? found : {};
  } catch {
    return {};
  }
}
/** @type {(key: string, elements: number) => void} */
export const keepSolved = (key, elements) => keep(SOLVED_AS, JSON.stringify({...solved(), [key]: Math.min(elements, solved()[key] ?? elements)}));
