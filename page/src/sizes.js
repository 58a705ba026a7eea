// Boxes of the page: what stands in them, changed only where it changes, and how large they are.
import {redraw} from "./notices.js";
import {byId, current, state} from "./state.js";

/** @type {(id: string, html: string) => void} */
export function put(id, html) {
  const it = byId(id);
  if (it.kept === html) return;
  it.kept = html;
  it.innerHTML = html;
}

export const isPhone = () => innerWidth <= 760;
// Sizes are measured once and kept until one changes: to measure in the middle of drawing costs a layout each time.
/** @type {Map<string, number[]>} */
const sizes = new Map();
// Made at first use, so that whoever draws nothing needs no browser.
/** @type {ResizeObserver | null} */
let watch = null;
const watcher = () => watch ??= new ResizeObserver(entries => {
  for (const it of entries) sizes.delete(it.target.id);
  if (current.run && !state.playing) requestAnimationFrame(() => redraw(false));
});
/** @type {(id: string) => number[]} */
function sizeOf(id) {
  const known = sizes.get(id);
  if (known) return known;
  const it = byId(id), size = [it.clientWidth, it.clientHeight];
  sizes.set(id, size);
  watcher().observe(it);
  return size;
}
/** @type {(id: string) => number} */
export const widthOf = id => Math.max(120, Math.floor(sizeOf(id)[0]));
/** @type {(id: string) => number} */
export const heightOf = id => Math.max(60, Math.floor(sizeOf(id)[1]));
/** @type {(...ids: string[]) => void} */
export function forgetSizes(...ids) {
  if (ids.length) ids.forEach(id => sizes.delete(id));
  else sizes.clear();
}
