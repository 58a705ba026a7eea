// What boxes listen to, and what the hands share of it.
import {byId} from "./state.js";

// What is told of an event: its target is any element, which is asked by `closest` and `matches`.
/** @template {keyof HTMLElementEventMap} K @typedef {HTMLElementEventMap[K] & {target: any}} Told */
/**
 * @template {keyof HTMLElementEventMap} K
 * @param {string} id @param {K} kind @param {(event: Told<K>) => any} act @param {AddEventListenerOptions} [how]
 */
export const on = (id, kind, act, how) => byId(id).addEventListener(kind, /** @type {any} */ (act), how);

// Where a pointer is in a box, as a share of its width.
/** @type {(id: string, event: MouseEvent) => number} */
export function shareAcross(id, event) {
  const box = byId(id).getBoundingClientRect();
  return (event.clientX - box.left) / box.width;
}
// Whether a key is pressed with Ctrl, Alt or the command key, and whether with one of these or with Shift.
/** @type {(event: KeyboardEvent) => boolean} */
export const isCommand = event => event.ctrlKey || event.metaKey || event.altKey;
/** @type {(event: KeyboardEvent) => boolean} */
export const isWithOthers = event => isCommand(event) || event.shiftKey;
// A key that is taken here, and by nobody behind.
/** @type {(event: Event) => void} */
export function takeKey(event) {
  event.preventDefault();
  event.stopPropagation();
}
