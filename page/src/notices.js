// What a module tells the others without naming them. Who changes something says so; who shows it was put to the notice by
// app.js. So what is typed, played and picked knows nothing of the pictures.
/** @typedef {(...told: boolean[]) => any} Act */
function notice() {
  /** @type {Act[]} */
  const acts = [];
  /** @param {boolean[]} told */
  const tell = (...told) => { for (const act of acts) act(...told); };
  /** @param {Act} act */
  tell.to = act => acts.push(act);
  return tell;
}

// What is seen at the step that is shown may be another: true where it is to be spoken too.
export const redraw = notice();
// Breakpoints, or what is known of where they hold.
export const breaksChanged = notice();
export const marksChanged = notice();
// The part of the time line that is seen.
export const spanChanged = notice();
