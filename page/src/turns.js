// Acts one after another: what a click asks for begins when what the last one asked for is done, so that no two steps
// begin at the same text.
let lastTurn = Promise.resolve();
/** @type {(act: () => any) => Promise<any>} */
export function inTurn(act) {
  lastTurn = lastTurn.then(act).catch(console.error);
  return lastTurn;
}
