// The search in a worker of its own, with one element more each time.
import {askSearch, LANES, stopLane} from "../answer.js";

const MOST_ELEMENTS = 3, LOOK = 300;

/** @type {(entries: Entry[], how: {sides?: boolean, tell?: (words: string) => void, isOff?: () => boolean}) => Promise<string | null>} */
export async function findCircuit(entries, {sides = false, tell = () => {}, isOff = () => false}) {
  const watch = setInterval(() => { if (isOff()) stopLane(LANES.search); }, LOOK);
  try {
    for (let count = 1; count <= MOST_ELEMENTS && !isOff(); count++) {
      tell(`Searching with ${count} ${count === 1 ? "element" : "elements"} …`);
      const found = await askSearch({entries, count, sides});
      if (found) return found;
    }
    return null;
  } finally {
    clearInterval(watch);
  }
}
