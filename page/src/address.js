// The address holds the machine, the word, the window and the step as they change, so that a reload keeps them, and a bookmark.
// An exercise keeps the address that began it, and so do a command and the pebbles.
import {isDesigning} from "./design/design.js";
import {linkOf} from "./links.js";
import {taskAtHand} from "./sheet.js";
import {isEarly, state} from "./state.js";
import {isWorkshopAt} from "./workshop.js";

const ADDRESS_REST = 400, MOST_ADDRESS = 100000;
let later = 0;

// Writes it once all has come to rest. What is too long for an address isn't kept, and nothing else is in its place.
export function keepAddress() {
  clearTimeout(later);
  later = setTimeout(() => {
    // While a circuit is looked for the step that is kept isn't the one that is shown.
    if (state.playing || taskAtHand() !== null || isDesigning() || isWorkshopAt("command") || isWorkshopAt("pebbles") || isEarly() && state.isMaking) return;
    const link = state.text.length > MOST_ADDRESS ? state.lesson === null ? "#" : `#learn=${state.lesson}` : linkOf();
    if (link !== location.hash) history.replaceState(null, "", link);
  }, ADDRESS_REST);
}
