// The page's worker: takes the module that it is given, compiled or as bytes, and answers one call after another.
import {Workbench} from "../../js/core.mjs";
import {searched} from "./design/search.js";
import {boundsOf, readPlaces} from "./places.js";

/** @type {Workbench | null} */
let bench = null;
const coder = new TextEncoder();

// Where a compiled module can't be handed over, its bytes are asked for.
const post = /** @type {(message: any, given?: any[]) => void} */ (postMessage);
onmessageerror = () => post({kind: "unread"});
onmessage = event => {
  const {kind, number} = event.data;
  const began = performance.now(), spent = () => performance.now() - began;
  try {
    if (kind === "module") {
      bench = new Workbench(event.data.module ?? new WebAssembly.Module(event.data.bytes));
      post({kind: "ready", number, ms: spent()});
      return;
    }
    if (kind === "search") {
      post({kind: "found", number, found: searched(event.data.entries, event.data.count, {sides: event.data.sides})});
      return;
    }
    const {words, input, reading} = event.data;
    if (!bench) throw new Error("no module came before");
    const {status, text} = bench.answer(coder.encode(words.join("\0")), coder.encode(input)), ms = spent();
    if (!reading || status !== 0) {
      post({kind: "answer", number, status, text, ms, memory: bench.memory()}, [text.buffer]);
      return;
    }
    const read = readPlaces(text, reading.count), bounds = boundsOf(read, reading);
    const told = {kind: "places", number, status, bytes: text.length, ...read, bounds, ms};
    post(told, [read.places.buffer, bounds.buffer]);
  } catch (fault) {
    post({kind: "fault", number, text: String(fault), ms: spent()});
  }
};
