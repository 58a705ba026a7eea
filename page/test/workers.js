// The page's workers for the tests: each answers in this process, by the page's own worker script's parts.
import {createRequire} from "node:module";
import {boundsOf, readPlaces} from "../src/places.js";

const {workbench} = createRequire(import.meta.url)("../../bin/hithwelor"), coder = new TextEncoder();

globalThis.Worker = class {
  bench = workbench();
  postMessage({kind, number, words, input, reading}) {
    if (kind === "module") return this.say({kind: "ready", number});
    const {status, text} = this.bench.answer(coder.encode(words.join("\0")), coder.encode(input));
    if (!reading || status !== 0) return this.say({kind: "answer", number, status, text});
    const read = readPlaces(text, reading.count);
    this.say({kind: "places", number, status, bytes: text.length, ...read, bounds: boundsOf(read, reading)});
  }
  say(data) { queueMicrotask(() => this.onmessage({data})); }
  terminate() {}
};
WebAssembly.compile = async () => null;
