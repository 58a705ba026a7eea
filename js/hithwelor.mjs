// The workbench from JavaScript: the proved program as a WebAssembly module, in browsers and in workers; node.mjs is the same in
// Node.js. `load` gives `answer`, which hands words and an input to the program, and the classes whose calls read what it
// prints. Nothing is computed here.
import {Workbench} from "./core.mjs";
import {machineClasses} from "./machines.mjs";
import {Layout, NoMemory, Refused, Tape, Trace, bytesOf, decoder, joined} from "./values.mjs";

export {Layout, NoMemory, Refused, Tape, Trace};

const OUT_OF_MEMORY = 9;

// The module: a compiled one, its bytes, a Response, or its address; without any, the module beside this file.
export async function moduleOf(source = new URL("hithwelor.wasm", import.meta.url)) {
  if (source instanceof WebAssembly.Module) return source;
  if (source instanceof Uint8Array || source instanceof ArrayBuffer) return WebAssembly.compile(source);
  if (typeof source === "string" || source instanceof URL) {
    const url = new URL(source, import.meta.url);
    if (url.protocol === "file:") throw new Error(`${url} is a file, which node.mjs reads: import "hithwelor", or that file`);
    source = await fetch(url);
    if (!source.ok) throw new Error(`${url}: ${source.status} ${source.statusText}`);
  }
  return WebAssembly.compile(await source.arrayBuffer());
}

// The workbench of a compiled module.
export function workbenchOf(compiled) {
  const bench = new Workbench(compiled);

  // Status and text, as bytes, of the program's answer to words and an input.
  function answerBytes(words, input = "") {
    const list = joined(words), given = bytesOf(input, "the input");
    let answered;
    try {
      answered = bench.answer(list, given);
    } catch (fault) {
      throw new NoMemory(`the answer was cut off: ${fault.message ?? fault}`, {cause: fault});
    }
    if (answered.status === OUT_OF_MEMORY) throw new NoMemory();
    return answered;
  }

  function answer(words, input = "") {
    const {status, text} = answerBytes(words, input);
    return {status, text: decoder.decode(text)};
  }

  return {answer, answerBytes, ...machineClasses(answer), Layout, NoMemory, Refused, Tape, Trace, module: compiled,
          memory: () => bench.memory()};
}

// The workbench, by the module beside this file, or by the one that is given.
export async function load({module} = {}) {
  return workbenchOf(await moduleOf(module));
}
