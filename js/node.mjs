// The workbench in Node.js: as hithwelor.mjs, with a module that may be a file.
import {readFile} from "node:fs/promises";
import {moduleOf as fetched, workbenchOf} from "./hithwelor.mjs";

export {Layout, NoMemory, Refused, Tape, Trace} from "./hithwelor.mjs";

// The module: a compiled one, its bytes, a Response, or its address; without any, the module beside this file.
export async function moduleOf(source = new URL("hithwelor.wasm", import.meta.url)) {
  const url = typeof source === "string" || source instanceof URL ? new URL(source, import.meta.url) : null;
  return url?.protocol === "file:" ? WebAssembly.compile(await readFile(url)) : fetched(source);
}

// The workbench, by the module beside this file, or by the one that is given.
export async function load({module} = {}) {
  return workbenchOf(await moduleOf(module));
}
