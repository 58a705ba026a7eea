// Reads every file of tests/machines by the page's readers, and runs what comes out by the program: what
// tests/test_import.py compares. Prints, for each file: the table or the fault, with each halting state that it wants
// named; what opening it in the page gives; and the answers of `standard` and of `machine` for the words that standard
// input has for it.
import {readdirSync, readFileSync} from "node:fs";
import {createRequire} from "node:module";
import {openFile} from "../page/src/files.js";
import {readMachine, tableOf} from "../page/src/formats.js";

const bench = createRequire(import.meta.url)("../bin/hithwelor").workbench();
const coder = new TextEncoder(), decoder = new TextDecoder();
function answer(words, input) {
  const {status, text} = bench.answer(coder.encode(words.join("\0")), coder.encode(input));
  return {status, text: decoder.decode(text)};
}
const run = (word, table) => answer(["machine", `=${word}`, "100000"], table);
function tried(call) {
  try { return call(); } catch (fault) { return {fault: fault.message}; }
}

const words = JSON.parse(readFileSync(0, "utf8")), found = {};
const folder = new URL("machines/", import.meta.url);
for (const kind of readdirSync(folder)) for (const name of readdirSync(new URL(`${kind}/`, folder))) {
  const path = `${kind}/${name}`, text = readFileSync(new URL(path, folder), "utf8");
  const read = halt => tried(() => {
    const {table, names} = tableOf(readMachine(text, "it"), "it", halt);
    return {table, names: Object.fromEntries(names)};
  });
  const it = read(words[path]?.halt ?? null), standard = it.table && answer(["standard"], it.table);
  const tries = standard?.status === 0 && words[path]?.words || [];
  found[path] = {...it, opened: tried(() => openFile(name, text)), standard: standard?.status,
                 runs: Object.fromEntries(tries.map(word => [word, run(word, standard.text)]))};
}
process.stdout.write(JSON.stringify(found));
