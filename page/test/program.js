// The program for the tests: the module in bin/hithwelor, in this process.
import {readFileSync} from "node:fs";
import {createRequire} from "node:module";

const bench = createRequire(import.meta.url)("../../bin/hithwelor").workbench();
const coder = new TextEncoder(), decoder = new TextDecoder();

export function answer(words, input = "") {
  const {status, text} = bench.answer(coder.encode(words.map(String).join("\0")), coder.encode(input));
  return {status, text: decoder.decode(text), bytes: text};
}
export const example = name => readFileSync(new URL(`../../examples/${name}`, import.meta.url), "utf8");
