// What the exercises share: short ways to ask the program, and to compare what was typed.
import {answer, isCutOff} from "./answer.js";
import {EXAMPLES} from "./examples.js";

export async function ask(words, input = "") {
  const reply = await answer(words, input);
  if (isCutOff(reply)) throw new Error(reply.words);
  return reply.text;
}
// The number behind a word of an answer.
export const numberIn = (name, text) => Number(new RegExp(`^${name} (\\d+)`, "m").exec(text)?.[1]);
export const plain = it => (it ?? "").replace(/[\s,;]+/g, " ").trim();
export const isSame = (a, b) => plain(a).toLowerCase() === plain(b).toLowerCase();
export const isNumber = (typed, right) => /^\d+$/.test(plain(typed)) && Number(typed) === right;
export const rowsOf = text => text.split("\n").map(it => it.trim()).filter(Boolean);
export const barsOf = text => rowsOf(text).filter(it => it.startsWith("e ")).map(it => it.split(" ")[2]);
// Where the signal is, as a configuration text says it: 0.e
export const placeOf = text => rowsOf(text)[5]?.split(" ")[1];
export const exampleTable = key => EXAMPLES.find(it => it.key === key)?.table ?? "";
// An answer of a check: whether it is right, the words for both cases, and what the program said.
export const judged = (isRight, right, wrong, told = "") => ({isRight: Boolean(isRight), words: isRight ? right : wrong,
  told});
