// Changes of a table by its rules. Each gives the new text; the lines that it doesn't touch stay as they were typed.
import {rulesOf} from "./table.js";

const linesOf = text => text.split("\n");
const fieldsOf = line => line.replace(/\r$/, "").split(",");
const plainField = field => field.replace(/^"(.*)"$/, "$1");

// The text with some fields of its rules given otherwise.
function withFields(text, places, old, made) {
  return linesOf(text).map(line => {
    const fields = fieldsOf(line);
    if (fields.length !== 5 || !places.some(place => plainField(fields[place]) === old)) return line;
    return fields.map((it, place) => places.includes(place) && plainField(it) === old ? made : it).join(",");
  }).join("\n");
}
export const withState = (text, old, made) => withFields(text, [0, 4], old, made);
export const withLetter = (text, old, made) => withFields(text, [1, 2], old, made);

// `line` is the number of a line of the text, from 1 on.
export const withRule = (text, line, fields) =>
  linesOf(text).map((it, k) => k + 1 === line ? fields.join(",") : it).join("\n");
export const withoutRule = (text, line) => linesOf(text).filter((_, k) => k + 1 !== line).join("\n");

// A new rule stands behind the last one of its state, and never last: the last line is the one that halts.
export function withNewRule(text, fields) {
  const rules = rulesOf(text), lines = linesOf(text), last = rules.at(-1);
  if (!last) return fields.join(",") + "\n";
  const same = rules.findLast(it => it.state === fields[0] && it !== last);
  lines.splice(same ? same.line : last.line - 1, 0, fields.join(","));
  return lines.join("\n");
}
// A rule to begin with: of a state, on the first letter for which it has none.
export function nextRule(rules, state) {
  const letters = ["_", ...new Set(rules.flatMap(it => [it.read, it.write]))];
  const read = letters.find(letter => letter !== undefined && !rules.some(it => it.state === state && it.read === letter)) ?? "_";
  return [state, read, read, "+", state];
}
