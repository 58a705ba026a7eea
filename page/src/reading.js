// A machine as it is pasted, in any notation that is read: how the program can have it, what was turned for that, in words,
// and what is proposed of it. Whether it is a machine the program says, and `standard` brings it into standard form.
import {openFile} from "./files.js";
import {kindOf} from "./formats.js";
import {rulesOf, spell, turned} from "./table.js";
import {isLatex, plainOf, readTextbook} from "./textbook.js";
import {readYamlText} from "./yaml.js";

const MOST_ADDED = 400;
const ACCEPTS = /accept|^(?:q[-_]?)?(?:acc|yes)$|^q[-_]?[ay]$/i, REJECTS = /reject|^(?:q[-_]?)?(?:rej|no)$|^q[-_]?r$/i;
const PROGRAMS = {jflap: "JFLAP", yaml: "turingmachine.io", line: "bbchallenge", morphett: "Morphett's simulator"};
const isLetter = it => /^[!-~]$/.test(it) && !'/,"'.includes(it);

// What a text may be read as, the likeliest first. `fault` is what a reader of another program's machines says.
/** @type {(text: string, known?: Record<string, string>) => {readings: Reading[], fault: string}} */
export function readingsOf(text, known = {}) {
  const kind = kindOf(text), isProgram = kind !== null && (kind !== "morphett" || /(^|\s)(halt|\*(\s|$))/im.test(text));
  if (isProgram) {
    try {
      return {readings: [ofProgram(text, kind)], fault: ""};
    } catch (fault) {
      if (kind !== "morphett") return {readings: [], fault: String(fault.message).replace(/^\S+: /, "")};
    }
  }
  const found = readTextbook(text);
  /** @type {Reading[]} */
  const readings = [];
  if (found) readings.push(...ofLines(found.rows.map(row => row.join("\t")).join("\n"), found.what, known));
  readings.push(...ofLines(plainOf(text), isLatex(text) ? "LaTeX" : "", known));
  return {readings, fault: ""};
}

// ---- a machine of another program

function ofProgram(text, kind) {
  const it = openFile(`pasted.${{jflap: "jff", yaml: "yaml"}[kind] ?? "txt"}`, text), stuck = /It halts in .*$/.exec(it.about)?.[0];
  const given = kind === "yaml" ? readYamlText(text, "pasted").find(entry => entry.key === "input")?.value : undefined;
  return {text: it.table, names: it.names ?? {}, what: `a machine of ${PROGRAMS[kind]}`, said: stuck ? [stuck.replace(/\.$/, "").replace("It", "it")] : [],
          accept: it.accept ?? [], reject: it.reject ?? [], word: typeof given === "string" ? given : null};
}

// ---- lines of five fields

function ofLines(lines, what, known) {
  let turn = turned(lines, null, known), rules = rulesOf(turn.text);
  if (!rules.length || rules.some(it => it.next === undefined)) return [];
  if (!rules.some(it => it.read === "_" || it.write === "_")) {
    const blank = rules.some(it => it.read === "0" || it.write === "0") ? "0" : null;
    if (blank !== null) {
      turn = turned(lines, blank, known);
      rules = rulesOf(turn.text);
    }
  }
  const said = turn.said.filter(it => what === "" || !/ to commas$|^spaces taken|^columns put/.test(it)), names = {...turn.names};
  plainLetters(rules, said);
  const halting = orderEnd(rules, said), isOwn = !said.length && what === "";
  for (const rule of rules) for (const name of [rule.state, rule.next]) spell(name, names, new Set(rules.flatMap(it => [it.state, it.next])));
  const text = isOwn ? lines : rules.map(it => `${[it.state, it.read, it.write, it.shift, it.next].join(",")}\n`).join("");
  return [{text, names, what: what || (said.length ? "a table" : ""), said, word: null,
           accept: halting.filter(it => ACCEPTS.test(it)), reject: halting.filter(it => REJECTS.test(it))}];
}
// Letters that a table can't have are given others.
function plainLetters(rules, said) {
  const letters = new Set(rules.flatMap(it => [it.read, it.write])), taken = new Set([...letters].filter(isLetter));
  /** @type {Map<string, string>} */
  const made = new Map();
  for (const letter of letters) {
    if (isLetter(letter) || letter === "") continue;
    const plain = letter.normalize("NFKD").replace(/[^!-~]/g, ""), like = {"▷": ">", "⊢": ">", "×": "x", "α": "a", "β": "b", "γ": "c"}[letter];
    const wanted = [like, plain[0], plain[0]?.toUpperCase(), ..."XYZWVUTSabcdefghijkmnpqrstuvwxyz23456789"];
    const found = wanted.find(it => it && isLetter(it) && it !== "_" && !taken.has(it));
    if (!found) continue;
    taken.add(found);
    made.set(letter, found);
  }
  for (const rule of rules) for (const part of ["read", "write"]) rule[part] = made.get(rule[part]) ?? rule[part];
  for (const [letter, plain] of made) said.push(`${letter} to ${plain}`);
}
// The rule that halts goes last; where nothing halts but for want of a rule, rules to a halting state are added. The states
// in which it halts: of several the first that accepts is the table's.
function orderEnd(rules, said) {
  const left = new Set(rules.map(it => it.state)), halting = [...new Set(rules.map(it => it.next))].filter(it => !left.has(it));
  if (!halting.length) {
    addEnds(rules, left, said);
    return [];
  }
  const chosen = halting.find(it => ACCEPTS.test(it)) ?? (halting.includes(rules.at(-1).next) ? rules.at(-1).next : halting[0]);
  if (halting.length > 1) said.push(`it halts in ${chosen}; in ${halting.filter(it => it !== chosen).join(", ")} it is stuck`);
  if (rules.at(-1).next !== chosen) {
    const at = rules.findLastIndex(it => it.next === chosen);
    rules.push(...rules.splice(at, 1));
    // The start state's rules stay first.
    if (at === 0 && rules.length > 1) {
      const first = rules.findIndex(it => it.state === rules.at(-1).state);
      rules.unshift(...rules.splice(first, 1));
    }
    said.push("the rule that halts put last");
  }
  return halting;
}
function addEnds(rules, left, said) {
  const letters = [...new Set(["_", ...rules.flatMap(it => [it.read, it.write])])], has = new Set(rules.map(it => `${it.state}\n${it.read}`));
  const missing = [...left].flatMap(state => letters.filter(read => !has.has(`${state}\n${read}`)).map(read => ({state, read})));
  if (!missing.length || missing.length > MOST_ADDED) return;
  const next = ["halt", "Halt", "halts", "end-of-run"].find(it => !left.has(it)) ?? "halt.1";
  for (const {state, read} of missing) rules.push({state, read, write: read, shift: "0", next, line: 0});
  said.push(`Added ${missing.length} halting ${missing.length === 1 ? "rule" : "rules"}, to ${next}`);
}
