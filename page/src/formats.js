// Machines of four other programs: turingmachine.io, JFLAP, Morphett's simulator and bbchallenge. All have one tape;
// the first three start on the first letter of the word. A reader gives the machine's rules as they stand in the file;
// `tableOf` makes of them a table of quintuples that `standard` takes. tools/lib/machine_files.py is the same;
// tests/test_import.py compares both on every file.
import {readJflap} from "./jflap.js";
import {isLine, isMorphett, readLine, readMorphett} from "./lines.js";
import {NONE, SHIFTS, shown} from "./machines.js";
import {List, Mapping, readYamlText} from "./yaml.js";

const LONGEST_NAME = 32, SOURCE = "source code";
const TABLE = "; it looks like a table of rules, which the program reads as it is";

// ---- which of the four

// Of which program a text is: jflap, line, morphett or yaml; null where it is of none.
export function kindOf(text) {
  const bare = text.replace(/^\ufeff/, "").replace(/^[ \t\r\n]+/, "");
  if (bare.startsWith("<")) return "jflap";
  if (/^[{[]/.test(bare)) return null;
  if (isLine(bare)) return "line";
  if (isMorphett(text)) return "morphett";
  return /^[ ]*['"]?(table|blank|start state|source code|\? *table)['"]? *:/m.test(text) ? "yaml" : null;
}
// Whether this looks like a table of quintuples, which needs no reader.
export function isTable(text) {
  const lines = text.split(/\r\n|\r|\n/).filter(line => /[^ \t]/.test(line));
  return lines.length > 0 && lines.every(line => line.split(",").length === 5);
}
// The machine of a text of one of the four programs.
/** @type {(text: string, where: string, kind?: string | null) => FoundMachine} */
export function readMachine(text, where, kind = kindOf(text)) {
  const read = {jflap: readJflap, line: readLine, morphett: readMorphett, yaml: readYaml}[kind];
  if (!read)
    throw new Error(`${where}: ${NONE}${isTable(text) ? TABLE : ""}`);
  return read(text, where);
}

// ---- turingmachine.io

const isEmpty = value => !value || value instanceof List && !value.items.length
  || value instanceof Mapping && !value.entries.length;

// Makes a machine of the entries of a turingmachine.io text.
class TuringYaml {
  constructor(entries, where) {
    this.where = where;
    this.top = new Map();
    for (const entry of entries) {
      this.checkWord(entry.key, "a key", entry.line);
      if (this.top.has(entry.key)) throw new Error(`${where}: line ${entry.line}: ${shown(entry.key)} stands twice`);
      this.top.set(entry.key, entry);
    }
    const blank = this.wanted("blank");
    this.blank = null;
    this.blank = this.symbol(blank.value, `${where}: line ${blank.line}`);
    this.start = this.wanted("start state").value;
    const synonyms = this.top.get("synonyms")?.value;
    const pairs = synonyms instanceof Mapping ? synonyms.entries : [];
    this.synonyms = new Map(pairs.filter(it => typeof it.key === "string").map(it => [it.key, it.value]));
    this.table = this.wanted("table");
  }
  checkWord(word, what, line) {
    if (typeof word !== "string")
      throw new Error(`${this.where}: line ${line}: ${what} is a word, and this is ${shown(word)}`);
  }
  wanted(key) {
    if (!this.top.has(key)) throw new Error(`${this.where}: no line has the key '${key}'`);
    return this.top.get(key);
  }
  // A symbol, or null for the blank.
  symbol(symbol, place) {
    if (typeof symbol !== "string" || [...symbol].length !== 1)
      throw new Error(`${place}: ${shown(symbol)} is no single symbol`);
    return symbol === this.blank ? null : symbol;
  }
  // What is written, or undefined where nothing is, the shift, and the next state.
  instruction(state, given, place) {
    const isSynonym = typeof given === "string" && this.synonyms.has(given) && !["R", "L"].includes(given);
    const value = isSynonym ? this.synonyms.get(given) : given;
    if (value === "R" || value === "L") return {write: undefined, shift: SHIFTS[value], following: state};
    if (!(value instanceof Mapping)) throw new Error(`${place}: ${shown(value)} is no instruction`);
    const strange = value.entries.find(it => !["R", "L", "write"].includes(it.key));
    if (strange) throw new Error(`${place}: an instruction has no ${shown(strange.key)}`);
    const pairs = new Map(value.entries.map(it => [it.key, it.value]));
    const moves = [...pairs.keys()].filter(it => it !== "write");
    if (moves.length !== 1) throw new Error(`${place}: an instruction has one of R and L`);
    const told = pairs.get(moves[0]), following = isEmpty(told) ? state : told;
    if (typeof following !== "string") throw new Error(`${place}: a state is a word, and this is ${shown(following)}`);
    const write = pairs.has("write") ? this.symbol(pairs.get("write"), place) : undefined;
    return {write, shift: SHIFTS[moves[0]], following};
  }
  /** @returns {FoundMachine} */
  machine() {
    if (!(this.table.value instanceof Mapping))
      throw new Error(`${this.where}: line ${this.table.line}: the table has no states`);
    const rules = [], states = [], halting = [];
    for (const {key, value, line: own} of this.table.value.entries) {
      const line = own ?? this.table.line;
      this.checkWord(key, "a state", line);
      if (states.includes(key)) throw new Error(`${this.where}: line ${line}: state ${shown(key)} stands twice`);
      states.push(key);
      if (isEmpty(value)) halting.push(key);
      else if (!(value instanceof Mapping))
        throw new Error(`${this.where}: line ${line}: state ${shown(key)} has no rules but ${shown(value)}`);
      else rules.push(...this.rulesOf(key, value, line));
    }
    for (const rule of rules)
      if (!states.includes(rule.following))
        throw new Error(`${rule.place}: no state of the table is called ${shown(rule.following)}`);
    if (!states.includes(this.start))
      throw new Error(`${this.where}: no state of the table is called ${shown(this.start)}, the start state`);
    return {rules, start: this.start, halting, haltsAlike: false, program: "turingmachine.io"};
  }
  // The rules of a state; a key may be a list of symbols.
  rulesOf(state, value, line) {
    return value.entries.flatMap(item => {
      const place = `${this.where}: line ${item.line ?? line}`;
      const {write, shift, following} = this.instruction(state, item.value, place);
      return (item.key instanceof List ? item.key.items : [item.key]).map(symbol => {
        const read = this.symbol(symbol, place);
        return {state, read, write: write === undefined ? read : write, shift, following, place};
      });
    });
  }
}
// The machine of a turingmachine.io text: of the machine's own, or of the document that is downloaded, which has it as
// a text of its own.
/** @type {(text: string, where: string) => FoundMachine} */
export function readYaml(text, where) {
  const entries = readYamlText(text, where), source = entries.find(it => it.key === SOURCE)?.value;
  if (typeof source !== "string") return new TuringYaml(entries, where).machine();
  const inner = `${where}: ${SOURCE}`;
  return new TuringYaml(readYamlText(source, inner), inner).machine();
}

// ---- the table

// The names of the states that are the table's halting one.
function haltingOf(machine, wanted, where) {
  const states = [...machine.rules.flatMap(it => [it.state, it.following]), ...machine.halting];
  if (wanted !== null && !states.includes(wanted))
    throw new Error(`${where}: no state is called ${shown(wanted)}`);
  const halting = wanted === null ? machine.halting : [wanted];
  if (!halting.length) {
    const left = new Set(machine.rules.map(it => it.state));
    const ends = [...new Set(machine.rules.map(it => it.following))].filter(it => !left.has(it));
    const told = ends.length ? `--halt names one: ${ends.join(", ")}` : "and each state has rules: add one in which it halts";
    throw new Error(`${where}: no state halts by its name; ${told}`);
  }
  const leaves = machine.rules.find(it => halting.includes(it.state));
  if (leaves)
    throw new Error(`${leaves.place}: leaves ${shown(leaves.state)}, in which the machine halts; `
      + "standard form has no such rule (S5)");
  if (halting.length > 1 && !machine.haltsAlike)
    throw new Error(`${where}: ${halting.length} states halt, ${halting.join(", ")}, and a table has one; `
      + "--halt names it, and in the others the machine is stuck");
  return halting;
}
// No two rules share state and symbol: demand S1.
function checkDomains(rules) {
  const seen = new Set();
  for (const rule of rules) {
    const key = JSON.stringify([rule.state, rule.read]);
    if (seen.has(key))
      throw new Error(`${rule.place}: an earlier rule is for state ${shown(rule.state)} and `
        + `${rule.read === null ? "the blank" : shown(rule.read)} too (S1)`);
    seen.add(key);
  }
}
// Every letter is one that tables allow.
function checkLetters(rules) {
  for (const rule of rules) for (const symbol of [rule.read, rule.write]) {
    if (symbol === null) continue;
    if (symbol === "_") throw new Error(`${rule.place}: the letter '_' is the blank of a table`);
    const code = symbol.codePointAt(0);
    if (code < 33 || code > 126 || '/,"'.includes(symbol))
      throw new Error(`${rule.place}: ${shown(symbol)} is no letter of a table: `
        + 'one byte from 33 to 126 other than / , and "');
  }
}
// The rules with one of the start state first, and one that halts last.
function ordered(rules, start, halting, where) {
  const first = rules.filter(it => it.state === start), others = rules.filter(it => it.state !== start);
  if (!first.length) throw new Error(`${where}: no rule leaves the start state ${shown(start)}`);
  const ending = [...first, ...others].filter(it => halting.includes(it.following)), last = ending[ending.length - 1];
  if (!last) throw new Error(`${where}: no rule leads to ${shown(halting[0])}, in which the machine halts`);
  if (rules.length > 1 && first.length === 1 && last === first[0])
    throw new Error(`${last.place}: it is the only rule of the start state and the only one that halts; `
      + "take out the others, which are never used");
  return [...[...first, ...others].filter(it => it !== last), last];
}
// A name that tables allow for each state, and no two alike.
function newNames(states) {
  const names = new Map(), taken = new Set();
  for (const state of states) {
    const base = state.replace(/[^A-Za-z0-9'.-]/gu, "-").slice(0, LONGEST_NAME) || "q";
    let name = base;
    for (let number = 2; taken.has(name); number++) {
      const mark = `.${number}`;
      name = base.slice(0, LONGEST_NAME - mark.length) + mark;
    }
    names.set(state, name);
    taken.add(name);
  }
  return names;
}
// The table's text, the new names of states by their old ones, and the old name of the state in which it halts.
/** @param {FoundMachine} machine @param {string} where @param {string | null} wanted */
export function tableOf(machine, where, wanted = null) {
  const halting = haltingOf(machine, wanted, where);
  checkDomains(machine.rules);
  checkLetters(machine.rules);
  const rules = ordered(machine.rules, machine.start, halting, where);
  const one = state => halting.includes(state) ? halting[0] : state;
  const names = newNames(new Set(rules.flatMap(it => [it.state, one(it.following)])));
  const fields = it => [names.get(it.state), it.read ?? "_", it.write ?? "_", it.shift, names.get(one(it.following))];
  const table = rules.map(it => `${fields(it).join(",")}\n`).join("");
  for (const state of halting) names.set(state, names.get(one(state)));
  return {table, names, halting: halting[0]};
}
