// Machines of JFLAP: a .jff file of versions 4 to 7, and one of version 8, in which all is a `structure`. One tape,
// single states, and rules that name their symbols: what goes beyond that is refused by its name. tools/jflap_files.py
// is the same reader.
import {NONE, SHIFTS} from "./machines.js";
import {NoXml, readXml} from "./xml.js";

// How the blank is written, besides by nothing.
const BLANKS = ["", "\u25a1"];

const bare = text => text.replace(/^[ \t\r\n]+|[ \t\r\n]+$/g, "");
const part = (element, tag) => element.parts.find(it => it.tag === tag);
const wordOf = (element, tag) => bare(part(element, tag)?.text ?? "");
const all = element => [element, ...element.parts.flatMap(all)];

// What the files of all versions have.
class Jflap {
  constructor(root, where) {
    this.root = root;
    this.where = where;
    this.names = new Map();
    this.taken = new Set();
  }

  fault(what) { return new Error(`${this.where}: ${what}`); }

  // Notes a state by its id; of two with one name the second has its id behind it.
  addState(id, name) {
    const told = name || `q${id}`;
    let made = told;
    for (let count = 1; this.taken.has(made); count++) made = count === 1 ? `${told}.${id}` : `${told}.${id}.${count}`;
    if (this.names.has(id)) throw this.fault(`two states have the id '${id}'`);
    this.names.set(id, made);
    this.taken.add(made);
  }
  state(id, place) {
    if (!this.names.has(id)) throw new Error(`${place}: no state has the id '${id}'`);
    return this.names.get(id);
  }

  // The rule of a transition, between these ids.
  rule(item, number, ends) {
    const place = `${this.where}: transition ${number}`, [state, following] = ends.map(it => this.state(it, place));
    const parts = new Map(), tapes = new Set();
    for (const it of item.parts) {
      const found = /^(read|write|move)(\d*)$/.exec(it.tag);
      if (!found) continue;
      tapes.add(it.attributes.get("tape") || found[2] || "1");
      if (!parts.has(found[1])) parts.set(found[1], bare(it.text));
    }
    if (tapes.size > 1) throw this.fault(`the machine has ${tapes.size} tapes, and only one-tape machines are read`);
    const [read, write] = ["read", "write"].map(act => {
      const symbol = parts.get(act) ?? "";
      if (symbol === "~" || [...symbol].length > 1)
        throw new Error(`${place}: ${act}s '${symbol}', and only single symbols are taken`);
      return BLANKS.includes(symbol) ? null : symbol;
    });
    const move = parts.get("move") ?? "";
    if (!Object.hasOwn(SHIFTS, move)) throw new Error(`${place}: moves '${move}', and R, L and S are the moves`);
    return {state, read, write, shift: SHIFTS[move], following, place};
  }

  checkKind(kind, tapes) {
    if (kind !== "turing")
      throw this.fault(`its type is ${kind ? `'${kind}'` : "missing"}, and a Turing machine's is 'turing'`);
    if (tapes !== "1") throw this.fault(`the machine has ${tapes} tapes, and only one-tape machines are read`);
  }
}

// A file of versions 4 to 7: states, or blocks with a machine each, in an automaton.
class JflapSeven extends Jflap {
  machine() {
    this.checkKind(wordOf(this.root, "type"), wordOf(this.root, "tapes") || "1");
    const automaton = part(this.root, "automaton") ?? this.root, halting = [];
    let start = null;
    for (const item of automaton.parts.filter(it => ["state", "block"].includes(it.tag))) {
      const id = item.attributes.get("id") ?? "", name = item.attributes.get("name") ?? "", tag = wordOf(item, "tag");
      if (item.tag === "block" && automaton.parts.some(it => it.tag === tag && it.parts.length))
        throw this.fault(`block '${name}' is a machine of its own, and only single states are read`);
      this.addState(id, name);
      if (part(item, "initial")) start = this.names.get(id);
      if (part(item, "final")) halting.push(this.names.get(id));
    }
    if (start === null) throw this.fault("no state is the initial one");
    const rules = automaton.parts.filter(it => it.tag === "transition")
      .map((item, k) => this.rule(item, k + 1, [wordOf(item, "from"), wordOf(item, "to")]));
    return {rules, start, halting, haltsAlike: true, program: "JFLAP"};
  }
}

const MACHINES = ["turing", "tm", "multitape_tm", "block_tm", "fsa", "fa", "pda", "mealy", "moore", "grammar", "regex",
  "lsystem"];
// A file of version 8: structures by their types, and in transitions states with name and id.
class JflapEight extends Jflap {
  structures(...kinds) {
    return all(this.root).filter(it => it.tag === "structure" && kinds.includes(it.attributes.get("type")));
  }
  // The ids of the states in structures of these kinds.
  ids(...kinds) {
    const states = this.structures(...kinds).flatMap(it => it.parts).filter(it => it.tag === "state");
    return states.map(it => wordOf(it, "id"));
  }
  machine() {
    const kinds = all(this.root).filter(it => it.tag === "structure").map(it => it.attributes.get("type"));
    const counts = all(this.root).filter(it => ["tapes", "tape_num"].includes(it.tag)).map(it => bare(it.text));
    const tapes = counts.find(it => it) ?? "1";
    const kind = kinds.find(it => MACHINES.includes(it)) ?? "";
    if (kind === "block_tm") throw this.fault("it is a machine of blocks, and only single states are read");
    this.checkKind(["tm", "multitape_tm"].includes(kind) ? "turing" : kind, tapes);
    for (const it of this.structures("state_set", "states"))
      for (const state of it.parts.filter(one => one.tag === "state"))
        this.addState(wordOf(state, "id"), wordOf(state, "name"));
    const starts = this.ids("start_state"), halting = this.ids("final_states");
    if (!starts.length) throw this.fault("no state is the initial one");
    const items = this.structures("transition_set").flatMap(it => it.parts)
      .filter(it => part(it, "from") && part(it, "to"));
    const end = element => wordOf(element, "id") || bare(element.text);
    const rules = items.map((item, k) => this.rule(item, k + 1, [end(part(item, "from")), end(part(item, "to"))]));
    const [start, ...ends] = [starts[0], ...halting].map(it => this.state(it, this.where));
    return {rules, start, halting: ends, haltsAlike: true, program: "JFLAP"};
  }
}

/** @type {(text: string, where: string) => XmlElement} */
function rootOf(text, where) {
  try {
    if (text.includes("<!DOCTYPE") || /\sxml(ns)?[:=]/.test(text)) throw new NoXml();
    return readXml(text.replace(/^\ufeff?\s*(<\?xml[^]*?\?>)?/, ""));
  } catch (fault) {
    throw fault instanceof NoXml ? new Error(`${where}: no XML that can be read`) : fault;
  }
}
// The machine of a .jff file.
/** @type {(text: string, where: string) => FoundMachine} */
export function readJflap(text, where) {
  if (!/<structure\b/.test(text)) throw new Error(`${where}: ${NONE}`);
  const root = rootOf(text, where);
  if (root.tag !== "structure") throw new Error(`${where}: ${NONE}`);
  return new (root.attributes.get("type") ? JflapEight : JflapSeven)(root, where).machine();
}
