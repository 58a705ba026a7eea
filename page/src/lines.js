// Machines that are written in lines: those of Morphett's Turing machine simulator, and the one line of bbchallenge.
// tools/line_machines.py is the same reader.

const MOVES = {r: "+", l: "-", "*": "0"};
const ANY = "*";
const LINE = /^(?:---|[0-9][LR][A-Z])+(?:_(?:---|[0-9][LR][A-Z])+)*$/;

const bare = text => text.replace(/^[ \t\r\n]+|[ \t\r\n]+$/g, "");

// ---- bbchallenge

export const isLine = text => LINE.test(bare(text));
const digit = symbol => symbol ? String(symbol) : null;

// The machine of one line: a group of rules a state, A first, and in it a rule a symbol, 0 first, which is the blank. A
// rule is what is written, the move, and the next state; `---`, which no run may reach, halts as 1RZ does.
/** @type {(text: string, where: string) => FoundMachine} */
export function readLine(text, where) {
  const groups = bare(text).split("_"), rules = [];
  if (new Set(groups.map(it => it.length)).size > 1)
    throw new Error(`${where}: the states have not equally many rules, and each has one for each symbol`);
  if (groups.length > 26) throw new Error(`${where}: ${groups.length} states, and a line has at most 26`);
  const names = groups.map((_, k) => String.fromCharCode(65 + k)), symbols = groups[0].length / 3;
  if (symbols > 10) throw new Error(`${where}: ${symbols} symbols, and a line has at most 10`);
  const parts = groups.map(group => group.match(/.../g)), follow = new Set(parts.flat().map(it => it[2]));
  follow.delete("-");
  let halting = [...follow].filter(it => !names.includes(it)).sort();
  if (!halting.length) halting = ["Z"];
  parts.forEach((group, number) => group.forEach((rule, symbol) => {
    const state = names[number], place = `${where}: state ${state} symbol ${symbol}`;
    const it = rule === "---" ? `1R${halting[0]}` : rule, shift = it[1] === "R" ? "+" : "-";
    if (Number(it[0]) >= symbols && symbols > 1)
      throw new Error(`${place}: writes ${it[0]}, and the line has rules for 0 to ${symbols - 1}`);
    rules.push({state, read: digit(symbol), write: digit(Number(it[0])), shift, following: it[2], place});
  }));
  const used = new Set(rules.map(it => it.following));
  return {rules, start: "A", halting: halting.filter(it => used.has(it)), haltsAlike: true, program: "bbchallenge"};
}

// ---- Morphett

const isMove = word => Object.hasOwn(MOVES, word.toLowerCase());
const isSymbol = word => [...word].length === 1;
const linesOf = text => text.replace(/^\ufeff/, "").split(/\r\n|\r|\n/);
// The fields of a text line, without the comment behind ; and without the mark of a breakpoint.
function fieldsOf(line) {
  const found = line.replace(/[ \t]*;.*/, "").split(/[ \t]+/).filter(it => it);
  return found.length === 6 && found[5] === "!" ? found.slice(0, 5) : found;
}
// Whether the first text line that has fields has five, with a move of this simulator.
export function isMorphett(text) {
  const fields = linesOf(text).map(fieldsOf).find(it => it.length);
  return fields?.length === 5 && isMove(fields[3]) && isSymbol(fields[1]) && isSymbol(fields[2]);
}
// A machine halts in each state whose name begins so.
const halts = state => state.slice(0, 4).toLowerCase() === "halt";

function checkFields(fields, place) {
  if (fields.length !== 5)
    throw new Error(`${place}: five fields are wanted, state, symbol, new symbol, direction and new state; `
      + `here are ${fields.length}`);
  for (const symbol of fields.slice(1, 3))
    if (!isSymbol(symbol)) throw new Error(`${place}: '${symbol}' is no single symbol`);
  if (!isMove(fields[3]))
    throw new Error(`${place}: the direction is '${fields[3]}', and l, r and * are the directions`);
}
function ruleOf(state, symbol, fields, place) {
  const write = fields[2] === ANY ? symbol : fields[2], own = it => it === "_" ? null : it;
  const shift = MOVES[fields[3].toLowerCase()], following = fields[4] === ANY ? state : fields[4];
  return {state, read: own(symbol), write: own(write), shift, following, place};
}

// The machine of a program of the simulator. A `*` in place of a state or symbol stands for all that the file names and
// that have no rule of their own; it starts in state 0, or, where no rule leaves that, in the state of the first rule.
/** @type {(text: string, where: string) => FoundMachine} */
export function readMorphett(text, where) {
  const given = linesOf(text).map((line, k) => ({place: `${where}: line ${k + 1}`, fields: fieldsOf(line)}))
    .filter(it => it.fields.length);
  for (const {place, fields} of given) checkFields(fields, place);
  const named = (...places) => given.flatMap(({fields}) => places.map(it => fields[it])).filter(it => it !== ANY);
  const states = [...new Set(named(0, 4))], left = states.filter(it => !halts(it));
  const letters = [...new Set(["_", ...named(1, 2)])], rules = new Map();
  // Those with a state and a symbol of their own first, then those of a state, of a symbol, and of neither.
  for (const [anyState, anySymbol] of [[false, false], [false, true], [true, false], [true, true]]) {
    const earlier = new Set(rules.keys());
    for (const {place, fields} of given) {
      if ((fields[0] === ANY) !== anyState || (fields[1] === ANY) !== anySymbol || halts(fields[0])) continue;
      for (const state of anyState ? left : [fields[0]]) for (const symbol of anySymbol ? letters : [fields[1]]) {
        const key = `${state} ${symbol}`;
        if (earlier.has(key)) continue;
        if (rules.has(key))
          throw new Error(`${place}: an earlier rule is for state '${state}' and '${symbol}' too (S1)`);
        rules.set(key, ruleOf(state, symbol, fields, place));
      }
    }
  }
  const start = left.includes("0") || !given.length ? "0" : given[0].fields[0];
  if (start === ANY || halts(start)) throw new Error(`${given[0].place}: no state is named in which it starts`);
  const used = new Set([...rules.values()].map(it => it.following));
  return {rules: [...rules.values()], start, halting: states.filter(it => halts(it) && used.has(it)), haltsAlike: false,
          program: "Morphett's simulator"};
}
