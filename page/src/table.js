// The table that was typed: its lines, what can be turned into the program's own form, names that are kept, and faults in words.

/** @type {(text: string) => {line: string, number: number}[]} */
const nonblank = text => text.split(/\r\n|\r|\n/).map((line, number) => ({line, number: number + 1})).filter(it => it.line.trim() !== "");

const LINE = /\r\n|\r|\n/g;
// The records of a text by their numbers, from 1: each line that isn't blank, with its own number.
/** @type {(text: string) => (record: number) => {line: string, number: number} | null} */
function recordsOf(text) {
  return record => {
    let number = 0, from = 0, left = record;
    for (;;) {
      LINE.lastIndex = from;
      const end = LINE.exec(text), line = text.slice(from, end?.index ?? text.length);
      number++;
      if (line.trim() !== "" && --left === 0) return {line, number};
      if (!end) return null;
      from = LINE.lastIndex;
    }
  };
}
/** @type {(text: string) => number} */
const countOf = text => (text.match(/[^\r\n]*\S[^\r\n]*/g) ?? []).length;

// A letter outside the first plane of Unicode is two units of a text: how many letters a text has, and one of them, counted from 1.
/** @type {(text: string) => number} */
const lengthOf = text => [...text].length;
/** @type {(text: string, number: number) => string} */
export const letterAt = (text, number) => [...text][number - 1];

// The records of a table that the program has read, with the text line of each.
/** @type {(text: string) => Rule[]} */
export function rulesOf(text) {
  return nonblank(text).map(({line, number}) => {
    const [state, read, write, shift, next] = line.split(",").map(it => it.replace(/^"(.*)"$/, "$1"));
    return {state, read, write, shift, next, line: number};
  });
}
// The states by first appearance.
/** @type {(rules: Rule[]) => string[]} */
export function statesOf(rules) {
  const found = new Map();
  for (const rule of rules) for (const name of [rule.state, rule.next]) if (!found.has(name)) found.set(name, found.size + 1);
  return [...found.keys()];
}
// The state in which a table's machine halts: the last rule leads there.
/** @type {(rules: Rule[]) => string} */
export const finalOf = rules => rules[rules.length - 1].next;
/** @type {(rules: Rule[]) => string[]} */
export function lettersOf(rules) {
  const found = new Set(["_"]);
  for (const rule of rules) { found.add(rule.read); found.add(rule.write); }
  return [...found];
}

/** @type {Record<string, string>} */
const SHIFTS = {R: "+", r: "+", ">": "+", "→": "+", right: "+", L: "-", l: "-", "<": "-", "←": "-", left: "-", N: "0", n: "0", S: "0", s: "0",
                "↓": "0", "=": "0", stay: "0", none: "0", "−": "-", "–": "-", "+1": "+", "-1": "-"};
// Signs that stand for the blank, the surest first: a small b does only where there is no a.
const BLANKS = ["□", "␣", "▢", "⊔", "⎵", "␢", "blank", "Blank", "Δ", "B", "ε", "λ", "Λ", "∅", "⊥", "#", " ", "b"];
/** @type {(letters: Set<string>) => (it: string) => boolean} */
const isBlankOf = letters => it => letters.has(it) && !(it === "b" && letters.has("a"));
// What begins a comment behind a rule, and what stands between the fields of a rule in any of the forms that are turned.
const COMMENT = /\s+(?:\/\/|#|%|;)|\/\//g, BETWEEN = /\s*(?:->|→|⇒|=>|[,;|\t()=:{}])\s*|\s+/;
// A rule without the comment behind it: where a comment may begin, five fields have to stand before.
/** @type {(line: string) => string} */
function withoutComment(line) {
  for (const {index} of line.matchAll(COMMENT)) {
    const front = line.slice(0, index), fields = front.split(BETWEEN).filter(it => it !== "").length;
    if (Math.max(fields, front.split(",").length, front.split(";").length) >= 5) return front.trimEnd();
  }
  return line;
}
/** @type {(name: string) => boolean} */
const isName = name => /^[A-Za-z0-9'.-]{1,32}$/.test(name);

// What would be turned so that the program can read the table: the new text, what was done, in words, and the names that
// it can't read. These stay in the text; `known` has those that are spelled already.
// `blank` is a letter that is to be read as the blank, or null to guess.
/** @param {string} text @param {string | null} blank @param {Record<string, string>} known */
export function turned(text, blank = null, known = {}) {
  const said = [], names = {...known};
  let rows = nonblank(text).map(({line}) => line);
  const straight = rows.map(line => line.replace(/[“”„‟]/g, '"').replace(/[‘’]/g, "'"));
  if (straight.some((line, k) => line !== rows[k])) { rows = straight; said.push("curly quotes to straight quotes"); }
  const commented = rows.filter(line => /^\s*(#|\/\/|%|;)/.test(line) && line.split(/[,;\t]/).length < 5);
  if (commented.length) { rows = rows.filter(line => !commented.includes(line)); said.push(`${commented.length === 1 ? "a comment line" : `${commented.length} comment lines`} dropped`); }
  const ended = rows.map(withoutComment), behind = ended.filter((it, k) => it !== rows[k]).length;
  if (behind) { rows = ended; said.push(behind === 1 ? "a comment behind a rule dropped" : `${behind} comments behind rules dropped`); }
  if (!rows.length) return {text, said: [], names};
  // Brackets around a whole rule, or the function's name before it: (q0,1,0,R,q1), d(q0,1) = (q1,0,R).
  const bare = rows.map(line => line.replace(/^\s*(?:δ|delta|d)?\s*[({]/, "").replace(/[)}]\s*[,;.]?\s*$/, ""));
  if (bare.every((line, k) => line !== rows[k])) { rows = bare; said.push("brackets taken away"); }
  /** @type {(pattern: RegExp) => number} */
  const rate = pattern => rows.filter(line => line.split(pattern).filter(it => it !== "").length >= 5).length;
  /** @type {[RegExp, string][]} */
  const others = [[/;/, "semicolons"], [/\t+/, "tabs"], [/\|/, "bars"],
    [/\s*(?:->|→|⇒|=>|:|=)\s*|[\s,;()]+/, "arrows and spaces"], [/\s+/, "spaces"]];
  let split = /,/, how = /** @type {string | null} */ (null);
  if (rate(/,/) < rows.length) for (const [pattern, words] of others)
    if (rate(pattern) > rate(split)) { split = pattern; how = words; }
  if (how) said.push(`${how} to commas`);
  let fields = rows.map(line => {
    const parts = line.split(split);
    const whole = how === "arrows and spaces" || how === "bars" ? parts.filter(it => it.trim() !== "") : parts;
    return whole.map(it => it.trim() === "" && it !== "" ? " " : it.trim());
  });
  if (!how && rows.some((line, k) => line.split(",").some((it, j) => it !== fields[k][j]))) said.push("spaces taken away");
  /** @type {(it: string) => boolean} */
  const isShift = it => it in SHIFTS || ["+", "-", "0"].includes(it);
  if (fields.length > 1 && fields[0].length === 5 && !isShift(fields[0][3]) && !isShift(fields[0][4]) && lengthOf(fields[0][1] ?? "") > 1) {
    said.push("the header line dropped");
    fields.shift();
  }
  // state, read, next, write, shift, or state, read, write, next, shift
  /** @type {(it: string) => boolean} */
  const letterShift = it => it in SHIFTS;
  if (fields.length && fields.every(it => it.length === 5 && isShift(it[4])) && !fields.every(it => isShift(it[3])) && fields.some(it => letterShift(it[4]))) {
    const first = new Set(fields.map(it => it[0]));
    /** @type {(place: number) => number} */
    const score = place => fields.filter(it => first.has(it[place]) || lengthOf(it[place]) > 1).length;
    const next = score(2) >= score(3) ? 2 : 3, write = 5 - next;
    fields = fields.map(it => [it[0], it[1], it[write], it[4], it[next]]);
    said.push("columns put in order: state, read, write, move, next");
  }
  let shifts = 0;
  for (const row of fields) if (row.length === 5 && row[3] in SHIFTS) { row[3] = SHIFTS[row[3]]; shifts++; }
  if (shifts) said.push(`R, L, N to +, −, 0 (${shifts} ${shifts === 1 ? "line" : "lines"})`);
  const letters = new Set(fields.flatMap(row => row.length === 5 ? [row[1], row[2]] : []));
  const guessed = blank ?? (letters.has("_") ? null : letters.has("") ? "" : BLANKS.find(isBlankOf(letters)) ?? null);
  if (guessed !== null && letters.has(guessed) && guessed !== "_") {
    for (const row of fields) for (const place of [1, 2]) if (row[place] === guessed) row[place] = "_";
    said.push(`${guessed.trim() === "" ? "an empty symbol" : guessed} to _, the blank`);
  }
  const taken = new Set(fields.flatMap(row => row.length === 5 ? [row[0], row[4]] : [])), before = Object.keys(names).length;
  for (const name of taken) spell(name, names, taken);
  const count = Object.keys(names).length - before;
  if (count) said.push(`${count} ${count === 1 ? "name" : "names"} spelled for the program; here they stay as you wrote them`);
  return {text: fields.map(row => row.join(",") + "\n").join(""), said, names};
}

// What is allowed, and may yet be a mistake: states that no rule leads to, and states in which the machine gets stuck on every symbol.
/** @type {(rules: Rule[], name?: (state: string) => string) => string[]} */
export function warningsOf(rules, name = it => it) {
  const final = finalOf(rules), reached = new Set([rules[0]?.state]), left = new Set(rules.map(it => it.state));
  for (const state of reached) for (const it of rules) if (it.state === state) reached.add(it.next);
  /** @type {(states: string[], one: string, many: string) => string[]} */
  const said = (states, one, many) => states.length ? [`${states.length === 1 ? "State" : "States"} ${states.map(name).join(", ")} ${states.length === 1 ? one : many}.`] : [];
  const states = statesOf(rules);
  return [...said(states.filter(it => !reached.has(it)), "is never reached", "are never reached"), ...said(states.filter(it => reached.has(it) && !left.has(it) && it !== final), "has no rules", "have no rules")];
}

// ---- names that the program can't read: `names` has for each spelling the name as it was typed

// Gives a name that the program can't read a spelling that no other state has.
/** @type {(name: string, names: Record<string, string>, taken: Set<string>) => void} */
export function spell(name, names, taken) {
  if (isName(name) || name === "" || Object.values(names).includes(name)) return;
  const plain = name.normalize("NFKD").replace(/[_\s]+/g, "-").replace(/[^A-Za-z0-9'.-]/g, "").slice(0, 28) || "q";
  let made = plain;
  for (let k = 1; taken.has(made) || made in names; k++) made = `${plain}-${k}`;
  names[made] = name;
}
// The same names, where none is the name of another state that was typed as well.
/** @type {(text: string, names: Record<string, string>) => Record<string, string>} */
export function freeNames(text, names) {
  const rules = rulesOf(text), taken = new Set(rules.flatMap(it => [it.state, it.next]));
  const entries = Object.entries(names), found = Object.fromEntries(entries.filter(([made, name]) => !(taken.has(made) && taken.has(name))));
  for (const [made, name] of entries) if (!(made in found)) spell(name, found, taken);
  return found;
}
// The table as the program gets it: line by line the same, with the names spelled.
/** @type {(text: string, names: Record<string, string>) => string} */
export function spelled(text, names) {
  const made = new Map(Object.entries(names).map(([key, name]) => [name, key]));
  if (!made.size) return text;
  return text.split("\n").map(line => {
    const fields = line.split(",");
    for (const place of [0, 4]) if (made.has(unquoted(fields[place]))) fields[place] = made.get(unquoted(fields[place])) ?? "";
    return fields.join(",");
  }).join("\n");
}
/** @type {(field: string | undefined) => string} */
const unquoted = field => (field ?? "").replace(/\r$/, "").replace(/^"(.*)"$/, "$1");

// Candidates for a blank: the letters of a table without `_`.
/** @type {(text: string) => string[]} */
export function blankCandidates(text) {
  const rules = rulesOf(text).filter(it => it.next !== undefined);
  const letters = new Set(rules.flatMap(it => [it.read, it.write]));
  return letters.has("_") ? [] : [...letters].filter(it => lengthOf(it) <= 1);
}

/** @type {(it: string) => string} */
const quoted = it => `“${it}”`;
// A refusal of a table, in words, with the text lines that it is about.
/** @type {(answer: string, text: string) => {lines: number[], text: string, standard?: boolean}} */
export function faultOf(answer, text) {
  // Of a long text few lines are wanted, and it isn't taken apart for them.
  /** @type {(record: number) => number} */
  const line = record => /** @type {number} */ (at(record)?.number ?? null);
  /** @type {(record: number) => string[]} */
  const fields = record => (at(record)?.line ?? "").split(",");
  const at = recordsOf(text), last = () => countOf(text);
  let found = /^text: record (\d+) (fields|too many|field (\d) (\S+))/.exec(answer);
  if (found) {
    const record = Number(found[1]), number = line(record), place = Number(found[3] ?? 0), given = fields(record)[place - 1] ?? "";
    const words = {
      fields: `a rule has five fields (state, read, write, move, next); this line has ${fields(record).length}.`,
      name: `${quoted(given)} can't be the name of a state. A name has at most 32 letters, digits, ', . and -.`,
      symbol: lengthOf(given) > 1 ? `${quoted(given)} is not a symbol; a symbol is one character. Is this a header?` : `${quoted(given)} can't be a symbol.`,
      shift: `${quoted(given)} is not a move: + is right, - is left, 0 is no move.`,
    }[found[4] ?? found[2]] ?? "the table is too long; it may have at most 4,000 rules.";
    return {lines: [number], text: `Line ${number}: ${words}`};
  }
  if (/^text: empty/.test(answer)) return {lines: [], text: "The table is empty. Type one rule per line: state, read, write, move, next."};
  found = /^machine: S1 (\d+) (\d+)/.exec(answer);
  if (found) {
    const [a, b] = [line(Number(found[1])), line(Number(found[2]))], [state, read] = fields(Number(found[1]));
    return {lines: [a, b], text: `Lines ${a} and ${b} are both for state ${state} on ${read}. Only one rule is allowed.`};
  }
  if (/^machine: S2/.test(answer)) return {lines: [line(1)], standard: true, text: `Line ${line(1)}: a machine in standard form starts on the blank before the word: read _, write _, go right.`};
  found = /^machine: S3 (\d+)/.exec(answer);
  if (found) return {lines: [line(Number(found[1]))], standard: true, text: `Line ${line(Number(found[1]))}: the start state ${fields(1)[0]} occurs again here. In standard form it occurs only in the first rule.`};
  if (/^machine: S4/.test(answer)) return {lines: [line(last())], standard: true, text: `Line ${line(last())}: a machine in standard form halts on the blank before the output: read _, write _, stay.`};
  found = /^machine: S5 (\d+)/.exec(answer);
  if (found) return {lines: [line(Number(found[1]))], standard: true, text: `Line ${line(Number(found[1]))}: the final state ${fields(last())[4]} occurs here too. In standard form it occurs only in the last rule.`};
  found = /^machine: halting (\d+)/.exec(answer);
  if (found) {
    const number = line(Number(found[1])), final = fields(last())[4];
    return {lines: [number], text: `Line ${number} leaves ${final}, the halting state of the last line. Put the line that halts last.`};
  }
  found = /^size: quintuples (\d+)/.exec(answer);
  if (found) return {lines: [], text: `In standard form it would have ${found[1]} rules; the limit is 4,000.`};
  return {lines: [], text: `The program refused: ${answer.trim()}`};
}

// A refusal of a word or of its circuit, in words; null where it says something else. Letters are counted from 1.
/** @type {(answer: string, word: string, rules: Rule[]) => string | null} */
export function refusalWords(answer, word, rules) {
  const place = /^word: (\d+)/.exec(answer), size = /^size: (.*)/.exec(answer);
  const told = size?.[1].replace(/\d+/g, it => Number(it).toLocaleString("en")).replace(/^elements (.*)/, "$1 elements");
  if (told) return `Too large: ${told}. A circuit has at most 4,194,304 elements.`;
  if (!place) return null;
  const letter = letterAt(word, Number(place[1])), known = lettersOf(rules).slice(1).join(" ") || "none";
  return `Letter ${place[1]}, “${letter}”, is not in the table. Its letters: ${known}.`;
}

/** @type {Record<string, string>} */
export const SHIFT_WORDS = {"+": "go right", "-": "go left", "0": "stay"};
/** @type {Record<string, string>} */
export const SHIFT_BACK = {"+": "go left", "-": "go right", "0": "stay"};
/** @type {(it: string) => string} */
export const symbolWord = it => it === "_" ? "blank" : it;
