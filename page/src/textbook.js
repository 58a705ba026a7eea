// Tables as textbooks print them, made into lines of five fields: LaTeX, δ(q, a) = (p, b, R), quintuples in brackets, and
// tables with a row for each state and a column for each letter, or the other way round. What is no such table is left to
// the reader of lines. A row is a rule: state, what is read, what is written, the move and the next state, as they stand there.

const NAMED = {
  delta: "δ", Delta: "Δ", to: "→", rightarrow: "→", longrightarrow: "→", Rightarrow: "→", mapsto: "→", longmapsto: "→",
  leftarrow: "←", longleftarrow: "←", downarrow: "↓", sqcup: "⊔", blank: "⊔", textblank: "⊔", square: "□", Box: "□",
  textvisiblespace: "␣", triangleright: "▷", vartriangleright: "▷", rhd: "▷", vdash: "⊢", epsilon: "ε", varepsilon: "ε",
  lambda: "λ", Lambda: "Λ", alpha: "α", beta: "β", gamma: "γ", times: "×", star: "*", ast: "*", vert: "|", mid: "|",
  langle: "(", rangle: ")", lbrace: "", rbrace: "", bot: "⊥", emptyset: "∅", varnothing: "∅", prime: "'",
};
const DROPPED = new Set(["hline", "toprule", "midrule", "bottomrule", "centering", "left", "right", "big", "Big", "bigl", "bigr",
  "quad", "qquad", "displaystyle", "nonumber", "item", "noindent", "cline", "small", "footnotesize", "limits", "enspace", "par"]);
const ACCENTS = {bar: "̄", overline: "̄", dot: "̇", hat: "̂", widehat: "̂", tilde: "̃", check: "̌", underline: "̱", ddot: "̈"};
const BOXES = "text|textrm|textsf|texttt|textbf|textit|textsc|textnormal|mathrm|mathsf|mathtt|mathbf|mathit|mathcal|mathbb|mbox|hbox|operatorname|ensuremath|emph";
const IN_BOX = new RegExp(`\\\\(?:${BOXES})\\*?\\s*\\{([^{}\\\\]*)\\}`, "g");
const DOLLAR = "\ue000", MOST_NESTED = 6;

export const isLatex = text => /\\[A-Za-z([\\]|\$[^$\n]+\$/.test(text);

// The text without the marks of LaTeX: a row of a table is a line, its columns are parted by tabs.
export function plainOf(text) {
  if (!isLatex(text)) return text;
  let it = text.replace(/(^|[^\\])%.*$/gm, "$1").replaceAll("\\$", DOLLAR);
  it = it.replace(/\\begin\s*\{(?:tabular|array)[^}]*\}(?:\[[^\]]*\])?\s*\{(?:[^{}]|\{[^{}]*\})*\}/g, "\n");
  it = it.replace(/\\(?:begin|end)\s*\{[^}]*\}(?:\[[^\]]*\])?/g, "\n").replace(/\\(?:caption|label|cline)\s*\{[^}]*\}/g, "");
  for (let k = 0, was = ""; k < MOST_NESTED && was !== it; k++) {
    was = it;
    it = it.replace(IN_BOX, "$1").replace(/\\multicolumn\s*\{[^}]*\}\s*\{[^}]*\}\s*\{([^{}]*)\}/g, "$1");
    it = it.replace(/\\([A-Za-z]+)\s*\{([^{}\\])\}/g, (all, name, letter) => name in ACCENTS ? letter + ACCENTS[name] : all);
  }
  it = it.replace(/\\\\\*?(?:\[[^\]]*\])?/g, "\n").replace(/\\[()[\]]|\$/g, "");
  it = it.replace(/\\([A-Za-z]+)\*?/g, (_, name) => Object.hasOwn(NAMED, name) ? ` ${NAMED[name]} ` : DROPPED.has(name) ? " " : name);
  it = it.replace(/\\([#_%&])/g, "$1").replace(/\\[{}]/g, "").replace(/\\[,;:! ]|~/g, " ");
  it = it.replace(/([_^])\s*\{([^{}]*)\}/g, (_, mark, inner) => mark + inner.trim()).replace(/\s*([_^])\s+/g, "$1").replace(/[{}]/g, "");
  return it.replace(/&?\s*(=|→)\s*&?/g, " $1 ").replaceAll("&", "\t").replaceAll(DOLLAR, "$");
}

// ---- δ(q, a) = (p, b, R), and quintuples in brackets

const FIELD = "\\s*([^(),;\\n]*?)\\s*", OPEN = "[(⟨〈]", CLOSE = "[)⟩〉]";
const ARROW = "\\s*(?::=|=>|-+>|\\|->|=|→|⇒|↦|⊢|:)\\s*";
const PAIR = `(?:δ|delta|f|T)?\\s*${OPEN}${FIELD},${FIELD}${CLOSE}`;
const DELTA = new RegExp(`${PAIR}${ARROW}${OPEN}${FIELD},${FIELD},${FIELD}${CLOSE}`, "g");
const OPEN_DELTA = new RegExp(`${PAIR}${ARROW}([^(),;\\s]+)\\s*[,\\s]\\s*([^(),;\\s]+)\\s*[,\\s]\\s*([^(),;\\s]+)`, "g");
const TUPLE = new RegExp(`${OPEN}${FIELD},${FIELD},${FIELD},${FIELD},${FIELD}${CLOSE}`, "g");

// The rules that a text has in one of these forms, where nothing in brackets is left over.
function bracketed(text) {
  for (const form of [DELTA, OPEN_DELTA, TUPLE]) {
    const rows = [...text.matchAll(form)].map(found => found.slice(1, 6));
    if (rows.length && !/[(⟨〈]/.test(text.replace(form, ""))) return rows;
  }
  return null;
}

// ---- a row a state, a column a letter

const RIGHT = ["R", "r", ">", "→", "right", "Right", "+"], LEFT = ["L", "l", "<", "←", "left", "Left", "-", "−"], STAY = ["N", "n", "S", "s", "↓", "stay", "Stay", "0", "P", "C"];
const MOVES = new Set([...RIGHT, ...LEFT, ...STAY]);
const NO_RULE = /^(?:[-–—−.·]*|∅|n\/a|none|undefined)$/i;
// What is written, the move and the next state without anything between, as in tables of busy beavers: 1RB.
const COMPACT = /^([0-9A-Za-z#_])([RLN])([A-Z][0-9]*|HALT|Halt)$/;

// The fields of a line of a table.
function cellsOf(line) {
  const bare = line.trim();
  if (bare.startsWith("|") || /\s\|\s/.test(bare)) return bare.replace(/^\|/, "").replace(/\|$/, "").split("|").map(it => it.trim());
  if (line.includes("\t")) return line.replace(/\s+$/, "").split("\t").map(it => it.trim());
  const wide = line.trimEnd().split(/ {2,}/).map(it => it.trim());
  if (wide.length > 2) return wide;
  return (line.match(/[(⟨〈][^)⟩〉]*[)⟩〉]|\S+/g) ?? []).map(it => it.trim());
}
// The three parts of a cell, null where it has no rule, undefined where it is nothing of both.
function partsOf(cell) {
  const bare = cell.replace(/^[(⟨〈]|[)⟩〉]$/g, "").trim();
  if (NO_RULE.test(bare)) return null;
  const found = COMPACT.exec(bare);
  if (found) return found.slice(1, 4);
  const parts = bare.split(/\s*[,;/]\s*|\s+/).filter(it => it !== "");
  return parts.length === 3 && parts.some(it => MOVES.has(it)) ? parts : undefined;
}
const markOf = label => {
  const found = /^(→|->|>)?\s*(\*|F:)?\s*(.*)$/.exec(label.replace(/^(?:state|current state)\s+/i, "").trim());
  return {isStart: Boolean(found?.[1]), name: (found?.[3] ?? label).trim()};
};

function matrix(text) {
  const lines = text.split(/\r\n|\r|\n/).filter(it => it.trim() !== "" && !/^[\s|:+=-]+$/.test(it)).map(cellsOf);
  if (lines.length < 2) return null;
  const [first, ...rest] = lines, body = rest.filter(it => it.length > 1), wide = Math.max(...body.map(it => it.length));
  const heads = first.length === wide ? first.slice(1) : first.length === wide - 1 ? first : null;
  if (!heads?.length || !body.length || body.length < rest.length || heads.some(it => partsOf(it))) return null;
  const found = [], rows = [];
  for (const [label, ...cells] of body) {
    rows.push(markOf(label));
    const parts = heads.map((_, k) => partsOf(cells[k] ?? ""));
    if (parts.includes(undefined)) return null;
    parts.forEach((it, k) => { if (it) found.push({row: rows.length - 1, column: k, parts: it}); });
  }
  if (!found.length) return null;
  const columns = heads.map(markOf), told = new Set(found.flatMap(it => it.parts).filter(it => !MOVES.has(it)));
  const share = list => list.filter(it => told.has(it.name) && it.name.length > 0).length / list.length + (list.some(it => [...it.name].length > 1) ? .5 : 0);
  const isLetter = list => list.every(it => [...it.name].length <= 1) && list.some(it => /^[01_⊔□B]$/.test(it.name));
  const inRows = isLetter(columns) && !isLetter(rows) || !(isLetter(rows) && !isLetter(columns)) && share(rows) >= share(columns);
  const made = found.map(({row, column, parts}) => inRows ? [rows[row].name, columns[column].name, ...parts] : [columns[column].name, rows[row].name, ...parts]);
  const start = (inRows ? rows : columns).find(it => it.isStart)?.name ?? (inRows ? rows : columns)[0].name;
  return [...made.filter(it => it[0] === start), ...made.filter(it => it[0] !== start)];
}

// ---- the order of the three

// What is written, the move and the next state stand in any order, the same in all rules: it is told by what they are.
export function inOrder(rows) {
  const states = new Set(rows.map(it => it[0])), reads = new Set(rows.map(it => it[1])), spots = [2, 3, 4];
  const many = test => spots.map(at => rows.filter(it => test(it[at])).length);
  const moves = many(it => MOVES.has(it)), sure = many(it => MOVES.has(it) && !reads.has(it) && !states.has(it));
  const move = [3, 4, 2].filter(at => moves[at - 2] === rows.length).sort((a, b) => sure[b - 2] - sure[a - 2])[0];
  if (move === undefined) return rows;
  const [one, other] = spots.filter(at => at !== move);
  const isState = at => rows.reduce((sum, it) => sum + (states.has(it[at]) ? 1 : 0) + ([...it[at]].length > 1 ? .5 : 0) - (reads.has(it[at]) ? 1 : 0), 0);
  // Where both may be: behind the move stands the next state, before a move that is last it stands first.
  const next = isState(one) === isState(other) ? (move === 3 ? 4 : one) : isState(one) > isState(other) ? one : other;
  const write = one === next ? other : one;
  return rows.map(it => [it[0], it[1], it[write], it[move], it[next]]);
}

// The rules of a text in one of these forms, in the order of a table, and what it was read as; null where it is none.
/** @type {(text: string) => {rows: string[][], what: string} | null} */
export function readTextbook(text) {
  const plain = plainOf(text), what = isLatex(text) ? "LaTeX" : null;
  const pairs = bracketed(plain);
  if (pairs) return {rows: inOrder(pairs), what: what ?? "a textbook's rules"};
  const cells = matrix(plain);
  return cells ? {rows: inOrder(cells), what: what ?? "a table of states and letters"} : null;
}
