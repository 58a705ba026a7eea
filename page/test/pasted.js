// Three machines in the notations of books and of other programs, as a newcomer would paste them, for the tests of what is read
// and for the checks of the page, which play them.
const ADDER = ["q_0 1 1 R q_0", "q_0 0 1 R q_1", "q_1 1 1 R q_1", "q_1 B B L q_2", "q_2 1 B L q_3"].map(it => it.split(" "));
const PALINDROME = `q0 a B R q1;q0 b B R q2;q0 B B R qaccept;q1 a a R q1;q1 b b R q1;q1 B B L q3;q2 a a R q2;q2 b b R q2;q2 B B L q4;
q3 a B L q5;q3 b b R qreject;q3 B B R qaccept;q4 b B L q5;q4 a a R qreject;q4 B B R qaccept;q5 a a L q5;q5 b b L q5;q5 B B R q0`
  .split(/;\s*/).map(it => it.split(" "));
const latexName = it => it.replace(/^q_?(\w+)$/, (_, rest) => rest.length > 1 ? `q_{\\text{${rest}}}` : `q_${rest}`);
const latexSymbol = it => it === "B" ? "\\sqcup" : it;
const latex = rows => rows.map(([state, read, write, move, next]) =>
  `\\delta(${latexName(state)}, ${latexSymbol(read)}) &= (${latexName(next)}, ${latexSymbol(write)}, ${move}) \\\\`);
const lines = (rows, comma, blank, right, left) => rows.map(row =>
  row.map((it, k) => it === "B" && k < 3 ? blank : it === "R" && k === 3 ? right : it === "L" && k === 3 ? left : it).join(comma)).join("\n");
const jflap = (rows, finals) => {
  const names = [...new Set(rows.flatMap(it => [it[0], it[4]]))], symbol = it => it === "B" ? "" : it;
  const states = names.map((it, k) => `<state id="${k}" name="${it}">${k === 0 ? "<initial/>" : ""}${finals.includes(it) ? "<final/>" : ""}</state>`);
  const moves = rows.map(([state, read, write, move, next]) => `<transition><from>${names.indexOf(state)}</from><to>${names.indexOf(next)}</to>`
    + `<read>${symbol(read)}</read><write>${symbol(write)}</write><move>${move}</move></transition>`);
  return `<?xml version="1.0" encoding="UTF-8"?><structure><type>turing</type><automaton>${states.join("\n")}\n${moves.join("\n")}</automaton></structure>`;
};
const yaml = (rows, input) => {
  const names = [...new Set(rows.flatMap(it => [it[0], it[4]]))], symbol = it => it === "B" ? "' '" : `'${it}'`;
  const own = name => rows.filter(it => it[0] === name).map(([, read, write, move, next]) => `    ${symbol(read)}: {write: ${symbol(write)}, ${move}: ${next}}`);
  return [`input: '${input}'`, "blank: ' '", `start state: ${names[0]}`, "table:", ...names.flatMap(it => [`  ${it}:`, ...own(it)]), ""].join("\n");
};
const morphett = rows => rows.map(([state, read, write, move, next]) => {
  const symbol = it => it === "B" ? "_" : it, name = it => it === "q0" || it === "q_0" ? "0" : it.replace(/^q_3$|^q(accept|reject)$/, (_, end) => `halt-${end ?? "3"}`);
  return `${name(state)} ${symbol(read)} ${symbol(write)} ${move.toLowerCase()} ${name(next)}`;
});

// For each machine its notations, words, and what it leaves on them: null where it is stuck, which is in `reject`.
export const PASTED = {
  adder: {
    words: {"11011": "1111", "1011": "111", "101": "11"},
    texts: {
      lines: lines(ADDER, "; ", "B", "R", "L"), arrows: lines(ADDER, "\t", "□", "→", "←"),
      mapping: ADDER.map(([state, read, write, move, next]) => `(${state}, ${read}) → (${next}, ${write}, ${move})`).join("\n"),
      latex: ["\\begin{align*}", ...latex(ADDER), "\\end{align*}"].join("\n"),
      markdown: "| | 0 | 1 | B |\n|---|---|---|---|\n| q_0 | (q_1, 1, R) | (q_0, 1, R) | |\n| q_1 | | (q_1, 1, R) | (q_2, B, L) |\n| q_2 | | (q_3, B, L) | |",
      jflap: jflap(ADDER, ["q_3"]), yaml: yaml(ADDER, "11011"), morphett: `; adds in unary\n${morphett(ADDER).join("\n")}`,
      tabular: `\\begin{tabular}{c|ccc}\n$\\delta$ & $0$ & $1$ & $\\sqcup$ \\\\ \\hline\n$q_0$ & $(q_1,1,R)$ & $(q_0,1,R)$ & -- \\\\\n`
        + "$q_1$ & -- & $(q_1,1,R)$ & $(q_2,\\sqcup,L)$ \\\\\n$q_2$ & -- & $(q_3,\\sqcup,L)$ & -- \\\\\n\\end{tabular}",
    },
  },
  palindrome: {
    words: {"abba": "", "aba": "", "": "", "ab": null, "abab": null}, accept: /accept/, reject: /reject/,
    texts: {
      lines: lines(PALINDROME, " , ", "⊔", "R", "L"), spaces: `state read write move next\n${lines(PALINDROME, " ", "_", "R", "L")}`,
      quintuples: `{${PALINDROME.map(([state, read, write, move, next]) => `(${state},${read},${next},${write},${move})`).join(", ")}}`,
      latex: `$$\\begin{aligned}${latex(PALINDROME).join(" % a rule\n")}\\end{aligned}$$`,
      jflap: jflap(PALINDROME, ["qaccept"]), yaml: yaml(PALINDROME, "abba"), morphett: morphett(PALINDROME).join("\n"),
    },
  },
  beaver: {
    words: {"": "111111"},
    texts: {
      bbchallenge: "1RB1RZ_0RC1RB_1LC1LA", lines: "A,0,1,R,B\nA,1,1,R,H\nB,0,0,R,C\nB,1,1,R,B\nC,0,1,L,C\nC,1,1,L,A",
      compact: "    A   B   C\n0 1RB 0RC 1LC\n1 1RH 1RB 1LA", rows: "state\t0\t1\nA\t1,R,B\t1,R,H\nB\t0,R,C\t1,R,B\nC\t1,L,C\t1,L,A",
      latex: "\\[\\begin{array}{c|cc} & 0 & 1 \\\\\\hline A & 1RB & 1RH \\\\ B & 0RC & 1RB \\\\ C & 1LC & 1LA \\end{array}\\]",
      morphett: "A 0 1 r B\nA 1 1 r halt\nB 0 0 r C\nB 1 1 r B\nC 0 1 l C\nC 1 1 l A".replace(/ 0(?= )/g, " _"),
    },
  },
};
