import assert from "node:assert/strict";
import {test} from "node:test";
import {eraseFault} from "../src/erase.js";
import {blankCandidates, faultOf, freeNames, lettersOf, refusalWords, rulesOf, spelled, statesOf, turned, warningsOf} from "../src/table.js";
import {answer, example} from "./program.js";

const table = example("increment.csv"), isRead = text => answer(["check"], text).status !== 3;

test("rules, states and letters of a table that the program reads", () => {
  const said = answer(["check"], table).text, rules = rulesOf(table);
  const [, states, symbols, quintuples] = /states (\d+) symbols (\d+) quintuples (\d+)/.exec(said).map(Number);
  assert.deepEqual([rules.length, statesOf(rules).length, lettersOf(rules).length], [quintuples, states, symbols]);
  assert.equal(lettersOf(rules)[0], "_");
});

test("a table in another form is turned into one that the program reads", () => {
  const forms = {
    semicolons: it => it.replaceAll(",", ";"), tabs: it => it.replaceAll(",", "\t"),
    brackets: it => it.replace(/^(.+)$/gm, "($1)"), spaces: it => it.replaceAll(",", " , "),
    letters: it => it.replaceAll(",+,", ",R,").replaceAll(",-,", ",L,").replaceAll(",0,", ",N,"),
    header: it => "state,read,write,move,next\n" + it, comments: it => "# a comment\n" + it,
    ends: it => it.replaceAll("\n", "\r\n"),
  };
  for (const [name, form] of Object.entries(forms)) {
    const it = turned(form(table));
    if (name !== "letters") assert.equal(it.text.replaceAll("\r", ""), table, name);
    assert.ok(isRead(it.text), `${name}: ${it.text}`);
    assert.ok(it.said.length || name === "ends", name);
  }
  assert.deepEqual(turned(table).said, []);
});

test("names that the program can't read are spelled, each otherwise, and stay as they were typed", () => {
  const text = "grün,_,_,+,gruen\ngruen,1,1,+,gr ün\ngr ün,_,_,0,F\n", {text: made, names} = turned(text);
  assert.ok(isRead(spelled(made, names)));
  const rules = rulesOf(spelled(made, names));
  const shown = rules.map(it => [names[it.state] ?? it.state, names[it.next] ?? it.next]);
  assert.deepEqual(shown, [["grün", "gruen"], ["gruen", "gr ün"], ["gr ün", "F"]]);
  assert.equal(new Set(statesOf(rules)).size, 4);
  assert.deepEqual(freeNames(text, names), names);
});

test("a refusal names the text lines that it is about", () => {
  const faults = {
    "S,_,_,+,A\n\nS,_,1,+,A\nA,_,_,0,F\n": [1, 3], "S,_,_,+\n": [1], "S,_,_,+,A\nA,_,_,x,F\n": [2],
    "S,_,_,+,A\nA,_,_,0,F\nA,1,11,0,F\n": [3], "": [],
  };
  for (const [text, lines] of Object.entries(faults)) {
    const {status, text: said} = answer(["check"], text);
    assert.notEqual(status, 0);
    assert.deepEqual(faultOf(said, text).lines, lines, said);
  }
});

test("a letter that isn't in the table is shown whole, outside the first plane too", () => {
  for (const [word, at, letter] of [["1😀1", 2, "😀"], ["1é", 2, "é"], ["x", 1, "x"], ["𝛼𝛽", 1, "𝛼"]]) {
    const {status, text} = answer(["run", `=${word}`, "auto"], table);
    assert.equal(status, 5);
    assert.equal(refusalWords(text, word, rulesOf(table)), `Letter ${at}, “${letter}”, is not in the table. Its letters: 0 1.`);
  }
  const {text} = answer(["run", "=1011", 900, 1000000, 1000000, 1000000], table);
  assert.match(refusalWords(text, "1011", []), /^Too large: /);
  assert.equal(refusalWords("machine: S5 2\n", "", []), null);
});

test("a letter that no table of the erasing machine has is shown whole", () => {
  const input = `${table}%\n${table}`;
  for (const [word, letter] of [["1😀1", "😀"], ["0𝛼𝛽", "𝛼"]]) {
    assert.equal(eraseFault({...answer(["erase", `=${word}`, 9], input), words: ""}, table, table, word), `Letter 2 of the word, “${letter}”, is not in the tables.`);
  }
});

test("a first rule with a letter outside the first plane is no header line", () => {
  const {text, said} = turned("s0,𝟙,s1,𝟘,R\ns1,𝟘,s0,𝟙,L\n");
  assert.equal(text, "s0,𝟙,𝟘,+,s1\ns1,𝟘,𝟙,-,s0\n", said.join());
});

test("a symbol outside the first plane is one character", () => {
  const text = "S,😀,😀,+,A\nA,😀,1,0,F\n";
  assert.match(faultOf(answer(["check"], text).text, text).text, /“😀” can't be a symbol/);
  assert.deepEqual(blankCandidates(text), ["😀", "1"]);
});

test("a comment behind a rule is no part of a name", () => {
  const right = "q0,1,1,+,q0\nq0,_,1,0,q1\n";
  for (const text of ["# adds\nq0,1,1,R,q0 // right\nq0,_,1,0,q1\n", "q0,1,1,R,q0//right\nq0,_,1,N,q1 # done, at last\n",
                      "q0 1 1 R q0 // go right\nq0 _ 1 N q1 ; done\n", "q0;1;1;R;q0 % right\nq0;_;1;N;q1\n",
                      "δ(q0,1)=(q0,1,R) // right\nδ(q0,_)=(q1,1,N)\n"]) {
    const it = turned(text);
    assert.deepEqual([it.text, it.names], [right, {}], text);
    assert.match(it.said.join("; "), /comments? behind (a rule|rules) dropped/);
  }
  // Where such a sign is a letter, or a field of its own, it stays.
  for (const text of ["q0,#,#,+,q0\nq0,_,1,0,q1\n", "q0 # % R q0\nq0 _ 1 N q1\n", "q0 ; 1 ; 1 ; R ; q0\nq0 ; _ ; 1 ; N ; q1\n"]) {
    assert.ok(!turned(text).said.some(it => it.includes("behind")), text);
  }
});

test("states that are never reached, and states without rules, are told", () => {
  const rules = rulesOf("S,_,_,+,A\nA,1,1,+,Dead\nB,1,1,+,A\nA,_,_,0,H\n");
  assert.deepEqual(warningsOf(rules), ["State B is never reached.", "State Dead has no rules."]);
  assert.deepEqual(warningsOf(rulesOf(example("increment.csv"))), []);
});
test("curly quotes are read as straight ones", () => {
  const {text, said} = turned("“S”,_,_,+,A\nA,_,_,0,H’\n");
  assert.ok(said.includes("curly quotes to straight quotes"));
  assert.equal(text, "\"S\",_,_,+,A\nA,_,_,0,H'\n");
});
