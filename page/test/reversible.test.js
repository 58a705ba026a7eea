// Machines of quadruples: what `moments` tells of them, read, and what is refused, in words.
import assert from "node:assert/strict";
import {test} from "node:test";
import {quadrupleFault} from "../src/reversible.js";
import {readMoment} from "../src/texts.js";
import {answer, example} from "./program.js";

const counter = example("counter.csv"), adder = example("adder.csv");
const linesOf = (words, table) => answer(words, table).text.split("\n").slice(0, -2);
const written = ({step, state, tapes, row}) => [step, state, ...tapes.flatMap(({tape, first, head, symbols}) =>
  ["tape", tape, "from", first, "head", head, "cells", `${symbols.length}:`, ...symbols]), ...row === null ? [] : ["rule", row]].join(" ");

test("nothing of a moment is lost, whatever its symbols are called", () => {
  // A symbol may be the word that stands before a tape.
  const odd = "S,tape,/,/,rule,0,0,M\nS,_,/,/,tape,0,0,M\nM,/,/,/,+,0,-,F\n";
  for (const [table, words] of [[counter, ["=110", 50]], [adder, ["=11", "=110", "=", 90]], [odd, ["=", 5]],
    [answer(["bennett"], example("increment.csv")).text, ["=1011", 80]]]) {
    const lines = linesOf(["moments", ...words], table);
    assert.ok(lines.length > 1);
    for (const line of lines) assert.equal(written(readMoment(line)), line);
  }
});

test("what is refused is told in words", () => {
  const said = (words, table) => quadrupleFault({...answer(words, table), words: ""});
  for (const [words, table, right] of [
    [["moments", "=110", 9], counter, /^$/], [["moments", "=", 9], "", /^The table is empty/],
    [["moments", "=", 9], "S,_,/,/,_,0,0\n", /^Quadruple 1: it must have eight fields/], [["moments", "=", 9], "S,_,/,/,_,0,x,F\n", /^Quadruple 1: field 7 is not a shift/],
    [["moments", "=", 9], "S_,_,/,/,_,0,0,F\n", /^Quadruple 1: field 1 is not the name of a state/],
    [["moments", "=", 9], counter + "S,_,/,/,1,0,0,F\n", /^Quadruples 1 and 9 overlap in domain/], [["moments", "=", 9], counter + "X,_,/,/,_,0,0,F\n", /^Quadruples 8 and 9 overlap in range/],
    [["moments", "=1x", 9], counter, /^Letter 2 of the word is not a symbol/], [["moments", "=1", "=z", "=", 9], adder, /^Letter 1 of the word on the history tape/],
    [["build", "=", 0, 2, 0, 0], "S,_,/,/,_,0,0,M\nM,/,/,/,0,0,0,F\n", /^Quadruple 2 reads no tape and shifts no head/],
    [["build", "=1", 0, 4000000, 0, 0], counter, /^The program refused: usage/], [["build", "=1", 0, 1000000, 1000000, 1000000], counter, /^The circuit would have [\d,]+ elements/],
    [["build", "=111", 0, 2, 0, 0], counter, /^A word has 3 letters/],
  ]) assert.match(said(words, table), right, `${words} of ${table.slice(0, 40)}`);
});
