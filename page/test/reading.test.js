import assert from "node:assert/strict";
import {test} from "node:test";
import {readingsOf} from "../src/reading.js";
import {spelled} from "../src/table.js";
import {inOrder, plainOf, readTextbook} from "../src/textbook.js";
import {PASTED} from "./pasted.js";
import {answer, example} from "./program.js";

// The table that runs: the first reading that is one as it stands or that `standard` brings into its form.
function ran(text) {
  for (const it of readingsOf(text).readings) {
    const given = spelled(it.text, it.names);
    if (answer(["check"], given).status === 0) return {...it, table: given};
    const standard = answer(["standard"], given);
    if (standard.status === 0) return {...it, table: standard.text, isStandard: true};
  }
  return null;
}

for (const [name, {words, texts, accept, reject}] of Object.entries(PASTED)) {
  for (const [notation, text] of Object.entries(texts)) {
    test(`${name}, as it is pasted: ${notation}`, () => {
      const it = ran(text);
      assert.ok(it, `it isn't read: ${JSON.stringify(readingsOf(text)).slice(0, 600)}`);
      for (const [word, output] of Object.entries(words)) {
        const {status, text: said} = answer(["machine", `=${word}`, 2000], it.table);
        assert.equal(status, output === null ? 10 : 0, `${word}: ${said}\n${it.text}`);
        if (output !== null && name !== "beaver") assert.equal(said.match(/^output =(.*)$/m)[1], output, `${word}: ${it.text}`);
      }
      // Morphett's simulator has no names for states that accept, and JFLAP none for states that reject.
      if (accept && notation !== "morphett") assert.match(it.accept.join(), accept);
      if (reject && !["morphett", "jflap"].includes(notation)) assert.match(it.reject.join(), reject);
      assert.ok(it.what !== "" || it.said.length);
    });
  }
}

test("a machine of turingmachine.io brings its word", () => {
  assert.equal(readingsOf(PASTED.adder.texts.yaml).readings[0].word, "11011");
  assert.equal(readingsOf(PASTED.adder.texts.lines).readings[0].word, null);
});

test("a table in standard form is left as it is", () => {
  for (const name of ["increment.csv", "stuck.csv", "least.csv", "faulty.csv"]) {
    const [it] = readingsOf(example(name)).readings;
    assert.deepEqual([it.text, it.said, it.what], [example(name), [], ""]);
  }
});

test("a small b is the blank only where there is no a, and a sign for it goes before it", () => {
  const text = "q0 a b R q0\nq0 b a R q0\nq0 □ □ L q1", [it] = readingsOf(text).readings;
  assert.equal(it.text, "q0,a,b,+,q0\nq0,b,a,+,q0\nq0,_,_,-,q1\n");
  assert.equal(readingsOf("q0 1 1 R q0\nq0 b 1 R q1").readings[0].text, "q0,1,1,+,q0\nq0,_,1,+,q1\n");
});

test("the rule that halts goes last, and where nothing halts but for want of a rule rules are added", () => {
  const [it] = readingsOf("q0,1,1,+,q0\nq0,_,_,0,qh\nq0,0,1,+,q1\nq1,1,0,+,q0\n").readings;
  assert.equal(it.text.trim().split("\n").at(-1), "q0,_,_,0,qh");
  assert.ok(it.said.includes("the rule that halts put last"));
  const [other] = readingsOf("q0,1,1,R,q1\nq1,1,1,R,q0\nq1,_,_,R,q1\n").readings;
  assert.equal(other.text.trim().split("\n").at(-1), "q0,_,_,0,halt");
  assert.equal(answer(["standard"], other.text).status, 0);
});

test("letters that a table can't have are given others, and it is said", () => {
  const [it] = readingsOf("q0 ▷ ▷ R q0\nq0 ẋ x R q0\nq0 x ẋ R q0\nq0 ⊔ ⊔ L q1").readings;
  assert.equal(it.text, "q0,>,>,+,q0\nq0,X,x,+,q0\nq0,x,X,+,q0\nq0,_,_,-,q1\n");
  assert.ok(it.said.includes("▷ to >") && it.said.some(words => words.endsWith(" to X")));
});

test("LaTeX becomes plain", () => {
  assert.equal(plainOf("\\delta(q_{0},\\sqcup) = (q_{\\text{accept}}, \\#, \\rightarrow) \\\\").trim().replace(/\s+/g, " "), "δ (q_0, ⊔ ) = (q_accept, #, → )");
  assert.equal(plainOf("no marks, no change"), "no marks, no change");
  assert.deepEqual(readTextbook("$\\delta(s, a) \\to (t, b, \\leftarrow)$")?.rows, [["s", "a", "b", "←", "t"]]);
});

test("what is written, the move and the next state stand in any order", () => {
  const wanted = [["s", "0", "1", "R", "t"], ["t", "1", "0", "L", "s"]];
  for (const places of [[2, 3, 4], [4, 2, 3], [2, 4, 3], [4, 3, 2]])
    assert.deepEqual(inOrder(wanted.map(it => [it[0], it[1], ...places.map(at => it[at])])), wanted, String(places));
});

test("what is no machine isn't read as one", () => {
  for (const text of ["", "hello", "a b c", "x,y\nz", "<structure>", "one line with five words", "blank: ' '\ntable: {}"])
    assert.equal(ran(text), null, text);
});
