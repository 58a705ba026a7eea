// The lesson's facts: what may have been before, the eight cases of an element, and two sentences a step.
import assert from "node:assert/strict";
import {test} from "node:test";
import "./workers.js";
import {caseOf, CASES} from "../src/learn/element.js";
import {forkNear, pastsOf} from "../src/learn/pasts.js";
import {namesOf, STEPS} from "../src/learn/steps.js";
import {Run} from "../src/run.js";
import {readBars} from "../src/texts.js";
import {findRun} from "../src/window.js";
import {columnSaid, lineSaid} from "../src/module_words.js";
import {answer, example} from "./program.js";

test("the eight cases of an element are what the program does with one", () => {
  for (const {bar, side, out, after} of CASES) {
    const said = answer(["step", "1"], `rotary 1\nelements 1\nstart 0.${side}\nend 0.${out}\nsteps 0\nat 0.${side}\ne 0 ${bar} - - - -\n`).text;
    assert.match(said, new RegExp(`^left 0\\.${out}$`, "m"), `${bar} ${side}: ${said}`);
    assert.match(said, new RegExp(`^e 0 ${after} `, "m"), `${bar} ${side}: ${said}`);
  }
  assert.equal(new Set(CASES.map(it => it.out + it.after)).size, 8);
  assert.deepEqual(caseOf("V", "n"), {out: "s", after: "V"});
});

test("among the pasts of each moment is the one that was, and somewhere there are two", async () => {
  const table = example("increment.csv"), run = await new Run(table, "1011", await findRun(table, "1011")).open();
  const own = run.moments.map((it, q) => ({it, q})).filter(({it}) => it.stage === "compute" && it.rule === null);
  for (const [k, {it}] of own.entries()) {
    const pasts = pastsOf(run.rules, it), before = own[k - 1]?.it;
    if (!before) assert.equal(pasts.length, 0);
    else assert.ok(pasts.some(one => one.state === before.state && one.tape.head === before.tapes[0].head
      && one.tape.symbols.join() === before.tapes[0].symbols.join()), `step ${k}`);
    // Each of them leads to what stands there.
    for (const {rule, tape} of pasts) {
      const {read, write, next} = run.rules[rule - 1], at = tape.head - tape.first;
      assert.equal(tape.symbols[at], read);
      assert.equal(tape.symbols.map((symbol, j) => j === at ? write : symbol).join(), it.tapes[0].symbols.join());
      assert.equal(next, it.state);
    }
  }
  const fork = forkNear(run, 3);
  assert.ok(fork !== null && pastsOf(run.rules, run.moments[fork]).length > 1);
});

test("every kind of name that a bank's picture has is told in words", async () => {
  const table = example("increment.csv"), run = await new Run(table, "1011", await findRun(table, "1011")).open();
  for (const bank of run.layout.banks) {
    const told = namesOf(run, bank), names = told.map(([name]) => name);
    for (let row = 0; row < bank.rows; row++) {
      const kind = lineSaid(run.layout, bank, row).name.split(" ")[0];
      assert.ok(names.some(it => it.split(" ")[0] === kind), `bank ${bank.number}: ${kind}`);
    }
    assert.ok(told.every(([name, words]) => name && words.length > 3), `bank ${bank.number}: ${told}`);
  }
  const [control] = run.layout.banks, labels = run.layout.control.columns.map((_, column) => columnSaid(run, control, column).label);
  assert.ok(namesOf(run, control).filter(([name]) => labels.includes(name)).length >= 5);
});

test("the step that is looked for turns a bar, and none before it does", async () => {
  const table = example("increment.csv"), run = await new Run(table, "1011", await findRun(table, "1011")).open();
  const barsAt = e => readBars(answer(["step", e], run.compiled).text, run.circuit.count);
  for (const from of [0, 400, 20000]) {
    const e = await run.turnFrom(from);
    assert.ok(e >= from && e < from + 400, `${from}: ${e}`);
    for (let k = Math.max(from, e - 3); k <= e; k++) {
      const [before, after] = [barsAt(k), barsAt(k + 1)], turned = before.filter((bar, element) => bar !== after[element]).length;
      assert.equal(turned, k === e ? 1 : 0, `step ${k}`);
    }
  }
});

test("each step has two short paragraphs and a thing to try", () => {
  const shown = {run: {end: 1000, moments: [1, 2]}, found: {own: {outcome: "halted"}}};
  for (const it of STEPS) {
    const words = it.words(shown);
    assert.equal(words.length, 2, it.key);
    for (const one of words) {
      const sentences = one.split(/(?<=[.?!]) /);
      assert.ok(sentences.length <= 3 && sentences.every(said => said.split(" ").length <= 30), one);
    }
    assert.ok(it.ask.endsWith("."));
  }
  assert.equal(new Set(STEPS.map(it => it.key)).size, STEPS.length);
});
