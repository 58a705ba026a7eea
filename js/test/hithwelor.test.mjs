// Tests of the package: node --test test. Where HITHWELOR_PROGRAM names the proved program, answers are compared with its.
import assert from "node:assert/strict";
import {spawnSync} from "node:child_process";
import fs from "node:fs";
import test from "node:test";
import {fileURLToPath} from "node:url";
import {Worker} from "node:worker_threads";
import {NoMemory, Refused, Tape, load} from "../node.mjs";

const at = path => new URL(path, import.meta.url);
const example = name => fs.readFileSync(at(`../../examples/${name}`), "utf8");
const {answer, answerBytes, Machine, ReversibleMachine, module} = await load();
const increment = new Machine(example("increment.csv")), least = new Machine(example("least.csv"));
const across = "rotary 1\nelements 1\nstart 0.n\nend 0.w\nsteps 1\nleft 0.w\ne 0 V - - - -\n";

test("answers", () => {
  assert.deepEqual(answer(["step", "1"], example("across.txt")), {status: 0, text: across});
  assert.deepEqual(answer(["nonsense"]), {status: 2, text: "usage\n"});
  assert.deepEqual(answer([]), {status: 2, text: "usage\n"});
  assert.equal(answer(new Set(["check"]), fs.readFileSync(at("../../examples/increment.csv"))).status, 0);
  assert.ok(answerBytes(["check"], example("least.csv")).text instanceof Uint8Array);
  assert.throws(() => answer("check"), TypeError);
  assert.throws(() => answer(["a\0b"]), RangeError);
  assert.throws(() => answer(["check"], 7), TypeError);
});

test("a machine", () => {
  assert.equal(increment.check(), "standard states 5 symbols 3 quintuples 10");
  assert.equal(increment.isStandard, true);
  assert.equal(new Machine(example("refused/s5.csv")).isStandard, false);
  assert.deepEqual({...increment.byItself("1011"), text: ""},
                   {kind: "halted", steps: 11, output: "1100", state: null, letter: null, symbols: [], text: ""});
  assert.equal(increment.byItself("1011", 3).kind, "running");
  const run = increment.run("1011");
  assert.deepEqual([run.window, run.exit.kind, run.steps, run.quadrupleSteps, run.output],
                   [[1, 8, 16, 8], "end", 2531308, 65, "1100"]);
  assert.deepEqual(run.tapes.map(it => it.word), ["1011", "", "1100"]);
  assert.equal(increment.run("1011", [0, 5, 11, 5]).elements, 14136);
  assert.equal(increment.run("1011", [0, 5, 11, 5], 10).exit.kind, "inside");
  assert.equal(new Machine(example("stuck.csv")).byItself("1011").kind, "stuck");
  assert.match(new Machine(example("complement.csv")).standard().check(), /^standard /);
  assert.match(increment.bennett(), /,/);
  assert.match(least.compile("", [0, 2, 2, 1]).text, /^rotary 2\n/);
  assert.throws(() => increment.run("1011", "auto", 5), TypeError);
  assert.throws(() => increment.run("1011", [0, 5, 11]), RangeError);
  assert.throws(() => increment.view("1011", [0, 5, 11, 5], 2 ** 62), RangeError);
  assert.equal(least.view("", [0, 2, 2, 1], 2n ** 62n).hasLeft, true);
});

test("views and sessions", () => {
  const view = least.view("", [0, 2, 2, 1], 6540);
  assert.deepEqual([view.place, view.module, view.quadruple, view.stage, view.machine, view.tapes[1].head],
                   ["930.w", "module tape 2 cell 0 line Rd", "A1'", "compute", "quintuple 1 step 1", 1]);
  assert.throws(() => view.tapes[0].at(99), RangeError);
  const session = least.session("", [0, 2, 2, 1], ["break b element 930", "go 100000", "view", "rev 100000"]);
  assert.equal(session[1], "at 930.s steps 2822 break b");
  assert.equal(session[2].place, "930.s");
});

test("tapes are iterable, and can be cloned", () => {
  const [tape] = increment.run("1011").tapes, clone = structuredClone(tape);
  assert.deepEqual([[...tape].join(" "), tape.length, tape.positions, tape.at(-1), tape.word],
                   ["_ _ 1 0 1 1 _ _ _ _", 10, [-1, 0, 1, 2, 3, 4, 5, 6, 7, 8], "_", "1011"]);
  assert.deepEqual({...clone}, {...tape});
  assert.equal(new Tape(clone).at(1), tape.at(1));
  assert.equal(structuredClone(increment.run("1011")).tapes[2].word, "1100");
  const names = new Tape({number: 1, first: -2, head: 0, symbols: ["_", "_a", "_", "b_", "_"]});
  assert.deepEqual([names.word, names.at(-1), new Tape({number: 1, first: 0, head: 0, symbols: ["_"]}).word], ["_a _ b_", "_a", ""]);
});

test("refusals", () => {
  assert.throws(() => new Machine("S,_,_,R,T\n").check(), fault => fault instanceof Refused && fault.status === 3
                && fault.text === "text: record 1 field 4 shift\n" && fault.message.endsWith("(status 3, text)"));
  assert.throws(() => increment.run("10x1"), {name: "Refused", status: 5});
});

test("a call that is cut off leaves the next one whole", () => {
  const huge = new Uint8Array(new ArrayBuffer(8));
  Object.defineProperty(huge, "length", {value: 2 ** 33});
  assert.throws(() => answer(["check"], huge), NoMemory);
  assert.equal(answer(["check"], example("least.csv")).status, 0);
});

test("a module that is handed over, as bytes and compiled", async () => {
  for (const given of [module, fs.readFileSync(at("../hithwelor.wasm")), at("../hithwelor.wasm").href]) {
    assert.equal((await load({module: given})).answer(["nonsense"]).status, 2);
  }
});

test("a worker", async () => {
  const worker = new Worker(at("../worker-node.mjs"));
  const told = await new Promise((done, fail) => {
    worker.on("message", done).on("error", fail);
    worker.postMessage({module});
    worker.postMessage({number: 1, words: ["step", "1"], input: example("across.txt")});
  });
  assert.deepEqual(told, {number: 1, status: 0, text: across});
  await worker.terminate();
});

test("the command", () => {
  const run = (words, input) => spawnSync(process.execPath, [fileURLToPath(at("../bin.mjs")), ...words], {input});
  const ran = run(["run", "=1011", "0", "5", "11", "5"], example("increment.csv"));
  assert.ok(ran.status === 0 && String(ran.stdout).endsWith("output =1100\n"), String(ran.stderr));
  assert.deepEqual([run(["nonsense"], "").status, run(["check"], "").status], [2, 3]);
});

const program = process.env.HITHWELOR_PROGRAM;
test("the proved program says the same", {skip: program ? false : "HITHWELOR_PROGRAM names no program"}, () => {
  const asked = [["check"], ["bennett"], ["standard"], ["reversible"], ["machine", "=101", "50"], ["run", "=1", "auto"],
                 ["migrate"], ["step", "3"], ["back", "3"], ["mirror"], ["plan"], ["farm"], ["erase"], ["check", ""],
                 ["run", "=10", "1", "6", "9", "4", "20000"]];
  let count = 0;
  for (const name of fs.readdirSync(at("../../examples")).filter(it => /\.(csv|txt)$/.test(it))) {
    const input = fs.readFileSync(at(`../../examples/${name}`));
    for (const words of asked) {
      if (name === "endless.txt" && words[0] === "farm") continue;
      const ran = spawnSync(program, words, {input, maxBuffer: 1 << 28}), given = answerBytes(words, input);
      assert.equal(given.status, ran.status, `${words} on ${name}`);
      assert.ok(Buffer.from(given.text).equals(ran.stdout), `${words} on ${name}`);
      count++;
    }
  }
  console.log(`# ${count} answers compared`);
});

test("a machine of quadruples is run, turned round and built", () => {
  const counter = new ReversibleMachine(example("counter.csv"));
  assert.equal(counter.isReversible, true);
  assert.equal(counter.moments("110").outcome.kind, "halted");
  assert.equal(counter.inverse().inverse().table, counter.table);
  assert.equal(counter.moments(["110", "", ""]).length, 14);
  assert.throws(() => counter.moments(["110", ""]), TypeError);
  assert.ok(least.reversible().build("", [0, 2, 2, 1]).equals(least.compile("", [0, 2, 2, 1])));
  const adder = new ReversibleMachine(example("adder.csv")), words = ["11", {names: ["1", "1", "0"]}, ""];
  const look = adder.look(words, [0, 3, 4, 3], 50000);
  assert.deepEqual([look.place, look.hasLeft, look.module, look.quadruple, look.tapes[2].word, "stage" in look],
                   ["1660.s", false, "module tape 1 cell 1 inside", "F", "1", false]);
  assert.equal(look.text.split("\n").length, 7);
  const play = adder.play(words, [0, 3, 4, 3], ["break turn state L1", "go 1000000", "view", "rev 1000000"]);
  assert.deepEqual([play.length, play[1], play[2].quadruple, play[3]],
                   [4, "at 1487.w steps 76538 break turn", "L1", "at 0.w steps 0"]);
});
