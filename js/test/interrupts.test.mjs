// Requests that are ended at drawn times, and every later answer: by the client's AbortSignal, and by node:vm's timeout.
// HITHWELOR_SEED draws other times.
import assert from "node:assert/strict";
import fs from "node:fs";
import test from "node:test";
import vm from "node:vm";
import {connect} from "../client-node.mjs";
import {Refused, load} from "../node.mjs";

const table = fs.readFileSync(new URL("../../examples/increment.csv", import.meta.url), "utf8");
const long = ["run", "=1011", "auto"], MOST = 30, ROUNDS = 25, LATER = 3;
let seed = Number(process.env.HITHWELOR_SEED ?? 1);
// A number from 0 up to below `most`.
const drawn = most => (seed = (seed * 1103515245 + 12345) % 2147483648) / 2147483648 * most;
const asked = number => ["machine", `=${number.toString(2)}`, "1000"];
const isRight = (number, {status, text}) => status === 0 && text.endsWith(`output =${(number + 1).toString(2)}\n`);

test("requests of a client that are aborted leave every later answer right", async () => {
  const client = await connect();
  let aborted = 0;
  for (let round = 0; round < ROUNDS; round++) {
    const signal = AbortSignal.timeout(Math.floor(drawn(MOST))), later = [];
    const first = client.answer(long, table, {signal}).then(it => it.text.endsWith("output =1100\n"), fault => {
      aborted++;
      return fault === signal.reason;
    });
    for (let i = 1; i <= LATER; i++) later.push(client.answer(asked(round * LATER + i), table));
    assert.ok(await first);
    for (let i = 1; i <= LATER; i++) assert.ok(isRight(round * LATER + i, await later[i - 1]), `seed ${seed}, round ${round}`);
  }
  client.close();
  assert.ok(aborted > ROUNDS / 4);
  await assert.rejects(client.answer(["check"], table), /closed/);
});

test("a request that waits is aborted, and one that was aborted before isn't sent", async () => {
  const client = await connect(), signal = AbortSignal.timeout(1);
  const first = client.answer(long, table), waiting = client.answer(long, table, {signal});
  await assert.rejects(waiting, {name: "TimeoutError"});
  await assert.rejects(client.answer(long, table, {signal: AbortSignal.abort()}), {name: "AbortError"});
  assert.ok((await first).text.endsWith("output =1100\n"));
  await assert.rejects(client.answer("check"), TypeError);
  const last = client.answer(long, table);
  client.close();
  await assert.rejects(last, /closed/);
});

test("a client calls a machine, and hands its refusals over", async () => {
  const client = await connect();
  const run = await client.call("Machine", table, "run", ["1011", [0, 5, 11, 5]]);
  assert.deepEqual([run.output, run.tapes[2].word, run.steps], ["1100", "1100", 2507884]);
  assert.deepEqual(await client.call("Machine", table, "states"), ["S", "Go", "Add", "Home", "Halt"]);
  const circuit = await client.call("Machine", table, "compile", ["1", [0, 2, 6, 2]]);
  assert.equal(await client.call("Circuit", circuit, "place"), "0.w");
  await assert.rejects(client.call("Machine", table, "run", ["x"]), fault => fault instanceof Refused && fault.status === 5);
  await assert.rejects(client.call("Machine", table, "run", [["1"]]), TypeError);
  await assert.rejects(client.call("Machine", table, "run", ["1011"], {signal: AbortSignal.timeout(1)}), {name: "TimeoutError"});
  client.close();
});

test("answers that node:vm's timeout cuts off leave every later answer right", async () => {
  const {answer, memory} = await load(), first = answer(long, table).text, room = {call: () => answer(long, table)};
  let cut = 0;
  const held = memory();
  for (let round = 0; round < ROUNDS * 4; round++) {
    try {
      vm.runInNewContext("call()", room, {timeout: 1 + Math.floor(drawn(MOST / 2))});
    } catch (fault) {
      assert.equal(fault.code, "ERR_SCRIPT_EXECUTION_TIMEOUT");
      cut++;
    }
    for (let i = 1; i <= LATER; i++) assert.ok(isRight(round + i, answer(asked(round + i), table)), `seed ${seed}, round ${round}`);
  }
  assert.ok(cut > ROUNDS && answer(long, table).text === first && memory() <= 2 * held);
});
