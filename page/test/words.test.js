// What stands there, in words, beside runs that the module has made.
import assert from "node:assert/strict";
import {test} from "node:test";
import "./workers.js";
import {Run} from "../src/run.js";
import {findRun, longRuns} from "../src/window.js";
import {counterWords} from "../src/words.js";
import {example} from "./program.js";

const listed = {moves: null, at: -1};

test("the counters beyond the moments that are known tell the element step alone", async () => {
  longRuns.above = 5;
  const table = example("increment.csv"), found = await findRun(table, "1011"), run = await new Run(table, "1011", found).open();
  longRuns.above = 200;
  // As where the end of a run is gone to before its moments have come.
  const known = run.moments.length > 4 ? 4 : run.moments.length - 1;
  Object.assign(run, {isWhole: false, end: 2531308, moments: run.moments.slice(0, known), starts: run.starts.slice(0, known)});
  const at = e => counterWords({run, found}, {e, q: run.momentIndex(e), moment: run.moments[run.momentIndex(e)]}, listed, false);
  assert.deepEqual([at(run.end).machine, at(run.end).module], ["… of 11", "·"]);
  assert.match(at(run.end).quadruple, /^… of /);
  assert.equal(at(run.end).element, "2,531,308 of 2,531,308");
  assert.match(at(0).machine, /^0 of 11$/);
});
