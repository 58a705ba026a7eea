// The names of the control's columns, by the table that Bennett's machine has.
import assert from "node:assert/strict";
import {test} from "node:test";
import "./workers.js";
import {controlLabel, controlState} from "../src/control.js";
import {Run} from "../src/run.js";
import {findRun} from "../src/window.js";
import {answer, example} from "./program.js";

const opened = async (table, word) => new Run(table, word, await findRun(table, word)).open();
const NO_RULES = "S,_,_,+,Q\nQ,1,1,+,Rej\nQ,_,_,0,F\n";

for (const [name, table, word] of [["increment", example("increment.csv"), "1011"], ["least", example("least.csv"), ""],
                                   ["a state that has no rules", NO_RULES, "1"]]) {
  test(`each column of the control has its name: ${name}`, async () => {
    const run = await opened(table, word), states = run.layout.control.columns.map((_, column) => controlState(run, column)), names = states.map(controlLabel);
    assert.equal(names.length, run.layout.banks[0].columns);
    assert.equal(new Set(names).size, names.length);
    assert.deepEqual(names.slice(0, 2), ["Begin", "End"]);
    // At a moment the control has just asked for what its state reads first, or shifts where it reads nothing.
    for (let q = 1; q < run.moments.length; q += 3) {
      await run.ready(run.starts[q]);
      const it = states[run.markedColumn(run.layout.banks[0], run.starts[q])], {name} = run.moments[q];
      if (it.kind === "end") assert.equal(name, run.quadruples.at(-1)[7]);
      else if (it.kind === "shifts") assert.equal(run.quadruples[it.quadruple - 1][0], name);
      else assert.deepEqual([it.kind, it.state, it.symbols], ["reads", name, []]);
    }
  });
}
