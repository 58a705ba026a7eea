// Reads texts by the page's readers: a list of them on standard input, and on standard output for each the table and
// the names of its states, or the fault.
import {readFileSync} from "node:fs";
import {readMachine, tableOf} from "../page/src/formats.js";

const found = JSON.parse(readFileSync(0, "utf8")).map(text => {
  try {
    const {table, names} = tableOf(readMachine(text, "it"), "it");
    return {table, names: Object.fromEntries(names)};
  } catch (fault) {
    if (fault.constructor !== Error) throw fault;
    return {fault: fault.message};
  }
});
process.stdout.write(JSON.stringify(found));
