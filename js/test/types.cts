// Looked at by tsc alone: what a program of CommonJS may do.
import type {Machine, Refused as Fault} from "hithwelor";
import {load} from "hithwelor";
import {connect} from "hithwelor/client";

async function main(): Promise<void> {
  const {Machine, Refused} = await load();
  const machine: Machine = new Machine("S,_,_,0,F\n"), client = await connect();
  try {
    machine.run("x", "auto");
  } catch (fault) {
    if (fault instanceof Refused) {
      const told: Fault = fault, status: number = told.status;
      await client.answer(["check"], String(status));
    }
  }
  client.close();
}

main();
// @ts-expect-error the classes are in what `load` gives
new Machine("");
