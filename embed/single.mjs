// The entry of bin/hithwelor: the command with the module inside, which esbuild puts in. Where it is run, `main` is called
// by a line that embed/bundle.py puts behind; with `require` it gives a workbench, and `serve`, which answers for Python.
import code from "../js/hithwelor.wasm";
import * as command from "../js/command.mjs";
import {Workbench} from "../js/core.mjs";

export const workbench = () => new Workbench(new WebAssembly.Module(code));
export const main = () => {
  command.refuseOld();
  return command.main(workbench());
};
export const serve = () => command.serve(workbench());
