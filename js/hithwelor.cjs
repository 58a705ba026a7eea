// The workbench for CommonJS in Node.js: `load` has all else.
"use strict";

exports.load = async options => (await import("./node.mjs")).load(options);

// The classes need the compiled module, which `load` awaits: who takes them from here is told so.
for (const name of ["Circuit", "Client", "Element", "Machine", "Network", "ReversibleMachine", "SequentialMachine", "answer"]) {
  Object.defineProperty(exports, name, {
    get() {
      throw new Error(`${name} is in what load returns: const {${name}} = await require("hithwelor").load()`);
    },
  });
}
