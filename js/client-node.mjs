// A client of a worker, in Node.js: as client.mjs, with a thread of node:worker_threads as its worker.
import {Worker} from "node:worker_threads";
import {Client} from "./client.mjs";
import {moduleOf} from "./node.mjs";

export {Client};

// A client whose workers answer by the module beside this file, or by the one that is given.
export async function connect({module} = {}) {
  return new Client(() => new Worker(new URL("./worker-node.mjs", import.meta.url)), await moduleOf(module));
}
