// A worker that answers one request after another, in Node.js: answering.mjs says how. client-node.mjs asks it.
import {parentPort} from "node:worker_threads";
import {answering} from "./answering.mjs";
import {load} from "./node.mjs";

parentPort.on("message", answering(load, (message, moved) => parentPort.postMessage(message, moved)));
