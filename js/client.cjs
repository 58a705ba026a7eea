// The client of a worker for CommonJS in Node.js.
"use strict";

exports.connect = async options => (await import("./client-node.mjs")).connect(options);
