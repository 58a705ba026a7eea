// A worker that answers one request after another, in browsers: answering.mjs says how. client.mjs asks it.
import {answering} from "./answering.mjs";
import {load} from "./hithwelor.mjs";

const take = answering(load, (message, moved) => self.postMessage(message, moved));
self.onmessage = event => take(event.data);
