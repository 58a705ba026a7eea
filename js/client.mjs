// A client of a worker: each request is a promise, and may be ended by an AbortSignal. This one is for browsers, and
// client-node.mjs for Node.js.
//
// The worker has one request at a time. Requests and answers are numbered, and a request that is aborted ends its worker:
// no answer is left for a later request.
import {moduleOf} from "./hithwelor.mjs";
import {NoMemory, Refused, bytesOf, decoder, listed} from "./values.mjs";

const FAULTS = {NoMemory, RangeError, TypeError};

// Has `heard` called with each message of a worker, and `failed` if it fails or ends.
function listen(worker, heard, failed) {
  if (worker.on) worker.on("message", heard).on("error", failed).on("exit", () => failed(new Error("the worker has ended")));
  else {
    worker.onmessage = event => heard(event.data);
    worker.onerror = event => failed(new Error(event.message));
  }
}

export class Client {
  #started;
  #module;
  #worker = null;
  #queue = [];
  #asked = null;
  #number = 0;
  #isClosed = false;

  // `started` gives a new worker, which is handed the module.
  constructor(started, module) {
    this.#started = started;
    this.#module = module;
  }

  // The promise of status and text, as bytes.
  async answerBytes(words, input = "", options = {}) {
    const {status, text} = await this.#ask({words: listed(words), input: bytesOf(input, "the input"), isBytes: true}, options);
    return {status, text};
  }

  // The promise of what a call of a Machine, Circuit, .. of this text returns; circuits and machines as their texts.
  async call(kind, text, name, args = [], options = {}) {
    const {value} = await this.#ask({call: {kind, text, name, args: [...args]}}, options);
    return value;
  }

  #ask(message, {signal} = {}) {
    return new Promise((done, fail) => {
      const request = {message};
      if (this.#isClosed) throw new Error("the client is closed");
      if (signal?.aborted) {
        fail(signal.reason);
        return;
      }
      const abort = () => this.#aborted(request, signal.reason);
      signal?.addEventListener("abort", abort, {once: true});
      const settled = call => told => {
        signal?.removeEventListener("abort", abort);
        call(told);
      };
      Object.assign(request, {done: settled(done), fail: settled(fail)});
      this.#queue.push(request);
      this.#next();
    });
  }

  // The promise of status and text.
  async answer(words, input = "", options = {}) {
    const {status, text} = await this.answerBytes(words, input, options);
    return {status, text: decoder.decode(text)};
  }

  // Ends the worker; requests that have no answer yet fail.
  close() {
    this.#isClosed = true;
    this.#end();
    const left = [this.#asked, ...this.#queue.splice(0)].filter(Boolean);
    this.#asked = null;
    for (const request of left) request.fail(new Error("the client is closed"));
  }

  #next() {
    if (this.#asked || this.#queue.length === 0) return;
    const request = this.#asked = this.#queue.shift();
    const number = request.number = ++this.#number;
    try {
      if (!this.#worker) this.#start();
      this.#worker.ref?.();
      this.#worker.postMessage({number, ...request.message});
    } catch (fault) {
      this.#settle(request, () => request.fail(fault));
    }
  }

  #start() {
    const worker = this.#worker = this.#started();
    worker.postMessage({module: this.#module});
    listen(worker, message => this.#heard(worker, message), fault => this.#failed(worker, fault));
  }

  #heard(worker, message) {
    const request = this.#asked, {fault, name, refused} = message;
    if (worker !== this.#worker || request?.number !== message.number) return;
    this.#settle(request, () => {
      if (fault === undefined) request.done(message);
      else if (refused) request.fail(new Refused(refused.status, refused.text));
      else request.fail(new (FAULTS[name] ?? Error)(fault));
    });
  }

  #failed(worker, fault) {
    if (worker !== this.#worker) return;
    this.#end();
    const request = this.#asked;
    if (request) this.#settle(request, () => request.fail(fault));
  }

  #aborted(request, reason) {
    if (request === this.#asked) this.#end();
    else this.#queue.splice(this.#queue.indexOf(request), 1);
    this.#settle(request, () => request.fail(reason));
  }

  #settle(request, settle) {
    if (this.#asked === request) this.#asked = null;
    settle();
    this.#next();
    // A worker without a request doesn't keep node from ending.
    if (!this.#asked) this.#worker?.unref?.();
  }

  #end() {
    const worker = this.#worker;
    this.#worker = null;
    worker?.terminate();
  }
}

// A client whose workers answer by the module beside this file, or by the one that is given.
export async function connect({module} = {}) {
  return new Client(() => new Worker(new URL("./worker.mjs", import.meta.url), {type: "module"}), await moduleOf(module));
}
