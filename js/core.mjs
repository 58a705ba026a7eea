// The module and its one call: words and an input are laid into the module's memory, and the text is taken out. The
// page's worker, the command bin/hithwelor, the process that answers for Python and hithwelor.mjs stand on this; it makes
// no step and judges nothing, imports nothing, and names nothing that only node or only a browser has.
const FULL = 8;
// A memory above this is given up after a call, since a module's memory never shrinks.
const KEPT_MEMORY = 256 << 20;

export class Workbench {
  /** @param {WebAssembly.Module} module */
  constructor(module) {
    this.module = module;
    this.room = 1 << 20;
    this.isAsked = false;
    this.code = this.begin();
  }

  // A fresh instance: the first one, and the one after a call that was cut off and left its memory half written.
  /** @returns {Record<string, any>} */
  begin() {
    this.code = new WebAssembly.Instance(this.module, {}).exports;
    return this.code;
  }

  // A block of the module's memory with these bytes, or with so many that are open.
  /** @param {Uint8Array | number} bytes */
  place(bytes) {
    const count = typeof bytes === "number" ? bytes : bytes.length;
    const at = this.code.malloc(BigInt(Math.max(count, 1)));
    if (BigInt(at) === 0n) throw new RangeError("no memory");
    if (typeof bytes !== "number") new Uint8Array(this.code.memory.buffer).set(bytes, Number(at));
    return at;
  }

  // One call with so much room: the code, the text or its front, and the length of the whole text.
  /** @param {Uint8Array} words @param {Uint8Array} input @param {number} room */
  call(words, input, room) {
    /** @type {any[]} */
    const blocks = [];
    /** @param {Uint8Array | number} bytes */
    const place = bytes => {
      blocks.push(this.place(bytes));
      return blocks.at(-1);
    };
    const list = place(words), given = place(input), output = place(room), taken = place(8);
    const status = this.code.hithwelor_answer(list, BigInt(words.length), given, BigInt(input.length), output,
                                              BigInt(room), taken);
    const buffer = this.code.memory.buffer;
    const length = Number(new DataView(buffer).getBigUint64(Number(taken), true));
    const text = new Uint8Array(buffer, Number(output), Math.min(length, room)).slice();
    for (const block of blocks.reverse()) this.code.free(block);
    return {status, text, length};
  }

  // The answer to words and an input, as bytes. Where the text needs more room, the call is made once more with it.
  /** @param {Uint8Array} words @param {Uint8Array} input */
  answer(words, input) {
    // The host may have ended the last call without an exception that is caught here, as node:vm does at a timeout.
    if (this.isAsked) this.begin();
    this.isAsked = true;
    try {
      let answer = this.call(words, input, this.room);
      if (answer.status === FULL && answer.length > this.room) {
        this.room = answer.length;
        answer = this.call(words, input, this.room);
      }
      if (this.memory() > KEPT_MEMORY) this.begin();
      this.isAsked = false;
      return {status: answer.status, text: answer.text};
    } catch (fault) {
      this.begin();
      this.isAsked = false;
      throw fault;
    }
  }

  memory() {
    return this.code.memory.buffer.byteLength;
  }
}
