// The examples of README.md, each line `CALL;  // => VALUE` with what it has to give; and that every public name of the types is
// used there.
import assert from "node:assert/strict";
import fs from "node:fs";
import test from "node:test";

const at = path => new URL(path, import.meta.url);
const page = fs.readFileSync(at("../README.md"), "utf8");
const blocks = [...page.matchAll(/^```js\n(.*?)^```/gms)].map(found => found[1]);
const MODULES = {"hithwelor": "../node.mjs", "hithwelor/client": "../client-node.mjs"};
const example = name => fs.readFileSync(at(`../../examples/${name}`), "utf8");
// A value as plain fields, without the calls of its class.
const plain = value => value instanceof Uint8Array || value === null || typeof value !== "object" ? value
  : Array.isArray(value) ? value.map(plain) : Object.fromEntries(Object.entries(value).map(([name, it]) => [name, plain(it)]));

function caught(call) {
  try {
    call();
  } catch (fault) {
    return fault;
  }
  throw new Error("nothing was thrown");
}

// A line of the page as a line of the test.
function line(text) {
  const imported = /^import \{(.*)\} from "(.*)";$/.exec(text), shown = /^(.*?);\s+\/\/ => (.*)$/.exec(text);
  if (imported) return `const {${imported[1]}} = await import(${JSON.stringify(at(MODULES[imported[2]]).href)});`;
  return shown ? `check(${shown[1]}, ${shown[2]}, ${JSON.stringify(shown[1])});` : text;
}

test("the examples of the page", async () => {
  let count = 0;
  const check = (given, wanted, what) => {
    assert.deepEqual(plain(given), wanted, what);
    count++;
  };
  const AsyncFunction = (async () => {}).constructor;
  await new AsyncFunction("check", "example", "caught", blocks.join("").split("\n").map(line).join("\n"))(check, example, caught);
  assert.ok(count >= 60 && count === page.match(/\/\/ => /g).length);
});

test("every public name has an example", () => {
  const types = ["types.d.cts", "hithwelor.d.ts", "client.d.ts"].map(it => fs.readFileSync(at(`../${it}`), "utf8")).join("");
  const members = [...types.matchAll(/^ {2}(?:readonly )?(\w+)[(:?]/gm)].map(found => found[1]);
  const calls = [...types.matchAll(/^export (?:function|class) (\w+)/gm)].map(found => found[1]);
  const used = new Set(blocks.join("").match(/\w+/g));
  // What a Signal of one's own has to have, and what the client is given.
  const inner = new Set(["aborted", "reason", "addEventListener", "removeEventListener", "constructor", "new", "Layout", "Tape", "Trace"]);
  assert.deepEqual([...new Set([...members, ...calls])].filter(name => !used.has(name) && !inner.has(name)), []);
});
