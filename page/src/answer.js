// The one door to the program: words and an input go in, its status and its text come out. The proved program stands in
// this page as a module, and answers in a worker; nothing is sent anywhere. An answer that was cut off, by a fault or since
// no memory was left, says so in words, wherever it was asked for; the next one begins in a fresh instance or worker.
import {busy} from "./state.js";

export const STATUS = {done: 0, usage: 2, text: 3, machine: 4, word: 5, size: 6, noMemory: 9, stuck: 10, window: 11, inside: 12};
// Each lane has a worker of its own: for what is waited for, for what is waited for at the same time, for what is fetched
// ahead, and for what takes long, so that a step doesn't queue behind them; and three for the circuit editor, which the workbench
// below it doesn't stop.
export const LANES = {now: 0, beside: 1, ahead: 2, long: 3, design: 4, verdict: 5, search: 6};
/** @type {{words: string, status: number, bytes: number, ms: number, program: number}[]} */
export const log = [];
const STOPPED = "stopped";
const MOST_LOGGED = 400;
const decoder = new TextDecoder();
// A lane's worker, which is begun with the first call, and the calls that wait for it by their numbers.
/** @typedef {{worker: Worker, waiting: Map<number, (it: any) => void>, count: number, call: (message: any) => Promise<any>,
 *   ready: Promise<void>}} Bench */
/** @type {(Bench | null)[]} */
const benches = [null, null, null, null, null, null, null];
// What the page was bundled with: the module's bytes, which are unpacked meanwhile, and the worker's text.
const given = /** @type {{module: Promise<ArrayBuffer>, worker: string}} */ ({});
/** @type {Promise<WebAssembly.Module> | null} */
let compiledModule = null;

/** @param {{module: Promise<ArrayBuffer>, worker: string}} it */
export function provide(it) { Object.assign(given, it); }
// The module is compiled once, and all workers have it.
const moduleOf = () => compiledModule ??= Promise.resolve(given.module).then(it => WebAssembly.compile(it));

// The compiled module is handed to a worker, or its bytes, where a browser hands over no compiled ones.
/** @type {(bench: Bench) => Promise<any>} */
async function givenModule(bench) {
  const bytes = async () => bench.call({kind: "module", bytes: await given.module});
  try {
    const it = await bench.call({kind: "module", module: await moduleOf()});
    return it.kind === "unread" ? bytes() : it;
  } catch (fault) {
    if (!(fault instanceof Error) || fault.name !== "DataCloneError") throw fault;
    return bytes();
  }
}

/** @type {(lane: number) => Bench} */
function beginBench(lane) {
  const source = new Blob([given.worker], {type: "text/javascript"});
  const bench = /** @type {Bench} */ ({waiting: new Map(), count: 0, worker: new Worker(URL.createObjectURL(source))});
  bench.call = message => new Promise(done => {
    bench.waiting.set(++bench.count, done);
    bench.worker.postMessage({...message, number: bench.count});
  });
  // A fault of the worker itself: what waits is cut off, and the next call begins a new worker.
  bench.worker.onerror = event => {
    event.preventDefault();
    if (benches[lane] === bench) endLane(lane, String(event.message || "a fault of the worker"));
  };
  bench.worker.onmessage = event => {
    const numbers = event.data.kind === "unread" ? [...bench.waiting.keys()] : [event.data.number];
    for (const number of numbers) {
      bench.waiting.get(number)?.(event.data);
      bench.waiting.delete(number);
    }
  };
  bench.ready = givenModule(bench).then(it => {
    if (it.kind === "ready") return;
    if (benches[lane] === bench) benches[lane] = null;
    if (it.text !== STOPPED) throw new Error(it.text);
  }).catch(fault => { throw new Error(`This browser can't run it: ${fault.message ?? fault}`); });
  benches[lane] = bench;
  return bench;
}

// Ends a worker: each waiting answer becomes status -1, and the next call begins a new one.
/** @type {(lane: number, text: string) => void} */
function endLane(lane, text) {
  const bench = benches[lane];
  if (!bench) return;
  bench.worker.terminate();
  benches[lane] = null;
  for (const done of bench.waiting.values()) done({kind: "fault", text, ms: 0});
}
/** @type {(lane: number) => void} */
export function stopLane(lane) { endLane(lane, STOPPED); }
// What is asked there for a machine that isn't wanted any more is given up, so that nothing queues behind it.
/** @type {(lane: number) => void} */
export function stopBusy(lane) { if (benches[lane]?.waiting.size) stopLane(lane); }
export function stopAll() { benches.forEach((_, lane) => stopLane(lane)); }

// Whether an answer was cut off, and isn't the program's; what is said of it.
/** @type {(reply: Reply) => boolean} */
export const isCutOff = reply => Boolean(reply.words);
/** @type {(status: number, text: string) => string} */
function cutWords(status, text) {
  if (status === STATUS.noMemory) return "There was no memory for this answer. A shorter word, or a smaller window, needs less.";
  return status === -1 && text !== STOPPED ? `This answer was cut off: ${text}. The next one starts afresh.` : "";
}

/** @type {(lane: number, words: any[], input: string, more?: {reading?: Reading}) => Promise<any>} */
async function callLane(lane, words, input, more = {}) {
  const began = performance.now(), bench = benches[lane] ?? beginBench(lane);
  await bench.ready;
  const isThere = benches[lane] === bench;
  const it = isThere ? await bench.call({kind: "call", words: words.map(String), input, ...more}) : {kind: "fault", text: STOPPED};
  const text = it.kind === "answer" ? decoder.decode(it.text) : String(it.text ?? "");
  log.push({words: words.join(" "), status: it.status ?? -1, bytes: it.bytes ?? text.length, ms: performance.now() - began, program: it.ms});
  if (log.length > MOST_LOGGED) log.shift();
  const status = it.kind === "fault" ? -1 : it.status, cut = cutWords(status, text);
  if (cut) busy(cut);
  return {...it, status, text, words: cut};
}
/** @type {(words: any[], input?: string, how?: {lane?: number}) => Promise<Reply>} */
export async function answer(words, input = "", {lane = LANES.now} = {}) {
  const reply = await callLane(lane, words, input);
  return {status: reply.status, text: reply.text, words: reply.words};
}
// A search in a worker: the text that was found, or null. Nothing of the program is asked.
/** @type {(message: any) => Promise<string | null>} */
export async function askSearch(message) {
  const bench = benches[LANES.search] ?? beginBench(LANES.search);
  await bench.ready;
  const it = await bench.call({kind: "search", ...message});
  return it.kind === "found" ? it.found : null;
}
// The places of the signal that a script is answered with, read in the worker: at most so many, where the banks begin
// at these elements and have so many rows.
/** @typedef {{count: number, bases: Int32Array, rows: Int32Array}} Reading */
/** @type {(words: any[], input: string, reading: Reading, how?: {lane?: number}) => Promise<PlacesReply>} */
export async function answerPlaces(words, input, reading, {lane = LANES.now} = {}) {
  return callLane(lane, words, input, {reading});
}
