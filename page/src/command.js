// Any command, as a terminal has it: words and an input go in, a text and a status come out. Behind | the next command
// reads what the one before it answered. An address opens it with both: #c=WORDS&i=INPUT.
import {answer, STATUS} from "./answer.js";
import {front} from "./said.js";
import {partOf} from "./state.js";
import {inTurn} from "./turns.js";
import {number} from "./words.js";

const COMMAND_PAGE = `<div class="e-left">
    <label for="k-words">Command with its arguments, as after <code>./workbench</code></label>
    <input id="k-words" spellcheck="false" autocapitalize="off" autocomplete="off">
    <label for="k-input">Input</label><textarea id="k-input" spellcheck="false"></textarea>
    <button id="k-run" class="main">Run</button>
    <p class="quiet">Separate two commands by <code>|</code>: the second reads the output of the first.</p></div>
  <div class="e-right"><p id="k-said" class="e-said" role="status"></p>
    <pre id="k-text" class="listing k-text" tabindex="0" role="group" aria-label="the answer"></pre></div>`;
const FIRST = {
  words: "step 1 | back 1",
  input: "rotary 1\nelements 1\nstart 0.n\nend 0.w\nsteps 0\nat 0.n\ne 0 H - - - -\n",
};
const NAMES = Object.fromEntries(Object.entries(STATUS).map(([name, status]) => [status, name]));

// The box, and the calls that were made last.
const command = /** @type {{box: HTMLElement, calls: Call[]}} */ ({calls: /** @type {Call[]} */ ([])});
/** @type {(id: string) => any} */
const part = id => partOf(command.box, `k-${id}`);

async function run() {
  const stages = part("words").value.split("|").map(it => it.trim().split(/\s+/).filter(Boolean));
  let reply = {status: STATUS.done, text: part("input").value, words: ""};
  command.calls = [];
  for (const words of stages) {
    command.calls.push({words, input: reply.text, what: command.calls.length ? "the previous output" : "the typed input"});
    reply = await answer(words, reply.text);
  }
  const {status} = reply, lines = reply.text.split("\n").length - 1, name = NAMES[status] ? `, ${NAMES[status]}` : "";
  part("said").textContent = reply.words || `status ${status}${name} · ${number(lines)} lines`;
  part("text").textContent = front(reply.text);
}

/** @type {(words: string, input: string) => Promise<any>} */
function take(words, input) {
  part("words").value = words;
  part("input").value = input;
  return inTurn(run);
}

/** @type {WorkshopPage} */
export const commandPage = {
  key: "command", title: "Command",
  make(box) {
    command.box = box;
    box.innerHTML = COMMAND_PAGE;
    part("run").onclick = () => inTurn(run);
    part("words").onkeydown = event => { if (event.key === "Enter") inTurn(run); };
    take(FIRST.words, FIRST.input);
  },
  open() {},
  close() {},
  take,
  keys: {},
  calls: () => command.calls,
};
