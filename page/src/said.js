// What the program said for each picture: the words, the input and the text that it answered with, to read and to copy.
// They are asked for anew as the dialog opens, so they are the program's own, for the step that is shown.
import {answer} from "./answer.js";
import {Early} from "./early.js";
import {busy, byId, current, dialog, escaped, state} from "./state.js";
import {number} from "./words.js";

const MOST_LINES = 240, COPIED_FOR = 1500, OWN_STEPS = "100000";
const TITLES = {machine: "the machine", tapes: "the tapes", circuit: "the circuit", time: "the time line"};

// The calls behind each panel: words, an input, and what the input is.
function callsOf(panel) {
  const {run, found, machine} = current, table = {input: run.table, what: "the table"}, at = String(state.e);
  const circuit = {input: run.compiled, what: "the configuration text"};
  const what = machine.given === state.text ? "the table as typed" : "the table as typed, with its names spelled for the program";
  const turned = machine.isStandard ? [{words: ["standard"], input: machine.given, what}] : [];
  const own = [...turned, {words: ["check"], ...table}, {words: ["machine", "=" + run.word, OWN_STEPS], ...table}];
  if (run instanceof Early) return [...own, ...run.calls()];
  const ran = run.isOpen ? ["run", ...run.words, at] : found.isFound ? ["run", "=" + run.word, "auto"] : ["run", ...run.words];
  return {
    machine: own,
    tapes: [{words: ["view", ...run.words, at], ...table}, {words: ["bennett"], ...table}],
    circuit: [{words: ["run", ...run.words, at], ...table}, {words: ["compile", ...run.words], ...table},
      {words: ["step", at], ...circuit}],
    time: [{words: ran, ...table}, {words: ["session", ...run.words], input: run.script,
      what: "the table, and a script"}],
  }[panel];
}
export function openSaidOf(panel) {
  if (current.run) openSaid(TITLES[panel], callsOf(panel));
}

// A dialog with these calls and their answers.
export async function openSaid(title, calls) {
  const replies = [];
  busy("Loading …");
  for (const it of calls) replies.push(await answer(it.words, it.input));
  busy("");
  const sections = calls.map((it, k) => `<section class="said"><p><code>${escaped(it.words.join(" "))}</code>
    <span class="quiet">· ${it.what ? `input: ${escaped(it.what)} ·` : ""} status ${replies[k].status}</span></p>
    <p class="row">${["words", "input", "text"].map(what => button(what, k)).join("")}</p>
    <pre class="listing" tabindex="0" role="group"
    aria-label="the text of ${escaped(it.words[0])}">${escaped(front(replies[k].text))}</pre></section>`);
  dialog(`<h2>Program output: ${escaped(title)}</h2><p class="quiet">Each picture shows these outputs and nothing
      else. `
    + `In a terminal the same arguments give the same output.</p>${sections.join("")}`);
  for (const it of byId("dialogbody").querySelectorAll("[data-copy]")) {
    const k = Number(it.dataset.call), {words, input} = calls[k];
    const texts = {words: words.join(" "), input, text: replies[k].text};
    it.onclick = () => copy(it, texts[it.dataset.copy]);
  }
}
const button = (what, k) =>
  `<button data-copy="${what}" data-call="${k}">Copy ${what === "text" ? "the text" : `the ${what}`}</button>`;
// The first lines of a long text.
/** @type {(text: string) => string} */
export function front(text) {
  const lines = text.split("\n"), count = lines.length - 1;
  if (count <= MOST_LINES) return text;
  return `${lines.slice(0, MOST_LINES).join("\n")}\n… ${number(count - MOST_LINES)} more lines`;
}
async function copy(it, text) {
  const words = it.textContent;
  try {
    await navigator.clipboard.writeText(text);
    it.textContent = "Copied";
  } catch {
    it.textContent = "Not copied: the browser doesn't allow it";
  }
  setTimeout(() => { it.textContent = words; }, COPIED_FOR);
}
