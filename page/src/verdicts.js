// What a machine answers: which of its states accept and which reject, where it comes to rest on a word, and what many
// words are answered with. Where it comes to rest the program says: `machine` halts in the last rule's state, or is stuck.
import {isCutOff, STATUS} from "./answer.js";
import {byId, current, dialog, escaped, nameOf, state, toast} from "./state.js";
import {finalOf, symbolWord} from "./table.js";
import {ownRun} from "./window.js";
import {number} from "./words.js";

const MOST_WORDS = 500;
const SAYS = {accept: "accepts", reject: "rejects"};
const VERDICTS_HEAD = '<h2>What the machine answers</h2><p class="quiet">Choose which states accept and which reject. The answer of a machine '
  + "is the state in which it halts or gets stuck.</p>";
const TRIED_HEAD = '<thead><tr><th scope="col">word</th><th scope="col">answer</th><th scope="col">steps</th>'
  + '<th scope="col">last state</th><th scope="col">output</th></tr></thead>';

export const kindOf = name => state.accept.includes(name) ? "accept" : state.reject.includes(name) ? "reject" : null;
export function setKind(name, kind) {
  for (const it of Object.keys(SAYS)) state[it] = state[it].filter(other => other !== name);
  if (kind in SAYS) state[kind].push(name);
}
// Where a run of the machine by itself came to rest, as its states were typed; nothing where it runs on.
function restOf(own) {
  if (own.outcome === "running") return null;
  return nameOf(own.outcome === "stuck" ? own.state : finalOf(current.machine.rules));
}
// The same where standard form has added a state to halt in: it stands for the state in which the typed machine halts.
function typedRest(own) {
  const {machine} = current, rest = restOf(own), isHalted = own.outcome === "halted";
  const last = finalOf(machine.userRules);
  return isHalted && machine.isStandard ? state.names[last] ?? last : rest;
}
export function judgedBy(own) {
  const rest = typedRest(own);
  return {rest, kind: rest === null ? null : kindOf(rest), isAsked: state.accept.length + state.reject.length > 0};
}
// The answer in words, in front of what the page says of the run.
export function answerWords({kind, isAsked}) {
  return !isAsked ? "" : kind ? `${SAYS[kind]} · ` : "no answer · ";
}
// The mark of a state in the diagram.
export const markOf = name => ({accept: "✓", reject: "✗"})[kindOf(name)] ?? "";

// ---- many words at once

// The states of the table as they were typed, those first in which it can come to rest.
function restStates() {
  const {userRules, userStates} = current.machine, final = finalOf(userRules);
  const isLeft = it => userRules.some(rule => rule.state === it);
  const shown = it => state.names[it] ?? it;
  const firsts = [final, ...userStates.filter(it => it !== final && !isLeft(it))];
  return [...firsts, ...userStates.filter(it => !firsts.includes(it))].map(shown);
}
export function openVerdicts({kept, told}) {
  if (!current.machine) {
    toast("There is no machine yet.");
    return;
  }
  const rows = restStates().map(name => `<tr><td>${escaped(name)}</td><td><select data-kind="${escaped(name)}"
    aria-label="what ${escaped(name)} says">${["", "accept", "reject"].map(kind =>
      `<option value="${kind}"${(kindOf(name) ?? "") === kind ? " selected" : ""}>${SAYS[kind] ?? "neither"}</option>`).join("")}</select></td></tr>`);
  dialog(`${VERDICTS_HEAD}<div class="v-states" tabindex="0" role="group" aria-label="states"><table>${rows.join("")}</table></div>
    <p><label for="v-words">Words, one a line; an empty line is the empty word</label></p>
    <textarea id="v-words" rows="5" spellcheck="false" autocomplete="off">${escaped(state.tried.join("\n"))}</textarea>
    <p class="row"><button id="v-try" class="main">Run</button><span id="v-said" role="status"></span></p>
    <div id="v-table" class="v-table" tabindex="0" role="group" aria-label="what the words are answered with"></div>`);
  byId("v-try").onclick = () => tryWords(told);
  for (const it of byId("dialogbody").querySelectorAll("[data-kind]")) {
    it.onchange = () => {
      kept();
      setKind(it.dataset.kind, it.value);
      told();
      if (byId("v-table").firstChild) tryWords(told);
    };
  }
}
// Each word is given to `machine`, and the table grows row by row.
async function tryWords(told) {
  const words = byId("v-words").value.split("\n").map(it => it.trim()), {table} = current.machine, box = byId("v-table");
  state.tried = words.slice(0, MOST_WORDS);
  box.innerHTML = `<table>${TRIED_HEAD}<tbody></tbody></table>`;
  const body = box.querySelector("tbody") ?? box, counts = {accept: 0, reject: 0};
  told();
  for (const word of state.tried) {
    const row = await triedWord(table, word);
    if (!body.isConnected) return;
    if (row.kind) counts[row.kind]++;
    body.insertAdjacentHTML("beforeend", `<tr data-word="${escaped(word)}"><td>${word === "" ? '<span class="quiet">empty</span>' : `<code>${escaped(word)}</code>`}</td>`
      + [row.words, row.steps, row.rest, row.output].map(it => `<td>${escaped(it)}</td>`).join("") + "</tr>");
  }
  const many = words.length > MOST_WORDS ? ` Only the first ${MOST_WORDS} were run.` : "", count = state.tried.length;
  byId("v-said").textContent = `${number(count)} ${count === 1 ? "word" : "words"}: ${counts.accept} accepted, ${counts.reject} rejected.${many}`;
}
async function triedWord(table, word) {
  /** @type {Own & {fault?: any}} */
  const own = await ownRun(table, word).catch(fault => /** @type {any} */ ({fault}));
  if (own.fault) {
    const {reply} = own.fault;
    if (!reply) throw own.fault;
    const letter = reply.status === STATUS.word ? /^word: (\d+)/.exec(reply.text)?.[1] : null;
    const words = isCutOff(reply) ? reply.words : letter ? `letter ${letter} is not in the table` : reply.text.trim();
    return {kind: null, words, steps: "", rest: "", output: ""};
  }
  if (own.outcome === "running") return {kind: null, words: "no answer: the machine runs on", steps: `more than ${number(own.steps)}`, rest: "", output: ""};
  const {rest, kind} = judgedBy(own), stuck = own.outcome === "stuck" ? `${rest}, on ${symbolWord(own.letter)}` : rest;
  return {kind, words: kind ? SAYS[kind] : "no answer", steps: number(own.steps), rest: stuck, output: own.output ?? ""};
}
