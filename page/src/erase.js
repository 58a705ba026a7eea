// Two machines, the second of which takes the first one back: Bennett's machine of the first leaves its input beside
// the output; the machine that `erase` makes of both leaves the output alone.
import {answer, STATUS} from "./answer.js";
import {escaped, partOf} from "./state.js";
import {faultOf, letterAt} from "./table.js";
import {exampleTable} from "./task_tools.js";
import {readRun} from "./texts.js";
import {inTurn} from "./turns.js";
import {number} from "./words.js";

const ERASE_REST = 300, MOST_ERASING = "1000000";
const NOT_TABLE = "I,_,_,+,Q1\nQ1,0,1,+,Q1\nQ1,1,0,+,Q1\nQ1,_,_,-,Q2\nQ2,0,0,-,Q2\nQ2,1,1,-,Q2\nQ2,_,_,0,O\n";
const ADD_TABLE = exampleTable("increment");
const PAIRS = [{title: "Invert each letter, twice", first: NOT_TABLE, second: NOT_TABLE, word: "101"},
               {title: "A second machine that does not compute the inverse", first: ADD_TABLE, second: NOT_TABLE, word: "101"}];
const ERASE_PAGE = `<div class="e-left">
    <select id="x-examples" aria-label="Pairs of machines">${PAIRS.map((it, k) => `<option
    value="${k}">${it.title}</option>`).join("")}</select>
    <label for="x-first">The first machine: from the word to the output</label><textarea id="x-first"
    spellcheck="false"></textarea>
    <label for="x-second">The second: from the output back to the word</label><textarea id="x-second"
    spellcheck="false"></textarea>
    <div><label for="x-word">Word</label> <input id="x-word" size="8" spellcheck="false" autocomplete="off"></div>
    <p id="x-fault" class="e-fault" role="status"></p></div>
  <div class="e-right"><div id="x-ends" class="x-ends" role="status"></div>
    <h3 id="x-count"></h3><div id="x-table" class="x-table" tabindex="0" role="group"
    aria-label="the quadruples of the erasing machine"></div></div>`;

const eraser = /** @type {{box: HTMLElement, input: string, word: string, first: string}} */ (
  {input: "", word: "", first: ""});
const eraserPart = id => partOf(eraser.box, id);

export function eraseFault({status, text, words: cut}, first, second, letters) {
  if (cut) return cut;
  if (status === STATUS.done || status === STATUS.stuck || status === STATUS.inside) return "";
  const inSecond = /^(text|machine): second /.test(text), word = /^word: (\d+)/.exec(text);
  if (word) return `Letter ${word[1]} of the word, “${letterAt(letters, Number(word[1]))}”, is not in the tables.`;
  const words = faultOf(text.replace(/^(text|machine): second /, "$1: "), inSecond ? second : first).text;
  return `The ${inSecond ? "second" : "first"} machine. ${words}`;
}

async function takePair() {
  const [first, second] = ["x-first", "x-second"].map(id => eraserPart(id).value.replace(/\n*$/, "\n"));
  const word = eraserPart("x-word").value.trim(), input = `${first}%\n${second}`;
  const [made, ended, ran] =
    await Promise.all([answer(["erase"], input), answer(["erase", "=" + word, MOST_ERASING], input),
                                                answer(["run", "=" + word, "auto"], first)]);
  Object.assign(eraser, {input, word, first});
  eraserPart("x-fault").textContent = eraseFault(made, first, second, word) || eraseFault(ended, first, second, word);
  if (made.status !== STATUS.done) return;
  const rows = made.text.split("\n").filter(Boolean);
  eraserPart("x-count").textContent = `The erasing machine: ${number(rows.length)} quadruples`;
  eraserPart("x-table").innerHTML = `<ol>${rows.map(row => `<li><code>${escaped(row)}</code></li>`).join("")}</ol>`;
  eraserPart("x-ends").innerHTML = endsText(ended, ran);
}

const wordOf = tape => tape.symbols.slice(1 - tape.first).join("").replace(/_.*$/, "");
const shownWord = it => it === "" ? '<span class="quiet">blank</span>' : `<code>${escaped(it)}</code>`;
// What both leave on the work tape and on the output tape.
function endsText(ended, ran) {
  const run = readRun(ran.text), of = name => new RegExp(`^${name} =(.*)$`, "m").exec(ended.text)?.[1] ?? null;
  const [kind, first, second] = ended.text.split(/\s+/), steps = it => `${number(Number(it))} quadruple steps`;
  const row = (name, cells) => `<tr><th scope="row">${name}</th>${cells.map(it => `<td>${it}</td>`).join("")}</tr>`;
  const bennett = run.exit === "end" ? [wordOf(run.tapes[0]), run.output].map(shownWord).concat(steps(run.quadruples))
    : ["", "", "does not halt"];
  const erasing = kind === "halted" ? [of("work"), of("output")].map(shownWord).concat(steps(first))
    : ["", "", kind === "stuck"
      ? `stuck in ${escaped(first)} after ${escaped(second)}: the second machine does not compute the inverse of the first`
        : "runs on"];
  return `<table><thead><tr><td></td><th scope="col">work tape</th><th scope="col">output tape</th><th
      scope="col">after</th></tr></thead><tbody>`
    + `${row("Bennett's machine of the first leaves", bennett)}${row("The erasing machine of both " +
      "leaves", erasing)}</tbody></table>`
    + (kind === "halted" && of("work") === "" ? "<p>Only the output is left, and every step was reversible.</p>"
      : "");
}

function choosePair(k) {
  eraserPart("x-first").value = PAIRS[k].first;
  eraserPart("x-second").value = PAIRS[k].second;
  eraserPart("x-word").value = PAIRS[k].word;
  return inTurn(takePair);
}

export const erasePage = {
  key: "erase", title: "Erase",
  make(box) {
    eraser.box = box;
    box.innerHTML = ERASE_PAGE;
    let later = null;
    eraserPart("x-examples").onchange = () => choosePair(Number(eraserPart("x-examples").value));
    for (const id of ["x-first", "x-second", "x-word"]) {
      eraserPart(id).oninput = () => { clearTimeout(later); later = setTimeout(() => inTurn(takePair), ERASE_REST); };
    }
    choosePair(0);
  },
  open() {},
  close() {},
  keys: {},
  calls: () => [{words: ["erase", "=" + eraser.word, MOST_ERASING], input: eraser.input, what: "both tables"},
    {words: ["erase"], input: eraser.input, what: "both tables"},
                {words: ["run", "=" + eraser.word, "auto"], input: eraser.first, what: "the first table"}],
};
