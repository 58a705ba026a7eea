// The sheet of an exercise: its words, its fields, and what the program's answers say of what was filled in. It stands
// over the circuit, or in the workshop where the exercise is done there.
import {EXAMPLES} from "./examples.js";
import {takeMachine} from "./machine.js";
import {byId, current, dialog, escaped, state} from "./state.js";
import {TASKS} from "./tasks.js";
import {inTurn} from "./turns.js";
import {openWorkshop, pageOf, workshopBox} from "./workshop.js";

/** @type {{task: Task | null, choice: number}} */
const sheet = {task: null, choice: 0};

export function openTasks() {
  const listed = TASKS.map(it =>
    `<li><b>${escaped(it.title)}</b> <button data-task="${it.number}"
        aria-label="begin exercise ${it.number}">Begin</button></li>`);
  dialog(`<h2>Exercises</h2><p class="quiet">Try each with pencil and paper first. What you fill in is compared with
      what the program answers.</p>`
    + `<ol class="tasks">${listed.join("")}</ol>`);
  for (const it of byId("dialogbody").querySelectorAll("[data-task]")) {
    it.onclick = () => {
      byId("dialog").close();
      beginTask(Number(it.dataset.task));
    };
  }
}

export function beginTask(number) {
  /** @type {Task | undefined} */
  const task = TASKS.find(it => it.number === number);
  if (!task) return;
  Object.assign(sheet, {task, choice: 0});
  fillSheet(task);
  placeTask(task);
}
// Lays out the machine or the circuit of the exercise, and puts the sheet beside it.
/** @param {Task} task */
function placeTask(task) {
  const box = byId("sheet"), machine = task.choices?.[sheet.choice].machine ?? task.machine;
  if (task.page) {
    openWorkshop(task.page);
    workshopBox()?.querySelector("#e-sheet")?.append(box);
    pageOf(task.page).take?.(task.text, task.start);
  } else {
    workshopBox()?.close();
    byId("sheetplace").append(box);
    if (machine) layMachine(machine);
  }
  box.hidden = false;
  box.querySelector("h2")?.focus();
}
function layMachine(machine) {
  const example = EXAMPLES.find(it => it.key === machine.key);
  takeMachine({about: "The machine of the exercise.", ...example, ...machine, letter: false, asTyped: true}, machine.e ?? 0);
}
export function endTask() {
  byId("sheet").hidden = true;
  byId("sheetplace").append(byId("sheet"));
  sheet.task = null;
}

/** @param {Task} task */
function fillSheet(task) {
  const box = byId("sheet"), last = TASKS.length;
  box.innerHTML = `<div class="row top"><h2 tabindex="-1">Exercise ${task.number} · ${escaped(task.title)}</h2><span
      class="mini">
    <button id="taskback" aria-label="previous exercise" ${task.number === 1 ? "disabled" : ""}>◂</button>
    <button id="tasknext" aria-label="next exercise" ${task.number === last ? "disabled" : ""}>▸</button>
    <button id="taskend">End</button></span></div>${task.ask.map(it => `<p>${escaped(it)}</p>`).join("")}
    <div id="taskfields"></div><p class="row"><button id="taskcheck"
    class="main">${escaped(task.act ?? "Check")}</button>
    <span id="tasksaid" role="status"></span></p><pre id="tasktold" class="listing" hidden></pre>`;
  if (task.choices) addChoices(task.choices);
  for (const it of task.fields) addField(it);
  byId("taskback").onclick = () => beginTask(task.number - 1);
  byId("tasknext").onclick = () => beginTask(task.number + 1);
  byId("taskend").onclick = endTask;
  byId("taskcheck").onclick = () => inTurn(checkTask);
}
function addChoices(choices) {
  const list = document.createElement("select");
  list.id = "taskchoice";
  list.setAttribute("aria-label", "which table");
  list.append(...choices.map((it, k) => new Option(it.title, String(k))));
  list.onchange = () => {
    sheet.choice = Number(list.value);
    layMachine(choices[sheet.choice].machine);
    sayTask("", null);
  };
  byId("taskfields").append(list);
}
/** @param {Field} field */
function addField({key, label, size, rows, value = ""}) {
  const line = document.createElement("label");
  const field = /** @type {any} */ (document.createElement(rows ? "textarea" : "input"));
  Object.assign(field, {id: `task-${key}`, value, spellcheck: false, autocomplete: "off"});
  if (rows) field.rows = rows;
  else field.size = size;
  field.onkeydown = event => { if (event.key === "Enter" && !rows) byId("taskcheck").click(); };
  line.append(`${label} `, field);
  line.className = rows ? "long" : "";
  byId("taskfields").append(line);
}

function sayTask(words, isRight, told = "") {
  const said = byId("tasksaid"), box = byId("tasktold");
  said.textContent = words;
  said.className = isRight === null ? "" : isRight ? "right" : "fault";
  box.textContent = told;
  box.hidden = !told;
}
async function checkTask() {
  const {task, choice} = sheet;
  if (!task) return;
  const values = Object.fromEntries(task.fields.map(({key}) => [key, byId(`task-${key}`).value]));
  sayTask("Checking …", null);
  const {isRight, words, told} = await task.check(values, choice).catch(fault =>
    ({isRight: false, words: `Not checked. ${fault.message}`, told: ""}));
  if (sheet.task === task) sayTask(words, isRight, told.trim());
}
export const taskAtHand = () => sheet.task?.number ?? null;
