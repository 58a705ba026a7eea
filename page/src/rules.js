// The rules of a table as rows with a field for each of their five parts; a change is written into the text at once.
import {withoutRule, withRule} from "./edits.js";
import {escaped, state} from "./state.js";
import {rulesOf} from "./table.js";

const PARTS = ["state", "read", "write", "move", "next"], MOST_RULE_ROWS = 120;
const MOVE_WORDS = [["+", "right"], ["-", "left"], ["0", "stay"]];

// The lines of a text that are rules, whatever the program says of them.
export const rulesWritten = text => rulesOf(text).filter(it => it.next !== undefined);

// Fills a box with the rules of the chosen state, or with all; `write` takes a new text.
export function fillRules(box, {rules, states, chosen, write}) {
  const focused = fieldAt(document.activeElement), all = rules.filter(it => chosen === null || it.state === chosen);
  const rows = all.slice(0, MOST_RULE_ROWS).map(ruleRow);
  const more = all.length > MOST_RULE_ROWS ? `<p class="quiet">${all.length - MOST_RULE_ROWS} more: choose a state.</p>` : "";
  const heads = ["", ...PARTS, ""].map(it => `<th scope="col">${it}</th>`).join("");
  box.innerHTML = `<datalist id="d-states">${states.map(it => `<option value="${escaped(it)}">`).join("")}</datalist>
    <table class="rules"><thead><tr>${heads}</tr></thead><tbody>${rows.join("")}</tbody></table>${more}`;
  for (const row of box.querySelectorAll("[data-line]")) {
    const line = Number(row.dataset.line), fields = [...row.querySelectorAll("input,select")];
    for (const it of fields) it.onchange = () => write(withRule(state.text, line, fields.map(field => field.value.trim())));
    row.querySelector("button").onclick = () => {
      write(withoutRule(state.text, line));
      setTimeout(() => box.parentNode.querySelector("#d-add").focus(), 0);
    };
  }
  if (focused) comeBack(box.querySelector(`[data-line="${focused.line}"] [data-field="${focused.field}"]`), focused);
}
// The field in which something is typed, and what stands in it where it isn't written yet.
function fieldAt(it) {
  const line = it?.closest?.("[data-line]")?.dataset.line, field = it?.dataset?.field;
  const isTyped = it?.matches("input") && it.value !== it.defaultValue;
  return line && field ? {line, field, typed: isTyped ? it.value : null} : null;
}
function comeBack(field, {typed}) {
  if (!field) return;
  if (typed !== null) field.value = typed;
  field.focus();
}
function ruleRow(rule) {
  const name = part => `aria-label="${part} of the rule in line ${rule.line}"`;
  const input = (part, k, size, more = "") =>
    `<td><input data-field="${k}" size="${size}" value="${escaped(rule[part])}" ${name(part)} spellcheck="false" autocomplete="off" ${more}></td>`;
  const moves = MOVE_WORDS.some(([it]) => it === rule.shift) ? MOVE_WORDS : [...MOVE_WORDS, [rule.shift, rule.shift]];
  const options = moves.map(([it, words]) => `<option value="${escaped(it)}"${it === rule.shift ? " selected" : ""}>${escaped(words)}</option>`);
  return `<tr data-line="${rule.line}"><td class="no">${rule.line}</td>${input("state", 0, 6, 'list="d-states"')}${input("read", 1, 1)}${input("write", 2, 1)}`
    + `<td><select data-field="3" ${name("move")}>${options.join("")}</select></td>${input("next", 4, 6, 'list="d-states"')}`
    + `<td><button class="plain" data-field="5" aria-label="delete the rule in line ${rule.line}">×</button></td></tr>`;
}
