// The panel Text: the configuration text of the drawing, which can be edited. The program checks what is typed; an error is shown at its line,
// and an accepted text becomes the drawing. Elements keep their positions.
import {answer, LANES, STATUS} from "../answer.js";
import {circuitFault} from "../circuits.js";
import {commit, desk, deskChanged, tellDesk} from "./desk.js";
import {BOX, EMPTY, MOST_DRAWN, textOf} from "./drawing.js";
import {laidOut} from "./lay.js";
import {drawingOf} from "./reading_text.js";
import {pause} from "./running.js";

const REST = 250;
/** @type {{box: HTMLElement, later: ReturnType<typeof setTimeout> | undefined, fault: number, isTyped: boolean}} */
const panel = /** @type {any} */ ({later: undefined, fault: 0, isTyped: false});
/** @type {(id: string) => any} */
const part = id => panel.box.querySelector(`#${id}`);

/** @type {(box: HTMLElement) => void} */
export function makeTextPanel(box) {
  panel.box = box;
  box.innerHTML = `<div class="g-editor"><div id="g-lines" aria-hidden="true"></div><textarea id="g-text" spellcheck="false" autocapitalize="off" autocomplete="off" aria-label="the configuration text" aria-describedby="g-textfault"></textarea></div>
    <p id="g-textfault" class="e-fault" role="status"></p>
    <div class="row"><button id="g-copy">Copy</button><button id="g-version" title="the same text in version 2, with one entry for a column">As version 2</button></div><pre id="g-second" class="listing" hidden></pre>`;
  part("g-text").oninput = () => {
    panel.isTyped = true;
    clearTimeout(panel.later);
    panel.later = setTimeout(take, REST);
    showLines();
  };
  part("g-text").onscroll = () => { part("g-lines").scrollTop = part("g-text").scrollTop; };
  part("g-text").onblur = () => { if (!panel.fault) showText(); };
  part("g-copy").onclick = async () => {
    try {
      await navigator.clipboard.writeText(part("g-text").value);
      tellDesk("Text copied.");
    } catch {
      part("g-text").select();
      tellDesk("The text is selected; copy it with Ctrl C.");
    }
  };
  part("g-version").onclick = async () => {
    const box = part("g-second");
    if (!box.hidden) {
      box.hidden = true;
      return;
    }
    const reply = await answer(["migrate"], textOf(desk.drawing), {lane: LANES.design});
    box.textContent = reply.text;
    box.hidden = false;
  };
}
// Shows the text of the drawing, unless another one is being typed.
export function showText() {
  if (!panel.box || panel.isTyped && document.activeElement === part("g-text")) return;
  const text = textOf(desk.drawing), field = part("g-text");
  Object.assign(panel, {fault: 0, isTyped: false});
  if (field.value !== text) field.value = text;
  part("g-textfault").textContent = "";
  part("g-second").hidden = true;
  showLines();
}
function showLines() {
  const count = part("g-text").value.split("\n").length - Number(/\n$/.test(part("g-text").value)), lines = part("g-lines");
  if (lines.childElementCount !== count) lines.innerHTML = Array.from({length: count}, (_, k) => `<div>${k + 1}</div>`).join("");
  // Six lines come before those of the elements.
  const chosen = panel.isTyped ? [] : [...desk.chosen].map(element => element + 7);
  const marked = new Map(/** @type {[number, string][]} */ ([...chosen.map(line => [line, "now"]), [panel.fault, "fault"]]));
  for (const line of lines.querySelectorAll("[class]")) if (!marked.has(Number(line.textContent))) line.removeAttribute("class");
  for (const [line, kind] of marked) lines.children[line - 1]?.setAttribute("class", kind);
  lines.scrollTop = part("g-text").scrollTop;
}
export function markLines() { if (panel.box) showLines(); }

async function take() {
  const given = part("g-text").value;
  if (!given.trim()) {
    commit(EMPTY, {key: "text"});
    return;
  }
  const text = given.endsWith("\n") ? given : `${given}\n`, reply = await answer(["step", "0"], text, {lane: LANES.design});
  if (part("g-text").value !== given) return;
  panel.fault = Number(/^text: line (\d+) /.exec(reply.text)?.[1] ?? 0);
  part("g-textfault").textContent = circuitFault(reply);
  showLines();
  if (reply.status !== STATUS.done) return;
  const it = drawingOf(reply.text);
  if (it.bars.length > MOST_DRAWN) {
    part("g-textfault").textContent = `The editor draws at most ${MOST_DRAWN} elements.`;
    return;
  }
  pause();
  const isNew = isOther(it, desk.drawing);
  commit(placed(it, desk.drawing), {key: "text"});
  if (isNew) deskChanged("view");
}
// Known elements keep their positions, new ones are placed below; a different circuit gets a new layout.
/** @type {(it: Drawing, before?: Drawing) => Drawing} */
export function placed(it, before = EMPTY) {
  const count = it.bars.length, {at} = before;
  if (isOther(it, before)) return {...it, at: laidOut(it)};
  if (at.length >= count) return {...it, at: at.slice(0, count)};
  const left = Math.min(...at.map(one => one[0])), low = Math.max(...at.map(one => one[1])) + BOX + 4, wide = Math.max(4, Math.ceil(Math.sqrt(count)));
  const more = Array.from({length: count - at.length}, (_, k) => [left + k % wide * (BOX + 4), low + Math.floor(k / wide) * (BOX + 4)]);
  return {...it, at: [...at, ...more]};
}
// Whether a drawing is a different circuit: most of its elements or wires are new.
/** @type {(it: Drawing, before: Drawing) => boolean} */
function isOther(it, before) {
  const both = [...it.targets.keys()].filter(out => it.targets[out] >= 0 || before.targets[out] >= 0);
  const same = both.filter(out => it.targets[out] === before.targets[out]).length;
  return 2 * before.bars.length < it.bars.length || 2 * same < both.length;
}
