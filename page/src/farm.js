// Two boards under a schedule: after so many events of it the boards are what `farm` answers to its front, and behind
// them stands the schedule that undoes those events, which can be gone on with.
import {answer, STATUS} from "./answer.js";
import {circuitFault} from "./circuits.js";
import {Stepper} from "./stepper.js";
import {escaped, partOf} from "./state.js";
import {inTurn} from "./turns.js";

const FARM_REST = 300, MOST_EVENTS = 1000;
const BOARDS = ["rotary 2\nelements 6\nstart 0.w\nend 4.e\nsteps 0\nat 0.w\nc 0 2 H\nr 3.w 4.e\nr 4.w -\nc 3 2 V\nr " +
  "- -\nr - 0.e\n",
                "rotary 1\nelements 1\nstart 0.e\nend 0.w\nsteps 0\nat 0.n\ne 0 V - - 0.n -\n"];
const SCHEDULE = "+ 1 5\n+ 2 3\n+ 1 10\n- 2 1\n";
const FARM_PAGE = `<div class="e-left">
    <label for="f-0">Circuit 1</label><textarea id="f-0" spellcheck="false"></textarea>
    <label for="f-1">Circuit 2</label><textarea id="f-1" spellcheck="false"></textarea>
    <label for="f-schedule">Schedule, one line an entry: + or -, the circuit, how many events</label><textarea id="f-schedule"
    spellcheck="false"></textarea>
    <p id="f-fault" class="e-fault" role="status"></p></div>
  <div class="e-right two">
    <figure><figcaption>Board 1</figcaption><div id="f-room0" class="e-picture"></div><p id="f-place0"
    class="e-place"></p></figure>
    <figure><figcaption>Board 2</figcaption><div id="f-room1" class="e-picture"></div><p id="f-place1"
    class="e-place"></p></figure>
    <div class="f-lists"><div><h3>Schedule</h3><ol id="f-lines"></ol></div><div><h3>Undo schedule</h3><ol
    id="f-undoing"></ol></div></div>
    <div class="e-foot"><button id="f-first">To the start</button><button id="f-back">◂ Event</button>
      <button id="f-forth" class="main">Event ▸</button><button id="f-line">Line ▸</button>
      <button id="f-undo">Run the undo schedule</button></div>
    <p id="f-said" class="e-said" role="status"></p></div>`;

// The boards that the schedule begins with, its lines, how many events of it are made, and the first boards of all.
/** @typedef {{line: string, sign: string, board: string, count: number}} Line */
/** @type {{box: HTMLElement | null, boards: string[], lines: Line[], at: number, first: string | null, steppers: Stepper[],
 *   text: string, input: string}} */
const farm = {box: null, boards: [], lines: [], at: 0, first: null, steppers: [], text: "", input: ""};
const farmPart = id => partOf(farm.box ?? document.body, id);
const ended = text => text === "" || text.endsWith("\n") ? text : text + "\n";
const totalOf = lines => lines.reduce((sum, it) => sum + it.count, 0);

function readSchedule(text) {
  return text.split("\n").filter(Boolean).map(line => {
    const [sign, board, count] = line.split(" ");
    return {line, sign, board, count: Number(count)};
  });
}
// The front of the schedule with so many events.
function frontOf(lines, events) {
  let left = events, text = "";
  for (const it of lines) {
    const made = Math.min(left, it.count);
    if (made > 0) text += `${it.sign} ${it.board} ${made}\n`;
    left -= made;
  }
  return text;
}
const farmText = (boards, schedule) => boards.map(it => `${it}%\n`).join("") + schedule;

// What was typed becomes the farm, where the program takes it.
async function takeFarm() {
  const boards = [0, 1].map(k => ended(farmPart(`f-${k}`).value)), schedule = ended(farmPart("f-schedule").value);
  const reply = await answer(["farm"], farmText(boards, schedule));
  const lines = readSchedule(schedule), isLong = reply.status === STATUS.done && totalOf(lines) > MOST_EVENTS;
  farmPart("f-fault").textContent = isLong ? `At most ${MOST_EVENTS} events are shown here.` : circuitFault(reply);
  if (reply.status !== STATUS.done || isLong) return;
  Object.assign(farm, {boards, lines, at: 0, first: boards.join("%\n")});
  farm.steppers.forEach((it, k) => it.take(boards[k]));
  await showFarm();
}
// The boards after so many events, as `farm` answers them.
async function showFarm() {
  farm.input = farmText(farm.boards, frontOf(farm.lines, farm.at));
  const reply = await answer(["farm"], farm.input), parts = reply.text.split("%\n"), undoing = parts.pop() ?? "";
  if (reply.status !== STATUS.done) return;
  farm.text = reply.text;
  farm.steppers.forEach((it, k) => it.show(parts[k]));
  let before = 0;
  const items = farm.lines.map(it => {
    const made = Math.max(0, Math.min(it.count, farm.at - before)), isNow = farm.at > before && farm.at <= before
      + it.count;
    before += it.count;
    return `<li class="${isNow ? "now" : ""}"${isNow ? ' aria-current="step"' : ""}><code>${escaped(it.line)}</code>
        <span class="quiet">${made ? `${made} made` : ""}</span></li>`;
  });
  farmPart("f-lines").innerHTML = items.join("");
  farmPart("f-undoing").innerHTML =
    readSchedule(undoing).map(it => `<li><code>${escaped(it.line)}</code></li>`).join("")
      || '<li class="quiet">nothing yet</li>';
  farmPart("f-undo").disabled = undoing === "";
  const isFirst = parts.join("%\n") === farm.first, total = totalOf(farm.lines);
  farmPart("f-said").textContent = `Event ${farm.at} of ${total}. `
    + (isFirst ? "The circuits are the first ones, byte for byte."
    : "An event of one circuit does not change the other.");
}
const goFarm = where => inTurn(async () => {
  farm.at = Math.max(0, Math.min(totalOf(farm.lines), where()));
  await showFarm();
});
// The end of the line that is at work, or of the next one.
function nextLine() {
  let sum = 0;
  for (const it of farm.lines) {
    sum += it.count;
    if (sum > farm.at) break;
  }
  return sum;
}
// The answer is a farm again: its boards, under the schedule that undoes.
async function turnRound() {
  const parts = farm.text.split("%\n"), lines = readSchedule(parts.pop() ?? "");
  Object.assign(farm, {boards: parts, lines, at: 0});
  await showFarm();
}

export const farmPage = {
  key: "farm", title: "Two circuits",
  make(box) {
    farm.box = box;
    box.innerHTML = FARM_PAGE;
    farm.steppers = [0, 1].map(k => new Stepper(farmPart(`f-room${k}`), farmPart(`f-place${k}`)));
    let later = 0;
    [...BOARDS, SCHEDULE].forEach((text, k) => {
      const field = farmPart(["f-0", "f-1", "f-schedule"][k]);
      field.value = text;
      field.oninput = () => { clearTimeout(later); later = setTimeout(() => inTurn(takeFarm), FARM_REST); };
    });
    farmPart("f-first").onclick = () => inTurn(takeFarm);
    farmPart("f-back").onclick = () => goFarm(() => farm.at - 1);
    farmPart("f-forth").onclick = () => goFarm(() => farm.at + 1);
    farmPart("f-line").onclick = () => goFarm(nextLine);
    farmPart("f-undo").onclick = () => inTurn(turnRound);
    inTurn(takeFarm);
  },
  open() { for (const it of farm.steppers) it.draw(); },
  close() {},
  keys: {ArrowRight: () => goFarm(() => farm.at + 1), ArrowLeft: () => goFarm(() => farm.at - 1),
    Home: () => inTurn(takeFarm)},
  farm,
  calls: () => [{words: ["farm"], input: farm.input, what: "the circuits, and the schedule so far"}],
};
