// Exercises about machines. Each has its words, where it is done, the fields to fill in, and a check that asks the
// program.
import {answer, STATUS} from "./answer.js";
import {state} from "./state.js";
import {ask, isNumber, isSame, judged, numberIn, plain, rowsOf, exampleTable} from "./task_tools.js";
import {matchOf, readRun, readTape} from "./texts.js";

const FORGETS = "P,0,/,/,1,0,0,R\nP,1,/,/,1,0,0,R\n",
  SUM = "q0,1,1,+,q0\nq0,0,1,+,q1\nq1,1,1,+,q1\nq1,_,_,-,q2\nq2,1,_,-,q3\n";
const HOMING = exampleTable("increment").replace("Home,1,1,-,Home", "Home,1,0,-,Home"),
  HERE = ["=1011", "0", "5", "11", "5"];
const REPAIRED = [["S1", "S,_,_,+,T\nT,_,_,+,T\nT,_,_,0,F\n"], ["S2", "S,a,_,+,T\nT,_,_,0,F\n"],
  ["S3", "S,_,_,+,T\nT,a,a,+,S\nT,_,_,0,F\n"],
                  ["S4", "S,_,_,+,T\nT,_,_,+,F\n"], ["S5", "S,_,_,+,T\nT,a,a,0,F\nT,_,_,0,F\n"]];
const LONGEST = 5;
// Machines that go so many cells on and halt: as many steps as rules.
const WALKS = [2, 3, 4, 5].map(steps => Array.from({length: steps}, (_, k) =>
  `Q${k},_,_,${k + 1 < steps ? "+" : "0"},Q${k + 1}\n`).join(""));

// Whether a table is another one with one field changed, or with one line taken out.
export function isOneChange(before, after) {
  const old = rowsOf(before), made = rowsOf(after);
  if (made.length === old.length - 1) return old.some((_, k) =>
    old.filter((_, j) => j !== k).join("\n") === made.join("\n"));
  if (made.length !== old.length) return false;
  const changed = old.flatMap((row, k) => row.split(",").map((it, j) => it !== made[k].split(",")[j]));
  return changed.filter(Boolean).length === 1
    && made.every((row, k) => row.split(",").length === old[k].split(",").length);
}
async function checkRepair(_, choice) {
  const reply = await answer(["check"], state.text), isChanged = isOneChange(REPAIRED[choice][1], state.text);
  const isRight = reply.status === STATUS.done && isChanged;
  return judged(isRight, "Right: the program says it is in standard form.",
                reply.status === STATUS.done ? "It is in standard form, but by more than one change." : "Not yet.",
                  reply.text);
}
async function checkForgets({rows}) {
  const said = await ask(["reversible"], rows + "\n"), made = rowsOf(rows).map(it => it.split(",")),
    old = rowsOf(FORGETS).map(it => it.split(","));
  const isAlike = made.length === 2
    && made.every((row, k) => [0, 1, 4, 7].every(place => row[place] === old[k][place]));
  return judged(said === "deterministic yes\nreversible yes\n" && isAlike, "Right. What was read stands on tape 2.",
                isAlike ? "Not yet: what tells the two apart afterwards?"
                  : "State, tape 1 and next state are to stay as they are.", said);
}
async function checkErasing({rows}) {
  const said = await ask(["reversible"], rows + "\n"), made = rowsOf(rows).map(it => it.split(","));
  const isErasing = made.length === 2 && made.every(row => row.length === 8 && row[5] === "_")
    && isSame(made.map(row => row[2]).sort().join(" "), "1 2");
  return judged(isErasing && said === "deterministic yes\nreversible no 1 2\n",
                "Right, and so it can't be done: nobody can tell afterwards whether a 1 or a 2 stood there. After " +
                  "the retracing there is no output left to copy.",
                isErasing ? "They erase; do both go on in the same state, so that one path follows?"
                  : "Wanted are two rows which read a 1 or a 2 on tape 2 and write a blank there.", said);
}
async function checkCounts(values) {
  const [own, ran, least, leastRun] = await Promise.all([ask(["machine", "=111", "100"], exampleTable("increment")),
    ask(["run", "=111", "auto"], exampleTable("increment")),
                                                         ask(["machine", "=", "100"], exampleTable("least")),
                                                           ask(["run", "=", "auto"], exampleTable("least"))]);
  const isFirst = isNumber(values.steps, numberIn("halted", own)), letters = readRun(leastRun).output?.length ?? 0;
  const isSecond = isNumber(values.i, numberIn("halted", least)) && isNumber(values.letters, letters);
  const counts = await countsOfSome(), can = counts.includes(15) ? "yes" : "no";
  const wrong = [[isFirst, "1"], [isSecond, "2"], [isSame(values.can, can), "3"]].filter(([it]) => !it).map(it =>
    it[1]);
  const told = `${[ran, leastRun].map(it => matchOf(/quadruple steps \d+/, it)[0]).join("\n")}\n${counts.length} other runs: ${counts.join(" ")}`;
  return judged(!wrong.length, "Right. The least machine is the one of 13 steps. Of no run that the program made are there 15: 15 − 5 is no multiple of 4.",
    `Not yet: part ${wrong.join(", part ")}.`, wrong.length ? "" : told);
}
// How many steps the reversible machines of some small machines take, as the program says.
async function countsOfSome() {
  const runs = [...WALKS.map(table => [table, ""]), ...["", "0", "1"].map(word => [exampleTable("increment"), word])];
  const counts = await Promise.all(runs.map(async ([table, word]) => readRun(await ask(["run", "=" + word, "auto"], table)).quadruples));
  return [...new Set(counts.map(it => it ?? 0))].sort((a, b) => a - b);
}
async function checkElements(values) {
  const run = async window => numberIn("elements", await ask(["run", "=", ...window], exampleTable("least")));
  const [small, larger] = [await run(["0", "2", "2", "1"]), await run(["0", "2", "3", "1"])],
    most = Number(plain(values.most));
  const refused = Number.isInteger(most) && most > 0 && most < 1048576
    ? await ask(["run", "=", "0", "2", String(most + 1), "1"], exampleTable("least")) : "";
  const beyond = Number(/^size: elements (\d+)/.exec(refused)?.[1]), greatest = 4194304;
  const whole = numberIn("elements", await ask(["run", "=111", "1", "4", "10", "5"], exampleTable("increment")));
  const parts = [isNumber(values.small, small), isNumber(values.more, larger - small), beyond > greatest
    && beyond - (larger - small) <= greatest, isNumber(values.whole, whole)];
  const wrong = parts.flatMap((it, k) => it ? [] : [k + 1]);
  return judged(!wrong.length, "Right, all four.",
    `Not yet: part ${wrong.join(", part ")}. A bank of n columns of k rows has n(k + 1) elements.`, refused);
}
async function checkLeastWindow(values) {
  const window = ["l", "r", "n", "o"].map(key => Number(plain(values[key]))), lines = [];
  const exitOf = async it =>
    /^exit (.*)$/m.exec(await ask(["run", "=111", ...it], exampleTable("increment")))?.[1] ?? "refused";
  const exit = await exitOf(window);
  let isLeast = exit === "end";
  for (let k = 0; k < 4; k++) {
    const less = window.map((it, j) => it - (j === k ? 1 : 0));
    const other = less[k] < 0 ? "none: it is 0" : await exitOf(less);
    isLeast &&= other !== "end";
    lines.push(`${less.join(" ")}: ${other}`);
  }
  return judged(isLeast, "Right. With one cell less the signal leaves by that end.", exit === "end"
    ? "It comes to its end, but less is enough." : `In this window: ${exit}.`,
                `${window.join(" ")}: ${exit}\n${exit === "end" ? lines.join("\n") : ""}`);
}
async function checkBook(values) {
  const standard = await ask(["standard"], SUM), check = await ask(["check"], standard),
    ran = await ask(["machine", "=11011", "100"], standard);
  const stays = await ask(["standard"], SUM.replace("q2,1,_,-,q3", "q2,1,_,0,q3")),
    output = matchOf(/output =(.*)/, await ask(["machine", "=11011", "100"], stays))[1];
  const isOutput = isSame(values.output, output) || output === "" && isSame(values.output, "none");
  const isRight = isNumber(values.rules, Number(matchOf(/quintuples (\d+)/, check)[1]))
    && isNumber(values.steps, numberIn("halted", ran)) && isOutput;
  return judged(isRight, "Right. A head that halts behind its word has nothing at its right.",
    "Not yet. Turn the table, let it start on the first letter, and run it.");
}
async function checkView(values) {
  const view = rowsOf(await ask(["view", ...HERE, "2000000"], exampleTable("increment"))),
    tapes = view.slice(3, 6).map(readTape);
  const [, history, output] = tapes, symbol = cell => history.symbols[cell - history.first],
    last = symbol(history.head);
  const later = readTape(rowsOf(await ask(["view", ...HERE, "2060000"], exampleTable("increment")))[3]);
  const wordOn = tape => tape.symbols.filter(it => it !== "_").join("");
  const isRight = isSame(values.output, wordOn(output)) && isSame(values.rules, [6, 7, 8].map(symbol).join(" "))
    && isNumber(values.next, Number(last)) && isSame(values.then, wordOn(later));
  return judged(isRight, "Right. What is left is to take eight steps back.",
    "Not yet. The history tells which rules were used, and its last number is taken back next.", view.join("\n"));
}
async function checkFault(values) {
  const rule = Number(plain(values.rule)), row = plain(values.row).replace(/ /g, ","), rules = rowsOf(HOMING);
  const script = `break copy state B1'\ngo 10000000\nview\nbreak rule state A${rule || 1}'\nrev 10000000\nview\n`;
  const said = rowsOf(await ask(["session", ...HERE], `${HOMING}%\n${script}`)),
    made = /quintuple (\d+) step (\d+)$/.exec(said.at(-1) ?? "");
  const repaired = rules.map((it, k) => k + 1 === rule ? row : it).join("\n") + "\n";
  const outputOf = async table => /output =(.*)/.exec(await ask(["machine", "=1011", "100"], table))?.[1];
  const isRepaired = await outputOf(repaired) === await outputOf(exampleTable("increment"));
  const isRight = made && Number(made[1]) === rule && isNumber(values.step, Number(made[2])) && isRepaired;
  return judged(isRight, "Right. Each step is undone by a step back, so nothing is run again.",
                "Not yet. Break where cell 1 changes, and run back from the end of the computing.",
                  said.slice(-7).join("\n"));
}
async function checkLongest(values) {
  const words = Array.from({length: 2 ** LONGEST}, (_, k) => k.toString(2).padStart(LONGEST, "0"));
  const steps = await Promise.all(words.map(async it => numberIn("halted", await ask(["machine", "=" + it, "1000"],
    exampleTable("increment")))));
  const most = Math.max(...steps), longest = words.filter((_, k) => steps[k] === most),
    ran = readRun(await ask(["run", "=" + longest[0], "auto"], exampleTable("increment")));
  const isRight = longest.length === 1 && isSame(values.word, longest[0]) && isNumber(values.steps, most)
    && isNumber(values.quadruples, ran.quadruples);
  return judged(isRight, `Right. All ${words.length} words were tried: no other takes ${most}.`,
    "Not yet. Which word carries farthest?");
}

export const MACHINE_TASKS = [
  {number: 3, title: "Five tables to repair",
    choices: REPAIRED.map(([title, table]) => ({title: `The table that fails ${title}`, machine: {table, word: ""}})),
   ask: ["Each of these tables fails one demand of standard form; below the table stands which. Repair it by a " +
     "change of one field, or by taking out one line."],
   fields: [], check: checkRepair},
  {number: 4, title: "A pair that forgets",
   ask: ["These two rows, written as those of Bennett's table, set a bit on tape 1. What is lost? Make the pair reversible: it shall do the same on " +
     "tape 1, and leave on tape 2 what is needed.",
         "A field for a tape that isn't read is /, and the field for its writing is then + − or 0."],
   fields: [{key: "rows", label: "the two rows", rows: 3, value: FORGETS}], check: checkForgets},
  {number: 5, title: "Why not erase the history?", machine: {key: "increment", word: "1011"},
   ask: ["After the copying the history is still full. Why doesn't Bennett's machine go back over it and write a " +
     "blank into each cell?",
         "Write two rows that do so for a history with the numbers 1 and 2, and let the program test them: " +
           "from state E to state F, as E,/,1,/,… And why does the copy come before the retracing?"],
   fields: [{key: "rows", label: "two rows", rows: 3}], check: checkErasing},
  {number: 6, title: "Steps and letters", machine: {key: "increment", word: "111"},
   ask: ["Where a machine halts after i steps with an output of L letters, its reversible machine takes 4i + 4L + 5 " +
     "steps.",
         "1. On 111 the reversible machine takes 61, with the output 1000. How many does the machine take? 2. " +
           "Another one in standard form takes 13: what are i and L? 3. Can one take 15, yes or no?"],
   fields: [["steps", "1: steps", 4], ["i", "2: i", 3], ["letters", "2: L", 3],
     ["can", "3: 15?", 4]].map(([key, label, size]) => ({key, label, size})), check: checkCounts},
  {number: 10, title: "Count the elements", machine: {key: "least", word: "", window: [0, 2, 2, 1]},
   ask: ["A bank of n columns of k rows has n(k + 1) elements. A cell for z symbols has 2z columns and 2z + 8 rows; " +
     "tape 2 has the blank and a symbol for each rule.",
         "1. The least machine's control has 54 columns and 15 rows: how many elements has its board in the window 0 " +
           "2 2 1? 2. How many more for each further cell of the history? 3. The greatest n for which 0 2 n 1 isn't " +
             "refused? 4. The control of Add one has 174 columns and 27 rows: its board in the window 1 4 10 5?"],
   fields: [["small", "1", 6], ["more", "2", 5], ["most", "3", 8], ["whole", "4", 7]].map(([key, label, size]) =>
     ({key, label, size})), check: checkElements},
  {number: 11, title: "The least window", machine: {key: "increment", word: "111"},
   ask: ["On 111 the machine Add one halts after 10 steps with 1000. Find the least window in which the run comes to " +
     "its end: cells of the work tape to the left and to the right, of the history and of the output. By which end " +
       "does the signal leave when one of them is less by one?"],
   fields: [["l", "left", 3], ["r", "right", 3], ["n", "history", 3], ["o", "output", 3]].map(([key, label, size]) =>
     ({key, label, size})), check: checkLeastWindow},
  {number: 13, title: "A table from a textbook", machine: {key: "sum", word: "11011"},
   ask: ["A textbook adds two numbers in unary so. Let the page turn the table, and let it start on the first " +
     "letter. How many rules does it have in standard form, and how many steps does it take on 11011?",
         "In the last line, let the head stay where it is. What is the output now? Leave the field empty for none."],
   fields: [["rules", "rules", 3], ["steps", "steps", 4], ["output", "output then", 6]].map(([key, label, size]) =>
     ({key, label, size})), check: checkBook},
  {number: 14, title: "Read a view", machine: {key: "increment", word: "1011", window: [0, 5, 11, 5], e: 2000000},
   ask: ["The machine Add one on 1011, after two million element steps. What has been computed by now, and what is " +
     "still to be done? Which output stands on tape 3? By which rules were steps 6, 7 and 8 made?",
         "Which rule's step is taken back next, and what word stands on tape 1 then?"],
   fields: [["output", "output", 6], ["rules", "steps 6 7 8", 6], ["next", "next", 3],
     ["then", "tape 1 then", 6]].map(([key, label, size]) => ({key, label, size})), check: checkView},
  {number: 15, title: "Find a fault from behind", machine: {table: HOMING, word: "1011"},
   ask: ["This machine should add one, and makes 0100 of 1011. Go to the end of the computing; click the cell with " +
     "the wrong digit, break where it changes, and run back.",
         "At which step was it written, by which rule, and what should that rule be? Why is no second run " +
           "needed?"],
   fields: [["step", "step", 3], ["rule", "rule", 3], ["row", "it should be", 15]].map(([key, label, size]) =>
     ({key, label, size})), check: checkFault},
  {number: 17, title: "The longest run", machine: {key: "increment", word: "01111"},
   ask: [`Among the words of ${LONGEST} letters, on which does Add one take longest? `
     + "How many steps does it make there, and how many does its reversible machine make?"],
   fields: [["word", "word", 8], ["steps", "steps", 4], ["quadruples", "reversible", 5]].map(([key, label, size]) =>
     ({key, label, size})), check: checkLongest},
];
