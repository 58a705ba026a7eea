"""The exercises of the page: that each of docs/learn/exercises.md is there, and that what is filled in is judged rightly."""
import json
import re

from counting import text_of
from shown import PAGE

INCREMENT = ("examples", "increment.csv")
# What an element does, by the program: the rows of exercise 1 are made of it.
CASES = [(bar, side) for bar in "HV" for side in "nesw"]
FILL = """(async () => {
  bench.beginTask(%d);
  await bench.inTurn(() => {});
  const given = %s;
  if (given.choice !== undefined) {
    const list = document.getElementById("taskchoice");
    list.value = given.choice;
    list.dispatchEvent(new Event("change"));
  }
  if (given.table !== undefined) {
    const it = document.getElementById("table");
    it.value = given.table;
    it.dispatchEvent(new Event("input"));
  }
  for (const [key, value] of Object.entries(given.fields ?? {})) document.getElementById("task-" + key).value = value;
  document.getElementById("taskcheck").click();
  await bench.inTurn(() => {});
  const said = document.getElementById("tasksaid");
  return {kind: said.className, words: said.textContent, head: document.querySelector("#sheet h2").textContent,
          seen: document.getElementById("sheet").getBoundingClientRect().height > 0};
})()"""


def after(program, words, data, place, sign=" "):
    """A word of an answer's first line."""
    return program.text(words, data).splitlines()[0].split(sign)[place]


def rows_of_element(program):
    """The line out and the bar after, for each bar and line in."""
    found = {}
    for bar, side in CASES:
        text = f"rotary 1\nelements 1\nstart 0.{side}\nend 0.{side}\nsteps 0\nat 0.{side}\ne 0 {bar} - - - -\n"
        lines = program.text(["step", "1"], text).splitlines()
        found[bar + side] = f"{lines[5][-1]} {lines[6].split()[2]}"
    return found


def undone(program):
    given, found = text_of("examples", "undo.txt"), {}
    for back in (1, 2, 3):
        lines = program.text(["back", str(back)], given).splitlines()
        found[f"after{3 - back}"] = " ".join([lines[5].split()[1]] + [line.split()[2] for line in lines[6:]])
    return found


def reading(program, table):
    """Through how many cells the signal goes from step 6540 on, and at which step it comes in at the control."""
    script = "step 6540\n" + "view\nstep 1\n" * 600
    lines = program.text(["session", "=", "0", "2", "2", "1"], f"{table}%\n{script}").splitlines()
    cells = 0
    for place, module in zip(lines, lines[1:]):
        if module.startswith("module tape ") and " line " in module:
            cells += 1
        if module.startswith("module control line "):
            return cells, int(place.split()[-1])
    return None


def filled(**fields):
    return {"fields": fields}


def changed(right, **fields):
    """The same with some fields filled in otherwise."""
    return filled(**{**right["fields"], **fields})


def circuit_answers(program):
    """Of the exercises about circuits: what is right, by the program, and what is wrong."""
    least, right = text_of("examples", "least.csv"), filled(**undone(program))
    yield 1, filled(**rows_of_element(program)), filled(Hn="s V")
    yield 2, right, changed(right, after1="0.e V H")
    yield 7, filled(steps="4", turned="0, 2", ended="0"), filled(steps="4", turned="0 2", ended="2")
    bank = program.text(["realise", "2", "2"], text_of("examples", "two-moves.csv"))
    steps = program.text(["step", "1000"], bank).splitlines()[4].split()[1]
    yield 8, filled(steps=steps), filled(steps=str(int(steps) + 2))
    cells, steps = reading(program, least)
    yield 9, filled(cells=str(cells), steps=str(steps)), filled(cells=str(cells), steps="6722")
    yield 9, filled(cells=str(cells), steps=str(steps)), filled(cells=str(cells - 1), steps=str(steps))
    yield 12, {}, None
    mirror = program.text(["step", "3"], program.text(["mirror"], text_of("examples", "undo.txt"))).splitlines()
    right = filled(place=mirror[5].split()[1], bars=" ".join(line.split()[2] for line in mirror[6:]))
    yield 16, right, changed(right, bars="H H")


def table_answers(program):
    """The same of those about tables."""
    least, stays = "S,_,_,+,T\nT,_,_,0,F\n", "S,_,_,+,T\nT,a,a,0,T\nT,_,_,0,F\n"
    goes = stays.replace("T,a,a,0,T", "T,a,a,+,T")
    for k, table in enumerate((least, least, goes, least, stays)):
        yield 3, {"choice": k, "table": table}, {"choice": k, "table": text_of("examples", "refused", f"s{k + 1}.csv")}
    yield 3, {"choice": 2, "table": least}, {"choice": 3, "table": goes}
    yield 4, filled(rows="P,0,_,/,1,0,0,R\nP,1,_,/,1,1,0,R\n"), filled(rows=text_of("examples", "forgets.csv"))
    erasing = "E,/,1,/,0,_,0,F\nE,/,2,/,0,_,0,F"
    yield 5, filled(rows=erasing), filled(rows=erasing[:-1] + "G")
    book = program.text(["standard"], text_of("examples", "sum.csv"))
    right = filled(
        rules=program.text(["check"], book).split()[-1],
        output="",
        steps=after(program, ["machine", "=11011", "100"], book, 1),
    )
    yield 13, right, changed(right, steps="7")
    right = filled(step="10", rule="9", row="Home,1,1,-,Home")
    yield 15, right, changed(right, step="9", rule="6", row="Add,0,1,-,Home")


def run_answers(program):
    """The same of those about runs."""
    increment, least = text_of(*INCREMENT), text_of("examples", "least.csv")
    elements = [int(program.text(["run", "=", "0", "2", cells, "1"], least).split()[1]) for cells in ("2", "3")]
    whole = program.text(["run", "=111", "1", "4", "10", "5"], increment).split()[1]
    halted = after(program, ["machine", "=111", "100"], increment, 1)
    walks = [
        "".join(f"W{k},_,_,{'+' if k < steps else '0'},W{k + 1}\n" for k in range(1, steps + 1)) for steps in (2, 3, 4)
    ]
    counts = {re.search(r"quadruple steps (\d+)", program.text(["run", "=", "auto"], table))[1] for table in walks}
    right = filled(steps=halted, i="2", letters="0", can="yes" if "15" in counts else "no")
    yield 6, right, changed(right, i="1", letters="1")
    yield 6, right, changed(right, can="yes")
    right = filled(small=str(elements[0]), more=str(elements[1] - elements[0]), most="46591", whole=whole)
    yield 10, right, changed(right, most="46592")
    right = filled(l="1", r="4", n=halted, o="5")
    yield 11, right, changed(right, r="5")
    view = program.text(["view", "=1011", "0", "5", "11", "5", "2000000"], increment).splitlines()
    history, output = view[4].split(":")[1].split(), view[5].split(":")[1].replace("_", "").replace(" ", "")
    right = filled(output=output, rules=" ".join(history[6:9]), next=history[8], then="1010")
    yield 14, right, changed(right, then="1000")
    steps = after(program, ["machine", "=11111", "100"], increment, 1)
    quadruples = re.search(r"quadruple steps (\d+)", program.text(["run", "=11111", "auto"], increment))[1]
    right = filled(word="11111", steps=steps, quadruples=quadruples)
    yield 17, right, changed(right, word="01111")


def answers(program):
    for some in (circuit_answers, table_answers, run_answers):
        yield from some(program)


def check_links(page, count):
    """The links of the documents into the page: each leads to its exercise, or to a run. A class has one for each exercise."""
    rows = re.findall(
        r"^\| \d+ to \d+ \| .* \| ([\d, ]+) \| (.*) \|$", text_of("docs", "learn", "exercises.md"), flags=re.M
    )
    for numbers, cell in rows:
        lacking = [it for it in numbers.split(", ") if f"page/hithwelor.html#x={it})" not in cell]
        count.hold(not lacking, f"docs/learn/exercises.md, a class: no link to {lacking}")
    count.hold(len(rows) == 7, f"docs/learn/exercises.md: a class of {len(rows)} rows")
    links = {
        it
        for name in ("exercises", "tutorial", "tutorial-circuits", "gallery")
        for it in re.findall(r"page/hithwelor\.html(#[^)`\s]+)\)", text_of("docs", "learn", f"{name}.md"))
    }
    for link in sorted(links):
        page.visit(
            f"file://{PAGE}{link}",
            *(["Boolean(document.querySelector('#sheet h2')?.textContent)"] if link.startswith("#x=") else []),
        )
        head, e, wanted = page.ask(
            "[document.querySelector('#sheet h2')?.textContent ?? '', bench.state.e, new URLSearchParams(location.hash.slice(1)).get('e') ?? '0']"
        )
        is_there = head.startswith(f"Exercise {link[3:]} ") if link.startswith("#x=") else str(e) == wanted
        count.hold(is_there and not page.faults(), f"the link {link} leads to {head!r}, step {e}, {page.faults()}")


def check_tasks(page, program, count):
    page.visit(f"file://{PAGE}#m=least")
    heads = re.findall(r"^## (\d+) (.*?)(?: \(section \d+\))?$", text_of("docs", "learn", "exercises.md"), flags=re.M)
    page.ask("document.getElementById('tasks').click(); 0")
    listed = page.ask("[...document.querySelectorAll('.tasks li b')].map(it => it.textContent)")
    count.hold(
        listed == [title for _, title in heads],
        f"the page lists the exercises {listed}, and docs/learn/exercises.md {heads}",
    )
    page.ask("document.getElementById('dialog').close(); 0")
    for number, right, wrong in answers(program):
        given = page.wait(FILL % (number, json.dumps(right)))
        title = dict(heads)[str(number)]
        count.hold(
            given["kind"] == "right" and given["seen"] and given["head"] == f"Exercise {number} · {title}",
            f"exercise {number}: {json.dumps(right)[:90]} is said to be {given}",
        )
        if wrong is not None:
            given = page.wait(FILL % (number, json.dumps(wrong)))
            count.hold(
                given["kind"] == "fault" and given["words"],
                f"exercise {number}: the wrong {json.dumps(wrong)[:90]} is said to be {given}",
            )
    count.hold(not page.faults(), f"the exercises: {page.faults()}")
    check_links(page, count)
    for number in (1, 6, 14):
        page.visit(f"file://{PAGE}#x={number}")
        shown = page.ask("document.querySelector('#sheet h2')?.textContent ?? ''")
        count.hold(shown.startswith(f"Exercise {number} "), f"the link of exercise {number} shows {shown!r}")
    e, window = page.ask("[bench.state.e, bench.current.run.window.join(' ')]")
    count.hold(e == 2000000 and window == "0 5 11 5", f"exercise 14 begins at step {e} in the window {window}")
