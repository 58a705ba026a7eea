"""What the page shows of a run, at drawn steps, with what the program says there."""
import functools

from shown import PAGE
from workbench_text import read_configuration, read_tape

# The machines of the page that are looked at, and how many steps of each besides the first ones and the last.
MACHINES = [
    ("#m=increment", 5),
    ("#m=complement&w=0110", 4),
    ("#m=palindrome&w=ab", 3),
    ("#m=least", 3),
    ("#t=S,_,_,%2B,T%0AT,_,1,%2B,T%0AT,1,1,%2B,T%0AU,_,_,0,F%0A&w=1", 3),
    ("#t=S,_,_,%2B,Go%0AGo,0,0,%2B,Go%0AGo,_,1,-,Add%0AAdd,1,0,-,Add%0AAdd,_,_,0,Halt%0A&w=0", 3),
]
# One that runs on.
RUNS_ON = "#t=S,_,_,%2B,T%0AT,_,1,%2B,T%0AT,1,1,%2B,T%0AU,_,_,0,F%0A&w=1"
SHOWN = """(async () => {
  const e = %d, {current, goTo, lineInto, lineSaid, moduleWith, placeName, render} = bench, run = current.run, {layout} = run;
  await run.ready(e); goTo(e); await run.ready(e); render(false);
  const at = run.placeAt(e), bank = moduleWith(layout, at.place >> 2), row = at.hasLeft ? -1 : lineInto(layout, at.place);
  const m = run.moments[run.momentIndex(e)], name = bank.kind === "control" ? "control" : `tape ${bank.tape} cell ${bank.cell}`;
  const cells = svg => [...svg.querySelectorAll("g[data-cell]")].map(g =>
    [Number(g.dataset.cell), g.querySelector(".symbol").textContent.replace("·", "_")]);
  return {
    element: `element ${at.hasLeft ? "left" : "at"} ${placeName(at.place)} steps ${e}`,
    module: at.hasLeft ? "exit " + run.outcome.exit : `module ${name}${row >= 0 ? " line " + lineSaid(layout, bank, row).name : " inside"}`,
    quadruple: "quadruple " + m.name, tapes: [...document.querySelectorAll("#three svg")].map(cells),
    machine: `machine ${m.stage} ${m.state !== null ? "state " + m.state : "quintuple " + m.rule} step ${m.step}`,
    marked: [...document.querySelectorAll("#quadruples tr.now td")].map(it => it.textContent),
    base: bank.base, bars: [...run.bankBars(bank, e)].map(bar => bar ? "H" : "V").join(""),
  };
})()"""


def next_quadruple(table, view):
    """The quadruple that is made next behind a view, as its number, its state and the next one; or nothing."""
    tapes = [read_tape(line, number, "view") for number, line in enumerate(view[3:6], 1)]
    for number, row in enumerate((line.split(",") for line in table.splitlines()), 1):
        holds = [
            it == "/" or tape.head is not None and it == tape.symbols[tape.head - tape.first]
            for it, tape in zip(row[1:4], tapes)
        ]
        if f"quadruple {row[0]}" == view[2] and all(holds):
            return [str(number), row[0], row[7]]
    return []


@functools.lru_cache(maxsize=2)
def bars_of(text):
    """The bars of a configuration text, one letter each."""
    return "".join(read_configuration(text).bars)


def faults_at(page, program, table, words, compiled, e, script=SHOWN):
    """What the page shows at a step otherwise than the program says."""
    shown = page.wait(script % e)
    view = program.text(["view", *words, str(e)], table).splitlines()
    bars = bars_of(program.text(["step", str(e)], compiled))
    faults = [
        f"{shown[name]!r}, and not {line!r}"
        for name, line in (("element", view[0]), ("module", view[1]), ("quadruple", view[2]), ("machine", view[6]))
        if shown[name] != line
    ]
    if bars[shown["base"] : shown["base"] + len(shown["bars"])] != shown["bars"]:
        faults.append(f"the bars of the module from element {shown['base']} on")
    marked, right = shown["marked"], next_quadruple(program.text(["bennett"], table), view)
    if [*marked[:2], *marked[5:]] != right:
        faults.append(f"the quadruple {marked}, and not {right}")
    for number, (cells, line) in enumerate(zip(shown["tapes"], view[3:6]), 1):
        tape = read_tape(line, number, "view")
        if not cells or any(tape.symbols[cell - tape.first] != symbol for cell, symbol in cells):
            faults.append(f"{cells} on tape {number}, and not {line!r}")
    return faults


def check_machine(page, program, fragment, more, draw, count):
    """What the page shows of a machine."""
    page.visit(f"file://{PAGE}{fragment}")
    table, words, end = (
        page.ask("bench.current.run.table"),
        page.ask("bench.current.run.words"),
        page.ask("bench.current.run.end"),
    )
    compiled = program.text(["compile", *words], table)
    page.ask("document.getElementById('tab-table').click(); 0")
    for e in [0, 1, end - 1, end] + [draw.randrange(end + 1) for _ in range(more)]:
        faults = faults_at(page, program, table, words, compiled, e)
        count.hold(not faults, f"{fragment[:30]}, step {e} of {end}: the page shows {'; '.join(faults)}")
    page.wait(
        "(async () => { const {goTo, state, step} = bench; state.layer = 'quadruple'; goTo(0);"
        " for (let k = 0; k < 5; k++) await step(1); for (let k = 0; k < 5; k++) await step(-1); })()"
    )
    count.hold(
        page.ask("bench.state.e") == 0, f"{fragment[:30]}: five quadruples there and back don't lead to the start"
    )
    count.hold(not page.faults(), f"{fragment[:30]}: {page.faults()}")


def check_windows(page, program, count):
    """The window is the one that the program finds; one in a link stays; of a machine that runs on some steps are shown."""
    for fragment in ("#m=increment", "#m=palindrome&w=ab", "#m=complement", "#m=least", "#m=increment&win=0 5 11 5"):
        page.visit(f"file://{PAGE}{fragment}")
        window, word, table, end, elements = page.ask(
            "(({window, word, table, end, circuit}) => [window, word, table, end, circuit.count])(bench.current.run)"
        )
        words = [str(it) for it in window] if "win=" in fragment else ["auto"]
        said = program.text(["run", "=" + word, *words], table).splitlines()
        right = [] if "win=" in fragment else ["window " + " ".join(str(it) for it in window)]
        right += [f"elements {elements}", f"steps {end}"]
        count.hold(
            all(line in said for line in right) and ("win=" not in fragment or words == ["0", "5", "11", "5"]),
            f"{fragment}: the page has {right}, and the program says {said[:4]}",
        )
    page.visit(f"file://{PAGE}{RUNS_ON}")
    word, table, found = page.ask("[bench.current.run.word, bench.current.run.table, bench.current.found.own.outcome]")
    count.hold(
        found == "running" and program.text(["machine", "=" + word, "100000"], table) == "running 100000\n",
        f"{RUNS_ON[:30]}: a machine that runs on is shown as {found}",
    )
