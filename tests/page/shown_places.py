"""What the page shows at places that are drawn: of the page's machines, of some by hand, and of machines that are drawn too.

A place is a step of a run. What is looked at there is what stands in the page: the cells of the three tapes and their
heads, the stage that is marked, the module and the line in words, the counter, the element that the signal is about to
enter, every bar that is drawn, and the quadruple that is marked. It is compared with `view` and `step` of the program.
"""
import re
import time
import urllib.parse

from shown import PAGE
from shown_runs import RUNS_ON, SHOWN, bars_of, faults_at
from workbench_text import read_tape

SEED, PLACES = 46, 500
# What is drawn: how many machines of each kind, and how large their runs may be, so that many can be looked at.
WANTED = {
    "in standard form": 4,
    "from the first letter": 4,
    "with a window to the left": 2,
    "stuck": 2,
    "running on": 2,
}
MOST_DRAWN, MOST_ELEMENTS, MOST_STEPS, FEWEST_STEPS, MOST_OWN = 3000, 36000, 4000000, 4, 60
INCREMENT = "S,_,_,+,Go\nGo,0,0,+,Go\nGo,1,1,+,Go\nGo,_,_,-,Add\nAdd,1,0,-,Add\nAdd,0,1,-,Home\nAdd,_,1,-,Home\nHome,0,0,-,Home\nHome,1,1,-,Home\nHome,_,_,0,Halt\n"
SUM = "q_0,1,1,+,q_0\nq_0,0,1,+,q_1\nq_1,1,1,+,q_1\nq_1,_,_,-,q_2\nq_2,1,_,-,q_3\n"
SUM_NAMES = '{"q-0":"q_0","q-1":"q_1","q-2":"q_2","q-3":"q_3"}'
# A place is drawn without what is fetched ahead and beside it, so that many can be looked at.
PLACED = SHOWN.replace("goTo(e); await run.ready(e);", "bench.state.e = e;")
# What stands in the page.
SEEN = """(() => {
  const text = id => document.getElementById(id).textContent, all = it => [...document.querySelectorAll(it)];
  const bars = [...(document.querySelector("#bank .bar")?.getAttribute("d") ?? "").matchAll(/M[^Mvh]*([vh])/g)];
  const heads = all("#three svg").map(svg => {
    const at = svg.querySelector(".headbox")?.getAttribute("x");
    const cell = at === undefined ? null : [...svg.querySelectorAll("g[data-cell]")].find(it => it.querySelector("rect").getAttribute("x") === at);
    return cell ? Number(cell.dataset.cell) : null;
  });
  return {heads, bars: bars.map(it => it[1] === "h" ? "H" : "V").join(""), where: text("where"), what: text("what"),
          elements: all("#bank>svg .element").map(it => Number(it.dataset.element)),
          now: all("#bank>svg .element.now").map(it => Number(it.dataset.element)),
          stage: all("#stages .now").map(it => it.dataset.stage).join(" "),
          counted: document.querySelector("#layers [data-layer=element] span").textContent};
})()"""


def link(**parts):
    return "#" + urllib.parse.urlencode(parts, quote_via=urllib.parse.quote)


# The machines that are always looked at: what they are, and their links.
FIXED = [
    ("Add one", link(m="increment")),
    ("Turn each letter", link(m="complement", w="0110")),
    ("Palindrome?", link(m="palindrome", w="ab")),
    ("The least machine", link(m="least")),
    ("Add one, faulty", link(m="faulty", w="101")),
    ("names of a book", link(t=SUM, n=SUM_NAMES, s="1", w="1011")),
    ("running on", RUNS_ON),
    ("stuck", link(t=INCREMENT.replace("Go,1,1,+,Go\n", ""), w="101")),
    ("its window ends it", link(t=INCREMENT, w="1011", win="0 5 6 5")),
    ("its window ends it on the left", link(t=INCREMENT, w="11", win="0 3 9 4")),
]
LARGE = ("about 300,000 elements", link(t=INCREMENT, w="1011", win="2 6 440 6"))
LARGE_PLACES = 6


# ---- drawing


def drawn_table(draw, is_standard):
    """A table of a few states and two letters; whether it is a machine, the program says."""
    names = ["P", "Q", "R", "U"][: draw.randint(2, 4)]
    cases = [(name, letter) for name in names for letter in "_01"]
    draw.shuffle(cases)
    last, *cases = [it for it in cases if it[1] == "_" or not is_standard] + [
        it for it in cases if it[1] != "_" and is_standard
    ]
    cases = cases[: len(cases) - draw.randint(0, 2)]
    rows = [f"{name},{read},{draw.choice('_01')},{draw.choice('++-0')},{draw.choice(names)}" for name, read in cases]
    rows.sort(key=lambda row: row[0] != names[0])
    end = f"{last[0]},_,_,0,H" if is_standard else f"{last[0]},{last[1]},{draw.choice('_01')},{draw.choice('+-0')},H"
    return "\n".join((["S,_,_,+," + names[0]] if is_standard else []) + rows + [end, ""])


def kind_of(program, typed, is_standard, word, wanted):
    """The kind of a drawn machine on a word, one of those that are wanted still, or None."""
    status, table = (program.answer(["check"], typed)[0], typed) if is_standard else program.answer(["standard"], typed)
    if status != 0 or program.answer(["check"], typed)[0] == 0 and not is_standard:
        return None
    status, said = program.answer(["machine", "=" + word, "2000"], table)
    if status == 12:
        elements = int(program.text(["run", "=" + word, "40", "40", "40", "1", "0"], table).split()[1])
        return "running on" if elements <= MOST_ELEMENTS else None
    halts = "in standard form" if is_standard else "from the first letter"
    if not {"stuck"} & wanted if status == 10 else not {halts, "with a window to the left"} & wanted:
        return None
    steps = int(said.split()[3 if said.startswith("stuck") else 1]) if status in (0, 10) else 0
    if not FEWEST_STEPS <= steps <= MOST_OWN:
        return None
    ran = program.text(["run", "=" + word, "auto"], table)
    window, elements = re.match(r"window (\d+).*\nelements (\d+)", ran).groups()
    if int(elements) > MOST_ELEMENTS or int(re.search(r"^steps (\d+)", ran, flags=re.M)[1]) > MOST_STEPS:
        return None
    if status == 10:
        return "stuck"
    return "with a window to the left" if window != "0" and "with a window to the left" in wanted else halts


def drawn_machines(program, draw):
    """As many machines of each kind as are wanted, with their links."""
    found = {kind: [] for kind in WANTED}
    for _ in range(MOST_DRAWN):
        wanted = {kind for kind, number in WANTED.items() if len(found[kind]) < number}
        if not wanted:
            break
        is_standard = draw.random() < 0.5
        typed, word = drawn_table(draw, is_standard), "".join(draw.choice("01") for _ in range(draw.randint(1, 4)))
        letters = {it for row in typed.split() for it in row.split(",")[1:3]}
        kind = kind_of(program, typed, is_standard, word, wanted) if set(word) <= letters else None
        if kind in wanted:
            found[kind].append((f"{kind}, drawn", link(t=typed, w=word, **({} if is_standard else {"s": "1"}))))
    return [it for some in found.values() for it in some]


# ---- looking


class Remembered:
    """The program, which isn't asked twice for what it has just answered."""

    def __init__(self, program):
        self.program, self.kept = program, {}

    def answer(self, words, data):
        key = (tuple(words), data)
        if key not in self.kept:
            if len(self.kept) > 8:
                self.kept.clear()
            self.kept[key] = self.program.answer(words, data)
        return self.kept[key]

    def text(self, words, data):
        return self.answer(words, data)[1]


def faults_seen(page, program, table, words, compiled, e):
    """What stands in the page at a step otherwise than the program says."""
    seen = page.ask(SEEN)
    view = program.text(["view", *words, str(e)], table).splitlines()
    faults = []
    if seen["stage"] != view[6].split()[1]:
        faults.append(f"the stage {seen['stage']!r} is marked, and not {view[6].split()[1]!r}")
    if seen["counted"].split(" of ")[0].replace(",", "") != str(e):
        faults.append(f"the counter says {seen['counted']!r}")
    heads = [read_tape(line, number, "view").head for number, line in enumerate(view[3:6], 1)]
    if any(shown is not None and shown != right for shown, right in zip(seen["heads"], heads)):
        faults.append(f"the heads are drawn at {seen['heads']}, and not at {heads}")
    module = re.fullmatch(r"module (control|tape (\d) cell (-?\d+)) (line .*|inside)", view[1])
    if module:
        name = (
            "Control"
            if module[1] == "control"
            else f"{['Work', 'History', 'Output'][int(module[2]) - 1]} tape, cell {module[3].replace('-', '−')}"
        )
        if not re.match(re.escape(name) + r"(?!\d)", seen["where"]):
            faults.append(f"the module {seen['where']!r}, and not {name!r}")
        if ("signal entering" in seen["what"]) != (module[4] != "inside"):
            faults.append(f"it says {seen['what']!r} where {view[1]!r}")
        element = int(re.match(r"element at (\d+)", view[0])[1])
        if seen["now"] not in ([], [element]) or element in seen["elements"] and seen["now"] != [element]:
            faults.append(f"the signal is drawn at {seen['now']}, and not at {element}")
    bars = bars_of(program.text(["step", str(e)], compiled))
    if "".join(bars[it] for it in seen["elements"]) != seen["bars"] or not seen["bars"]:
        faults.append(f"the {len(seen['bars'])} bars that are drawn")
    return faults


def look_at(page, program, name, fragment, places, draw, count):
    """So many places of one machine, with what it is."""
    program = Remembered(program)
    page.visit(f"file://{PAGE}{fragment}")
    page.ask("document.getElementById('tab-table').click(); 0")
    table, words, end, elements, exit_ = page.ask(
        "(run => [run.table, run.words, run.end, run.circuit.count, run.outcome.exit])(bench.current.run)"
    )
    compiled = program.text(["compile", *words], table)
    for e in sorted(draw.randrange(end + 1) for _ in range(places)):
        faults = faults_at(page, program, table, words, compiled, e, PLACED) + faults_seen(
            page, program, table, words, compiled, e
        )
        count.hold(not faults, f"{name}, {fragment[:60]}, step {e} of {end}: the page shows {'; '.join(faults)}")
    count.hold(not page.faults(), f"{name}: {page.faults()}")
    return elements, exit_


def check_places(page, program, draw, places, count):
    """So many drawn places, of twenty machines and more."""
    began, machines = time.monotonic(), FIXED + drawn_machines(program, draw)
    kinds = [name for name, _ in machines]
    for kind, number in WANTED.items():
        count.hold(
            kinds.count(f"{kind}, drawn") == number, f"only {kinds.count(f'{kind}, drawn')} machines {kind} were drawn"
        )
    share = -(-max(1, places - LARGE_PLACES) // len(machines))
    for name, fragment in machines:
        _, ended = look_at(page, program, name, fragment, share, draw, count)
        if "window ends" in name:
            count.hold(str(ended).startswith("window "), f"{name}: it ends by {ended}")
    elements, _ = look_at(page, program, *LARGE, min(places, LARGE_PLACES), draw, count)
    count.hold(290000 < elements < 330000, f"{LARGE[0]}: it has {elements}")
    print(
        f"{share * len(machines) + LARGE_PLACES} places of {len(machines) + 1} machines, drawn, in {time.monotonic() - began:.0f} s",
        flush=True,
    )
