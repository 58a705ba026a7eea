"""What a reader of the screen hears: in the accessibility tree each panel with its parts, their roles, names and values; and
what is told as a step is made and as the program has judged. What is told is compared with the program.
"""
import json

from shown import PAGE, comes, settle
from shown_editor import set_value
from workbench_text import read_tape

WORDS = {"_": "blank"}
# What each panel has to have: a role and how its name begins.
PANELS = {
    "Machine": [
        ("heading", "Machine"),
        ("combobox", "Examples"),
        ("textbox", "The table: one rule per line"),
        ("textbox", "Word"),
        ("button", "undo the last change of the machine"),
        ("button", "program output for the machine"),
        ("button", "about the machine panel"),
        ("button", "Answers"),
        ("group", "The machine alone"),
        ("img", "work tape from cell"),
        ("img", "the state diagram: "),
        ("button", "edit the diagram"),
    ],
    "Bennett's reversible machine": [
        ("heading", "Bennett's reversible machine"),
        ("list", "Stages"),
        ("img", "work tape from cell"),
        ("img", "history tape from cell"),
        ("img", "output tape from cell"),
        ("tab", "Moves of the circuit"),
        ("tab", "Bennett's table"),
        ("tabpanel", "Moves of the circuit"),
        ("button", "program output for the tapes"),
        ("button", "about the tapes panel"),
    ],
    "Circuit": [
        ("heading", "Circuit"),
        ("button", "program output for the circuit"),
        ("button", "about the circuit panel"),
        ("group", "The modules"),
        ("img", "the modules of the circuit: the signal "),
        ("group", "The elements of the module"),
        ("img", "the bank of "),
        ("button", "larger"),
        ("button", "smaller"),
        ("button", "fit, and follow the signal"),
    ],
    "Time line": [
        ("slider", "Time"),
        ("button", "to the start"),
        ("button", "step back"),
        ("button", "play backward"),
        ("button", "play"),
        ("button", "step forward"),
        ("button", "to the end"),
        ("group", "Unit of a step"),
        ("slider", "speed"),
        ("button", "add a breakpoint"),
        ("button", "program output for the time line"),
        ("button", "about the time line"),
    ],
}
IN_DIAGRAM = [
    ("dialog", "State diagram"),
    ("button", "state S"),
    ("button", "state Halt, halting"),
    ("combobox", "state of the rule in line 1"),
    ("textbox", "read of the rule in line 1"),
    ("combobox", "move of the rule in line 1"),
    ("button", "delete the rule in line 1"),
    ("combobox", "State"),
    ("button", "Take back"),
]
IN_ANSWERS = [
    ("dialog", "What the machine answers"),
    ("combobox", "what Halt says"),
    ("textbox", "Words, one a line"),
    ("button", "Run"),
    ("group", "what the words are answered with"),
]


class Heard:
    """The accessibility tree of the page as it stands."""

    def __init__(self, page):
        self.nodes = page.call("Accessibility.getFullAXTree")["nodes"]
        self.by_id = {it["nodeId"]: it for it in self.nodes}

    @staticmethod
    def name(it):
        return " ".join(it.get("name", {}).get("value", "").split())

    def below(self, it):
        """A node and all below it that aren't passed over."""
        found, open_ = [], [it["nodeId"]]
        while open_:
            node = self.by_id.get(open_.pop())
            if node:
                found += [node] if not node.get("ignored") else []
                open_ += node.get("childIds", [])
        return found

    def part(self, name, roles=("region", "contentinfo")):
        return next(
            (
                it
                for it in self.nodes
                if not it.get("ignored") and it["role"]["value"] in roles and self.name(it) == name
            ),
            None,
        )

    def lacking(self, nodes, wanted):
        there = [(it["role"]["value"].replace("image", "img"), self.name(it)) for it in nodes]
        return [
            it for it in wanted if not any(role.lower() == it[0] and name.startswith(it[1]) for role, name in there)
        ]

    @staticmethod
    def value(it, name):
        return next((one["value"].get("value") for one in it.get("properties", []) if one["name"] == name), None)


def live_regions(page):
    """What is told by itself: the place, and what stands there."""
    return page.ask(
        """Object.fromEntries([...document.querySelectorAll('[role=status],[aria-live],output')].filter(it => it.id)
      .map(it => [it.id, it.textContent.replace(/\\s+/g, " ").trim()]))"""
    )


def spoken(program, table, words, e, start):
    """What has to be told of a step, by `view`: on each tape what has changed since the moment before, which ends at a step."""
    view = program.text(["view", *words, str(e)], table).splitlines()
    lines = [f"{view[6].split()[1]}, quadruple step ", f" element step {e:,}."]
    before = program.text(["view", *words, str(start - 1)], table).splitlines() if start else None
    for number, name in enumerate(("Work", "History", "Output"), 1):
        tape = read_tape(view[number + 2], number, "view")
        if before:
            was = read_tape(before[number + 2], number, "view")
            pairs = enumerate(zip(was.symbols, tape.symbols), tape.first)
            said = [f"cell {cell} is {WORDS.get(new, new)}" for cell, (old, new) in pairs if old != new]
            said += [f"head at {tape.head}"] * (tape.head != was.head)
        else:
            written = [it for it in tape.symbols if it != "_"]
            said = [" ".join(written), f"head at {tape.head}"] if written else []
        if said:
            lines.append(f"{name} tape: {', '.join(said)}.")
    return lines


def check_panels(page, count):
    page.visit(f"file://{PAGE}#m=increment&e=900000")
    settle(page)
    page.wait("bench.current.run.ready(bench.state.e).then(() => bench.render(false))")
    page.call("Accessibility.enable")
    heard = Heard(page)
    for name, wanted in PANELS.items():
        panel = heard.part(name)
        lacking = heard.lacking(heard.below(panel), wanted) if panel else wanted
        count.hold(panel and not lacking, f"the panel {name} isn't heard with {lacking}")
    table = next(it for it in heard.nodes if heard.name(it).startswith("The table: "))
    verdict = page.ask("document.getElementById('verdict').textContent").strip()
    count.hold(
        table.get("description", {}).get("value", "").strip().startswith(verdict[:40]),
        f"the table is described by {table.get('description')}, and not by {verdict!r}",
    )
    slider = next(it for it in heard.nodes if it["role"]["value"] == "slider" and heard.name(it) == "Time")
    told = page.ask("document.getElementById('film').getAttribute('aria-valuetext')")
    q, count_q, stage = page.ask(
        "(run => [run.momentIndex(bench.state.e), run.moments.length - 1, run.moments[run.momentIndex(bench.state.e)].stage])(bench.current.run)"
    )
    count.hold(
        told.startswith(f"{stage}, quadruple step {q} of {count_q}") and slider["value"]["value"] == 900000,
        f"the time line is heard as {told!r}, at {slider['value']}",
    )
    speed = page.ask(
        "[document.getElementById('speed').getAttribute('aria-valuetext'), document.getElementById('speedtext').textContent]"
    )
    count.hold(speed[0] == speed[1] and speed[0], f"the speed is heard as {speed[0]!r}, and shown as {speed[1]!r}")
    pressed = [
        heard.name(it)
        for it in heard.nodes
        if it["role"]["value"] in ("button", "toggleButton") and heard.value(it, "pressed") == "true"
    ]
    count.hold(len(pressed) == 1 and pressed[0].startswith("Quadruple step"), f"pressed are {pressed}")
    current = page.ask("[...document.querySelectorAll('#stages [aria-current=step]')].map(it => it.dataset.stage)")
    count.hold(current == [stage], f"the current stage is heard as {current}, and not {stage}")
    for act, wanted in (
        ("document.getElementById('larger').click()", IN_DIAGRAM),
        ("document.getElementById('verdicts').click()", IN_ANSWERS),
    ):
        page.ask(f"{act}; 0")
        settle(page)
        heard = Heard(page)
        lacking = heard.lacking([it for it in heard.nodes if not it.get("ignored")], wanted)
        count.hold(not lacking, f"in a dialog {lacking} isn't heard")
        page.ask("document.querySelector('dialog[open]').close(); 0")
    page.call("Accessibility.disable")


def check_told(page, program, count):
    """What is told: a step, the outcome of a word, a fault, and what is waited for."""
    page.visit(f"file://{PAGE}#m=increment&e=900000")
    settle(page)
    table, words = page.ask("[bench.current.run.table, bench.current.run.words]")
    polite = page.ask(
        "[...document.querySelectorAll('#live,#verdict,#outcome,#busy')].map(it => [it.id, it.getAttribute('aria-live') ?? it.getAttribute('role') ?? it.tagName.toLowerCase()].join(' ')).sort().join(', ')"
    )
    count.hold(polite == "busy status, live polite, outcome output, verdict status", f"told by itself are {polite}")
    for key, number in (("ArrowRight", 39), ("ArrowRight", 39), ("ArrowLeft", 37), ("End", 35), ("Home", 36)):
        page.ask("document.activeElement.blur(); 0")
        before = page.ask("bench.state.e")
        page.strike(key, number)
        comes(page, f"bench.state.e !== {before}")
        e, start = page.ask("(run => [bench.state.e, run.starts[run.momentIndex(bench.state.e)]])(bench.current.run)")
        right, told = (
            spoken(program, table, words, e, start),
            "document.getElementById('live').textContent.replace(/\\s+/g, ' ')",
        )
        count.hold(
            e != before and comes(page, f"{json.dumps(right)}.every(it => {told}.includes(it))"),
            f"from {before} to step {e} {right} isn't told: {page.ask(told)[:300]!r}",
        )
    page.ask("document.querySelector('[data-layer=element]').click(); 0")
    told = live_regions(page)["live"]
    count.hold(told == "Unit of a step: element step.", f"of another unit of a step is told {told!r}")
    page.ask("document.querySelector('[data-layer=quadruple]').click(); 0")
    set_value(page, "word", "111")
    settle(page, 400)
    steps = program.text(["machine", "=111", "100"], table).split()
    told = live_regions(page)["outcome"]
    count.hold(
        told.startswith(f"{steps[1]} steps → {steps[3][1:] if len(steps) > 3 else steps[2][1:]}"),
        f"the outcome is told as {told!r}",
    )
    set_value(page, "table", table.replace("Go,1,1,+,Go", "Go,1,1,R,Go"))
    settle(page, 400)
    told = live_regions(page)["verdict"]
    count.hold(told.startswith("Line 3: "), f"a fault is told as {told!r}")


def check_heard_all(page, program, count):
    check_panels(page, count)
    check_told(page, program, count)
