"""The page in Firefox: answers byte for byte, drawn places of some machines, a way there and back, a run that is stopped,
its layout, and the circuit editor."""
import json
import os
import time

from shown import PAGE, RUNS, comes
from shown_faults import check_stopped
from shown_layout import LAID, LAID_PATIENCE
from shown_learn import PICTURES, SEEN
from shown_pasted import machines
from shown_places import FIXED, look_at
from shown_workshop import check_pebbles

from firefox import Firefox, firefox_at_hand

MACHINES_TRIED = [
    "Add one",
    "Turn each letter",
    "The least machine",
    "names of a book",
    "running on",
    "stuck",
    "its window ends it",
]
FAULTS = (
    "(window.seenFaults = [], addEventListener('error', it => seenFaults.push(String(it.message))), "
    "addEventListener('unhandledrejection', it => seenFaults.push(String(it.reason))), 0)"
)


class ShownFirefox(Firefox):
    """A Firefox with the page, by the same calls as the other browser."""

    def visit(self, address, ready=RUNS):
        self.go("about:blank")
        self.go(address)
        self.ask(FAULTS)
        if not comes(self, ready):
            raise OSError(
                f"{address[:80]}: no run is shown; the page says {self.ask('document.body.innerText')[:200]!r}"
            )

    def faults(self):
        return self.ask("window.seenFaults ?? []")


def check_new(page, count):
    """A textbook's machines as they are pasted, and each step of the lesson."""
    said = "document.getElementById('verdict').textContent"
    for name, it in machines().items():
        for notation in ("latex", "lines"):
            page.visit(f"file://{PAGE}#m=least")
            page.ask(
                f"(it => {{ it.value = {json.dumps(it['texts'][notation])}; it.dispatchEvent(new Event('input')); }})(document.getElementById('table')), 0"
            )
            count.hold(
                comes(page, f"{said}.startsWith('Read as ')"),
                f"Firefox: {name}, {notation}: it says {page.ask(said)[:90]!r}",
            )
    for step, picture in PICTURES.items():
        page.visit(f"file://{PAGE}#m=increment&w=1011&learn={step}")
        count.hold(comes(page, SEEN % picture), f"Firefox: the lesson's {step} isn't seen")
        e = page.ask("bench.state.e")
        page.ask("document.getElementById('learnforth').click(), 0")
        count.hold(comes(page, f"bench.state.e !== {e}"), f"Firefox: the lesson's {step} isn't gone on with")


def check_drawn(page, program, count):
    """In the circuit editor a column is put there, stepped, and found again by its link; its table is found."""
    text = "document.getElementById('g-text').value"
    page.visit(f"file://{PAGE}#design")
    page.ask("(document.getElementById('g-clear').click(), document.querySelector('[data-begin=column]').click(), 0)")
    given = page.ask(text)
    count.hold(program.text(["step", "0"], given) == given, f"Firefox: a column is the text {given!r}")
    for k in range(1, 4):
        page.ask("document.getElementById('g-step').click(), 0")
        right = program.text(["step", str(k)], given)
        count.hold(
            comes(page, f"{text} === {json.dumps(right)}"), f"Firefox: the editor's step {k} is {page.ask(text)!r}"
        )
    page.ask("(document.getElementById('g-tab-machine').click(), document.getElementById('g-find').click(), 0)")
    found = "document.getElementById('g-found').textContent"
    count.hold(comes(page, f"{found}.startsWith('Complete: ')"), f"Firefox: of a column it finds {page.ask(found)!r}")
    page.ask("document.getElementById('g-link').click(), 0")
    comes(page, "location.hash.startsWith('#design=')")
    page.visit(f"file://{PAGE}{page.ask('location.hash')}")
    count.hold(comes(page, f"{text} === {json.dumps(right)}"), f"Firefox: by its link comes {page.ask(text)!r}")
    count.hold(not page.faults(), f"Firefox: the editor has faults {page.faults()}")


def check_firefox(program, answers, draw, places, pictures, count):
    """All of it, in the Firefox that is at hand."""
    began = time.monotonic()
    with ShownFirefox(firefox_at_hand()) as page:
        page.resize(1680, 1150)
        page.visit(f"file://{PAGE}#m=least")
        answers(page, program, count)
        for name, fragment in FIXED:
            if name in MACHINES_TRIED:
                look_at(page, program, f"Firefox, {name}", fragment, places, draw, count)
        page.visit(f"file://{PAGE}#m=increment")
        e = page.wait(
            "(async () => { const {goTo, state, step} = bench; state.layer = 'quadruple'; goTo(0); "
            "for (let k = 0; k < 5; k++) await step(1); for (let k = 0; k < 5; k++) await step(-1); return state.e; })()"
        )
        count.hold(e == 0, f"Firefox: five quadruples there and back lead to step {e}")
        check_stopped(page, program, count, "Firefox, ")
        check_new(page, count)
        check_drawn(page, program, count)
        check_pebbles(page, count, "Firefox, ")
        for width, height in ((1300, 900), (520, 900)):
            page.resize(width, height)
            page.visit(f"file://{PAGE}#m=increment&e=700000")
            comes(page, f"({LAID}).many === 0", LAID_PATIENCE)
            given, inner = page.ask(LAID), page.ask("innerWidth")
            count.hold(
                given["count"] > 15 and not given["many"] and given["wide"] <= inner,
                f"Firefox, {inner} wide: {given['wide']} wide, of {given['count']} texts {json.dumps(given['over'])} lie over one another",
            )
            if pictures:
                page.screenshot(os.path.join(pictures, f"firefox-{width}.png"))
        print(
            f"Firefox {page.version()}: {len(MACHINES_TRIED) * places} places of {len(MACHINES_TRIED)} machines, in {time.monotonic() - began:.0f} s",
            flush=True,
        )
