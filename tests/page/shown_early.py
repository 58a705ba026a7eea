"""What is shown before a circuit is there, and where there is none: the machine by itself, moment by moment as `trace`
tells it, and Bennett's machine, as `moments` does; both play, on and back.
"""
import json
import re

from shown import PAGE, RUNS, comes, holds_time, settle
from shown_editor import set_value
from shown_faults import broken
from shown_places import INCREMENT, link

# Calls of these commands are held where the page asks its worker, until they are let go: then nothing hangs on how long
# they take.
HELD = """window.held = {run: [], moments: []};
const post = Worker.prototype.postMessage;
window.letGo = name => { const waiting = held[name]; held[name] = null; waiting.forEach(it => it()); };
Worker.prototype.postMessage = function (message, ...rest) {
  const act = () => post.call(this, message, ...rest), waiting = held[message?.words?.[0]];
  if (waiting) waiting.push(act);
  else act();
};"""
EARLY = "typeof bench === 'object' && bench.current.run?.circuit.count === 0"
BOTH = f"{EARLY} && bench.current.run.layers.length === 2"
OWN = """[document.querySelector("#own p").textContent,
  [...document.querySelectorAll("#own [data-cell]")].map(it => it.querySelector(".symbol").textContent).join("")]"""
# At each of these moments: the tapes' cells that are drawn, where the heads are said to be, the row that is marked, and
# what the time line says.
SEEN = """(list => list.map(q => {
  bench.goTo(q);
  const tapes = [...document.querySelectorAll("#three svg")].map(it => [
    [...it.querySelectorAll("[data-cell]")].map(one =>
      [Number(one.dataset.cell), one.querySelector(".symbol").textContent.replace("·", "_")]),
    Number(it.getAttribute("aria-label").match(/head at cell (\\S+)$/)[1])]);
  const row = document.querySelector("#quadruples .now .no")?.textContent ?? 0;
  return [tapes, Number(row), document.getElementById("film").getAttribute("aria-valuetext")];
}))(%s)"""
PLAYED = """(async () => { const {state, play, goTo, RANGES} = bench, kept = RANGES.%(layer)s[1], found = [];
  Object.assign(state, {layer: "%(layer)s", speed: 100}); RANGES.%(layer)s[1] = 2000; goTo(0);
  for (const direction of [1, -1]) {
    play(direction);
    for (let k = 0; k < 6000 && state.playing; k++) await new Promise(done => setTimeout(done, 25));
    found.push(state.e);
  }
  RANGES.%(layer)s[1] = kept; Object.assign(state, {speed: 40, layer: "quadruple"}); goTo(0);
  return found; })()"""
# A window with far too many cells; and a word so long that no window has a circuit.
TOO_LARGE = {"win": "1 400 90000 400"}
LETTERS, TOO_MANY = "abaabbabaababbaaba", 60
# How many moments are looked at in one answer of the browser.
AT_ONCE = 8
# The longest task that is wanted on an idle machine, in milliseconds, while a long run of Bennett's machine is read.
TASK = 100
WATCH = """window.longest = 0; new PerformanceObserver(list => {
  for (const it of list.getEntries()) window.longest = Math.max(window.longest, it.duration);
}).observe({type: "longtask"}); 0"""


def traced(program, word, table):
    """The state, and the tape from the first cell that is ever shown to the last one, at each moment."""
    lines = program.text(["trace", "=" + word, "1000"], table).splitlines()[:-1]
    found = [re.fullmatch(r"\d+ (\S+) from (-?\d+) head -?\d+ cells (\d+): (.*?)(?: rule \d+)?", it) for it in lines]
    told = [(it[1], int(it[2]), it[4].split()) for it in found]
    low = min(0, *(first for _, first, _ in told))
    high = max(len(word) + 1, *(first + len(it) - 1 for _, first, it in told))
    tapes = [dict(enumerate(symbols, first)) for _, first, symbols in told]
    seen = ["".join(it.get(cell, "_") for cell in range(low, high + 1)).replace("_", "·") for it in tapes]
    return [(state, tape) for (state, _, _), tape in zip(told, seen)]


def told_moment(line):
    """A text line of `moments`: the state, for each tape its cells and its head, and the number of the row, or 0."""
    begin, *tapes = re.split(r" ?tape \d from ", line)
    row = re.search(r" rule (\d+)$", tapes[-1])
    tapes[-1] = tapes[-1][: row.start()] if row else tapes[-1]
    read = []
    for it in tapes:
        first, head, _, cells = re.fullmatch(r"(-?\d+) head (-?\d+) cells (\d+): (.*)", it).groups()
        read.append(({int(first) + k: symbol for k, symbol in enumerate(cells.split(" "))}, int(head)))
    return begin.split(" ")[1], read, int(row[1]) if row else 0


class Told:
    """The run of Bennett's machine, by `moments`."""

    def __init__(self, page, program):
        table, word = page.ask("[bench.current.run.table, bench.current.run.word]")
        lines = program.text(["moments", "=" + word, "1000000"], program.text(["bennett"], table)).splitlines()
        self.lines, self.last = lines[:-1], lines[-1]
        self.end = len(self.lines) - 1

    def hold(self, page, count, where, places):
        """Holds that at these moments the page shows the tapes, the row and the stage that are told."""
        page.ask("document.querySelector('[data-middle=table]').click(); 0")
        wrong = []
        # Some at a time, since on a busy machine a hundred pictures take longer than an answer is waited for.
        parts = [places[k : k + AT_ONCE] for k in range(0, len(places), AT_ONCE)]
        seen = [it for part in parts for it in page.ask(SEEN % json.dumps(part))]
        for q, (tapes, row, said) in zip(places, seen):
            state, right, number = told_moment(self.lines[q])
            stage = {"A": "compute", "B": "copy", "C": "retrace"}[state[0]]
            drawn = all(
                symbol == cells.get(cell, "_") for (seen, _), (cells, _) in zip(tapes, right) for cell, symbol in seen
            )
            near = all(any(cell == head for cell, _ in seen) for seen, head in tapes)
            if not (len(tapes) == 3 and drawn and near and [it[1] for it in tapes] == [it[1] for it in right]):
                wrong.append(f"the tapes of moment {q} are {json.dumps(tapes)[:300]}")
            if row != number or said != f"{stage}, quadruple step {q} of {self.end}":
                wrong.append(f"moment {q} has row {row}, and is told as {said!r}, and it is {stage} with row {number}")
        count.hold(not wrong, f"{where}: {len(wrong)} wrong: {'; '.join(wrong[:2])}")
        page.ask("document.querySelector('[data-middle=moves]').click(); 0")


def check_own(page, program, count):
    """The machine by itself comes first, and moves."""
    page.visit(f"file://{PAGE}#m=increment", EARLY)
    right = traced(program, "1011", INCREMENT)
    for k, (name, tape) in enumerate(right):
        page.ask(f"bench.goTo({k}); 0")
        said, cells = page.ask(OWN)
        count.hold(
            said == f"Alone, step {k}: state {name}" and cells == tape,
            f"before the circuit, step {k}: {said!r} with {cells!r}, and not {name} with {tape!r}",
        )
    end = page.ask("bench.current.run.end")
    count.hold(end == len(right) - 1, f"before the circuit {end} steps are shown")
    page.ask("bench.goTo(0); document.getElementById('play').click(); 0")
    count.hold(comes(page, "bench.state.e > 0"), "before the circuit nothing plays")
    page.ask("bench.pause(); bench.goTo(4); 0")
    page.strike("ArrowRight", 39)
    count.hold(comes(page, "bench.state.e === 5"), f"a step before the circuit leads to {page.ask('bench.state.e')}")
    check_texts(page, "trace =1011 11", count)


def check_texts(page, words, count):
    """The texts behind each panel, and the panel in words."""
    close = "document.getElementById('dialog').close()"
    has_words = f"document.getElementById('dialogbody').textContent.includes('{words}')"
    for panel in ("machine", "circuit", "time"):
        page.ask(f"document.querySelector('[data-said={panel}]').click(); 0")
        count.hold(
            comes(page, f"document.getElementById('dialog').open && {has_words}"), f"the texts of {panel} lack {words}"
        )
        page.ask(f"{close}; document.querySelector('[data-about={panel}]').click(); {close}; 0")


def check_bennett(page, program, count):
    """Then comes Bennett's, at the same step of the machine, and behind it the circuit, at the same moment."""
    step = "bench.current.run.moments[bench.current.run.momentIndex(bench.state.e)].step"
    before = page.ask(step)
    page.ask("letGo('moments'); 0")
    count.hold(
        comes(page, BOTH) and page.ask(step) == before == 5,
        f"with Bennett's machine another step is shown: {page.ask(step)}, and not {before}",
    )
    told = Told(page, program)
    told.hold(page, count, "before the circuit", list(range(told.end + 1)))
    enabled = page.ask("[...document.querySelectorAll('#layers button:enabled')].map(it => it.dataset.layer)")
    count.hold(enabled == ["machine", "quadruple"], f"before the circuit there are the layers {enabled}")
    for layer in enabled:
        given = page.wait(PLAYED % {"layer": layer})
        count.hold(
            given == [told.end, 0],
            f"before the circuit, on the layer {layer}, it plays to {given}, and not to {told.end} and back",
        )
    check_texts(page, f"moments =1011 {told.end}", count)
    page.ask("bench.goTo(7); letGo('run'); 0")
    moment = "bench.current.run.momentIndex(bench.state.e)"
    count.hold(
        comes(page, "bench.current.run.circuit.count > 0") and page.ask(moment) == 7,
        f"with the circuit moment {page.ask(moment)} is shown",
    )
    settle(page, 300)
    seen = page.ask("['#bank .element', '#three svg'].map(it => document.querySelectorAll(it).length)")
    count.hold(seen[0] > 20 and seen[1] == 3, f"with the circuit {seen[0]} elements and {seen[1]} tapes are drawn")


def check_learn_early(page, count):
    """Learn has both layers before the circuit, and says what the others wait for."""
    page.visit(f"file://{PAGE}#m=increment&learn=machine", EARLY)
    count.hold(
        comes(page, "document.querySelector('#learnpicture .l-tape svg') !== null"),
        "before the circuit Learn shows nothing",
    )
    page.ask("document.getElementById('learnplay').click(); 0")
    count.hold(comes(page, "bench.state.e > 0"), "before the circuit Learn doesn't play")
    page.ask("letGo('moments'); 0")
    comes(page, BOTH)
    for level, tapes in (("history", 2), ("stages", 3)):
        page.ask(f"document.querySelector('#learntrail [data-level={level}]').click(); bench.goTo(0); 0")
        count.hold(
            comes(page, f"document.querySelectorAll('#learnpicture .l-tapes svg').length === {tapes}"),
            f"before the circuit Learn doesn't show {tapes} tapes at {level}",
        )
        page.ask("document.getElementById('learnplay').click(); 0")
        count.hold(comes(page, "bench.state.e > 3"), f"before the circuit Learn doesn't play at {level}")
        page.ask("document.getElementById('learntake').click(); 0")
        count.hold(
            comes(page, "bench.state.playing === 0 && bench.state.e === 0"),
            f"before the circuit Learn isn't taken back at {level}",
        )
    page.ask("document.querySelector('#learntrail [data-level=row]').click(); 0")
    count.hold(
        "Building the circuit" in page.ask("document.getElementById('learnpicture').innerText"),
        "before the circuit Learn doesn't say what a row waits for",
    )
    page.ask("letGo('run'); 0")
    count.hold(comes(page, "document.querySelector('.l-moves .now') !== null"), "with the circuit Learn shows no row")


def check_palindrome(page, program, count):
    """A word of eighteen letters, whose circuit takes long."""
    page.visit(f"file://{PAGE}{link(m='palindrome', w=LETTERS)}", EARLY)
    page.ask("letGo('moments'); 0")
    count.hold(comes(page, BOTH), "of the palindrome Bennett's machine isn't shown before its circuit")
    told = Told(page, program)
    told.hold(page, count, "the palindrome, before its circuit", [*range(0, told.end, 13), told.end])
    given = page.wait(PLAYED % {"layer": "quadruple"})
    count.hold(given == [told.end, 0], f"the palindrome plays to {given}, and not to {told.end} and back")


def hold_too_large(page, program, words, count):
    """What is said of a circuit that is too large, while both layers stay."""
    table, word = page.ask("[bench.current.run.table, bench.current.run.word]")
    refused = program.text(["run", "=" + word, *words], table)
    elements = f"{int(refused.removeprefix('size: elements ')):,}"
    size = "document.getElementById('size').textContent"
    count.hold(
        comes(page, f"{BOTH} && {size} === 'Too large: {elements} elements'"),
        f"of a circuit of {elements} elements it says {page.ask(size)!r}",
    )
    settle(page)
    outcome = page.ask("document.getElementById('outcome').textContent")
    is_stale = page.ask("document.body.classList.contains('stale')")
    halted = program.text(["machine", "=" + word, "100000"], table).removeprefix("halted ")
    steps, _, output = halted.partition("\noutput =")
    count.hold(
        outcome == f"{int(steps):,} steps → {output.strip()}" and not is_stale,
        f"of a circuit that is too large it says {outcome!r}",
    )
    return Told(page, program)


def check_too_large(page, program, count):
    page.visit(f"file://{PAGE}{link(t=INCREMENT, w='1011', **TOO_LARGE)}", EARLY)
    told = hold_too_large(page, program, TOO_LARGE["win"].split(), count)
    told.hold(page, count, "a window that is too large", list(range(told.end + 1)))
    given = page.wait(PLAYED % {"layer": "machine"})
    count.hold(
        given == [told.end, 0], f"of a circuit that is too large it plays to {given}, and not to {told.end} and back"
    )
    page.visit(f"file://{PAGE}{link(m='palindrome', w='a' * TOO_MANY)}", EARLY)
    table = page.ask("bench.current.run.table")
    steps = program.text(["machine", "=" + "a" * TOO_MANY, "100000"], table).split()[1]
    told = hold_too_large(page, program, ["0", str(TOO_MANY + 1), steps, "2"], count)
    told.hold(page, count, f"{TOO_MANY} letters", [*range(0, told.end, 199), told.end])
    page.ask("bench.state.layer = 'quadruple'; bench.goTo(bench.current.run.end); bench.state.playing = 0; 0")
    page.ask("document.getElementById('playback').click(); 0")
    count.hold(comes(page, f"bench.state.e < {told.end}"), f"of {TOO_MANY} letters nothing plays back")
    page.ask("bench.pause(); 0")


def check_reading_time(page, count):
    """While a long run of Bennett's machine is read and drawn, nothing stands still for long."""

    def measure():
        page.visit(f"file://{PAGE}{link(m='palindrome', w='ab')}")
        page.ask(WATCH)
        set_value(page, "word", "a" * TOO_MANY)
        comes(page, f"bench.current.run.word.length === {TOO_MANY} && {BOTH}")
        settle(page, 300)
        return page.ask("longest"), ""

    holds_time(page, count, f"Bennett's machine on {TOO_MANY} letters, the longest task", TASK, measure)


def check_queue(page, count):
    """A run that isn't wanted any more keeps no other one waiting."""
    script = broken(page, ("^run =111 ", "endless"))
    page.visit(f"file://{PAGE}{link(t=INCREMENT, w='111')}", EARLY)
    set_value(page, "word", "1011")
    is_there = f"{RUNS} && bench.current.run.word === '1011' && bench.current.run.circuit.count > 0"
    count.hold(comes(page, is_there), "a run queues behind another one that isn't wanted any more")
    page.call("Page.removeScriptToEvaluateOnNewDocument", identifier=script)
    count.hold(page.ask("!document.body.classList.contains('early')"), "behind it no circuit is shown")


def check_early(page, program, count):
    script = page.call("Page.addScriptToEvaluateOnNewDocument", source=HELD)["identifier"]
    check_own(page, program, count)
    check_bennett(page, program, count)
    check_learn_early(page, count)
    check_palindrome(page, program, count)
    page.call("Page.removeScriptToEvaluateOnNewDocument", identifier=script)
    check_too_large(page, program, count)
    check_reading_time(page, count)
    check_queue(page, count)
    count.hold(not page.faults(), f"{page.faults()}")
