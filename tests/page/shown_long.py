"""Long runs and what is seen between and beside the moments, with what the program says.

A run is long for the page where its tapes have many symbols in all, or where the machine makes many steps by itself; both
bounds are lowered here, so that short runs are shown as long ones are: their moments in pieces, their tapes where they
are wanted, their window without a run, their end when it is come to. The same is then looked at of a run that is short.
"""
import json
import re

from shown import PAGE, comes, soon
from shown_runs import faults_at, next_quadruple
from workbench_text import read_tape

GREATEST = str(2**62)
SMALL = {"small": 0, "quick": 0, "first": 5, "block": 0, "kept": 0, "least": 40, "chunk": 1024, "far": 0}
PLAIN = {
    "small": 500000,
    "quick": 6000000,
    "first": 48,
    "block": 300000,
    "kept": 4000000,
    "least": 64,
    "chunk": 16384,
    "far": 30000000,
}
# A machine that goes three cells to the left of its word.
LEFT = "S,_,_,+,A\nA,1,1,-,B\nB,_,_,-,C\nC,_,_,-,D\nD,_,_,-,E\nE,_,_,0,F\n"
WALK = "S,_,_,+,A\nA,1,1,+,A\nA,_,_,0,H\n"
MOMENTS = "bench.current.run.moments.map(it => [it.steps, it.name, it.stage, it.state, it.rule])"
# What is seen of cells between two moments: tape, cell, symbol, whether the head has come there, and the symbol in the corner.
NOW = """[...document.querySelectorAll("#three .between")].map(it => [Number(it.closest("svg").classList[1].slice(1)),
  Number(it.dataset.now), it.dataset.symbol, Boolean(it.querySelector(".nowtip")), it.querySelector(".nowsymbol")?.textContent.replace("·", "_") ?? null])"""


class Told:
    """A run as the program tells it: its moments, by one `session`."""

    def __init__(self, program, table, words):
        self.program, self.table, self.words = program, table, words
        names = list(
            dict.fromkeys(
                name
                for row in program.text(["bennett"], table).splitlines()
                for name in (row.split(",")[0], row.split(",")[7])
            )
        )
        ran = program.text(["run", *words], table)
        self.end = int(re.search(r"^steps (\d+)$", ran, flags=re.M)[1])
        many = int((re.search(r"quadruple steps (\d+)", ran) or [0, 4 * int(words[3]) + 4 * int(words[4]) + 12])[1]) + 1
        script = "".join(f"break s{k} state {name}\n" for k, name in enumerate(names)) + f"go {GREATEST}\nview\n" * many
        lines = program.text(["session", *words], f"{table}%\n{script}").splitlines()[len(names) :]
        self.moments, self.views = [], []
        for at in range(0, len(lines) - 7, 8):
            if " break " not in lines[at]:
                break
            found = re.match(r"machine (\S+) (?:state (\S+)|quintuple (\d+)) step", lines[at + 7])
            steps = int(re.search(r"steps (\d+)", lines[at])[1])
            self.moments.append(
                [steps, lines[at + 3].split()[1], found[1], found[2], int(found[3]) if found[3] else None]
            )
            self.views.append(
                [read_tape(line, number, "session") for number, line in enumerate(lines[at + 4 : at + 7], 1)]
            )

    def starts(self):
        return [0, *(it[0] for it in self.moments[1:])]

    def index(self, e):
        return max(q for q, start in enumerate(self.starts()) if start <= e)

    def time(self, e):
        """A place on the time line: moments, with the share of the way to the next one."""
        starts, q = self.starts(), self.index(e)
        to = starts[q + 1] if q + 1 < len(starts) else self.end
        return q + (min(1, (e - starts[q]) / (to - starts[q])) if to > starts[q] else 0)

    def first_change(self, tape, cell):
        symbols = [view[tape - 1].symbols[cell - view[tape - 1].first] for view in self.views]
        return next((q for q in range(1, len(symbols)) if symbols[q] != symbols[q - 1]), None)

    def comes(self, element, low, high, most):
        """Where the signal comes to an element behind a step and up to another, at most so often."""
        lines = self.program.text(
            ["session", *self.words],
            f"{self.table}%\nbreak e element {element}\nstep {low}\n" + f"go {GREATEST}\n" * most,
        )
        found = [int(re.search(r"steps (\d+)", line)[1]) for line in lines.splitlines()[2:] if line.endswith("break e")]
        return [step for step in found if step <= high]


def lay(page, limits, above, fragment):
    """Opens a machine by a link, with these bounds for a long run, and waits until all its moments are known."""
    page.visit(f"file://{PAGE}#m=least")
    page.ask(
        f"Object.assign(bench.limits, {json.dumps(limits)}); Object.assign(bench.longRuns, {{above: {above}, open: {above}}}); window.earlier = bench.current.run;"
        f" location.hash = {json.dumps(fragment)}; 0"
    )
    page.wait(
        """(async () => {
      const done = () => bench.current.run !== earlier && bench.current.run.isWhole && Number.isFinite(bench.current.run.end)
        && !document.getElementById("busy").textContent.includes("…");
      for (let k = 0; k < 3000 && !done(); k++) await new Promise(later => setTimeout(later, 50));
    })()"""
    )


def told_of(page, program):
    table, words = page.ask("[bench.current.run.table, bench.current.run.words]")
    return Told(program, table, words)


def check_pieces(page, program, draw, count):
    """Moments, tapes and places of runs that are shown as long ones."""
    for name, above, fragment in (
        ("in pieces", 10**9, "#m=increment"),
        ("without a run before", 0, "#m=increment"),
        ("in pieces", 10**9, "#m=palindrome&w=ab"),
        ("without a run before", 0, "#t=" + LEFT.replace("+", "%2B").replace("\n", "%0A") + "&w=1"),
    ):
        lay(page, SMALL, above, fragment)
        page.wait(
            "(async run => { for (let q = 0; run.locate && q < run.count; q++) await run.locate(q); })(bench.current.run)"
        )
        told, given, where = told_of(page, program), page.ask(MOMENTS), f"{fragment[:30]}, {name}"
        count.hold(
            given == told.moments,
            f"{where}: of {len(given)} moments {[it for it in given if it not in told.moments][:2]} aren't "
            f"the program's {len(told.moments)}",
        )
        end, exit_, output, window = page.ask(
            "(({end, outcome, window}) => [end, outcome.exit, outcome.output, window])(bench.current.run)"
        )
        ran = program.text(["run", *told.words], told.table)
        count.hold(
            f"exit {exit_}\n" in ran and f"steps {end}\n" in ran and f"output ={output}\n" in ran,
            f"{where}: it ends by {exit_} after {end} steps with {output}, in the window {window}",
        )
        count.hold(page.ask("bench.current.run.isOpen") == (above == 0), f"{where}: whether the run was made before")
        compiled = program.text(["compile", *told.words], told.table)
        page.ask("document.getElementById('tab-table').click(); 0")
        for e in [0, told.moments[-1][0]] + [draw.randrange(told.end) for _ in range(4)]:
            faults = faults_at(page, program, told.table, told.words, compiled, e)
            count.hold(not faults, f"{where}, step {e}: the page shows {'; '.join(faults)}")
        check_stops(page, told, where, draw, count)
        check_moves(page, program, told, where, draw, count)
        count.hold(not page.faults(), f"{where}: {page.faults()}")


def check_moves(page, program, told, where, draw, count):
    """The moves of a quadruple: where the signal comes into the first column of a bank, by the places that the program tells."""
    starts = told.starts()
    q = draw.randrange(1, len(starts) - 1)
    page.wait(
        f"""(async () => {{ const run = bench.current.run; bench.state.layer = "quadruple"; bench.goTo({starts[q]});
      const first = run.chunkNumber({starts[q]}), last = run.chunkNumber({starts[q + 1]});
      for (let k = 0; k < 3000 && !run.range(first, last).every(c => run.loaded(c)); k++) await new Promise(done => setTimeout(done, 50)); }})()"""
    )
    given = page.ask(
        f"bench.current.run.movesBetween({starts[q]}, {starts[q + 1]}).map(it => [it.step, bench.placeName(it.place)])"
    )
    banks = page.ask("bench.current.run.layout.banks.map(it => [it.base, it.rows, it.count])")
    entries = {f"{base + row}.w" for base, rows, _ in banks for row in range(rows)}
    lines = program.text(
        ["session", *told.words], f"{told.table}%\nstep {starts[q]}\n" + "step 1\n" * (starts[q + 1] - starts[q] - 1)
    ).splitlines()
    right = [[int(line.split()[3]), line.split()[1]] for line in lines if line.split()[1] in entries]
    count.hold(
        given == right,
        f"{where}, quadruple {q}: of its {len(right)} moves {len(given)} are listed: {given[:3]}, {right[:3]}",
    )


def check_stops(page, told, where, draw, count):
    """A step on and one back at the layers, from drawn places; and a play from start to end and back."""
    starts = [*told.starts(), *([told.end] if told.moments[-1][0] != told.end else [])]
    for e in [0, told.end] + [draw.randrange(1, told.end) for _ in range(3)]:
        given = page.wait(
            f"""(async () => {{ const found = [], {{current, goTo, state, step}} = bench; state.layer = "quadruple";
          for (const direction of [1, -1]) {{ goTo({e}); await step(direction); found.push(state.e); }} return found; }})()"""
        )
        right = [next((it for it in starts if it > e), told.end), next((it for it in reversed(starts) if it < e), 0)]
        count.hold(given == right, f"{where}: a quadruple on and back from {e} lead to {given}, and not to {right}")
    played = page.wait(
        """(async () => { const {state, play, goTo, RANGES} = bench, kept = RANGES.quadruple[1], found = [];
      state.layer = "quadruple"; state.speed = 100; RANGES.quadruple[1] = 400; goTo(0);
      for (const direction of [1, -1]) {
        play(direction);
        for (let k = 0; k < 6000 && state.playing; k++) await new Promise(done => setTimeout(done, 25));
        found.push(state.e);
      }
      RANGES.quadruple[1] = kept; state.speed = 40;
      return found; })()"""
    )
    count.hold(played == [told.end, 0], f"{where}: played to the end and back it comes to {played}")


def check_cells(page, program, draw, count):
    """Cells between two moments, and what is told of the control there."""
    for fragment, many in (("#m=increment", 8), ("#m=palindrome&w=ab", 6), ("#m=complement&w=10", 6)):
        page.visit(f"file://{PAGE}{fragment}")
        told = told_of(page, program)
        for e in sorted(draw.randrange(told.moments[0][0], told.end) for _ in range(many)):
            page.wait(
                f"(async () => {{ const run = bench.current.run; await run.ready({e}); bench.goTo({e}); await run.ready({e}); bench.render(false); }})()"
            )
            view, ran = (program.text([word, *told.words, str(e)], told.table).splitlines() for word in ("view", "run"))
            tapes = [read_tape(line, number, "view") for number, line in enumerate(view[3:6], 1)]
            now = [
                read_tape(line, number, "run")
                for number, line in enumerate((it for it in ran if it.startswith("tape")), 1)
            ]
            right = []
            for tape, (old, new) in enumerate(zip(tapes, now), 1):
                for k, (was, symbol) in enumerate(zip(old.symbols, new.symbols)):
                    cell = old.first + k
                    if was != symbol or (old.head == cell) != (new.head == cell):
                        right.append(
                            [
                                tape,
                                cell,
                                symbol,
                                new.head == cell and old.head != cell,
                                symbol if symbol != was else None,
                            ]
                        )
            given = page.ask(NOW)
            count.hold(given == right, f"{fragment}, step {e}: between two moments {given} is shown, and not {right}")
            said, short = page.ask("(it => [it.title, it.textContent])(document.querySelector('#controlsaid span'))")
            number = next_quadruple(program.text(["bennett"], told.table), view)
            count.hold(
                not number
                or f"quadruple {number[0]} of Bennett's table: {number[1]} [" in said
                and said.endswith(f"] {number[2]}")
                and f"quadruple {number[0]}" in short,
                f"{fragment}, step {e}: of the control it is said {said!r}, and the quadruple is {number}",
            )


def check_control(page, program, draw, count):
    """The names of the control's columns: where an answer comes, the marked one awaits it; at a moment it is the state's first."""
    waits = {"A": "reads", "DoneW": "writes", "DoneR": "shifts", "DoneL": "shifts"}
    for fragment in ("#m=least", "#m=increment", "#m=palindrome&w=ab"):
        page.visit(f"file://{PAGE}{fragment}")
        told = told_of(page, program)
        quadruples = [line.split(",") for line in program.text(["bennett"], told.table).splitlines()]
        names, columns, labels = page.ask(
            "(run => (it => [it, run.layout.banks[0].columns, it.map(bench.controlLabel)])"
            "(run.layout.control.columns.map((_, k) => bench.controlState(run, k))))(bench.current.run)"
        )
        count.hold(
            len(names) == columns == len(set(labels)) and names[0]["kind"] == "begin" and names[1]["kind"] == "end",
            f"{fragment}: {len(names)} names of {columns} columns",
        )
        for q in sorted(draw.sample(range(len(told.moments) - 1), min(8, len(told.moments) - 1))):
            steps, name = told.moments[q][:2]
            found = page.wait(
                f"""(async () => {{ const run = bench.current.run, found = []; await run.ready({steps});
              const to = run.starts[{q} + 1] ?? run.end; for (let c = run.chunkNumber({steps}); c <= run.chunkNumber(to); c++) {{ await run.chunk(c); await run.bars(c); }}
              const named = e => bench.controlState(run, run.markedColumn(run.layout.banks[0], e));
              found.push([{steps}, named({steps})]);
              for (const it of run.movesBetween({steps} + 1, to)) if (bench.moduleWith(run.layout, it.place >> 2).kind === "control") found.push([it.step, named(it.step)]);
              return found; }})()"""
            )
            first = found[0][1]
            from_state = quadruples[first["quadruple"] - 1][0] if first["kind"] == "shifts" else first.get("state")
            count.hold(
                from_state == name and first["kind"] in ("reads", "shifts") and not first.get("symbols"),
                f"{fragment}: at the moment of {name} the control's column is {first}",
            )
            for step, it in found[1:]:
                line = program.text(["view", *told.words, str(step)], told.table).splitlines()[1]
                come = re.match(r"module control line (A|DoneW|DoneR|DoneL)(?: \d+)? (\d)$", line)
                count.hold(
                    come and it and it["kind"] == waits[come[1]] and it["tape"] == int(come[2]),
                    f"{fragment}, step {step}: {line}, and the control's column is {it}",
                )


def check_span(page, program, count):
    """The window of the time line: by keys, wheel, buttons and its frame; and what a click in it leads to."""
    page.visit(f"file://{PAGE}#m=increment")
    told = told_of(page, program)
    whole, starts = len(told.moments), told.starts()
    page.ask(
        "document.activeElement.blur(); bench.state.layer = 'quadruple'; bench.goTo(bench.current.run.starts[40]); 0"
    )
    seen = lambda: page.ask("(() => { const it = bench.state.span; return it && [it.from, it.to]; })()")
    page.strike("+", 187, "+")
    one = seen()
    page.strike("+", 187, "+")
    two = seen()
    count.hold(
        one
        and two
        and abs(one[1] - one[0] - whole / 2) < 0.01
        and abs(two[1] - two[0] - whole / 4) < 0.01
        and two[0] <= 40 <= two[1],
        f"by + the window of {whole} moments is {one}, then {two}",
    )
    words = page.ask("document.getElementById('spansaid').textContent")
    count.hold(
        f"quadruple steps {int(two[0])} to {-int(-two[1] // 1) - 1}" in words, f"of the window {two} is said {words!r}"
    )
    box = page.ask(
        "(box => [box.x, box.y, box.width, box.height])(document.getElementById('film').getBoundingClientRect())"
    )
    for share in (0.1, 0.5, 0.83):
        for kind in ("mousePressed", "mouseReleased"):
            page.call(
                "Input.dispatchMouseEvent",
                type=kind,
                x=box[0] + share * box[2],
                y=box[1] + 50,
                button="left",
                clickCount=1,
            )
        right = starts[int(two[0] + (two[1] - two[0]) * share)]
        count.hold(
            comes(page, f"bench.state.e === {right}"),
            f"a click in the window leads to {page.ask('bench.state.e')}, and not to {right}",
        )
        place, left = (told.time(right) - two[0]) / (
            two[1] - two[0]
        ) * 100, "parseFloat(document.getElementById('cursor').style.left)"
        count.hold(
            comes(page, f"Math.abs({left} - {place}) < .5"),
            f"the cursor stands at {page.ask(left)}, and not at {place}",
        )
    page.call("Input.dispatchMouseEvent", type="mouseWheel", x=box[0] + box[2] / 2, y=box[1] + 50, deltaX=0, deltaY=120)
    count.hold(
        soon(lambda: seen() and abs(seen()[1] - seen()[0] - 1.25 * (two[1] - two[0])) < 0.01),
        f"by the wheel the window is {seen()}",
    )
    page.ask("document.getElementById('whole').focus(); 0")
    page.strike("Home", 36)
    count.hold(seen() and seen()[0] == 0, f"by Home the window is {seen()}")
    wide = seen()[1] - seen()[0]
    page.strike("ArrowRight", 39)
    count.hold(abs(seen()[0] - wide / 3) < 0.01, f"by → the window is {seen()}")
    strip = page.ask("(box => [box.x, box.y, box.width])(document.getElementById('whole').getBoundingClientRect())")
    middle = sum(seen()) / 2 / whole
    page.call(
        "Input.dispatchMouseEvent",
        type="mousePressed",
        x=strip[0] + middle * strip[2],
        y=strip[1] + 6,
        button="left",
        clickCount=1,
    )
    page.call(
        "Input.dispatchMouseEvent",
        type="mouseMoved",
        x=strip[0] + 0.7 * strip[2],
        y=strip[1] + 6,
        button="left",
        buttons=1,
    )
    page.call(
        "Input.dispatchMouseEvent",
        type="mouseReleased",
        x=strip[0] + 0.7 * strip[2],
        y=strip[1] + 6,
        button="left",
        clickCount=1,
    )
    count.hold(
        soon(lambda: abs(sum(seen()) / 2 - 0.7 * whole) < 0.5), f"drawn along to .7 of {whole} the window is {seen()}"
    )
    page.ask("document.querySelector('[data-span=all]').click(); 0")
    count.hold(seen() is None, f"after All the window is {seen()}")
    page.ask("bench.zoomTime(10, 0); bench.goTo(0); 0")
    page.wait("(async () => { for (let k = 0; k < 14; k++) await bench.step(1); })()")
    count.hold(seen()[0] <= 14 <= seen()[1], f"the window doesn't follow: {seen()} at quadruple 14")
    tints = page.ask("[...document.querySelectorAll('#filmpic .tint')].length")
    count.hold(tints >= 1, "the film has no stage in the window")


def check_marks(page, program, draw, count):
    """Marks of breakpoints: on an element those that the program comes to, in the window that is seen, and whether there are more."""
    page.visit(f"file://{PAGE}#m=increment")
    told = told_of(page, program)
    elements = [
        0,
        page.ask("bench.cellModule(bench.current.run.layout, 2, 3).base + 2"),
        page.ask("bench.current.run.layout.banks[0].rows"),
    ]
    elements += [draw.randrange(page.ask("bench.current.run.circuit.count")) for _ in range(2)]
    for element in elements:
        for span in (None, [20.0, 26.0]):
            page.ask(
                f"Object.assign(bench.state, {{breaks: [{{kind: 'element', element: {element}}}], span: {json.dumps(span and dict(zip(('from', 'to'), span)))}}});"
                " bench.zoomTime(1); 0"
            )
            page.wait(
                "(async () => { for (let k = 0; k < 2500 && (k < 8 || document.getElementById('spansaid').textContent.includes('looks for')); k++)"
                " await new Promise(done => setTimeout(done, 60)); })()"
            )
            low, high = span or [0, len(told.moments)]
            ends = [told.end if it >= len(told.moments) else told.starts()[int(it)] for it in (low, high)]
            right = told.comes(element, max(0, ends[0] - 1), ends[1], 201)
            given = page.ask(
                "[...document.querySelectorAll('#breakmarks .element')].map(it => parseFloat(it.style.left))"
            )
            places = [(told.time(step) - low) / (high - low) * 100 for step in right[:200]]
            count.hold(
                len(given) == len(places) and all(abs(a - b) < 0.02 for a, b in zip(given, places)),
                f"element {element} in {span}: {len(given)} marks {given[:3]}, and not {len(places)} {places[:3]}",
            )
            is_more = "there are more" in page.ask("document.getElementById('spansaid').textContent")
            count.hold(
                is_more == (len(right) > 200),
                f"element {element} in {span}: whether there are more marks than {len(places)}",
            )
    page.ask("Object.assign(bench.state, {breaks: [{kind: 'state', state: 'Add'}], span: null}); bench.zoomTime(1); 0")
    right = [q for q, it in enumerate(told.moments) if it[3] == "Add" and it[2] != "copy"]
    comes(page, f"document.querySelectorAll('#breakmarks i').length === {len(right)}")
    given = page.ask("[...document.querySelectorAll('#breakmarks i')].map(it => parseFloat(it.style.left))")
    count.hold(
        len(given) == len(right) and all(abs(a - q / len(told.moments) * 100) < 0.02 for a, q in zip(given, right)),
        f"the state's marks are {given}",
    )
    # A play stops where the signal comes to the element, however far a frame goes.
    element = elements[1]
    right = told.comes(element, 0, told.end, 1)
    e = page.wait(
        f"""(async () => {{ const {{state, play, goTo}} = bench; Object.assign(state, {{breaks: [{{kind: "element", element: {element}}}], layer: "machine", speed: 100}});
      goTo(0); play(1); for (let k = 0; k < 6000 && state.playing; k++) await new Promise(done => setTimeout(done, 25)); state.speed = 40; return state.e; }})()"""
    )
    count.hold([e] == right, f"a play stops at {e} for element {element}, and the program comes to it at {right}")
    page.ask("bench.state.breaks = []; 0")


def check_firsts(page, program, draw, count):
    """When a cell was first changed, of a short run and of one that is shown as a long one; by a click and by keys."""
    for limits in (PLAIN, SMALL):
        lay(page, limits, 10**9, "#m=increment")
        told = told_of(page, program)
        cells = [(tape, view.first + k) for tape, view in enumerate(told.views[0], 1) for k in range(len(view.symbols))]
        for tape, cell in draw.sample(cells, 9):
            page.ask(f"bench.state.cell = {{tape: {tape}, cell: {cell}}}; bench.goTo(bench.current.run.end); 0")
            page.wait("bench.current.run.ready(bench.state.e).then(() => bench.render(false))")
            page.wait(
                """(async () => { const it = [...document.querySelectorAll("#cellbox button")].find(it => /Go there|When was/.test(it.textContent));
              it?.click(); for (let k = 0; k < 3000 && (k < 3 || document.getElementById("busy").textContent); k++) await new Promise(done => setTimeout(done, 40)); })()"""
            )
            first = told.first_change(tape, cell)
            right, words = (
                (told.end, "ever changed")
                if first is None
                else (told.starts()[first], f"First changed at quadruple step {first},")
            )
            count.hold(
                comes(
                    page,
                    f"bench.state.e === {right} && document.getElementById('cellbox').textContent.includes({json.dumps(words)})",
                ),
                f"cell {cell} of tape {tape}: it leads to {page.ask('bench.state.e')} with {page.ask('document.getElementById(`cellbox`).textContent')!r}, "
                f"and it first changes at {first}, step {right}",
            )
        page.ask("bench.state.cell = null; bench.goTo(0); document.getElementById('three').focus(); 0")
        for key, code in (("ArrowDown", 40), ("ArrowRight", 39), ("ArrowRight", 39)):
            page.strike(key, code)
        cell = page.ask("bench.state.cell")
        page.strike("Enter", 13, "\r")
        first = told.first_change(cell["tape"], cell["cell"])
        count.hold(
            comes(page, f"bench.state.e === {told.starts()[first] if first is not None else 0}"),
            f"by keys cell {cell} leads to {page.ask('bench.state.e')}",
        )
        page.ask("bench.state.cell = null; document.activeElement.blur(); 0")


def check_far(page, program, draw, count):
    """A run of a thousand moments and half a billion element steps: its time line is there at once, and from any place to another."""
    page.visit(f"file://{PAGE}#m=palindrome&w={'a' * 22}", "bench.current.run?.circuit.count > 0")
    told = page.ask(
        "(run => [run.table, run.words, run.count, run.end, run.isWhole, run.stageParts().length])(bench.current.run)"
    )
    table, words, many, end = told[:4]
    ran = program.text(["run", *words], table)
    count.hold(
        f"steps {end}\n" in ran and f"quadruple steps {many - 1}\n" in ran and told[4:] == [True, 3],
        f"a long run has {many} moments up to step {end}, {told[4:]}",
    )
    calls = page.ask("bench.log.length")
    for q in [many - 1, 1, *(draw.randrange(1, many - 1) for _ in range(4))]:
        page.ask(f"bench.goTo(bench.current.run.starts[{q}]); 0")
        here = "bench.current.run.momentIndex(bench.state.e)"
        count.hold(
            comes(
                page, f"{here} === {q} && bench.current.run.isExact({q}) && bench.current.run.placeAt(bench.state.e)"
            ),
            f"moment {q} of a long run: the page is at {page.ask(here)}",
        )
        e = page.ask("bench.state.e")
        before, at = (program.text(["view", *words, str(it)], table).splitlines() for it in (max(0, e - 1), e))
        shown = page.ask(
            "(it => [`quadruple ${it.name}`, it.tapes.map(one => one.symbols.join(' ')), bench.placeName(bench.current.run.placeAt(bench.state.e).place)])"
            f"(bench.current.run.moments[{q}])"
        )
        tapes = [" ".join(read_tape(line, number, "view").symbols) for number, line in enumerate(at[3:6], 1)]
        count.hold(
            shown == [at[2], tapes, at[0].split()[2]],
            f"moment {q}, step {e}, of a long run shows {shown[0]} at {shown[2]}",
        )
        count.hold(q == 0 or at[2:] != before[2:], f"step {e} isn't the first of moment {q}")
    words_asked = [it.split()[0] for it in page.ask(f"bench.log.slice({calls}).map(it => it.words)")]
    count.hold("step" not in words_asked, "a long run is run element by element")
    link = f"#m=palindrome&w={'a' * 22}&e={end // 3}"
    page.visit(f"file://{PAGE}{link}", "bench.current.run?.circuit.count > 0")
    right = program.text(["view", *words, str(end // 3)], table).splitlines()[2]
    count.hold(
        comes(
            page,
            f"bench.state.e === {end // 3} && `quadruple ${{bench.current.run.moments[bench.current.run.momentIndex(bench.state.e)].name}}` === {json.dumps(right)}",
        ),
        f"a link to step {end // 3} leads to {page.ask('bench.state.e')}",
    )


def check_long(page, program, draw, count):
    # The hints would stand over what is clicked.
    page.visit(f"file://{PAGE}#m=least")
    page.ask("localStorage.setItem('hithwelor hints', 'seen'); 0")
    for check in (check_pieces, check_far, check_cells, check_control, check_marks, check_firsts):
        check(page, program, draw, count)
    check_span(page, program, count)
    page.visit(f"file://{PAGE}#m=least")
    page.ask("localStorage.clear(); 0")
