"""The lesson, walked whole: each step's picture, what is to be tried there, playing on and back at the same moment of one run, the
trail, its links; with the first machine and with one that was pasted; and how it is laid out. `--pictures FOLDER` keeps
photographs.
"""
import os

from shown import PAGE, comes, holds_time, settle, soon
from shown_layout import LAID, LAID_PATIENCE
from shown_pasted import machines
from shown_places import link

STEPS = ["machine", "past", "history", "stages", "row", "column", "ports", "element", "out"]
# What is seen at a step's level.
PICTURES = {
    "machine": ".l-tape svg",
    "past": ".l-tape svg",
    "history": ".l-tapes .tape:nth-child(2) svg",
    "stages": ".l-stages .now",
    "row": ".l-moves .now",
    "column": ".l-bank .element.now",
    "ports": ".l-bank .element.now",
    "element": ".rotary .bar",
    "out": ".l-tape svg",
}
TRIED = {
    "machine": ["learnplay"],
    "past": ["learntake"],
    "history": ["learnplay", "learntake"],
    "stages": [],
    "row": ["learnforth"],
    "column": ["learnplay", "learntake"],
    "ports": ["learnplay", "learntake"],
    "element": ["learnforth", "learnback"],
    "out": [],
}
WIDTHS = [(1920, 1080), (1280, 800), (1024, 768), (768, 1024), (390, 844), (640, 400)]
# What is wanted on an idle machine, in milliseconds: the longest task while it plays, and the first picture. And how many pieces the
# picture of a bank has at most, which every frame of its play makes anew.
TASK, FIRST, MOST_PIECES = 100, 1000, 260
SAID, SEEN = "document.getElementById('learnsaid').innerText", "document.querySelector('#learnpicture %s') !== null"
# Each step of the lesson by Next, played on and back for a while: the longest task, and at which step that was.
PLAYED = """(async () => {
  const rest = ms => new Promise(done => setTimeout(done, ms)), found = [0, ""];
  const taken = list => { for (const it of list) if (it.duration > found[0]) found.splice(0, 2, it.duration, bench.state.lesson); };
  const watch = new PerformanceObserver(list => taken(list.getEntries()));
  watch.observe({type: "longtask"});
  for (const step of %s) {
    bench.state.e = bench.current.run.starts[5];
    for (const name of ["learnplay", "learntake"]) {
      document.getElementById(name).click();
      await rest(500);
      bench.pause();
      await rest(100);
    }
    taken(watch.takeRecords());
    if (step !== "out") document.getElementById("learnnext").click();
  }
  watch.disconnect();
  return found;
})()"""


# Each text of a bank's picture lies within it, and each of its names is told in words in the lesson's card.
CUT = """(svg => {
  const room = svg.getBoundingClientRect(), out = box => box.top < room.top - .5 || box.right > room.right + .5 || box.left < room.left - .5;
  return [...svg.querySelectorAll("text")].filter(it => out(it.getBoundingClientRect())).map(it => it.textContent);
})(document.querySelector(".l-bank svg"))"""
UNTOLD = """(told => {
  const kind = it => it.split(" ")[0], names = [...document.querySelectorAll(".l-bank text title")].filter(it => it.textContent.startsWith("port "));
  return names.map(it => kind(it.nextSibling.textContent)).filter(it => !told.includes(it));
})([...document.querySelectorAll(".l-names dt")].map(it => it.textContent.split(" ")[0]))"""
# What is marked lies within the room of its picture.
IN_SIGHT = """(it => {
  const box = it.getBoundingClientRect(), room = document.getElementById("learnpicture").getBoundingClientRect();
  return box.top >= room.top - 1 && box.bottom <= room.bottom + 1 && box.left >= room.left - 1 && box.right <= room.right + 1;
})(document.querySelector("%s"))"""


def click(page, name):
    page.ask(f"document.getElementById('{name}').click(); 0")


def open_step(page, step, machine):
    page.visit(f"file://{PAGE}{machine}&learn={step}")
    return comes(page, SEEN % PICTURES[step])


def play_a_while(page, name, e):
    """Plays until another step is shown, and stops."""
    click(page, name)
    moved = comes(page, f"bench.state.e !== {e}")
    page.ask("bench.pause(); 0")
    settle(page)
    return moved


def check_walk(page, name, machine, count):
    """From the first step to the last by Next; what is to be tried is ticked off, and the moment stays."""
    count.hold(open_step(page, "machine", machine), f"{name}: the first picture isn't seen")
    for step in STEPS:
        where = f"{name}, {step}"
        count.hold(
            comes(page, SEEN % PICTURES[step]),
            f"{where}: its picture isn't seen: {page.ask('document.getElementById(`learnpicture`).innerText')[:90]!r}",
        )
        count.hold(page.ask("bench.state.lesson") == step, f"{where}: the step is {page.ask('bench.state.lesson')}")
        if step in ("machine", "past", "history"):
            rules = page.ask(
                "[[...document.querySelectorAll('.l-rules li b')].map(it => Number(it.textContent)), bench.current.run.rules.length]"
            )
            count.hold(
                rules[0] == list(range(1, rules[1] + 1)),
                f"{where}: of {rules[1]} rules the numbers {rules[0]} stand there",
            )
        if step in ("row", "column", "ports"):
            names = page.ask("[...document.querySelectorAll('.l-names dt')].map(it => it.textContent)")
            count.hold(
                {"row": {"module", "control", "quadruple"}, "column": {"bank", "column"}, "ports": {"port"}}[step]
                <= set(names),
                f"{where}: told are {names}",
            )
        if step == "ports":
            count.hold(
                not page.ask(UNTOLD) and not page.ask(CUT),
                f"{where}: {page.ask(UNTOLD)} aren't told in words, {page.ask(CUT)} are cut",
            )
        if step == "element":
            turns = (
                "(it => it.cells[0].textContent !== it.cells[3].textContent)(document.querySelector('.l-cases tr.now'))"
            )
            count.hold(comes(page, turns), f"{where}: it begins where the signal goes straight on")
            wide, words = page.ask(
                "[document.querySelector('.rotary .box').getBoundingClientRect().width, document.querySelector('.l-cases p').textContent]"
            )
            count.hold(
                wide >= 150 and "the only one of eight with this result" in words,
                f"{where}: the element is {wide:.0f} wide, and it says {words!r}",
            )
        settle(page)
        count.hold("✓" not in page.ask(SAID) or not TRIED[step], f"{where}: it is ticked off before anything was tried")
        for act in TRIED[step]:
            before = page.ask("bench.state.e")
            if step == "past":
                click(page, act)
                told = comes(page, "document.querySelectorAll('.l-pasts figure').length > 0")
                pasts = page.ask("document.querySelectorAll('.l-pasts figure').length")
                count.hold(
                    told
                    and (pasts >= 2 or "Only one rule" in page.ask("document.querySelector('.l-pasts').innerText")),
                    f"{where}: {pasts} pasts are drawn",
                )
                count.hold(page.ask("bench.state.playing") == 0, f"{where}: the machine alone is taken back")
                words, after = page.ask("[document.querySelector('.l-pasts').innerText, bench.state.e]")
                count.hold(
                    after == before or "so here is the nearest step" in words,
                    f"{where}: from {before} it goes to {after}, and says {words[:90]!r}",
                )
            elif act in ("learnplay", "learntake"):
                count.hold(play_a_while(page, act, before), f"{where}: {act} moves nothing")
            else:
                click(page, act)
                count.hold(comes(page, f"bench.state.e !== {before}"), f"{where}: {act} moves nothing")
                settle(page)
        if step == "stages":
            page.ask("bench.goTo(bench.current.run.end); 0")
            settle(page, 300)
            count.hold(
                "✓" in page.ask(SAID) or not page.ask("bench.current.found.own.outcome === 'halted'"),
                f"{where}: its end isn't ticked off",
            )
        elif TRIED[step]:
            count.hold(comes(page, f"{SAID}.includes('✓')"), f"{where}: what was tried isn't ticked off")
        e, kept = page.ask("bench.state.e"), page.ask("document.getElementById('learntrail').innerText")
        if step in ("history", "row"):
            click(page, "learnnext")
            count.hold(page.ask("bench.state.e") == e, f"{where}: behind Next another moment is shown")
        elif step != "out":
            click(page, "learnnext")
        settle(page, 150)
        count.hold("machine" in kept, f"{where}: the trail says {kept!r}")
    check_trail(page, name, count)
    count.hold(not page.faults(), f"{name}: {page.faults()}")


def check_played(page, name, machine, count):
    """While it plays, the page never stands still for long; and what each frame of a bank makes anew is little."""

    def measure():
        open_step(page, "machine", machine)
        return page.wait(PLAYED % STEPS)

    holds_time(page, count, f"Learn, {name}: the longest task while it plays", TASK, measure)
    open_step(page, "column", machine)
    pieces = page.ask("document.querySelectorAll('.l-bank svg *').length")
    count.hold(20 < pieces <= MOST_PIECES, f"{name}: the picture of a bank has {pieces} pieces")


def check_trail(page, name, count):
    """Each part of the trail leads to its level, at the same moment."""
    page.ask("bench.goTo(bench.current.run.starts[5]); 0")
    settle(page, 200)
    e = page.ask("bench.state.e")
    for level, picture in (
        ("element", PICTURES["element"]),
        ("column", PICTURES["column"]),
        ("row", PICTURES["row"]),
        ("history", PICTURES["history"]),
        ("machine", PICTURES["machine"]),
    ):
        page.ask(f"document.querySelector('#learntrail [data-level={level}]').click(); 0")
        count.hold(
            comes(page, SEEN % picture) and page.ask("bench.state.e") == e,
            f"{name}: the trail's {level} shows step {page.ask('bench.state.e')}, and not {e}",
        )
    count.hold("✓" in page.ask(SAID), f"{name}: that the trail was walked isn't ticked off")
    click(page, "learnnext")
    count.hold(
        page.ask("bench.state.lesson") is None and page.ask("document.getElementById('tapes').checkVisibility()"),
        f"{name}: behind the last step isn't the workbench",
    )
    settle(page, 200)
    count.hold(page.ask("document.querySelectorAll('#three svg').length") == 3, f"{name}: the workbench shows no tapes")


def check_ways(page, count):
    """Two ways in: at a first visit, and by a link; a reload keeps the step, and Back leaves it."""
    page.visit(f"file://{PAGE}#m=least")
    page.ask("localStorage.clear(); 0")
    page.visit(f"file://{PAGE}")
    count.hold(
        page.ask("bench.state.lesson") == "machine" and page.ask("document.getElementById('hint') === null"),
        f"at a first visit the lesson is {page.ask('bench.state.lesson')}",
    )
    click(page, "learnnext")
    settle(page, 700)
    page.visit(f"file://{PAGE}")
    count.hold(page.ask("bench.state.lesson") is None, "at a second visit it isn't the workbench")
    page.visit(f"file://{PAGE}#learn")
    count.hold(
        page.ask("bench.state.lesson") == "past",
        f"the lesson is gone on with at {page.ask('bench.state.lesson')}, where it was left at the second step",
    )
    page.visit(f"file://{PAGE}#m=complement&w=01&learn=history")
    count.hold(
        comes(page, "location.hash.includes('learn=history') && location.hash.includes('w=01')"),
        f"the address is {page.ask('location.hash')[:80]}",
    )
    asked = page.ask("location.hash")
    page.visit(f"file://{PAGE}{asked}")
    count.hold(
        page.ask("[bench.state.lesson, bench.state.word]") == ["history", "01"], "the address doesn't keep the lesson"
    )
    page.visit(f"file://{PAGE}#m=increment&w=11")
    settle(page, 700)
    click(page, "openlearn")
    count.hold(comes(page, "bench.state.lesson !== null"), "Learn isn't opened by its button")
    page.ask("history.back(); 0")
    count.hold(
        comes(page, "bench.state.lesson === null && document.getElementById('learn').hidden"),
        "Back leaves the lesson open",
    )


def check_address(page, count):
    """A step that an address names has its own layer, whatever else the address lacks; and an end has a way into a rule."""
    for step, most in (("element", 1), ("column", 1), ("row", 20000)):
        open_step(page, step, "#m=increment")
        before = page.ask("bench.state.e")
        click(page, "learnforth")
        comes(page, f"bench.state.e !== {before}")
        count.hold(
            0 < page.ask("bench.state.e") - before <= most,
            f"of the address of {step} a step leads from {before} to {page.ask('bench.state.e')}",
        )
    end = page.ask("bench.current.run.end")
    page.visit(f"file://{PAGE}#m=increment&learn=row&e={end}")
    count.hold(
        comes(page, "document.querySelector('#learnpicture [data-go]') !== null"),
        "at the end of the run nothing leads into a rule",
    )
    page.ask("document.querySelector('#learnpicture [data-go]').click(); 0")
    count.hold(comes(page, SEEN % PICTURES["row"]), "from the end of the run no row is come to")


def check_keys(page, count):
    """By the keyboard alone: space plays, the arrows step, Tab and Enter go on."""
    open_step(page, "history", "#m=increment&w=1011")
    page.ask("document.activeElement?.blur?.(); 0")
    page.strike("ArrowRight", 39)
    count.hold(comes(page, "bench.state.e > 0"), "→ makes no step in the lesson")
    page.strike(" ", 32, " ")
    comes(page, "bench.state.playing > 0 && bench.state.e > 0")
    page.strike(" ", 32, " ", shift=True)
    count.hold(comes(page, f"{SAID}.includes('✓')"), "by keys alone what was tried isn't ticked off")
    page.ask("bench.pause(); 0")
    for _ in range(40):
        page.strike("Tab", 9)
        if page.ask("document.activeElement.id") == "learnnext":
            break
    count.hold(page.ask("document.activeElement.id") == "learnnext", "the Tab key doesn't come to Next")
    page.strike("Enter", 13, "\r")
    count.hold(comes(page, "bench.state.lesson === 'stages'"), "Enter on Next doesn't go on")


def check_laid(page, pictures, count):
    for width, height in WIDTHS:
        page.call("Emulation.setDeviceMetricsOverride", width=width, height=height, deviceScaleFactor=1, mobile=False)
        for step in STEPS:
            e = {"machine": 0, "past": 0}.get(step, 500500)
            seen = open_step(page, step, f"#m=increment&w=1011&e={e}")
            if step == "past":
                click(page, "learntake")
            settle(page, 250)
            where = f"Learn, {step}, {width} by {height}"
            for shade in ("light", "dark"):
                page.call("Emulation.setEmulatedMedia", features=[{"name": "prefers-color-scheme", "value": shade}])
                page.wait("new Promise(done => setTimeout(done, 60))")
                if pictures:
                    page.screenshot(os.path.join(pictures, f"learn-{width}-{shade}-{step}.png"))
            soon(lambda: not page.ask(LAID)["many"], LAID_PATIENCE)
            given = page.ask(LAID)
            count.hold(
                seen and given["count"] > 8 and not given["many"],
                f"{where}: of {given['count']} texts {given['many']} lie over others: {'; '.join(given['over'])}",
            )
            count.hold(given["wide"] <= width, f"{where}: the page is {given['wide']} wide")
            low = page.ask(
                "['learnplay', 'learnpicture', ...(innerWidth > 760 ? ['learnnext'] : [])].map(id => document.getElementById(id).getBoundingClientRect()).some(it => it.top > innerHeight - 20 || it.height < 20)"
            )
            count.hold(not low, f"{where}: the picture or Play is out of sight")
            marked = {"element": ".l-cases tr.now", "row": ".l-moves .now", "column": ".l-bank .element.now"}.get(step)
            if marked and height > 600:
                count.hold(comes(page, IN_SIGHT % marked, LAID_PATIENCE), f"{where}: what is marked is out of sight")
    page.call("Emulation.setEmulatedMedia", features=[])
    page.call("Emulation.setDeviceMetricsOverride", width=1280, height=800, deviceScaleFactor=1, mobile=False)


def check_first(page, count):
    def measure():
        page.visit(f"file://{PAGE}#m=increment&learn=machine")
        comes(page, "performance.getEntriesByName('shown').length > 0")
        return page.ask("performance.getEntriesByName('shown')[0].startTime"), ""

    holds_time(page, count, "Learn: the first picture", FIRST, measure)


def check_learn(page, pictures, count):
    page.call("Emulation.setDeviceMetricsOverride", width=1280, height=800, deviceScaleFactor=1, mobile=False)
    page.visit(f"file://{PAGE}#m=least")
    check_first(page, count)
    walked = {
        "Add one": "#m=increment&w=1011",
        "a pasted adder": link(t=machines()["adder"]["texts"]["latex"], w="1011"),
        "a machine that is stuck": link(t="S,_,_,+,A\nA,1,1,+,A\nA,0,0,-,B\nB,1,0,-,B\nA,_,_,0,F\n", w="1101"),
    }
    for name, machine in walked.items():
        check_walk(page, name, machine, count)
        check_played(page, name, machine, count)
    check_ways(page, count)
    check_address(page, count)
    check_keys(page, count)
    check_laid(page, pictures, count)
