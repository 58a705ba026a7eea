"""What helps to read the page: hints at a first visit, panels in words, a still without scripts, and paper."""
import base64
import re
import time

from counting import text_of
from shown import PAGE, PATIENCE
from workbench_text import read_tape

STILL = ["=1011", "0", "5", "11", "5", "1700000"]
REFUSING = "Storage.prototype.setItem = () => { throw new DOMException('refused'); };"
WORDS = """(panel => {
  document.querySelector(`[data-about=${panel}]`).click();
  const words = document.getElementById("dialogbody").innerText;
  document.getElementById("dialog").close();
  return words;
})('%s')"""
# How many pictures are seen without scripts.
STANDS = "[...document.querySelectorAll('figure>svg')].filter(it => it.getBoundingClientRect().height > 20).length"
SPELLED = {"_": "blank"}


def hint(page):
    return page.ask("document.getElementById('hint')?.getAttribute('aria-label') ?? ''")


def check_hints(page, _, count):
    page.visit(f"file://{PAGE}#m=least")
    page.ask("localStorage.clear(); 0")
    page.visit(f"file://{PAGE}#m=least")
    seen, first = [hint(page)], page.ask("document.getElementById('hint').innerText")
    count.hold("erases" in first and "heat" in first, f"the first hint doesn't say why one would undo: {first!r}")
    for name in ("hintnext", "hintnext", "hintnext", "hintend"):
        page.ask(f"document.getElementById('{name}')?.click(); 0")
        seen.append(hint(page))
    count.hold(
        seen == ["Hint 1 of 4", "Hint 2 of 4", "Hint 3 of 4", "Hint 4 of 4", ""],
        f"at a first visit the hints are {seen}",
    )
    page.visit(f"file://{PAGE}#m=complement")
    count.hold(hint(page) == "", f"at the second visit there is {hint(page)!r}")
    page.ask("localStorage.clear(); 0")
    script = page.call("Page.addScriptToEvaluateOnNewDocument", source=REFUSING)["identifier"]
    page.visit(f"file://{PAGE}#m=least")
    count.hold(
        hint(page) == "" and not page.faults(), f"where nothing is kept there is {hint(page)!r}, and {page.faults()}"
    )
    page.call("Page.removeScriptToEvaluateOnNewDocument", identifier=script)


def check_words(page, program, count):
    """What the panels say of a step is what `view` and `run` say."""
    for fragment in ("#m=increment&e=1200000", "#m=least&e=20000", "#m=faulty&w=1&e=77777"):
        page.visit(f"file://{PAGE}{fragment}")
        table, words, e = page.ask("[bench.current.run.table, bench.current.run.words, bench.state.e]")
        page.wait(f"bench.current.run.ready({e})")
        view = program.text(["view", *words, str(e)], table).splitlines()
        ran = program.text(["run", *words], table)
        own = program.text(["machine", words[0], "100000"], table).split()
        tapes = []
        for number, line in enumerate(view[3:6], 1):
            tape = read_tape(line, number, "view")
            tapes.append(
                f"from cell {tape.first} on: {' '.join(SPELLED.get(it, it) for it in tape.symbols)}; the "
                f"head is at cell {tape.head}."
            )
        told = {
            "machine": [f"halts after {own[1]} steps"],
            "tapes": [f"Stage: {view[6].split()[1]}.", f"from state {view[2].split()[1]}.", *tapes],
            "circuit": [
                f"{int(ran.split()[1]):,} elements",
                f"at element {int(re.match('element at ([0-9]+)', view[0])[1]):,}.",
            ],
            "time": [f"{re.search('quadruple steps ([0-9]+)', ran)[1]} quadruple steps", f"element step {e:,}."],
        }
        for panel, lines in told.items():
            said = page.ask(WORDS % panel)
            missing = [it for it in lines if it not in said]
            count.hold(not missing, f"{fragment}, ? of {panel}: {missing} isn't said: {said[:300]!r}")
    for key in ("elements", "design", "mirror", "farm", "erase", "plan", "pebbles", "command"):
        page.ask(f"bench.openWorkshop('{key}'); document.getElementById('e-about-page').click(); 0")
        said = page.ask("document.getElementById('dialogbody').innerText")
        count.hold(len(said) > 150, f"? of {key} says {said!r}")
        page.ask("document.getElementById('dialog').close(); 0")
    page.ask("document.getElementById('workshop').close(); 0")


def check_still(page, program, count):
    """Without scripts a still and a sentence are seen, and the still shows what `view` says."""
    still = re.findall(r'font-family="monospace"[^>]*>([^<]*)<', text_of("page", "src", "still.svg"))
    tapes = program.text(["view", *STILL], text_of("examples", "increment.csv")).splitlines()[3:6]
    right = [it for number, line in enumerate(tapes, 1) for it in read_tape(line, number, "view").symbols]
    count.hold(
        still == [it.replace("_", "·") for it in right], f"the still shows {still}, and the program says {right}"
    )
    page.call("Emulation.setScriptExecutionDisabled", value=True)
    page.call("Emulation.setDeviceMetricsOverride", width=390, height=844, deviceScaleFactor=1, mobile=False)
    for it in ("about:blank", f"file://{PAGE}"):
        page.call("Page.navigate", url=it)
    until = time.monotonic() + PATIENCE
    while page.ask(STANDS) < 2 and time.monotonic() < until:
        time.sleep(0.1)
    text, main, wide = page.ask(
        "[document.body.innerText, document.querySelector('main').offsetParent,"
        " document.documentElement.scrollWidth]"
    )
    pictures = page.ask(STANDS)
    count.hold(
        "needs JavaScript" in text and pictures == 2 and main is None and wide <= 390,
        f"without scripts: {pictures} pictures, {wide} wide, {text[:200]!r}",
    )
    page.call("Emulation.setScriptExecutionDisabled", value=False)
    page.call("Emulation.setDeviceMetricsOverride", width=1680, height=1050, deviceScaleFactor=1, mobile=False)


def check_paper(page, _, count):
    """On paper: the four panels on one page, dark on white whatever the scheme, and nothing to press."""
    dark = [{"name": "prefers-color-scheme", "value": "dark"}]
    page.call("Emulation.setDeviceMetricsOverride", width=1280, height=800, deviceScaleFactor=1, mobile=False)
    page.call("Emulation.setEmulatedMedia", features=dark)
    page.visit(f"file://{PAGE}#m=increment&e=900000")
    data = base64.b64decode(page.call("Page.printToPDF", preferCSSPageSize=True, printBackground=True)["data"])
    sheets = len(re.findall(rb"/Type\s*/Page[^s]", data))
    page.call("Emulation.setEmulatedMedia", media="print", features=dark)
    shown = page.ask(
        """(() => {
      const isSeen = it => it.checkVisibility() && it.getBoundingClientRect().height > 0;
      return {pressed: [...document.querySelectorAll("button,select,input[type=range]")].filter(isSeen).map(it => it.id),
              panels: [...document.querySelectorAll("main>.panel,#time")].filter(isSeen).length,
              ground: getComputedStyle(document.body).backgroundColor, ink: getComputedStyle(document.body).color};
    })()"""
    )
    page.call("Emulation.setEmulatedMedia", media="", features=[])
    page.call("Emulation.setDeviceMetricsOverride", width=1680, height=1050, deviceScaleFactor=1, mobile=False)
    count.hold(
        sheets == 1
        and shown["panels"] == 4
        and set(shown["pressed"]) <= {"size", "tab-moves", "tab-table"}
        and shown["ground"] == "rgb(255, 255, 255)"
        and shown["ink"] == "rgb(28, 35, 45)",
        f"on paper: {sheets} pages, {shown}",
    )


def check_reading(page, program, count):
    for check in (check_hints, check_words, check_still, check_paper):
        check(page, program, count)
