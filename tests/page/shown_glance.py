"""What is understood at a glance: few sizes of type, one primary button a panel, colours that say one thing, tapes that stand
still, the lens, the marked column in sight, names in words, the skip link, lecture mode, and a window at 200 %.
"""
import json

from shown import PAGE, comes, settle
from shown_editor import many_states
from shown_places import link
from shown_times import four

MOST_SIZES = 6
# The sizes of all text that is seen, with a sample of each.
SIZES = """(() => {
  const found = {}, walker = document.createTreeWalker(document.body, NodeFilter.SHOW_TEXT);
  while (walker.nextNode()) {
    const it = walker.currentNode.parentElement, words = walker.currentNode.textContent.trim();
    if (!words || it.closest("script,style,title,noscript,option,.visually-hidden") || !it.checkVisibility()) continue;
    found[parseFloat(getComputedStyle(it).fontSize)] ??= `${it.tagName}.${it.getAttribute("class")}: ${words.slice(0, 20)}`;
  }
  return found;
})()"""
PRIMARY = """[...document.querySelectorAll(".panel,dialog[open]")].map(it => [it.id,
  [...it.querySelectorAll("button.main,#play")].filter(one => one.checkVisibility()).length]).filter(it => it[1] > 1)"""
HUES = """["signal", "fault"].map(name => getComputedStyle(document.documentElement).getPropertyValue("--" + name))"""
TOPS = """(async () => {
  const {goTo, step, state, render} = bench, tops = new Set(), cut = [];
  state.layer = "%s";
  goTo(%d);
  for (let k = 0; k < %d; k++) {
    await step(1);
    render(false);
    tops.add(Math.round(document.getElementById("three").getBoundingClientRect().top));
    const rule = document.getElementById("rule");
    if (rule.scrollHeight > rule.clientHeight + 1) cut.push(rule.textContent.slice(0, 80));
  }
  return [[...tops], cut];
})()"""
MIDDLE = "(it => { const box = it.getBoundingClientRect(); return [box.left + box.width / 2, box.top + box.height / 2]; })(document.querySelector(%s))"
# The large diagram: its least letters, how many states are lit, and what lies over what; an edge in forty points.
LARGE = """(() => {
  const svg = document.querySelector("#d-picture svg"), over = [];
  const boxOf = it => { const box = it.getBoundingClientRect(), high = box.height * .2; return [box.left, box.top + high, box.right, box.bottom - high]; };
  const labels = [...svg.querySelectorAll(".label")].map(it => ({words: it.textContent, box: boxOf(it)}));
  const states = [...svg.querySelectorAll("[data-state]")].map(it => ({words: it.dataset.state, box: boxOf(it.querySelector("rect"))}));
  const isLoop = path => path.getAttribute("d").includes("C");
  const areOver = (a, b) => Math.min(a[2], b[2]) - Math.max(a[0], b[0]) > 1 && Math.min(a[3], b[3]) - Math.max(a[1], b[1]) > 1;
  for (const [k, it] of labels.entries()) for (const other of [...labels.slice(0, k), ...states]) if (areOver(it.box, other.box)) over.push(`${it.words} over ${other.words}`);
  for (const path of svg.querySelectorAll("path.edge")) for (let k = 0; k <= 40; k++) {
    const {x, y} = path.getPointAtLength(path.getTotalLength() * k / 40).matrixTransform(path.getScreenCTM());
    const ends = [0, 40].includes(k) ? [] : states.filter(({box}) => x > box[0] + 1 && x < box[2] - 1 && y > box[1] && y < box[3]);
    if (k > 2 && k < 38) for (const {words} of ends) if (!isLoop(path)) over.push(`an edge over the state ${words}`);
    for (const {words, box} of labels) if (x > box[0] + 2 && x < box[2] - 2 && y > box[1] && y < box[3]) over.push(`an edge over ${words}`);
  }
  const sizes = [...svg.querySelectorAll("text")].map(it => parseFloat(getComputedStyle(it).fontSize));
  return {labels: labels.length, least: Math.min(...sizes), now: svg.querySelectorAll("rect.state.now").length, over: [...new Set(over)]};
})()"""
LENS = "(document.getElementById('lens')?.innerText ?? '')"
MARKED = """(() => {
  const room = document.getElementById("bankbox").getBoundingClientRect();
  return [...document.querySelectorAll("#bank .column.marked")].some(it => {
    const box = it.getBoundingClientRect();
    return box.left >= room.left && box.right <= room.right + 1 && box.width > 4;
  });
})()"""


def press(page, selector):
    """A click of the mouse on what a selector finds."""
    x, y = page.ask(MIDDLE % json.dumps(selector))
    for kind in ("mousePressed", "mouseReleased"):
        page.call("Input.dispatchMouseEvent", type=kind, x=x, y=y, button="left", clickCount=1)


def size(page, width, height):
    page.call("Emulation.setDeviceMetricsOverride", width=width, height=height, deviceScaleFactor=1, mobile=False)


def check_sizes(page, count):
    for width, height in ((1680, 1050), (1280, 800), (390, 844)):
        size(page, width, height)
        for fragment in ("#m=increment&e=700000", "#m=complement", "#x=15"):
            page.visit(f"file://{PAGE}{fragment}")
            settle(page, 200)
            given = page.ask(SIZES)
            count.hold(
                len(given) <= MOST_SIZES, f"{fragment}, {width} wide: {len(given)} sizes of type, {json.dumps(given)}"
            )
            count.hold(
                not page.ask(PRIMARY), f"{fragment}, {width} wide: more than one primary button in {page.ask(PRIMARY)}"
            )
    signal, fault = page.ask(HUES)
    count.hold(signal != fault, "signal and error have one colour")


def check_still(page, count):
    """The tapes stand where they are, whatever the rule's words are, and these are seen whole."""
    for width, height in ((1680, 1050), (1280, 800), (1024, 768)):
        size(page, width, height)
        page.visit(f"file://{PAGE}#m=increment")
        for layer, start, many in (("quadruple", 0, 64), ("module", 690000, 40)):
            tops, cut = page.wait(TOPS % (layer, start, many))
            count.hold(len(tops) == 1, f"{width} wide, {layer}: the tapes stand at {tops}")
            count.hold(not cut, f"{width} wide, {layer}: cut off is {cut[:2]}")


def check_keys(page, count):
    """By the keyboard alone: details of a state and of an element, and a module of the map that is opened and left again."""
    size(page, 1280, 800)
    page.visit(f"file://{PAGE}#m=increment&e=700000")
    comes(page, "document.querySelector('#bank .element.now') !== null")
    where = "document.getElementById('where').innerText"
    before = page.ask(where)
    page.ask("document.querySelector('#diagram [data-state=Go]').focus(); 0")
    page.strike("Enter", 13, "\r")
    count.hold(comes(page, f"{LENS}.includes('State Go')"), f"Enter on a state shows {page.ask(LENS)[:90]!r}")
    page.strike("Escape", 27)
    page.ask("document.getElementById('map').focus(); 0")
    page.strike("ArrowRight", 39)
    count.hold(comes(page, f"{where}.startsWith('Work tape, cell ')"), f"→ in the map opens {page.ask(where)!r}")
    page.strike("ArrowDown", 40)
    count.hold(comes(page, f"{where}.startsWith('History tape, cell 0')"), f"↓ in the map opens {page.ask(where)!r}")
    bars = page.ask("document.querySelectorAll('#bank [data-element]').length")
    count.hold(bars > 10, f"a module that is opened shows {bars} elements")
    page.strike("Escape", 27)
    count.hold(comes(page, f"{where} === {json.dumps(before)}"), f"Escape in the map leads to {page.ask(where)!r}")
    press(page, "#map [data-bank]")
    count.hold(comes(page, f"{where}.startsWith('Control')"), f"a click in the map opens {page.ask(where)!r}")
    page.ask("document.getElementById('bank').focus(); 0")
    page.strike("Enter", 13, "\r")
    count.hold(comes(page, f"{LENS}.includes('Element ')"), f"Enter in a module shows {page.ask(LENS)[:90]!r}")
    page.strike("Escape", 27)


def check_lens(page, count):
    size(page, 1280, 800)
    page.visit(f"file://{PAGE}#m=increment&e=700000")
    comes(page, "document.querySelector('#bank .element.now') !== null")
    number = page.ask("document.querySelector('#bank .element.now').dataset.element")
    press(page, "#bank .element.now")
    comes(page, f"{LENS}.includes('Next visit: element step')")
    said = page.ask(LENS)
    count.hold(
        f"Element {int(number):,}" in said
        and "The signal is about to enter." in said
        and "Its bar" in said
        and "row " in said,
        f"the lens says of an element {said[:200]!r}",
    )
    box = page.ask("document.getElementById('lens').getBoundingClientRect().toJSON()")
    count.hold(
        box["left"] >= 0 and box["top"] >= 0 and box["right"] <= 1280 and box["bottom"] <= 800,
        f"the lens stands at {box}",
    )
    count.hold(page.ask("bench.state.breaks.length") == 0, "a click on an element sets a breakpoint")
    before = page.ask("bench.state.e")
    page.ask("document.getElementById('lensnext').click(); 0")
    comes(page, f"bench.state.e > {before}")
    count.hold(
        page.ask("bench.state.e") > before
        and page.ask(
            f"bench.current.run.placeAt(bench.state.e) ? bench.current.run.placeAt(bench.state.e).place >> 2 : {number}"
        )
        == int(number),
        "the lens doesn't lead to the next time",
    )
    press(page, "#diagram [data-state=Add]")
    said = page.ask(LENS)
    count.hold(
        "State Add" in said and "write 0, go left" in said and "3 times" in said,
        f"the lens says of a state {said[:200]!r}",
    )
    page.ask("document.getElementById('lensstop').click(); 0")
    count.hold(
        page.ask("bench.state.breaks.map(it => it.state)") == ["Add"] and not page.ask(LENS),
        "Stop here doesn't stop there",
    )
    press(page, "#diagram [data-state=Go]")
    page.strike("Escape", 27)
    count.hold(not page.ask(LENS), "Escape leaves the lens open")


def check_marked(page, count):
    """In a control of 174 columns the marked one is in sight at every step that has one."""
    size(page, 1280, 800)
    page.visit(f"file://{PAGE}#m=increment")
    given = page.wait(
        """(async () => {
      const {goTo, state, render, current} = bench, {run} = current, missing = [];
      const inSight = () => %s;
      for (const e of [0, 5000, 9000, 40000, 300000, 700000, 1200000, 2000000]) {
        goTo(e);
        await run.ready(e);
        render(false);
        const bank = bench.moduleWith(run.layout, run.placeAt(e).place >> 2), marked = run.markedColumn(bank, e);
        if (marked !== null && marked >= 0 && !inSight()) missing.push([e, marked]);
      }
      goTo(700000);
      await run.ready(700000);
      render(false);
      return [run.layout.banks[0].columns, missing];
    })()"""
        % MARKED
    )
    count.hold(given[0] == 174 and not given[1], f"of {given[0]} columns the marked one is out of sight at {given[1]}")
    names = page.ask("[...document.querySelectorAll('#bank text title')].map(it => it.textContent)")
    count.hold(
        any(it.startswith("port ") and ("written" in it or "answers" in it) for it in names)
        and any(it.startswith("state ") for it in names),
        f"names aren't told in words: {names[:4]}",
    )


def check_diagram(page, count):
    """The diagram is at least 150 pixels high for machines of up to 14 states, the table gives way; and all of it is in sight."""
    for width, height in ((1280, 800), (1024, 768)):
        size(page, width, height)
        for number in (4, 6, 9, 13):
            page.visit(f"file://{PAGE}{link(t=many_states(number), w='01')}")
            settle(page, 150)
            seen = "(it => [it.height, it.bottom, document.getElementById('machine').getBoundingClientRect().bottom])(document.querySelector('#diagram svg')?.getBoundingClientRect() ?? {height: 0, bottom: 0})"
            comes(page, f"{seen}[0] >= 149")
            high, low, floor = page.ask(seen)
            count.hold(high >= 149, f"{width} wide, {number} states: the diagram is {high:.0f} high")
            count.hold(
                width < 1100 or low <= floor,
                f"{width} wide, {number} states: the diagram ends at {low:.0f}, its panel at {floor:.0f}",
            )


def check_large(page, count):
    """The diagram in large: letters of 14 pixels, no label over another one, over a state or over an edge, and the present state lit."""
    for width, height in ((1680, 1050), (1280, 800), (1024, 768)):
        size(page, width, height)
        for name, fragment in (
            ("four increments", link(t=four(None), w="11")),
            ("Add one", "#m=increment"),
            ("Palindrome?", "#m=palindrome&w=ab"),
        ):
            page.visit(f"file://{PAGE}{fragment}")
            page.ask("document.getElementById('larger').click(); 0")
            settle(page)
            given = page.ask(LARGE)
            count.hold(
                given["labels"] > 4 and given["least"] >= 14 and given["now"] == 1 and not given["over"],
                f"in large, {name}, {width} wide: {json.dumps(given)}",
            )


def check_reached(page, count):
    """Play is one Tab key away; lecture mode fills a projector; at 200 % the tapes are in sight; pictures of exercises."""
    size(page, 1280, 800)
    page.visit(f"file://{PAGE}#m=increment")
    page.ask("localStorage.setItem('hithwelor hints', 'seen'); document.activeElement?.blur?.(); 0")
    page.visit(f"file://{PAGE}#m=increment")
    page.strike("Tab", 9)
    first = page.ask("document.activeElement.id")
    page.strike("Enter", 13, "\r")
    count.hold(
        first == "skip" and page.ask("document.activeElement.id") == "play",
        f"the Tab key comes first to {first}, and from there to {page.ask('document.activeElement.id')}",
    )
    size(page, 1920, 1080)
    page.visit(f"file://{PAGE}#m=increment&e=700000")
    for panel in ("tapes", "circuit", "machine"):
        plain = page.ask("parseFloat(getComputedStyle(document.querySelector('#rule .more')).fontSize)")
        if not page.ask("document.body.classList.contains('lecture')"):
            page.ask("document.getElementById('lecture').click(); 0")
        page.ask(f"document.querySelector('[data-panel={panel}]').click(); 0")
        settle(page, 250)
        comes(page, f"document.getElementById('{panel}').getBoundingClientRect().width > 1880")
        box, zoom, others = page.ask(
            f"""(it => [it.getBoundingClientRect().toJSON(), Number(getComputedStyle(it).zoom),
          [...document.querySelectorAll('main>.panel')].filter(one => one !== it && one.checkVisibility()).length])(document.getElementById('{panel}'))"""
        )
        count.hold(
            box["width"] > 1880 and box["height"] > 700 and zoom == 1.6 and others == 0 and plain >= 14,
            f"lecture, {panel}: {box['width']:.0f} by {box['height']:.0f}, {zoom} times, {others} others",
        )
    page.ask("document.getElementById('lecture').click(); 0")
    count.hold(
        page.ask("[...document.querySelectorAll('main>.panel')].every(it => it.checkVisibility())"),
        "lecture mode doesn't end",
    )
    for width, height in ((640, 400), (960, 540)):
        size(page, width, height)
        page.visit(f"file://{PAGE}#m=increment&e=700000")
        ends = "[document.querySelectorAll('#three .tape')[2].getBoundingClientRect().bottom, document.getElementById('time').getBoundingClientRect().top]"
        comes(page, f"(([low, top]) => low <= top + 1)({ends})")
        low, top = page.ask(ends)
        count.hold(
            low <= top + 1, f"{width} by {height}: the tapes end at {low:.0f}, and the time line begins at {top:.0f}"
        )
    size(page, 1280, 800)
    page.visit(f"file://{PAGE}#x=1")
    letters = comes(
        page,
        "['n', 'e', 's', 'w'].every(it => [...document.querySelectorAll('#e-picture text')].some(one => one.textContent === it))",
    )
    count.hold(letters, "exercise 1's picture lacks the letters of the sides")
    page.visit(f"file://{PAGE}#x=15")
    ends = "[document.getElementById('map').getBoundingClientRect().bottom, document.getElementById('sheet').getBoundingClientRect().top]"
    comes(page, f"(([low, top]) => low <= top)({ends})")
    low, top = page.ask(ends)
    count.hold(low <= top, f"exercise 15: the map ends at {low:.0f}, and the sheet begins at {top:.0f}")


def check_glance(page, program, count):
    for check in (
        check_sizes,
        check_still,
        check_lens,
        check_keys,
        check_marked,
        check_diagram,
        check_large,
        check_reached,
    ):
        check(page, count)
    size(page, 1680, 1050)
    count.hold(not page.faults(), f"{page.faults()}")
