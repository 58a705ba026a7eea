"""The circuit editor: drawn by the mouse and by the keyboard alone, run, taken back, linked, and judged, with what the program says."""
import json
import random
import re

from counting import text_of
from shown import PAGE, comes

OPEN = "Boolean(document.querySelector('#design[open] #g-canvas'))"
SIDES = "nesw"
KEYS = {"Tab": 9, "Enter": 13, "Escape": 27, " ": 32, "Delete": 46, "End": 35, "Home": 36}
MIDDLE = "(it => { const box = it.getBoundingClientRect(); return [box.x + box.width / 2, box.y + box.height / 2]; })(document.querySelector(%s))"


def middle(page, selector):
    return page.ask(MIDDLE % json.dumps(selector))


def port(name, is_out):
    element, side = name.split(".")
    return f'[data-port="{4 * int(element) + SIDES.index(side)}"][data-out="{int(is_out)}"] .reach'


def mouse(page, kind, x, y, pressed=False):
    page.call(
        "Input.dispatchMouseEvent", type=kind, x=x, y=y, button="left" if pressed else "none", clickCount=int(pressed)
    )


def drag(page, begin, end):
    mouse(page, "mouseMoved", *begin)
    mouse(page, "mousePressed", *begin, pressed=True)
    for share in (0.2, 0.6, 1):
        at = [a + (b - a) * share for a, b in zip(begin, end)]
        page.call("Input.dispatchMouseEvent", type="mouseMoved", x=at[0], y=at[1], button="left", buttons=1)
    mouse(page, "mouseReleased", *end, pressed=True)


def click(page, selector):
    at = middle(page, selector)
    mouse(page, "mouseMoved", *at)
    mouse(page, "mousePressed", *at, pressed=True)
    mouse(page, "mouseReleased", *at, pressed=True)


def wire(page, out, into):
    drag(page, middle(page, port(out, True)), middle(page, port(into, False)))


def strike(page, key, control=False):
    number = KEYS.get(key, ord(key.upper()[0]))
    text = "\r" if key == "Enter" else key if len(key) == 1 and not control else ""
    for kind in ("keyDown" if text else "rawKeyDown", "keyUp"):
        more = {"text": text} if text and kind == "keyDown" else {}
        page.call(
            "Input.dispatchKeyEvent",
            type=kind,
            key=key,
            code=key,
            windowsVirtualKeyCode=number,
            modifiers=2 * control,
            **more,
        )


def text(page):
    return page.ask("document.getElementById('g-text').value")


def said(page, name="g-said"):
    return page.ask(f"document.getElementById({json.dumps(name)}).textContent")


def type_text(page, name, given):
    page.ask(
        f"(it => {{ it.value = {json.dumps(given)}; it.dispatchEvent(new Event('input')); return 0; }})(document.getElementById({json.dumps(name)}))"
    )


def open_anew(page, fragment="#design"):
    """The editor, empty: what the browser keeps of it is forgotten first."""
    page.visit(f"file://{PAGE}#m=least")
    page.ask("(localStorage.removeItem('hithwelor design'), localStorage.removeItem('hithwelor puzzles'), 0)")
    page.visit(f"file://{PAGE}{fragment}", OPEN)


def check_mouse(page, program, count):
    open_anew(page)
    x, y = middle(page, "#g-canvas")
    drag(page, middle(page, "[data-part=upright]"), [x - 120, y])
    click(page, "[data-part=lying]")
    mouse(page, "mouseMoved", x + 120, y)
    mouse(page, "mousePressed", x + 120, y, pressed=True)
    mouse(page, "mouseReleased", x + 120, y, pressed=True)
    wire(page, "0.s", "0.e")
    wire(page, "0.w", "1.n")
    wire(page, "1.w", "1.n")
    count.hold("Input 1.n already has a wire, from 0.w" in said(page), f"a second wire into an input: {said(page)!r}")
    click(page, port("0.n", False))
    drawn = "rotary 1\nelements 2\nstart 0.n\nend 0.e\nsteps 0\nat 0.n\ne 0 V - - 0.e 1.n\ne 1 H - - - -\n"
    count.hold(text(page) == drawn, f"what was drawn is the text {text(page)!r}")
    # Bars that are clicked turn, and what is done is taken back and made again.
    click(page, '[data-element="1"] .turn .grip')
    turned = text(page)
    count.hold(turned == drawn.replace("e 1 H", "e 1 V"), f"a bar that is clicked: {turned!r}")
    click(page, "#g-undo")
    count.hold(text(page) == drawn, "a turn isn't taken back")
    click(page, "#g-redo")
    count.hold(text(page) == turned, "a turn isn't made again")
    check_run(page, program, count, turned)


def check_run(page, program, count, given):
    """Each step on and back is the program's."""
    last = program.text(["step", "1000"], given)
    steps = int(last.splitlines()[4].split()[1])
    for names, numbers in (("g-step", range(1, steps + 1)), ("g-stepback", range(steps - 1, -1, -1))):
        for k in numbers:
            click(page, f"#{names}")
            right = program.text(["step", str(k)], given)
            count.hold(
                comes(page, f"document.getElementById('g-text').value === {json.dumps(right)}", 20),
                f"step {k} by {names}: {text(page)!r}",
            )
    click(page, "#g-far")
    count.hold(
        comes(page, f"document.getElementById('g-text').value === {json.dumps(last)}", 20),
        f"at the exit: {text(page)!r}",
    )
    wires = page.ask("document.querySelectorAll('#g-canvas .past').length")
    count.hold(0 < wires <= steps, f"the trail has {wires} wires after {steps} steps")
    click(page, "#g-first")
    count.hold(
        comes(page, f"document.getElementById('g-text').value === {json.dumps(given)}", 20),
        f"back at the start: {text(page)!r}",
    )


def check_keyboard(page, program, count):
    """A toggle by the keyboard alone: put there, wired, run, turned and taken away."""
    open_anew(page)
    page.ask("(document.querySelector('[data-part=upright]').focus(), 0)")
    strike(page, "Enter")
    page.ask("(document.getElementById('g-canvas').focus(), 0)")
    for key in ("w", "s", "e", "i"):
        strike(page, key)
    right = "rotary 1\nelements 1\nstart 0.n\nend 0.e\nsteps 0\nat 0.n\ne 0 V - - 0.e -\n"
    count.hold(text(page) == right, f"a toggle by keys is the text {text(page)!r}")
    strike(page, "End")
    last = program.text(["step", "9"], right)
    count.hold(
        comes(page, f"document.getElementById('g-text').value === {json.dumps(last)}", 20),
        f"run by a key: {text(page)!r}",
    )
    strike(page, "Enter")
    strike(page, "Tab")
    heard = page.ask("document.querySelector('#g-canvas').getAttribute('aria-activedescendant')")
    count.hold(
        heard == "g-p0o" and "output of element 0" in said(page), f"a port by the keyboard: {heard} {said(page)!r}"
    )
    strike(page, "Escape")
    strike(page, " ")
    count.hold("the bar" in said(page), f"turned by a key: {said(page)!r}")
    strike(page, "Delete")
    count.hold(text(page) == "", "Delete takes no element away")
    strike(page, "z", control=True)
    count.hold(text(page).endswith(" - - 0.e -\n"), "Ctrl Z brings none back")
    for _ in range(4):
        strike(page, "Escape")
    count.hold(page.ask(OPEN), "Escape closes the editor")


def check_scrubbed(page, program, count):
    """The scrubber leads to each step of a run; a part that was saved is kept, and put there again."""
    open_anew(page)
    page.ask("(localStorage.removeItem('hithwelor groups'), document.querySelector('[data-begin=column]').click(), 0)")
    given = text(page)
    click(page, "#g-far")
    comes(page, "!document.getElementById('g-text').value.includes('steps 0')", 20)
    most = page.ask("Number(document.getElementById('g-scrub').max)")
    last = program.text(["step", "1000"], given)
    count.hold(f"steps {most}\n" in last, f"the scrubber goes to step {most}")
    for step in (most // 2, 1, most, 0):
        page.ask(
            f"(it => {{ it.value = '{step}'; it.dispatchEvent(new Event('input')); return 0; }})(document.getElementById('g-scrub'))"
        )
        right = program.text(["step", str(step)], given)
        count.hold(
            comes(page, f"document.getElementById('g-text').value === {json.dumps(right)}", 20),
            f"scrubbed to step {step}: {text(page)!r}",
        )
    page.ask("(document.getElementById('g-canvas').focus(), 0)")
    strike(page, "a", control=True)
    page.ask("(document.getElementById('g-keepgroup').click(), document.getElementById('g-clear').click(), 0)")
    page.ask("(document.querySelector('[data-group]').focus(), 0)")
    strike(page, "Enter")
    bars = page.ask("document.querySelectorAll('#g-canvas [data-element]').length")
    count.hold(bars == 3, f"a part that was saved has {bars} elements")
    page.ask("(localStorage.removeItem('hithwelor groups'), 0)")


def check_texts(page, program, count):
    """What is typed becomes the drawing; a fault stands at its line; a link has all of it."""
    open_anew(page)
    click(page, "#g-tab-text")
    for name in ("two-elements.txt", "eight-rows.txt", "two-columns.txt"):
        given = text_of("examples", name)
        type_text(page, "g-text", given)
        elements = int(given.splitlines()[1].split()[1])
        count.hold(
            comes(page, f"document.querySelectorAll('#g-canvas [data-element]').length === {elements}", 20),
            f"{name} as it is typed: {said(page, 'g-textfault')!r}",
        )
        page.ask("(document.getElementById('g-canvas').focus(), 0)")
        again = program.text(["migrate"], text(page))
        count.hold(again == program.text(["migrate"], given), f"{name} comes back as {text(page)!r}")
        click(page, "#g-link")
        comes(page, "/link/i.test(document.getElementById('g-said').textContent)", 20)
        hash_, places = page.ask("location.hash"), page.ask(
            "[...document.querySelectorAll('#g-canvas .element')].map(it => it.getAttribute('transform')).join()"
        )
        was = text(page)
        page.visit(f"file://{PAGE}{hash_}", OPEN)
        count.hold(
            comes(page, f"document.getElementById('g-text').value === {json.dumps(was)}", 20),
            f"{name} by its link: {text(page)!r}",
        )
        now = page.ask(
            "[...document.querySelectorAll('#g-canvas .element')].map(it => it.getAttribute('transform')).join()"
        )
        count.hold(now == places, f"{name} by its link stands elsewhere")
        click(page, "#g-tab-text")
    type_text(page, "g-text", was.replace("\ne 1 ", "\ne 7 "))
    count.hold(comes(page, "document.querySelector('#g-lines .fault') !== null", 20), "a fault stands at no line")
    line = page.ask("document.querySelector('#g-lines .fault').textContent")
    count.hold(
        said(page, "g-textfault") == f"Line {line} is not the next element.",
        f"a fault at line {line}: {said(page, 'g-textfault')!r}",
    )


def crossings(program, given):
    """The entries of a circuit, as the page is to find them: breadth first from the bars as they stand."""
    lines = given.splitlines()
    rows = [line.split() for line in lines[6:]]
    fed = {word for row in rows for word in row[3:]}
    ports = [f"{row[1]}.{side}" for row in rows for side in SIDES]
    inputs = [it for it in ports if it not in fed]
    outputs = [f"{row[1]}.{side}" for row in rows for side, word in zip(SIDES, row[3:]) if word == "-"]
    states, entries = ["".join(row[2] for row in rows)], []
    for state in states:
        for it in inputs:
            body = "".join(" ".join([*row[:2], bar, *row[3:]]) + "\n" for row, bar in zip(rows, state))
            after = program.text(
                ["step", "1000000"], f"rotary 1\n{lines[1]}\nstart {it}\n{lines[3]}\nsteps 0\nat {it}\n{body}"
            ).splitlines()
            bars = "".join(line.split()[2] for line in after[6:])
            if bars not in states:
                states.append(bars)
            entries.append(
                [
                    states.index(state) + 1,
                    inputs.index(it) + 1,
                    states.index(bars) + 1,
                    outputs.index(after[5].split()[1]) + 1,
                ]
            )
    return entries


def check_machine(page, program, count):
    """Its table is the program's, entry by entry; what tells it from another one is played; a puzzle is judged."""
    open_anew(page)
    for part in ("toggle", "column"):
        click(page, "#g-clear")
        page.ask(f"(document.querySelector('[data-part={part}]').focus(), 0)")
        strike(page, "Enter")
        click(page, "#g-tab-machine")
        click(page, "#g-find")
        comes(page, "document.getElementById('g-found').textContent.startsWith('Complete: ')", 30)
        found = page.ask(
            "[...document.querySelectorAll('#g-table [data-entry]')].map(it => it.getAttribute('aria-label'))"
        )
        right = crossings(program, text(page))
        count.hold(len(found) == len(right), f"{part}: {len(found)} entries, and not {len(right)}")
        told = [[int(it) for it in re.findall(r"state (\d+)", one)] for one in found]
        count.hold(told == [[it[0], it[2]] for it in right], f"{part}: states {told}")
        page.ask("(document.getElementById('g-copytable').click(), 0)")
        count.hold(
            comes(
                page,
                f"document.getElementById('g-wanted').value === {json.dumps(''.join(','.join(map(str, it)) + chr(10) for it in right))}",
                10,
            ),
            f"{part}: the table that is copied is {page.ask('document.getElementById(`g-wanted`).value')!r}",
        )
        click(page, "#g-compare")
        count.hold(
            comes(page, "document.getElementById('g-compared').className === 'right'", 30),
            f"{part} compared with itself: {said(page, 'g-compared')}",
        )
    type_text(page, "g-wanted", "1,1,2,1\n2,1,1,1\n")
    click(page, "#g-compare")
    count.hold(
        comes(page, "document.getElementById('g-compared').className === 'right'", 30),
        "a machine of one port that comes out by one isn't found in a column",
    )
    type_text(page, "g-wanted", "1,1,2,1\n2,1,3,1\n3,1,1,2\n")
    click(page, "#g-compare")
    count.hold(
        comes(page, "document.getElementById('g-compared').className === 'fault'", 30), "a column counts to three"
    )
    type_text(page, "g-wanted", "1,1,1,1\n2,1,1,1\n")
    click(page, "#g-compare")
    count.hold(
        comes(
            page,
            "document.getElementById('g-compared').textContent.startsWith('Entries 1 and 2 have the same next state')",
            30,
        ),
        f"a table that isn't reversible: {said(page, 'g-compared')}",
    )
    check_puzzle(page, count)


def check_puzzle(page, count):
    """Two toggles that are drawn are a counter, and one of them isn't."""
    click(page, "#g-tab-puzzles")
    click(page, "[data-puzzle=counter]")
    click(page, "#g-tab-parts")
    locked = page.ask("[...document.querySelectorAll('.g-tile:disabled')].map(it => it.dataset.part).join()")
    count.hold(locked == "column,toggle,counter,back", f"at a puzzle these parts can't be used: {locked}")
    x, y = middle(page, "#g-canvas")
    for place, wires, right in ((200, ["0.s 0.e"], False), (20, ["0.w 1.n", "1.s 1.e"], True)):
        drag(page, middle(page, "[data-part=upright]"), [x + place, y + 60])
        for it in wires:
            wire(page, *it.split())
        click(page, "#g-check")
        judged = comes(
            page, f"document.getElementById('g-puzzlesaid').className === '{'right' if right else 'fault'}'", 30
        )
        count.hold(judged, f"a puzzle with {len(wires)} wires more: {said(page, 'g-puzzlesaid')}")
    count.hold(
        "★★★" in said(page, "g-puzzlesaid"), f"a puzzle with the least number of elements: {said(page, 'g-puzzlesaid')}"
    )
    kept = page.ask("localStorage.getItem('hithwelor puzzles')")
    count.hold(kept == '{"counter":2}', f"of a puzzle that is solved is kept {kept}")
    click(page, "#g-tab-puzzles")
    click(page, "[data-puzzle=third]")
    click(page, "#g-search")
    count.hold(
        comes(page, "document.getElementById('g-puzzlesaid').textContent.startsWith('Found by search')", 60),
        f"the search says {said(page, 'g-puzzlesaid')}",
    )
    click(page, "#g-check")
    comes(page, "document.getElementById('g-puzzlesaid').className === 'right'", 30)
    count.hold("solution that was shown" in said(page, "g-puzzlesaid"), f"what was found: {said(page, 'g-puzzlesaid')}")
    count.hold(
        page.ask("localStorage.getItem('hithwelor puzzles')") == kept, "what was found by search counts as solved"
    )
    check_own_puzzle(page, count)


def check_own_puzzle(page, count):
    """A puzzle that is made of a circuit is opened by its link, and judged."""
    page.ask("(document.getElementById('g-own').open = true, document.getElementById('g-ownfill').click(), 0)")
    comes(page, "document.getElementById('g-owntable').value !== ''", 30)
    table = page.ask("document.getElementById('g-owntable').value")
    page.ask("(it => { it.value = 'Third & <b>'; return 0; })(document.querySelector('[data-own=title]'))")
    page.ask(
        "(navigator.clipboard.writeText = () => Promise.reject(new Error()), document.getElementById('g-ownlink').click(), 0)"
    )
    comes(page, "location.hash.startsWith('#puzzle=')", 20)
    page.visit(f"file://{PAGE}{page.ask('location.hash')}", OPEN)
    count.hold(
        comes(page, "document.querySelector('#g-card h3')?.textContent === 'Third & <b>'", 20),
        f"a puzzle by its link: {said(page, 'g-card')!r}, of the table {table!r}",
    )
    click(page, "#g-search")
    comes(page, "document.getElementById('g-puzzlesaid').textContent.startsWith('Found by search')", 90)
    click(page, "#g-check")
    count.hold(
        comes(page, "document.getElementById('g-puzzlesaid').className === 'right'", 30),
        f"a puzzle of one's own: {said(page, 'g-puzzlesaid')}",
    )


def check_many(page, program, count, seed):
    """Two hundred elements, drawn, are laid out and run."""
    draw, lines, free = random.Random(seed), [], [f"{element}.{side}" for element in range(200) for side in SIDES]
    draw.shuffle(free)
    kept = {free.pop()}
    for element in range(200):
        outs = [free.pop() if free and draw.random() < 0.45 else "-" for _ in SIDES]
        lines.append(f"e {element} {draw.choice('HV')} {' '.join(outs)}\n")
    start, end = next(iter(kept)), next(
        f"{k}.{SIDES[line.split()[3:].index('-')]}" for k, line in enumerate(lines) if "-" in line.split()[3:]
    )
    given = f"rotary 1\nelements 200\nstart {start}\nend {end}\nsteps 0\nat {start}\n{''.join(lines)}"
    open_anew(page)
    click(page, "#g-tab-text")
    type_text(page, "g-text", given)
    count.hold(
        comes(page, "document.querySelectorAll('#g-canvas [data-element]').length === 200", 60),
        f"200 elements: {said(page, 'g-textfault')}",
    )
    boxes = page.ask(
        "[...document.querySelectorAll('#g-canvas .element')].map(it => it.getAttribute('transform').match(/-?\\d+/g).map(Number))"
    )
    near = any(abs(a - c) < 48 and abs(b - d) < 48 for k, (a, b) in enumerate(boxes) for c, d in boxes[:k])
    count.hold(not near, "of 200 elements two stand upon one another")
    page.ask("(document.getElementById('g-canvas').focus(), 0)")
    right = program.text(["step", "1000000"], given)
    click(page, "#g-far")
    count.hold(
        comes(page, f"document.getElementById('g-text').value === {json.dumps(right)}", 30),
        f"200 elements at the exit: {text(page)[:80]!r}",
    )


def check_design(page, program, seed, count):
    for check in (check_mouse, check_keyboard, check_scrubbed, check_texts, check_machine):
        check(page, program, count)
        count.hold(not page.faults(), f"{check.__name__}: {page.faults()}")
    check_many(page, program, count, seed)
    count.hold(not page.asked_for(), f"the editor asks for {', '.join(page.asked_for())}")
