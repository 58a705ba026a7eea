"""The machine as it is changed in the page: accept and reject states and many words, the diagram with its rules, names as
they were typed, the gutter, and changes that are taken back. What the page says of each is compared with the program.
"""
import json
import os
import random
import re
import subprocess
import urllib.parse

from counting import TOP, text_of
from shown import PAGE, comes, settle
from shown_places import INCREMENT, SUM, link

PARITY = "S,_,_,+,Even\nEven,0,0,+,Even\nEven,1,1,+,Odd\nOdd,0,0,+,Odd\nOdd,1,1,+,Even\nEven,_,_,0,Yes\nOdd,_,_,0,No\n"
BOOK = "q_0,1,1,+,q_1\nq_1,1,1,+,q_0\nq_1,0,0,0,q_1\nq_0,_,_,0,q_yes\nq_1,_,_,0,q_no\n"
BOOK_NAMES = {"q-0": "q_0", "q-1": "q_1", "q-yes": "q_yes", "q-no": "q_no"}
MOST_OWN_STEPS = "100000"
TRIED = """(async () => {
  document.getElementById("v-words").value = %s;
  document.getElementById("v-try").click();
  const rows = () => [...document.querySelectorAll("#v-table tbody tr")];
  for (let k = 0; k < 6000 && (rows().length < %d || !document.getElementById("v-said").textContent); k++) await new Promise(done => setTimeout(done, 25));
  return {rows: rows().map(row => [...row.cells].map(it => it.textContent)), said: document.getElementById("v-said").textContent};
})()"""
DIAGRAM = """(() => {
  const room = document.querySelector("#d-picture svg").getBoundingClientRect();
  return {room: [room.left, room.top, room.right, room.bottom], states: [...document.querySelectorAll("#d-picture [data-state]")].map(it => {
    const box = it.querySelector("rect").getBoundingClientRect(), text = it.querySelector("text");
    return {name: it.dataset.state, shown: text.textContent, box: [box.left, box.top, box.right, box.bottom], size: parseFloat(getComputedStyle(text).fontSize)};
  })};
})()"""
FIELD = """(([line, field, value]) => {
  const it = document.querySelector(`#d-rules [data-line="${line}"] [data-field="${field}"]`);
  it.value = value;
  it.dispatchEvent(new Event("change", {bubbles: true}));
})(%s)"""


def set_value(page, name, value, kind="input"):
    page.ask(
        f"(it => {{ it.value = {json.dumps(value)}; it.dispatchEvent(new Event('{kind}', {{bubbles: true}})); }})(document.getElementById('{name}'))"
    )


def text_shown(page):
    return page.ask("document.getElementById('table').value")


# ---- accept and reject


def rest_of(program, table, final, names, word):
    """How the program says that a machine comes out on a word: its state as it was typed, and the steps."""
    status, said = program.answer(["machine", "=" + word, MOST_OWN_STEPS], table)
    words = said.split()
    if status == 0:
        return final, words[1], said.partition("output =")[2].strip()
    if status == 10:
        return names(words[1]), words[3], ""
    return None, None, ""


def answer_of(rest, accept, reject):
    return "accepts" if rest in accept else "rejects" if rest in reject else "no answer"


def check_verdicts(page, program, draw, count):
    """What the page says that a machine answers, on its word and on many at once."""
    standard = program.text(["standard"], "".join(line for line in BOOK.replace("q_", "q-").splitlines(keepends=True)))
    order = list(dict.fromkeys(it for row in BOOK.split() for it in (row.split(",")[0], row.split(",")[4])))
    cases = [
        ("Parity", link(t=PARITY, w="1001", ac='["Yes"]', rj='["No"]'), PARITY, "No", lambda it: it, ["Yes"], ["No"]),
        (
            "a book's",
            link(t=BOOK, n=json.dumps(BOOK_NAMES), s="1", w="11", ac='["q_yes"]', rj='["q_no"]'),
            standard,
            "q_no",
            lambda it: order[int(it[1:]) - 1],
            ["q_yes"],
            ["q_no"],
        ),
        ("Add one", link(t=INCREMENT, w="1", ac='["Halt"]'), INCREMENT, "Halt", lambda it: it, ["Halt"], []),
    ]
    for name, fragment, table, final, names, accept, reject in cases:
        page.visit(f"file://{PAGE}{fragment}")
        word = page.ask("bench.state.word")
        rest, steps, _ = rest_of(program, table, final, names, word)
        outcome = page.ask("document.getElementById('outcome').textContent")
        count.hold(
            outcome.startswith(f"{answer_of(rest, accept, reject)} · ") and steps in outcome,
            f"{name} on {word}: the page says {outcome!r}, and it comes to rest in {rest} after {steps}",
        )
        letters = "1" if name == "a book's" else "01"
        words = ["", *("".join(draw.choice(letters) for _ in range(draw.randint(1, 9))) for _ in range(40)), "12", "1x"]
        if name == "a book's":
            words.append("10")
        page.ask("document.getElementById('verdicts').click(); 0")
        given = page.wait(TRIED % (json.dumps("\n".join(words)), len(words)))
        counts = {"accepts": 0, "rejects": 0}
        for it, row in zip(words, given["rows"]):
            status, said = program.answer(["machine", "=" + it, MOST_OWN_STEPS], table)
            rest, steps, output = rest_of(program, table, final, names, it)
            if status == 5:
                right = [it, f"letter {said.split()[1]} is not in the table", "", "", ""]
            elif status == 12:
                right = [it, "no answer: the machine runs on", "more than 100,000", "", ""]
            else:
                answer = answer_of(rest, accept, reject)
                counts[answer] = counts.get(answer, 0) + 1
                letter = said.split()[2].replace("_", "blank") if status == 10 else ""
                right = [it or "empty", answer, steps, f"{rest}, on {letter}" if status == 10 else rest, output]
            count.hold(row == right, f"{name} on {it!r}: the page's row is {row}, and not {right}")
        count.hold(
            len(given["rows"]) == len(words)
            and f"{counts['accepts']} accepted, {counts['rejects']} rejected" in given["said"],
            f"{name}: {len(given['rows'])} rows of {len(words)}, and {given['said']!r}, not {counts}",
        )
    check_kinds(page, count)


def check_kinds(page, count):
    """What accepts is chosen in the dialog, marked in the diagram, taken back, and kept in the link, and the table stays."""
    page.visit(f"file://{PAGE}{link(t=PARITY, w='1001')}")
    page.ask("document.getElementById('verdicts').click(); 0")
    for state, kind in (("Yes", "accept"), ("No", "reject")):
        page.ask(
            f"(it => {{ it.value = '{kind}'; it.dispatchEvent(new Event('change')); }})(document.querySelector('[data-kind={state}]'))"
        )
    page.ask("document.getElementById('dialog').close(); 0")
    signs = page.ask(
        "[...document.querySelectorAll('#diagram [data-state]')].filter(it => it.querySelector('.sign'))"
        ".map(it => it.dataset.state + it.querySelector('.sign').textContent).sort().join(' ')"
    )
    outcome = page.ask("document.getElementById('outcome').textContent")
    page.ask("document.getElementById('share').click(); 0")
    settle(page)
    address = page.ask("location.href")
    asked = urllib.parse.parse_qs(address.partition("#")[2])
    count.hold(
        signs == "No✗ Yes✓"
        and outcome.startswith("accepts · ")
        and text_shown(page) == PARITY
        and asked.get("ac") == ['["Yes"]']
        and asked.get("rj") == ['["No"]']
        and asked.get("t") == [PARITY],
        f"accept and reject: the diagram has {signs!r}, the outcome is {outcome!r}, the link {address[-90:]}",
    )
    page.visit(address)
    count.hold(
        page.ask("[bench.state.accept, bench.state.reject]") == [["Yes"], ["No"]],
        "the link of accept and reject doesn't lead to them",
    )
    page.ask("document.getElementById('verdicts').click(); 0")
    page.ask(
        "(it => { it.value = ''; it.dispatchEvent(new Event('change')); })(document.querySelector('[data-kind=Yes]'))"
    )
    page.ask("document.getElementById('dialog').close(); 0")
    page.ask("document.getElementById('undo').click(); 0")
    settle(page)
    count.hold(page.ask("bench.state.accept") == ["Yes"], "that a state accepts isn't taken back")


# ---- the diagram


def box_of(page, state):
    return next(it["box"] for it in page.ask(DIAGRAM)["states"] if it["name"] == state)


def middle(box):
    return (box[0] + box[2]) / 2, (box[1] + box[3]) / 2


def drag(page, start, end):
    for kind, (x, y) in (
        ("mousePressed", start),
        ("mouseMoved", ((start[0] + end[0]) / 2, (start[1] + end[1]) / 2)),
        ("mouseMoved", end),
        ("mouseReleased", end),
    ):
        page.call(
            "Input.dispatchMouseEvent",
            type=kind,
            x=x,
            y=y,
            button="left",
            buttons=0 if kind == "mouseReleased" else 1,
            clickCount=1,
        )


def check_moved(page, count):
    """States are dragged and moved by keys; where they stand is kept in the link, and taken back."""
    page.visit(f"file://{PAGE}#m=increment")
    page.ask("document.getElementById('larger').click(); 0")
    settle(page)
    here, room = box_of(page, "Add"), page.ask(DIAGRAM)["room"]
    goal = room[0] + (room[2] - room[0]) * 0.3, room[1] + (room[3] - room[1]) * 0.55
    drag(page, middle(here), goal)
    there = middle(box_of(page, "Add"))
    count.hold(
        abs(there[0] - goal[0]) < 3 and abs(there[1] - goal[1]) < 3, f"Add is dragged to {goal}, and stands at {there}"
    )
    page.ask(
        "[...document.querySelectorAll('#d-picture [data-state]')].find(it => it.dataset.state === 'Home').focus(); 0"
    )
    before = middle(box_of(page, "Home"))
    for key, number in (("ArrowLeft", 37), ("ArrowLeft", 37), ("ArrowUp", 38)):
        page.strike(key, number)
    after, focused = middle(box_of(page, "Home")), page.ask("document.activeElement.dataset.state")
    wide, high = room[2] - room[0], room[3] - room[1]
    count.hold(
        abs(before[0] - after[0] - 0.05 * wide) < 4
        and abs(before[1] - after[1] - 0.025 * high) < 4
        and focused == "Home",
        f"by arrow keys Home goes from {before} to {after}, and {focused} has the focus",
    )
    page.strike("Enter", 13, "\r")
    count.hold(page.ask("document.getElementById('d-state').value") == "Home", "Enter doesn't choose a state")
    label = page.ask(
        """(it => { const box = it.getBoundingClientRect(); return [box.left + box.width / 2, box.top + box.height / 2, it.textContent]; })(
      [...document.querySelectorAll('#d-picture [data-rule="4"]')][0])"""
    )
    for kind in ("mousePressed", "mouseReleased"):
        page.call("Input.dispatchMouseEvent", type=kind, x=label[0], y=label[1], button="left", clickCount=1)
    settle(page)
    at = page.ask("(it => [it.closest('[data-line]')?.dataset.line, it.dataset.field])(document.activeElement)")
    count.hold(at == ["4", "1"] and label[2] == "_ L", f"a click on the label {label[2]!r} goes to {at}")
    page.ask("document.getElementById('d-close').click(); document.getElementById('share').click(); 0")
    settle(page)
    address, places = page.ask("location.href"), page.ask("bench.state.places")
    page.visit(address)
    count.hold(
        page.ask("bench.state.places") == places and set(places) == {"Add", "Home"},
        f"the link keeps {page.ask('bench.state.places')}, not {places}",
    )
    small = page.ask("(it => [it.left, it.width])(document.querySelector('#diagram svg').getBoundingClientRect())")
    shown = page.ask(
        "(it => it.left + it.width / 2)(document.querySelector('#diagram [data-state=Add] rect').getBoundingClientRect())"
    )
    count.hold(
        abs((shown - small[0]) / small[1] - places["Add"][0]) < 0.03,
        f"in the small diagram Add stands at {(shown - small[0]) / small[1]}",
    )
    start = page.ask(
        "(it => [it.left + it.width / 2, it.top + it.height / 2])(document.querySelector('#diagram [data-state=Go] rect').getBoundingClientRect())"
    )
    drag(page, start, (start[0] + 30, start[1] + 12))
    count.hold(
        "Go" in page.ask("bench.state.places") and not page.ask("bench.state.breaks.length"),
        "in the small diagram Go isn't dragged",
    )
    page.ask("document.getElementById('undo').click(); 0")
    settle(page)
    count.hold("Go" not in page.ask("bench.state.places"), "that a state was dragged isn't taken back")
    start = page.ask(
        "(it => [it.left + it.width / 2, it.top + it.height / 2])(document.querySelector('#diagram [data-state=Go] rect').getBoundingClientRect())"
    )
    drag(page, start, start)
    said = page.ask("document.getElementById('lens')?.innerText ?? ''")
    count.hold(
        "State Go" in said and not page.ask("bench.state.breaks.length"), f"a click on a state tells {said[:60]!r}"
    )
    page.ask("document.getElementById('lensstop').click(); 0")
    count.hold(page.ask("bench.state.breaks.map(it => it.state)") == ["Go"], "the lens of a state doesn't stop there")


def many_states(number):
    """A machine of so many states that go on and back."""
    names = [f"State{k}" for k in range(number - 1)]
    rows = [
        f"{name},{letter},{letter},+,{names[1 + (k * step + 3) % (number - 2)]}"
        for k, name in enumerate(names)
        if k
        for letter, step in (("0", 1), ("1", 7))
    ]
    return "\n".join([f"{names[0]},_,_,+,{names[1]}", *rows, f"{names[-1]},_,_,0,Halt", ""])


def overlaps(a, b):
    return min(a[2], b[2]) - max(a[0], b[0]) > 0.5 and min(a[3], b[3]) - max(a[1], b[1]) > 0.5


def check_readable(page, count):
    """Thirty states: none over another, all within the picture, their names in full or cut at the ninth letter, none small."""
    for width, height in ((1280, 800), (1024, 768), (768, 1024), (390, 844)):
        page.call("Emulation.setDeviceMetricsOverride", width=width, height=height, deviceScaleFactor=1, mobile=False)
        page.visit(f"file://{PAGE}{link(t=many_states(30), w='01')}")
        page.ask("document.getElementById('larger').click(); 0")
        settle(page)
        given = page.ask(DIAGRAM)
        states, room = given["states"], given["room"]
        crossed = [
            (a["name"], b["name"]) for k, a in enumerate(states) for b in states[:k] if overlaps(a["box"], b["box"])
        ]
        outside = [
            it["name"]
            for it in states
            if it["box"][0] < room[0] or it["box"][1] < room[1] or it["box"][2] > room[2] or it["box"][3] > room[3]
        ]
        small = [
            it["name"]
            for it in states
            if it["size"] < 10 or it["shown"].rstrip("…") != it["name"][: len(it["shown"].rstrip("…"))]
        ]
        count.hold(
            len(states) == 30 and not crossed and not outside and not small,
            f"{width} wide: of {len(states)} states {crossed[:3]} lie over one another, {outside[:3]} outside, {small[:3]} are small",
        )
    page.call("Emulation.setDeviceMetricsOverride", width=1680, height=1050, deviceScaleFactor=1, mobile=False)
    page.visit(f"file://{PAGE}{link(t=many_states(90), w='01')}")
    page.ask("document.getElementById('larger').click(); 0")
    choose(page, "State70")
    states = page.ask(DIAGRAM)["states"]
    crossed = [(a["name"], b["name"]) for k, a in enumerate(states) for b in states[:k] if overlaps(a["box"], b["box"])]
    names = {it["name"] for it in states}
    count.hold(
        len(states) == 60 and not crossed and {"State70", "State74", "State54"} <= names,
        f"of ninety states {len(states)} are seen, {crossed[:3]} over one another",
    )


def choose(page, state):
    set_value(page, "d-state", state, "change")


def edited(page, draw, text):
    """Makes one drawn change in the diagram's dialog, and gives the text that must come of it."""
    rows = [line.split(",") for line in text.splitlines()]
    kind = draw.choice(["rename", "letter", "field", "field", "add", "away"])
    states = list(dict.fromkeys(it for row in rows for it in (row[0], row[4])))
    if kind == "rename":
        old, made = draw.choice(states), draw.choice(["New", "q'1", "A-b", "Ende"]) + str(draw.randint(1, 99))
        choose(page, old)
        set_value(page, "d-name", made)
        page.ask("document.getElementById('d-rename').click(); 0")
        rows = [[made if k in (0, 4) and it == old else it for k, it in enumerate(row)] for row in rows]
    elif kind == "letter":
        letters = sorted({it for row in rows for it in row[1:3]} - {"_"})
        old, made = draw.choice(letters), draw.choice([it for it in "abcdxyz" if it not in letters])
        set_value(page, "d-letter", old, "change")
        set_value(page, "d-other", made)
        page.ask("document.getElementById('d-change').click(); 0")
        rows = [[made if k in (1, 2) and it == old else it for k, it in enumerate(row)] for row in rows]
    elif kind == "field":
        choose(page, "")
        line, place = draw.randrange(len(rows)), draw.randrange(5)
        value = draw.choice(states) if place in (0, 4) else draw.choice("+-0") if place == 3 else draw.choice("_01")
        page.ask(FIELD % json.dumps([line + 1, place, value]))
        rows[line][place] = value
    elif kind == "add":
        state = draw.choice([row[0] for row in rows])
        choose(page, state)
        page.ask("document.getElementById('d-add').click(); 0")
        letters = ["_", *dict.fromkeys(it for row in rows for it in row[1:3])]
        read = next((it for it in letters if not any(row[:2] == [state, it] for row in rows)), "_")
        at = max([k for k, row in enumerate(rows[:-1]) if row[0] == state], default=len(rows) - 2)
        rows.insert(at + 1, [state, read, read, "+", state])
    else:
        choose(page, "")
        line = draw.randrange(len(rows))
        page.ask(f"document.querySelector('#d-rules [data-line=\"{line + 1}\"] button').click(); 0")
        del rows[line]
    return kind, "".join(",".join(row) + "\n" for row in rows)


def check_changed(page, program, draw, count):
    """Drawn changes in the diagram: each writes the table's text, of which the page says what the program does; and all
    of them are taken back, one by one, and the last made again."""
    for name, table in (("Add one", INCREMENT), ("Parity", PARITY)):
        page.visit(f"file://{PAGE}{link(t=table, w='1')}")
        page.ask("document.getElementById('larger').click(); 0")
        settle(page)
        texts = [table]
        for _ in range(14):
            kind, right = edited(page, draw, texts[-1])
            settle(page)
            if right == texts[-1]:
                continue
            texts.append(right)
            shown, said = text_shown(page), page.ask("document.getElementById('d-said').textContent")
            drawn = {it["name"] for it in page.ask(DIAGRAM)["states"]}
            status, answer = program.answer(["check"], right)
            words = answer.split()
            is_said = (
                f"In standard form: {words[2]} states, {words[6]} rules" in said
                if status == 0
                else said and "In standard form:" not in said
            )
            states = {it for row in right.split() for it in (row.split(",")[0], row.split(",")[4])}
            count.hold(
                shown == right and is_said and drawn == states,
                f"{name}, {kind}: the text is {shown!r}, not {right!r}; it says {said!r} where the program says {answer!r}",
            )
        for right in texts[-2::-1]:
            page.ask("document.activeElement.blur(); 0")
            control_z(page)
            settle(page)
            count.hold(text_shown(page) == right, f"{name}: Ctrl Z leads to {text_shown(page)!r}, and not {right!r}")
        page.ask("document.getElementById('d-close').click(); document.getElementById('redo').click(); 0")
        settle(page)
        count.hold(text_shown(page) == texts[1], f"{name}: what was taken back isn't made again")
    refused = [
        ("d-rename", "d-name", "Odd", "State Odd already exists."),
        ("d-rename", "d-name", "", "Enter a name"),
        ("d-change", "d-other", "1", "already a letter of the table"),
        ("d-change", "d-other", ",", "Enter one character"),
    ]
    page.visit(f"file://{PAGE}{link(t=PARITY, w='1')}")
    page.ask("document.getElementById('larger').click(); 0")
    choose(page, "Even")
    for button, field, value, words in refused:
        set_value(page, field, value)
        page.ask(f"document.getElementById('{button}').click(); 0")
        settle(page)
        said = page.ask("document.getElementById('d-fault').textContent")
        count.hold(words in said and text_shown(page) == PARITY, f"{button} with {value!r} says {said!r}")


# ---- names and the gutter


def gutter(page):
    return page.ask(
        "[...document.querySelectorAll('#lines > div')].filter(it => it.firstChild).map(it => "
        "[it.querySelector('i').textContent, it.querySelector('b')?.textContent ?? null, it.className])"
    )


def check_names_kept(page, program, count):
    """Names that the program can't read stay in the editor as they were typed; the program gets them spelled."""
    page.visit(f"file://{PAGE}#m=least")
    set_value(page, "table", SUM)
    settle(page, 400)
    said, told = page.ask(
        "[document.getElementById('verdict').textContent, document.querySelector('#verdict .note').title]"
    )
    count.hold(
        said.startswith("Read as ") and "names spelled" in told and text_shown(page) == SUM,
        f"names: it says {said[:80]!r}, and the editor has {text_shown(page)!r}",
    )
    set_value(page, "word", "1011")
    settle(page, 400)
    spelled = SUM.replace("q_", "q-")
    given, table = page.ask("[bench.current.machine.given, bench.current.machine.table]")
    count.hold(
        text_shown(page) == SUM and given == spelled and table == program.text(["standard"], spelled),
        f"names: the program gets {given!r}, and the editor has {text_shown(page)!r}",
    )
    seen = page.ask("[...document.querySelectorAll('#diagram [data-state] text')].map(it => it.textContent)")
    count.hold({"q_0", "q_1", "q_2", "q_3"} <= set(seen), f"names: the diagram shows {seen}")
    rows, numbers = [line.split(",") for line in table.splitlines()], gutter(page)
    right = [[str(k + 1), str(k + 2)] for k in range(5)]
    alike = all(
        rows[int(rule) - 1][1:4] == SUM.splitlines()[int(line) - 1].split(",")[1:4] for line, rule, _ in numbers if rule
    )
    count.hold([it[:2] for it in numbers] == right and alike, f"the gutter has {numbers}, and not {right}")
    set_value(page, "table", SUM.replace("q_1,1,1,+,q_1", "q_1,1,1,*,q_1"))
    settle(page, 400)
    numbers, said = gutter(page), page.ask("document.getElementById('verdict').textContent")
    count.hold(
        [it[0] for it in numbers if it[2] == "fault"] == ["3"]
        and said.startswith("Line 3:")
        and all(it[1] is None for it in numbers),
        f"the fault in line 3: the gutter has {numbers}, and it says {said[:60]!r}",
    )
    set_value(page, "table", "\n" + INCREMENT.replace("Add,", "\nAdd,", 1))
    settle(page, 400)
    lines = page.ask("document.getElementById('table').value").split("\n")
    rules = {line: str(k + 1) for k, line in enumerate(INCREMENT.splitlines())}
    wrong = [it for it in gutter(page) if (it[1] or "") != rules.get(lines[int(it[0]) - 1], "")]
    count.hold(not wrong, f"with blank lines the gutter has {wrong}")
    collided = "q_0,1,1,+,q-0\nq-0,_,_,-,q_1\n"
    set_value(page, "table", collided)
    settle(page, 400)
    given = page.ask("[...document.querySelectorAll('#verdict button')].map(it => it.textContent)")
    names = page.ask("bench.state.names")
    count.hold("q-0" not in names, f"a name that was typed is another's spelling: {names}, {given}")


def control_z(page, shift=False):
    for kind in ("rawKeyDown", "keyUp"):
        page.call(
            "Input.dispatchKeyEvent",
            type=kind,
            key="Z" if shift else "z",
            code="KeyZ",
            windowsVirtualKeyCode=90,
            modifiers=10 if shift else 2,
        )


def check_typed(page, program, count):
    """What is typed in the table, or as the word, is taken back by Ctrl Z, and made again with shift."""
    page.visit(f"file://{PAGE}{link(t=INCREMENT, w='11')}")
    for field, typed, shown in (
        ("table", "Z", lambda: text_shown(page)),
        ("word", "0", lambda: page.ask("document.getElementById('word').value")),
    ):
        before = shown()
        page.ask(f"(it => {{ it.focus(); it.setSelectionRange(0, 0); }})(document.getElementById('{field}'))")
        page.call("Input.insertText", text=typed)
        settle(page, 400)
        after = shown()
        control_z(page)
        settle(page)
        back = shown()
        control_z(page, shift=True)
        settle(page)
        count.hold(
            after == typed + before and back == before and shown() == after,
            f"typed in {field}: {before[:20]!r}, {after[:20]!r}, taken back {back[:20]!r}, made again {shown()[:20]!r}",
        )
        control_z(page)
        settle(page)
    said, right = (
        page.ask("document.getElementById('outcome').textContent"),
        program.text(["machine", "=11", "100"], INCREMENT).split(),
    )
    count.hold(said.startswith(f"{right[1]} steps → {right[3][1:]}"), f"what was taken back runs with {said!r}")


def check_new(page, count):
    """New empties the table, and no result of the last machine is shown; undo restores it. What may be a mistake is told."""
    page.visit(f"file://{PAGE}{link(t=INCREMENT, w='11')}")
    page.ask("document.getElementById('newmachine').click(); 0")
    settle(page, 400)
    outcome = "document.getElementById('outcome').textContent"
    count.hold(
        text_shown(page) == "" and comes(page, f"{outcome} === ''"),
        f"after New the table is {text_shown(page)!r}, with {page.ask(outcome)!r}",
    )
    page.ask("document.getElementById('undo').click(); 0")
    count.hold(comes(page, f"{outcome}.includes(' steps → ')"), f"undone, New leaves {page.ask(outcome)!r}")
    page.visit(
        f"file://{PAGE}{link(t='S,_,_,+,A' + chr(10) + 'B,1,1,+,A' + chr(10) + 'A,1,1,+,C' + chr(10) + 'A,_,_,0,H' + chr(10), w='')}"
    )
    told = page.ask("document.querySelector('#verdict .warning')?.textContent")
    count.hold(
        told == "State B is never reached. State C has no rules.", f"of a table that may be wrong is told {told!r}"
    )


def check_rows(page, count):
    """A row is filled in by keys alone: what is typed is written as the Tab key goes on, and it goes on to the next field."""
    page.visit(f"file://{PAGE}{link(t=PARITY, w='1')}")
    page.ask("document.getElementById('larger').click(); 0")
    settle(page)
    page.ask(
        '(it => { it.focus(); it.select(); })(document.querySelector(\'#d-rules [data-line="3"] [data-field="2"]\')); 0'
    )
    places = []
    for typed in ("0", "", "Odd2"):
        if typed:
            page.ask("document.activeElement.select(); 0")
            page.call("Input.insertText", text=typed)
        page.strike("Tab", 9)
        settle(page)
        places.append(
            page.ask(
                "(it => [it.closest('[data-line]')?.dataset.line ?? '', it.dataset.field ?? it.id])(document.activeElement)"
            )
        )
    count.hold(
        text_shown(page) == PARITY.replace("Even,1,1,+,Odd", "Even,1,0,+,Odd2")
        and places == [["3", "3"], ["3", "4"], ["3", "5"]],
        f"by keys the text is {text_shown(page)!r}, and Tab goes to {places}",
    )
    page.strike("Enter", 13, "\r")
    settle(page)
    count.hold(
        text_shown(page) == PARITY.replace("Even,1,1,+,Odd\n", "") and page.ask("document.activeElement.id") == "d-add",
        f"Enter on × leaves {text_shown(page)!r}, and the focus at {page.ask('document.activeElement.id')}",
    )


def check_opened(page, program, count):
    """A file of JFLAP: its final states accept, and what it answers is what the program says of the table that was made."""
    page.visit(f"file://{PAGE}#m=least")
    root = page.call("DOM.getDocument")["root"]["nodeId"]
    node = page.call("DOM.querySelector", nodeId=root, selector="#file")["nodeId"]
    page.call("DOM.setFileInputFiles", nodeId=node, files=[os.path.join(TOP, "examples", "swap.jff")])
    settle(page, 500)
    text = text_of("examples", "swap.jff")
    finals = [
        name
        for name, body in re.findall(r'<state id="\d+" name="([^"]*)">(.*?)</state>', text, flags=re.S)
        if "<final/>" in body
    ]
    accept, table, given = page.ask("[bench.state.accept, bench.current.machine.table, bench.current.machine.given]")
    count.hold(
        accept == finals and finals and program.answer(["standard"], given) == (0, table),
        f"of JFLAP {accept} accept, and final are {finals}",
    )
    for kind, name in (
        ("turingmachine.io", "download.yaml"),
        ("morphett", "comments.txt"),
        ("bbchallenge", "line-04.txt"),
        ("jflap", "same-names-8.jff"),
    ):
        page.call("DOM.setFileInputFiles", nodeId=node, files=[os.path.join(TOP, "tests", "machines", kind, name)])
        settle(page, 500)
        table, given = page.ask("[bench.current.machine.table, bench.current.machine.given]")
        ran = subprocess.run(
            [os.path.join(TOP, "tools", "import"), os.path.join(TOP, "tests", "machines", kind, name)],
            stdout=subprocess.PIPE,
            text=True,
        )
        count.hold(
            given == ran.stdout and program.answer(["standard"], given) == (0, table),
            f"{name} is opened as {given!r}, and tools/import prints {ran.stdout!r}",
        )
    page.call(
        "DOM.setFileInputFiles", nodeId=node, files=[os.path.join(TOP, "tests", "machines", "jflap", "two-tapes.jff")]
    )
    settle(page, 500)
    said, now = page.ask("[document.getElementById('toast').textContent, bench.current.machine.given]")
    count.hold("the machine has 2 tapes" in said and now == given, f"a machine of two tapes: {said!r}")


def check_editor(page, program, seed, count):
    draw = random.Random(seed)
    page.visit(f"file://{PAGE}#m=least")
    page.ask("localStorage.setItem('hithwelor hints', 'seen'); 0")
    check_verdicts(page, program, draw, count)
    check_moved(page, count)
    check_readable(page, count)
    check_changed(page, program, draw, count)
    check_names_kept(page, program, count)
    check_typed(page, program, count)
    check_new(page, count)
    check_rows(page, count)
    check_opened(page, program, count)
    count.hold(not page.faults(), f"the editor: {page.faults()}")
