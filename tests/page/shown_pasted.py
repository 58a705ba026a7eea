"""Machines as they are pasted, in the notations of books and of other programs: three actions from there to a tape that moves, one
line that says what they were read as, and what undoes that.
"""
import json
import os
import subprocess

from counting import TOP
from shown import PAGE, comes, reload, settle
from shown_editor import set_value, text_shown

FIXTURE = os.path.join(TOP, "page", "test", "pasted.js")
LISTED = "import {PASTED} from %s; console.log(JSON.stringify(PASTED))"
VERDICT = "document.getElementById('verdict').textContent"
OUTCOME = "document.getElementById('outcome').textContent"
# What a person sees of a run that plays: the tapes as they are heard.
TAPES = "[...document.querySelectorAll('#three svg')].map(it => it.getAttribute('aria-label')).join('|')"
# A field is empty and has the focus, as behind a click and Ctrl-A.
EMPTY = "(it => { it.focus(); it.select(); })(document.getElementById('%s'))"


def machines():
    """The fixture's machines, by node."""
    ran = subprocess.run(
        ["node", "--input-type=module", "-e", LISTED % json.dumps("file://" + FIXTURE)],
        stdout=subprocess.PIPE,
        check=True,
        text=True,
    )
    return json.loads(ran.stdout)


def paste(page, name, text):
    page.ask(EMPTY % name + "; 0")
    if text:
        page.call("Input.insertText", text=text)
    else:
        page.strike("Delete", 46)


def click(page, name):
    box = page.ask(
        f"(box => [box.left + box.width / 2, box.top + box.height / 2])(document.getElementById('{name}').getBoundingClientRect())"
    )
    for kind in ("mousePressed", "mouseReleased"):
        page.call("Input.dispatchMouseEvent", type=kind, x=box[0], y=box[1], button="left", clickCount=1)


def check_played(page, program, name, notation, text, words, count):
    """Pasted, its word typed, played: no more is wanted."""
    word = max(words, key=len)
    page.visit(f"file://{PAGE}#m=least")
    paste(page, "table", text)
    settle(page, 350)
    said = page.ask(VERDICT)
    count.hold(
        said.startswith("Read as ")
        and "undo" in said
        and not page.ask("document.querySelector('#verdict .fault') !== null"),
        f"{name}, {notation}: pasted, it says {said[:160]!r}",
    )
    if word:
        paste(page, "word", word)
        settle(page, 400)
    before = page.ask(TAPES)
    click(page, "play")
    count.hold(
        comes(page, f"{TAPES} !== {json.dumps(before)}"),
        f"{name}, {notation}: after three actions no tape moves; {page.ask(OUTCOME)!r}",
    )
    page.ask("bench.pause(); 0")
    table = page.ask("bench.current.machine.table")
    status, answer = program.answer(["machine", "=" + word, "2000"], table)
    output = answer.partition("output =")[2].strip()
    wanted = f"→ {output or 'empty output'}" if status == 0 else "stuck in"
    count.hold(
        wanted in page.ask(OUTCOME) and (words[word] is None) == (status == 10),
        f"{name}, {notation}: on {word!r} the page says {page.ask(OUTCOME)!r}, the program {answer[:60]!r}",
    )


def check_undone(page, text, count):
    """What was read is taken back: the text as it was pasted, with what is wrong with it; and it stays so over a reload."""
    page.visit(f"file://{PAGE}#m=least")
    paste(page, "table", text)
    settle(page, 350)
    turned = text_shown(page)
    page.ask("[...document.querySelectorAll('#verdict button')].find(it => it.textContent === 'undo').click(); 0")
    settle(page, 350)
    said = page.ask(VERDICT)
    count.hold(
        text_shown(page) == text and turned != text and "Read it" in said,
        f"undone, the editor has {text_shown(page)[:60]!r}, and it says {said[:80]!r}",
    )
    comes(
        page,
        "new URLSearchParams(location.hash.slice(1)).get('t') === bench.state.text && location.hash.includes('u=1')",
    )
    reload(page, "typeof bench === 'object' && document.querySelector('#verdict .fault') !== null")
    count.hold(text_shown(page) == text, f"behind a reload the editor has {text_shown(page)[:60]!r}")
    page.ask("document.getElementById('undo').disabled || document.getElementById('undo').click(); 0")


def check_proposed(page, listed, count):
    """States that say by their names that they accept and reject are proposed so."""
    page.visit(f"file://{PAGE}#m=least")
    paste(page, "table", listed["palindrome"]["texts"]["latex"])
    settle(page, 350)
    given = page.ask("[bench.state.accept, bench.state.reject]")
    count.hold(given == [["q_accept"], ["q_reject"]], f"what accepts and rejects is proposed as {given}")
    for word, answer in (("abba", "accepts · "), ("ab", "rejects · ")):
        paste(page, "word", word)
        settle(page, 450)
        count.hold(page.ask(OUTCOME).startswith(answer), f"on {word} it says {page.ask(OUTCOME)!r}")
    page.visit(f"file://{PAGE}#m=sum")
    settle(page, 350)
    count.hold(
        page.ask(OUTCOME).endswith("→ 1111") and page.ask(VERDICT).startswith("Read as "),
        f"the example says {page.ask(VERDICT)[:90]!r}, {page.ask(OUTCOME)!r}",
    )


def check_typed(page, listed, count):
    """While it is typed letter by letter a text isn't put in another's place; what can be turned is offered."""
    page.visit(f"file://{PAGE}#m=least")
    paste(page, "table", "")
    for letter in "q0 1 1 R q0":
        page.call("Input.insertText", text=letter)
    settle(page, 450)
    count.hold(
        text_shown(page) == "q0 1 1 R q0" and "Convert" in page.ask(VERDICT),
        f"typed, the editor has {text_shown(page)!r}, and it says {page.ask(VERDICT)[:90]!r}",
    )
    set_value(page, "table", "S,_,_,+,Go")
    paste(page, "table", "nothing that is a machine")
    settle(page, 350)
    count.hold(page.ask("document.querySelector('#verdict .fault') !== null"), "what is no machine isn't refused")
    paste(page, "table", listed["adder"]["texts"]["yaml"].replace("start state: q_0", "start state: q_9"))
    settle(page, 350)
    count.hold(
        "q_9" in page.ask(VERDICT), f"a fault of another program's machine is told as {page.ask(VERDICT)[:90]!r}"
    )


def check_pasted(page, program, count):
    listed = machines()
    for name, it in listed.items():
        for notation, text in it["texts"].items():
            check_played(page, program, name, notation, text, it["words"], count)
    check_undone(page, listed["adder"]["texts"]["latex"], count)
    check_proposed(page, listed, count)
    check_typed(page, listed, count)
    count.hold(not page.faults(), f"{page.faults()}")
