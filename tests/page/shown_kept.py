"""What the page keeps: machine, word and step over a reload, what Back closes, and what is seen while a run is sought."""
import json

from shown import PAGE, RUNS, comes, holds_time, reload, settle
from shown_editor import set_value
from shown_faults import broken
from shown_places import INCREMENT

LONG_WORD = "abaabbbaaba"
# The longest task that is wanted on an idle machine, in milliseconds.
TASK = 100
# The address has the word and the step that are shown.
IN_ADDRESS = "(it => it.get('w') === bench.state.word && Number(it.get('e')) === bench.state.e)(new URLSearchParams(location.hash.slice(1)))"


def check_reload(page, count):
    page.visit(f"file://{PAGE}")
    set_value(page, "table", INCREMENT)
    set_value(page, "word", "110")
    settle(page, 600)
    page.ask("document.getElementById('forth').click(); 0")
    count.hold(comes(page, f"bench.state.e > 0 && {IN_ADDRESS}"), f"the address is {page.ask('location.hash')[:90]}")
    before = page.ask("[document.getElementById('table').value, document.getElementById('word').value, bench.state.e]")
    count.hold(reload(page), "after a reload no run is shown")
    settle(page, 300)
    after = page.ask("[document.getElementById('table').value, document.getElementById('word').value, bench.state.e]")
    count.hold(
        before == after and before[2] > 0, f"a reload makes of {json.dumps(before)[:120]} {json.dumps(after)[:120]}"
    )
    page.visit(f"file://{PAGE}#m=complement")
    count.hold(
        comes(page, f"location.hash.includes('m=complement') && {IN_ADDRESS}"), "the address doesn't hold an example"
    )
    count.hold(reload(page), "after a reload of an example no run is shown")
    kept = page.ask("document.getElementById('examples').value")
    count.hold(kept == "complement", f"a reload of an example makes it {kept!r}")


def check_back(page, count):
    """An exercise that an address opened goes with it, and the machine that was there is there again."""
    page.visit(f"file://{PAGE}")
    set_value(page, "table", INCREMENT)
    set_value(page, "word", "11")
    count.hold(comes(page, "location.hash.includes('w=11')"), "the address doesn't hold the word")
    page.ask("location.hash = 'x=7'; 0")
    count.hold(
        comes(page, "document.querySelector('#sheet h2')?.textContent.startsWith('Exercise 7') ?? false"),
        "#x=7 opens no exercise",
    )
    page.ask("history.back(); 0")
    closed = "document.querySelector('dialog[open]') === null && document.getElementById('sheet').hidden"
    count.hold(comes(page, closed), "Back leaves the exercise, or a dialog, open")
    count.hold(
        comes(page, f"{RUNS} && document.getElementById('word').value === '11'"),
        "Back doesn't lead to the machine that was there",
    )


def check_sought(page, count):
    """While the run of another word is sought, the old one isn't shown as if it were its. It is never found here, so that what is seen
    meanwhile doesn't hang on how fast the machine is."""
    script = broken(page, (f"^(machine|run) ={LONG_WORD} ", "endless"))
    page.visit(f"file://{PAGE}#m=palindrome")
    set_value(page, "word", LONG_WORD)
    pale = "['sought', 'stale'].some(it => document.body.classList.contains(it))"
    count.hold(
        comes(page, f"bench.state.isMaking && {pale}"), "the old run stands beside the new word as if it were its"
    )
    page.ask("document.getElementById('stop').click(); 0")
    count.hold(
        comes(page, "!document.getElementById('busy').textContent.includes('…')") and page.ask(pale),
        "behind Stop the old run stands as if it were the word's",
    )
    page.call("Page.removeScriptToEvaluateOnNewDocument", identifier=script)


def check_end(page, count):
    """The end of a long run is gone to while its moments come: no counter tells of another step; Stop comes back to a known one."""
    page.visit(f"file://{PAGE}#m=palindrome")
    page.ask("bench.limits.quick = 0; bench.limits.first = 2; bench.longRuns.above = Infinity; 0")
    set_value(page, "word", LONG_WORD)
    count.hold(comes(page, f"{RUNS} && bench.current.run.word === '{LONG_WORD}'"), "the long word has no run")
    page.ask("document.getElementById('last').click(); 0")
    told = page.ask(
        "[bench.current.run.isKnown(bench.state.e), document.querySelector('#layers [data-layer=machine] span').textContent]"
    )
    count.hold(
        told[0] or told[1].startswith("… of "),
        f"at the end, which isn't known, the machine's step is told as {told[1]!r}",
    )
    page.ask("document.getElementById('stop').click(); 0")
    settle(page, 300)
    known = page.ask("bench.current.run.isKnown(bench.state.e)")
    count.hold(known, "after Stop the step that is shown isn't known")
    count.hold(not page.faults(), f"{page.faults()}")


def paste_long(page, text):
    """A paste as a person makes it, by its event: what is shorter the browser puts in by itself."""
    page.ask(
        """(text => { const it = new DataTransfer(); it.setData('text/plain', text);
      document.getElementById('table').dispatchEvent(new ClipboardEvent('paste', {clipboardData: it, bubbles: true, cancelable: true})); })(%s)"""
        % text
    )


def check_replaced(page, count):
    """A table that is pasted into another one may be meant to replace it: a button does so, and undo restores the other."""
    page.visit(f"file://{PAGE}#m=least")
    page.ask("(it => { it.focus(); it.setSelectionRange(0, 0); })(document.getElementById('table')); 0")
    paste_long(page, json.dumps(INCREMENT))
    page.ask(
        f"(it => {{ it.value = {json.dumps(INCREMENT)} + it.value; it.dispatchEvent(new InputEvent('input', {{inputType: 'insertFromPaste', data: null}})); }})"
        "(document.getElementById('table')); 0"
    )
    button = (
        "[...document.querySelectorAll('#verdict button')].find(it => it.textContent.startsWith('Replace the table'))"
    )
    count.hold(comes(page, f"Boolean({button})"), "a table that is pasted into another one is not offered in its place")
    page.ask(f"{button}.click(); 0")
    shown = "document.getElementById('table').value"
    count.hold(comes(page, f"{shown} === {json.dumps(INCREMENT)}"), f"replaced, the table is {page.ask(shown)[:60]!r}")
    page.ask("document.getElementById('undo').click(); 0")
    count.hold(comes(page, f"{shown}.endsWith('T,_,_,0,F\\n')"), f"undone, the table is {page.ask(shown)[:60]!r}")


def check_too_long(page, count):
    """A million characters are pasted: the verdict comes, with a word that they are too many, and nothing stands still."""
    said, box = "document.getElementById('verdict').textContent", "document.getElementById('table')"

    def measure():
        page.visit(f"file://{PAGE}#m=least")
        page.ask(
            """window.longest = 0; new PerformanceObserver(list => {
          for (const it of list.getEntries()) window.longest = Math.max(window.longest, it.duration);
        }).observe({type: "longtask"}); window.million = "state,1,0,+,other\\n".repeat(55556); 0"""
        )
        paste_long(page, "million")
        comes(page, f"{said}.includes('too long to edit here')")
        settle(page, 300)
        return page.ask("longest"), ""

    holds_time(page, count, "a million characters, the longest task", TASK, measure)
    told, lines, shown, is_closed = page.ask(
        f"[{said}, document.getElementById('lines').children.length, {box}.value.length, {box}.readOnly]"
    )
    count.hold(
        "too long to edit here" in told and lines == 0 and shown < 10000 and is_closed,
        f"of a million characters the page says {told[:120]!r}, with {lines} numbers of lines and {shown} characters",
    )
    paste_long(page, json.dumps(INCREMENT))
    set_value(page, "word", "11")
    count.hold(
        comes(page, f"{RUNS} && document.getElementById('outcome').textContent.includes('→')"),
        "behind it no run is shown",
    )
    page.ask(
        "document.getElementById('undo').click(); document.getElementById('undo').click(); document.getElementById('undo').click(); 0"
    )
    settle(page, 400)
    count.hold(
        page.ask(f"[{box}.readOnly, {box}.value]") == [False, "S,_,_,+,T\nT,_,_,0,F\n"],
        f"taken back, the editor has {page.ask(box + '.value')[:60]!r}",
    )
    paste_long(page, "million")
    settle(page, 400)
    page.ask("[...document.querySelectorAll('#verdict button')].find(it => it.textContent === 'Clear').click(); 0")
    settle(page, 400)
    count.hold(page.ask(f"[{box}.readOnly, {box}.value]") == [False, ""], "what is too long isn't cleared")
    count.hold(not page.faults(), f"{page.faults()}")


def check_kept(page, count):
    for check in (check_reload, check_back, check_sought, check_end, check_replaced, check_too_long):
        check(page, count)
