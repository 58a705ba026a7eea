"""What the page says where an answer is cut off: a fault in the module, one of the worker itself, no memory, a run that is
stopped, a browser that is too old; and that it goes on. Faults are put into the worker before the page begins, and an
answer that never comes into the workers that are begun after a stop.
"""
import json
import os
import tempfile

from counting import text_of
from shown import PAGE, comes, settle
from shown_editor import set_value
from shown_places import INCREMENT

# The module answers otherwise where its words and its input are of a pattern: it traps, has no memory, breaks its worker, or
# never answers.
# What stands before the worker's script knows no name of that script, but the module's one call.
BROKEN = """const Whole = window.Blob;
window.Blob = function (parts, how) {
  if (how?.type !== "text/javascript") return new Whole(parts, how);
  return new Whole([%s, ...parts], how);
};"""
IN_WORKER = """{
const Instance = WebAssembly.Instance, decoder = new TextDecoder(), rules = %s;
WebAssembly.Instance = function (module, imports) {
  const {exports} = new Instance(module, imports);
  const said = (at, count) => decoder.decode(new Uint8Array(exports.memory.buffer, Number(at), Number(count)));
  const hithwelor_answer = (list, words, given, input, ...others) => {
    const asked = said(list, words).split("\\0").join(" ") + "|" + said(given, Math.min(600, Number(input)));
    const [, kind] = rules.find(([pattern]) => new RegExp(pattern).test(asked)) ?? [];
    if (kind === "trap") throw new WebAssembly.RuntimeError("unreachable");
    if (kind === "memory") return 9;
    if (kind === "worker") {
      setTimeout(() => { throw new Error("the worker is broken"); });
      throw {toString() { throw new Error("nothing is posted"); }};
    }
    while (kind === "endless") continue;
    return exports.hithwelor_answer(list, words, given, input, ...others);
  };
  return {exports: {...exports, hithwelor_answer}};
};
}
"""
# The word that comes by itself, before its time and behind it: its animation is set there, so that nothing hangs on the clock.
AT_TIMES = """(it => {
  const seen = it.getAnimations()[0], {delay, duration} = seen.effect.getComputedTiming(), found = [];
  seen.pause();
  for (const at of [Math.min(delay, 1500), delay + duration]) {
    seen.currentTime = at;
    found.push(getComputedStyle(it).visibility);
  }
  return [...found, it.innerText];
})(document.getElementById('tooold'))"""
TOO_OLD = "const Old = Blob; Blob = function (parts, how) { return new Old(['self.WebAssembly = undefined;\\n', ...parts], how); };"
# By which words a call of a run is known, where its word is 101 and a state's name is Adding.
CALLS = {
    "check": "^check[^]*Adding",
    "machine": "^machine =101 ",
    "run": "^run =101 auto",
    "bennett": "^bennett[^]*Adding",
    "compile": "^compile =101 ",
    "session": "^session =101 ",
}
ENDS = {
    "trap": "This answer was cut off: RuntimeError: unreachable",
    "memory": "There was no memory for this answer",
    "worker": "This answer was cut off: ",
}


def broken(page, *rules):
    """The worker breaks by these rules from the next visit on; the script that does so, to be taken away again."""
    source = BROKEN % json.dumps(IN_WORKER % json.dumps([list(it) for it in rules]))
    return page.call("Page.addScriptToEvaluateOnNewDocument", source=source)["identifier"]


def goes_on(page, program, name, count):
    """Behind a fault the page takes another machine, and answers."""
    set_value(page, "table", INCREMENT)
    set_value(page, "word", "11")
    settle(page, 500)
    steps = program.text(["machine", "=11", "100"], INCREMENT).split()[1]
    comes(
        page,
        f"document.getElementById('outcome').textContent.startsWith('{steps} steps → ') && !document.body.classList.contains('stale')",
    )
    outcome, stale = page.ask(
        "[document.getElementById('outcome').textContent, document.body.classList.contains('stale')]"
    )
    count.hold(
        outcome.startswith(f"{steps} steps → ") and not stale,
        f"behind {name} the page says {outcome!r}, and it takes {steps} steps",
    )


def comes_to(page, expression, words):
    """A text of the page, once it begins with these words; on a busy machine that takes its time."""
    comes(page, f"{expression}.startsWith({json.dumps(words)})")
    return page.ask(expression)


def check_cut(page, program, count):
    """Each call behind a run is cut off by a trap, by a lack of memory, and by the worker."""
    adding = INCREMENT.replace("Add,", "Adding,").replace(",Add\n", ",Adding\n")
    for kind, words in ENDS.items():
        for call, pattern in CALLS.items():
            script = broken(page, (pattern, kind))
            page.visit(f"file://{PAGE}#m=least")
            set_value(page, "table", adding)
            set_value(page, "word", "101")
            settle(page, 700)
            said = comes_to(page, "document.getElementById('verdict').textContent", words)
            buttons = page.ask("[...document.querySelectorAll('#verdict button')].map(it => it.textContent)")
            count.hold(
                said.startswith(words) and "Try it again" in buttons,
                f"where {call} is cut off ({kind}) the page says {said[:120]!r}, {buttons}",
            )
            goes_on(page, program, f"{kind} in {call}", count)
            count.hold(not page.faults(), f"{kind} in {call}: {page.faults()}")
            page.call("Page.removeScriptToEvaluateOnNewDocument", identifier=script)


def check_cut_elsewhere(page, program, count):
    """The same where a step is fetched, in the workshop and in an exercise."""
    script = broken(
        page, ("^session[^]*step 16384\n", "memory"), ("^realise", "trap"), ("^machine =111 100\\|", "memory")
    )
    page.visit(f"file://{PAGE}#m=least")
    page.ask("bench.goTo(20000); 0")
    said = comes_to(page, "document.getElementById('busy').textContent", "There was no memory")
    count.hold(said.startswith("There was no memory"), f"where no step can be fetched the page says {said!r}")
    page.ask("bench.goTo(100); 0")
    settle(page, 300)
    at = page.ask("bench.current.run.placeAt(100) && bench.placeName(bench.current.run.placeAt(100).place)")
    table, words = page.ask("[bench.current.run.table, bench.current.run.words]")
    count.hold(
        program.text(["view", *words, "100"], table).startswith(f"element at {at} "), f"behind it step 100 shows {at}"
    )
    page.ask("bench.openWorkshop('mirror'); 0")
    settle(page, 700)
    set_value(page, "m-text", "1,1,2,2\n2,2,1,1\n")
    settle(page, 500)
    said = comes_to(page, "document.getElementById('m-fault').textContent", "This answer was cut off")
    count.hold(said.startswith("This answer was cut off"), f"where the workshop is cut off it says {said!r}")
    page.ask(
        "document.getElementById('workshop').close(); bench.beginTask(6); document.getElementById('taskcheck').click(); 0"
    )
    said = comes_to(page, "document.getElementById('tasksaid').textContent", "Not checked")
    count.hold(said.startswith("Not checked. There was no memory"), f"an exercise that can't be judged says {said!r}")
    page.ask("document.getElementById('taskend').click(); 0")
    page.call("Page.removeScriptToEvaluateOnNewDocument", identifier=script)


# What is told in passing goes by itself, and a slow machine may be looked at too late: it is kept.
KEEP_TOASTS = """(window.toasts = "", new MutationObserver(list => {
  for (const it of list.flatMap(one => [...one.addedNodes])) if (it.id === "toast") window.toasts = it.textContent;
}).observe(document.body, {childList: true}))"""
TOASTS = "window.toasts"
# A word of which the run is never answered, so that the wait for it is as long on any machine.
WAITED_FOR = "1" * 24


def check_stopped(page, program, count, browser=""):
    """A run that takes long is stopped by its button, which comes by itself; the machine by itself stays, and the page goes on.
    By what both browsers have: the workers that are here are ended by the button, and those behind it break."""
    page.visit(f"file://{PAGE}#m=least")
    source = BROKEN % json.dumps(IN_WORKER % json.dumps([[f"^run ={WAITED_FOR} auto", "endless"]]))
    page.ask(f"(() => {{ document.getElementById('stop').click(); {source} return 0; }})()")
    # So that the whole run of a long word is waited for.
    page.ask("(bench.longRuns.above = Infinity, 0)")
    page.ask(f"({KEEP_TOASTS}, 0)")
    set_value(page, "table", INCREMENT)
    set_value(page, "word", WAITED_FOR)
    came = comes(page, "!document.getElementById('stop').hidden")
    early = page.ask(TOASTS)
    page.ask("(document.getElementById('stop').click(), 0)")
    said = comes_to(page, TOASTS, "Stopped. Make the word shorter")
    stale, size = page.ask("[document.body.classList.contains('stale'), document.getElementById('size').textContent]")
    is_told = came and said.startswith("Stopped. Make the word shorter") and not stale and size.startswith("Stopped: ")
    count.hold(is_told, f"{browser}stopped: the button came: {came}; it says {said!r} behind {early!r}, {size!r}")
    goes_on(page, program, f"{browser}a stop", count)


def check_old(page, count):
    """A word where the browser is too old: where the script can't run, and where it has no WebAssembly."""
    with tempfile.NamedTemporaryFile("w", suffix=".html", encoding="utf-8", delete=False) as file:
        file.write(
            text_of("page", "hithwelor.html").replace('"use strict";\n', '"use strict";\nconst new syntax;\n', 1)
        )
    page.call("Page.navigate", url=f"file://{file.name}")
    comes(page, "document.readyState === 'complete' && document.getElementById('tooold') !== null")
    early, seen, words = page.ask(AT_TIMES)
    count.hold(
        (early, seen) == ("hidden", "visible") and "2023" in words,
        f"where the script doesn't run, {words!r} is {early} and then {seen}",
    )
    os.remove(file.name)
    script = page.call("Page.addScriptToEvaluateOnNewDocument", source=TOO_OLD)["identifier"]
    page.call("Page.navigate", url=f"file://{PAGE}#m=least")
    comes(page, "document.getElementById('verdict')?.textContent.startsWith(\"This browser can't run it\")")
    said, gone = page.ask(
        "[document.getElementById('verdict').textContent, document.getElementById('tooold') === null]"
    )
    count.hold(said.startswith("This browser can't run it") and gone, f"without WebAssembly the page says {said!r}")
    page.call("Page.removeScriptToEvaluateOnNewDocument", identifier=script)


def check_faults(page, program, count):
    for check in (check_cut, check_cut_elsewhere, check_stopped):
        check(page, program, count)
    check_old(page, count)
