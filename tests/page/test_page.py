"""The page and the command: that they are built of the sources that stand, and, in a headless browser, what is shown.

    python3 -m pytest tests/page -m ""                     by the proved program, or by the module under node
    python3 -m pytest tests/page -m "" -k editor           one part
    python3 -m pytest tests/page -m "" --seed N --places N    other drawn places, or another number of them
    python3 -m pytest tests/page -m "" --pictures FOLDER   photographs of the page as it is laid out

- page/sources.sha256 has the digests of what page/hithwelor.html and bin/hithwelor were built from, and of both; embed/build
  makes them anew.
- The page that is looked at is the shipped one, with a hook behind its script, page/test/bench.js, and nothing else.
- The page's policy names its one script by its digest, and the page names nothing outside. Each file of page/src has its
  row in page/README.md. page/test by node, and the types of the modules by tsc.
- In a headless Chromium without a network, from the file: answers to words and inputs, byte for byte; what stands in the
  page at drawn steps of many machines, with what `view` and `step` give there: tapes, place, module, stage and every bar
  of the module; the quadruple that is marked; the texts that it hands out to copy; the window, with that of `run =W auto`;
  the pages of its workshop; the circuit editor, by the mouse and by the keyboard alone; what it says to answers of the exercises, which are those of docs/learn/exercises.md; the panels in
  words; hints, a still and paper; contrast in both schemes, names and roles, the keyboard alone, less motion; a way there
  and back; an endless run is stopped. The machine as it is changed, in its table and in its diagram, and taken back; what
  accepts and what many words are answered with; what is heard; four widths; answers that are cut off.
- In a headless Firefox: the answers, and places of some machines.
- From a server on this machine: an answer, and that nothing but the page was asked for, whatever a script tries.

How long the page takes is measured by bench/page_times.py.
"""
import base64
import glob
import hashlib
import http.server
import json
import os
import random
import re
import shutil
import subprocess
import threading
import time

import bundle
import pytest
from browser import browser_at_hand
from counting import TOP, Count, text_of
from firefox import firefox_at_hand
from shown import PAGE, SHIPPED, Program, Shown, comes
from shown_access import check_access
from shown_design import check_design
from shown_early import check_early
from shown_editor import check_editor
from shown_faults import check_faults
from shown_firefox import check_firefox
from shown_glance import check_glance
from shown_heard import check_heard_all
from shown_kept import check_kept
from shown_layout import check_layout
from shown_learn import check_learn
from shown_long import check_long
from shown_pasted import check_pasted
from shown_pictures import check_pictures
from shown_places import PLACES, SEED, check_places
from shown_reading import check_reading
from shown_runs import MACHINES, check_machine, check_windows
from shown_tasks import check_tasks
from shown_texts import check_texts
from shown_workshop import check_workshop
from sources import changed

ANSWERS = [
    (["check"], "increment.csv"),
    (["check"], "faulty.csv"),
    (["machine", "=1011", "20"], "increment.csv"),
    (["standard"], "complement.csv"),
    (["bennett"], "increment.csv"),
    (["reversible"], "reversible.csv"),
    (["realise", "1", "1"], "two-moves.csv"),
    (["compile", "=", "0", "2", "2", "1"], "least.csv"),
    (["run", "=1011", "auto"], "increment.csv"),
    (["run", "=1011", "0", "3", "11", "5"], "increment.csv"),
    (["run", "=1", "0", "3", "3", "3"], "stuck.csv"),
    (["view", "=", "0", "2", "2", "1", "6540"], "least.csv"),
    (["session", "=", "0", "2", "2", "1"], "least-session.txt"),
    (["plan"], "two-elements.txt"),
    (["migrate"], "two-columns.txt"),
    (["generate", "1"], None),
    (["erase", "=101", "200"], "not-twice.txt"),
    (["step", "1"], "across.txt"),
    (["back", "1"], "undo.txt"),
    (["nonsense"], None),
    ([], None),
]
# How many places of each machine are looked at in Firefox.
FIREFOX_PLACES = 10
# What a script of the page might try, so as to reach the server.
TRIES = """(async () => {
  const address = "%s", said = {};
  said.fetch = await fetch(address + "/fetch").then(() => "went out", () => "refused");
  said.image = await new Promise(done => {
    const it = new Image();
    it.onload = () => done("went out"); it.onerror = () => done("refused"); it.src = address + "/image";
  });
  said.worker = await new Promise(done => {
    const source = `fetch("${address}/worker").then(() => postMessage("went out"), () => postMessage("refused"))`;
    const it = new Worker(URL.createObjectURL(new Blob([source])));
    it.onmessage = event => done(event.data); it.onerror = () => done("refused");
  });
  try { eval("1"); said.eval = "went out"; } catch { said.eval = "refused"; }
  return said;
})()"""


# ---- without a browser


def test_page_and_command_are_built_of_the_sources_that_stand():
    assert not changed(), "embed/build makes page and command anew, and then the list page/sources.sha256"


def test_the_policy_of_the_page_names_its_one_script_and_the_page_nothing_outside():
    page = text_of("page", "hithwelor.html")
    (script,) = re.findall(r"<script[^>]*>(.*?)</script>", page, flags=re.S)
    policy = re.search(r'<meta http-equiv="Content-Security-Policy" content="([^"]*)">', page)[1]
    digest = base64.b64encode(hashlib.sha256(script.encode()).digest()).decode()
    assert f"script-src 'sha256-{digest}' 'wasm-unsafe-eval';" in policy and "default-src 'none'" in policy
    assert not re.findall(r'(?:src|href)="(?!data:|#)[^"]*"', page.replace(script, ""))


def test_each_file_of_the_page_has_one_row_in_its_readme():
    named = re.findall(r"^\| `([^`]+)` \|", text_of("page", "README.md"), flags=re.M)
    top = os.path.join(TOP, "page", "src")
    files = sorted(
        os.path.relpath(os.path.join(folder, name), top) for folder, _, names in os.walk(top) for name in names
    )
    assert sorted(named) == files


def test_the_page_says_what_the_page_of_help_tells_of_it():
    """Apart from numbers and what is left out."""
    section = text_of("docs", "use", "help.md").partition("## In the page\n")[2]
    sources = "".join(
        text_of(path) for path in sorted(glob.glob(os.path.join(TOP, "page", "src", "**", "*.*"), recursive=True))
    )
    told = [
        it
        for line in section.splitlines()
        if line.startswith("**")
        for it in re.findall(r"`([^`]+)`", line.partition(".** ")[0])
    ]
    assert len(told) > 8
    assert not [it for it in told if not all(part in sources for part in re.split(r"\d+|\.\.", it) if len(part) > 4)]


@pytest.fixture(scope="module")
def hooked():
    """The page for the tests of browsers is made: the shipped one, with the hook behind it."""
    try:
        text = bundle.checked_text()
    except bundle.Bundle as fault:
        pytest.skip(str(fault))
    with open(PAGE, "w", encoding="utf-8", newline="\n") as file:
        file.write(text)
    return text


def test_the_page_that_is_looked_at_is_the_shipped_one_with_a_hook(hooked):
    scripts = [
        re.findall(r"<script>(.*?)</script>", it, flags=re.S)[0] for it in (text_of("page", "hithwelor.html"), hooked)
    ]
    begin, end = scripts[0].rpartition("})();\n")[:2]
    hook = scripts[1].removeprefix(begin)
    assert end and hook != scripts[1], "embed/build --pages makes page/hithwelor.html anew"
    assert hook.startswith("Object.assign(globalThis,{bench:{") and "{bench:" not in scripts[0]


def test_the_modules_of_the_page_by_node(any_node):
    tests = sorted(glob.glob(os.path.join(TOP, "page", "test", "*.test.js")))
    ran = subprocess.run(
        [any_node, "--test", *tests], cwd=TOP, stdout=subprocess.PIPE, stderr=subprocess.STDOUT, text=True
    )
    assert tests and ran.returncode == 0, ran.stdout[-2000:]


@pytest.mark.parametrize(
    "settings", sorted(glob.glob(os.path.join(TOP, "page", "tsconfig*.json"))), ids=os.path.basename
)
def test_the_types_of_the_page(settings, needs):
    needs("tsc")
    ran = subprocess.run(["tsc", "-p", settings], cwd=TOP, stdout=subprocess.PIPE, stderr=subprocess.STDOUT, text=True)
    assert ran.returncode == 0, ran.stdout[-2000:]


# ---- in a browser


def check_answers(page, program, count):
    for words, name in ANSWERS:
        data = text_of("examples", name) if name else ""
        given = page.wait(f"bench.answer({json.dumps(words)}, {json.dumps(data)}).then(it => [it.status, it.text])")
        right = list(program.answer(words, data))
        count.hold(
            given == right,
            f"the page answers {' '.join(words)} by {given[0]} {given[1][:80]!r}, and not by {right[0]} {right[1][:80]!r}",
        )


def check_stop(page, program, count):
    """An endless run is stopped, and the next answer comes."""
    endless = text_of("examples", "endless.txt")
    page.ask(f"window.endless = bench.answer(['step', '4611686018427387904'], {json.dumps(endless)}); 0")
    time.sleep(0.3)
    page.ask("document.getElementById('stop').click(); 0")
    count.hold(page.wait("endless.then(it => it.status)") == -1, "an endless run isn't stopped")
    given = page.wait("bench.answer(['check'], bench.current.run.table).then(it => it.text)")
    count.hold(
        given == program.text(["check"], page.ask("bench.current.run.table")), "after a stop nothing is answered"
    )


def check_server(page, program, count):
    """From a server on this machine, which is asked for nothing but the page."""
    seen = []

    class Handler(http.server.BaseHTTPRequestHandler):
        def do_GET(self):
            seen.append(self.path)
            data = text_of(PAGE).encode() if self.path == "/hithwelor.html" else b""
            self.send_response(200)
            self.send_header("Content-Type", "text/html; charset=utf-8")
            self.send_header("Access-Control-Allow-Origin", "*")
            self.send_header("Content-Length", str(len(data)))
            self.end_headers()
            self.wfile.write(data)

        def log_message(self, *_):
            pass

    server = http.server.ThreadingHTTPServer(("127.0.0.1", 0), Handler)
    threading.Thread(target=server.serve_forever, daemon=True).start()
    address = f"http://127.0.0.1:{server.server_address[1]}"
    page.call("Network.emulateNetworkConditions", offline=False, latency=0, downloadThroughput=-1, uploadThroughput=-1)
    page.visit(f"{address}/hithwelor.html#m=least")
    given = page.wait("bench.answer(['run', '=', 'auto'], bench.current.run.table).then(it => it.text)")
    count.hold(
        given == program.text(["run", "=", "auto"], page.ask("bench.current.run.table")),
        "from a server the page answers otherwise",
    )
    said = page.wait(TRIES % address)
    count.hold(set(said.values()) == {"refused"}, f"the page's policy lets out {said}")
    count.hold(seen == ["/hithwelor.html"], f"the page asks a server for {seen}")
    server.shutdown()
    server.server_close()


# What the first machine's run shows, and nothing is waited for; the shipped page has nothing else to be asked.
SHOWS = """document.getElementById('outcome').textContent !== '' && !document.getElementById('busy').textContent.includes('…')
  && document.querySelector('[role=slider][aria-valuetext]') !== null"""


def check_shipped(page, program, count):
    """The page as it is committed, by what a person sees: a run, a step by the keyboard, and no hook."""
    table = text_of("examples", "increment.csv")
    page.visit(f"file://{SHIPPED}#m=increment", SHOWS)
    halted, output = program.text(["machine", "=1011", "1000"], table).split("\n")[:2]
    said = page.ask("document.getElementById('outcome').textContent")
    wanted = f"{halted.split()[1]} steps → {output.removeprefix('output =')}"
    count.hold(said == wanted, f"the shipped page says {said!r}, and not {wanted!r}")
    page.strike("ArrowRight", 39)
    at = "document.getElementById('film').getAttribute('aria-valuetext')"
    comes(page, f"{at}.startsWith('compute, quadruple step 1 of ')")
    said = page.ask(at)
    count.hold(said == "compute, quadruple step 1 of 65", f"a step of the shipped page comes to {said!r}")
    count.hold(
        page.ask("typeof bench") == "undefined" and not page.faults(),
        f"the shipped page has a hook, or faults: {page.faults()}",
    )


def check_runs(page, program, draw, count):
    asked = []
    for fragment, more in MACHINES:
        check_machine(page, program, fragment, more, draw, count)
        asked += page.asked_for()
    check_windows(page, program, count)
    count.hold(not asked, f"the page asks for {', '.join(asked)}")


def check_rest(page, program, count):
    """Texts, workshop, exercises, answers, a stop, and a server."""
    for check in (check_texts, check_workshop, check_tasks, check_answers, check_stop, check_server):
        check(page, program, count)


def parts_of(program, asked, count):
    """What is looked at in Chromium, part by part: each is a call for a page."""
    return {
        "shipped": lambda page: check_shipped(page, program, count),
        "runs": lambda page: check_runs(page, program, random.Random(asked.seed), count),
        "long": lambda page: check_long(page, program, random.Random(asked.seed), count),
        "places": lambda page: check_places(page, program, random.Random(asked.seed), asked.places, count),
        "editor": lambda page: check_editor(page, program, asked.seed, count),
        "design": lambda page: check_design(page, program, asked.seed, count),
        "glance": lambda page: check_glance(page, program, count),
        "learn": lambda page: check_learn(page, asked.pictures, count),
        "pasted": lambda page: check_pasted(page, program, count),
        "reading": lambda page: check_reading(page, program, count),
        "access": lambda page: check_access(page, program, count),
        "layout": lambda page: check_layout(page, asked.pictures, count),
        "heard": lambda page: check_heard_all(page, program, count),
        "faults": lambda page: check_faults(page, program, count),
        "kept": lambda page: check_kept(page, count),
        "early": lambda page: check_early(page, program, count),
        "pictures": lambda page: check_pictures(page, count),
        "rest": lambda page: check_rest(page, program, count),
    }


class Asked:
    """What the options ask for."""

    def __init__(self, config):
        self.seed = SEED + config.getoption("--seed") - 1
        self.places = config.getoption("--places") or PLACES
        self.pictures = config.getoption("--pictures")


@pytest.fixture(scope="module")
def compared(program):
    """The program that the page is compared with."""
    kept = Program(program)
    yield kept
    if kept.kept:
        kept.kept.close()


@pytest.mark.slow
@pytest.mark.browser
@pytest.mark.engine
@pytest.mark.parametrize("part", parts_of(None, None, None))
def test_the_page_in_chromium(part, compared, hooked, pytestconfig, comparisons):
    path, count = browser_at_hand(), Count()
    if not path:
        pytest.skip("chromium isn't installed: tools/setup")
    with Shown(path) as page:
        page.call("Network.enable")
        page.call("Network.emulateNetworkConditions", offline=True, latency=0, downloadThroughput=0, uploadThroughput=0)
        page.call("Emulation.setDeviceMetricsOverride", width=1680, height=1050, deviceScaleFactor=1, mobile=False)
        parts_of(compared, Asked(pytestconfig), count)[part](page)
    comparisons(count.close(), count.lacking)


@pytest.mark.slow
@pytest.mark.browser
@pytest.mark.engine
def test_the_page_in_firefox(compared, hooked, pytestconfig, comparisons):
    asked, count = Asked(pytestconfig), Count()
    if not firefox_at_hand():
        pytest.skip("firefox-esr isn't installed: tools/setup")
    check_firefox(compared, check_answers, random.Random(asked.seed), FIREFOX_PLACES, asked.pictures, count)
    comparisons(count.close(), count.lacking)
