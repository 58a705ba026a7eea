"""What the checks of the page share: the program that they compare with, and a browser with the page."""
import os
import shutil
import subprocess
import sys
import time

from counting import TOP

sys.path[:0] = [os.path.join(TOP, "tools", "lib"), os.path.join(TOP, "python")]
from browser import Browser
from hithwelor.answers import Node

COMMAND = os.path.join(TOP, "bin", "hithwelor")

# The page as it is committed, and the same with a hook behind it, which test_page.py makes and most of it looks at.
SHIPPED = os.path.join(TOP, "page", "hithwelor.html")
PAGE = os.path.join(TOP, "embed", "out", "checked.html")
# How long anything is waited for. It is no measure: what comes at once on an idle machine comes after a minute on one that
# is half as fast and proves on all its cores, and then it has come.
PATIENCE = 180
# A run is shown, and nothing is waited for.
RUNS = "typeof bench === 'object' && Boolean(bench.current.run) && !document.getElementById('busy').textContent.includes('…')"

# The typing has rested, what was asked is answered, and nothing is done in turn any more.
SETTLED = """(async () => {
  const rest = ms => new Promise(done => setTimeout(done, ms));
  await rest(%d);
  for (let calm = 0; calm < 3;) {
    await rest(25);
    calm = document.getElementById("busy").textContent.includes("…") ? 0 : calm + 1;
  }
  await bench.inTurn(() => {});
})()"""
# A fixed piece of the work that the page does, some times: a picture of a thousand boxes is written, laid out and taken
# away.
WORK = """(async () => {
  const found = [];
  for (let k = 0; k < 10; k++) {
    await new Promise(done => setTimeout(done, 10));
    const began = performance.now(), box = document.createElement("div");
    let body = "";
    for (let it = 0; it < 1000; it++) body += `<rect x="${it % 40 * 9}" y="${it / 40 * 7}" width="8" height="6"/>`;
    box.style.cssText = "position:fixed;left:-900px;top:0";
    box.innerHTML = `<svg class="pic" width="400" height="300">${body}</svg>`;
    document.body.append(box);
    box.getBoundingClientRect();
    box.remove();
    found.push(performance.now() - began);
  }
  return found;
})()"""
# How many milliseconds a piece takes where nothing else runs, and how often something is measured.
PIECE, TRIES = 8, 5


class Program:
    """The proved program; or the command of node, of which one process is kept for all answers."""

    def __init__(self, path):
        self.path = path
        self.kept = Node(shutil.which("node"), path) if path == COMMAND and shutil.which("node") else None

    def answer(self, words, data):
        if self.kept:
            status, text = self.kept.answer("\0".join(words).encode(), data.encode())
            return status, text.decode()
        ran = subprocess.run([self.path, *words], input=data.encode(), stdout=subprocess.PIPE, check=False)
        return ran.returncode, ran.stdout.decode()

    def text(self, words, data):
        return self.answer(words, data)[1]


class Shown(Browser):
    """A browser with the page."""

    PATIENCE = PATIENCE

    def visit(self, address, ready=RUNS):
        """Opens an address, and waits for the run that it shows, or for something else."""
        for it in ("about:blank", address):
            self.events.clear()
            self.call("Page.navigate", url=it)
            while not any(event["method"] == "Page.loadEventFired" for event in self.events):
                self.events.append(self.message())
        until = time.monotonic() + PATIENCE
        while not self.ask(ready):
            if time.monotonic() > until:
                raise OSError(
                    f"{address[:80]}: no run is shown; the page says " f"{self.ask('document.body.innerText')[:200]!r}"
                )
            time.sleep(0.05)

    def wait(self, expression):
        """The value of an expression that is waited for."""
        it = self.call("Runtime.evaluate", expression=expression, returnByValue=True, awaitPromise=True)
        if "exceptionDetails" in it:
            raise OSError(it["exceptionDetails"].get("exception", {}).get("description", "a fault of the script"))
        return it["result"].get("value")

    def strike(self, key, number, text="", shift=False):
        """A key of the keyboard, by its name and its number."""
        for kind in ("keyDown" if text else "rawKeyDown", "keyUp"):
            self.call(
                "Input.dispatchKeyEvent",
                type=kind,
                key=key,
                code=key,
                windowsVirtualKeyCode=number,
                modifiers=8 if shift else 0,
                **({"text": text} if text and kind == "keyDown" else {}),
            )

    def asked_for(self):
        """The addresses outside the file that were asked for."""
        found = [
            it["params"]["request"]["url"] for it in self.events if it.get("method") == "Network.requestWillBeSent"
        ]
        return [it for it in found if not it.startswith(("file:", "data:", "blob:", "about:"))]


def soon(holds, patience=PATIENCE):
    """Whether something comes to hold."""
    until = time.monotonic() + patience
    while not holds():
        if time.monotonic() > until:
            return False
        time.sleep(0.05)
    return True


def comes(page, expression, patience=PATIENCE):
    """Whether an expression comes to hold in the page."""
    return soon(lambda: page.ask(expression), patience)


def settle(page, delay=60):
    page.wait(SETTLED % delay)


def reload(page, ready=RUNS):
    """Opens the page's address anew; whether it comes to be ready. What is asked in between has no page to answer."""
    page.ask("(window.isOld = true, 0)")
    page.call("Page.reload")

    def is_ready():
        try:
            return page.ask(f"window.isOld === undefined && ({ready})")
        except OSError:
            return False

    return soon(is_ready)


# ---- time


def slowness(page):
    """How many times as long a piece of work takes in this browser now as where nothing else runs: the longest of some."""
    return max(1, max(page.wait(WORK)) / PIECE)


def holds_time(page, count, what, wanted, measure, factor=3):
    """Holds that something takes at most so many times the milliseconds that are wanted of it on an idle machine.

    A clock measures the machine as well as the page: one that is half as fast, with proofs on all its cores, takes ten
    times as long, and a burst of other work longer still. So the limit grows with a piece of work that is timed in the same
    browser before and behind, and the least of a few fresh tries counts. `measure` makes one, and gives milliseconds and a
    word on where.
    """
    tries = []
    for _ in range(TRIES):
        before = slowness(page)
        took, where = measure()
        slow = max(before, slowness(page))
        tries.append((took / slow, f"{took:.0f} ms{where and f' ({where})'} on a machine {slow:.1f} times as slow"))
        if took <= factor * wanted * slow:
            break
    least, words = min(tries)
    print(f"{what}: {words}", flush=True)
    count.hold(least <= factor * wanted, f"{what}: at best {words}, wanted are {wanted} ms on an idle one")
