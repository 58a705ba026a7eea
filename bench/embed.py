#!/usr/bin/env python3
"""Times the program, the shared library, the module under node and, where a Chromium is installed, the page, on the same
words and inputs: seconds of the processor, the best of five; of the page seconds of the clock in its worker. It proves
nothing and is no part of the gate.

    bench/embed.py     by the proved program, embed/out/libhithwelor.so and bin/hithwelor
"""
import json
import os
import shutil
import subprocess
import sys
import time

sys.dont_write_bytecode = True
TOP = os.path.dirname(os.path.dirname(os.path.abspath(__file__)))
sys.path[:0] = [os.path.join(TOP, part) for part in ("tests", "python", "tools/lib")]
from browser import Browser, browser_at_hand
from hithwelor import answers
from places import told_program

TIMES = 5
CASES = [
    ["run", "=1011", "0", "5", "11", "5"],
    ["generate", "4"],
    ["run", "=1011", "0", "5", "6140", "5"],
    ["compile", "=1011", "0", "5", "6140", "5"],
]
NODE = """const bench = require(process.argv[1]).workbench(), [words, input] = JSON.parse(require("fs").readFileSync(0));
const ask = () => bench.answer(Buffer.from(words.join("\\0")), Buffer.from(input)), before = process.cpuUsage();
ask();
const {user, system} = process.cpuUsage(before);
console.log((user + system) / 1e6);"""


def best(once):
    return min(once() for _ in range(TIMES))


def by_program(program, words, data):
    def once():
        before = os.times()
        subprocess.run([program, *words], input=data, stdout=subprocess.DEVNULL)
        after = os.times()
        return after.children_user + after.children_system - before.children_user - before.children_system

    return best(once)


def by_library(library, words, data):
    listed = "\0".join(words).encode()

    def once():
        before = time.process_time()
        library.answer(listed, data)
        return time.process_time() - before

    return best(once)


def by_node(node, words, data):
    def once():
        ran = subprocess.run(
            [node, "-e", NODE, answers.COMMAND],
            input=json.dumps([words, data.decode()]),
            stdout=subprocess.PIPE,
            text=True,
        )
        return float(ran.stdout)

    return best(once)


class Page(Browser):
    PATIENCE = 120

    def seconds(self, words, data):
        """The best seconds of the clock that an answer takes in the page's worker."""

        def once():
            expression = (
                f"bench.answer({json.dumps(words)}, {json.dumps(data.decode())}).then(() => bench.log.at(-1).program)"
            )
            it = self.call("Runtime.evaluate", expression=expression, returnByValue=True, awaitPromise=True)
            return it["result"]["value"] / 1000

        return best(once)


def main():
    program, path, node, browser = told_program(), answers.library_path(), shutil.which("node"), browser_at_hand()
    with open(os.path.join(TOP, "examples", "increment.csv"), "rb") as file:
        increment = file.read()
    page = Page(browser).__enter__() if browser else None
    if page:
        began = time.perf_counter()
        page.open(os.path.join(TOP, "page", "hithwelor.html"))
        while not page.ask("typeof bench === 'object' && Boolean(bench.current.run)"):
            time.sleep(0.02)
        print(f"the page's first picture after {time.perf_counter() - began:.2f} s")
    for words in CASES:
        data = b"" if words[0] == "generate" else increment
        told = [
            f"program {by_program(program, words, data):.3f}" if program else "program -",
            f"library {by_library(answers.Library(path), words, data):.3f}" if path else "library -",
            f"node {by_node(node, words, data):.3f}" if node else "node -",
            f"page {page.seconds(words, data):.3f}" if page else "page -",
        ]
        print(f"{' '.join(words)}: {', '.join(told)}", flush=True)
    if page:
        page.__exit__()


if __name__ == "__main__":
    main()
