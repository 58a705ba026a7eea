#!/usr/bin/env python3
"""Times the gate's proofs, crate by crate: it runs `rt ci` and looks at the checker's processes. It proves nothing itself.

Usage: bench/gate.py [CRATE..]           runs `rt ci` with these names behind it, at the top of the repository
       bench/gate.py --watch SECONDS     looks for so long at a gate that runs already
       bench/gate.py --record [CRATE..]  and adds a line a crate to bench/results/gate.csv

Every two seconds it notes how much time of the processor each process of the checker has taken, so what is told is a
little less than it was. At the end it prints a table in Markdown: a row a crate, with the lines of its code, its lines in
all (code, tests, definitions, proofs), its tests and must-fail edits, and the processor minutes of its proofs, of its
tests and of its edits. What was kept from an earlier run takes nothing and is told as a dash. Linux alone.
"""
import argparse
import csv
import os
import re
import subprocess
import sys
import time

sys.dont_write_bytecode = True
TOP = os.path.dirname(os.path.dirname(os.path.abspath(__file__)))
CRATES = os.path.join(TOP, "crates")
TICKS = os.sysconf("SC_CLK_TCK")
PAUSE = 2
KINDS = ("proofs", "tests", "edits")


def kind_of(words, folder):
    """What a process of the checker does."""
    if "rt-edit" in folder:
        return "edits"
    return "tests" if "--test" in words else "proofs"


def look(taken):
    """Notes the seconds of each process of the checker, by its number and the time of its start."""
    for number in filter(str.isdigit, os.listdir("/proc")):
        try:
            with open(f"/proc/{number}/cmdline", encoding="utf-8", errors="replace") as file:
                words = file.read().split("\0")
            if not words[0].endswith("/rattle") or "--crate-name" not in words:
                continue
            with open(f"/proc/{number}/stat", encoding="utf-8") as file:
                fields = file.read().rsplit(")", 1)[1].split()
            folder = os.readlink(f"/proc/{number}/cwd")
        except OSError:
            continue
        seconds = sum(map(int, fields[11:15])) / TICKS
        crate = words[words.index("--crate-name") + 1]
        taken[number, fields[19]] = (crate, kind_of(words, folder), seconds)


def lines_in(crate, names, ends):
    """The lines of a crate's files in these folders whose names end so, and the names of the files."""
    total = 0
    for name in names:
        for folder, _, files in os.walk(os.path.join(CRATES, crate, name)):
            for file in files:
                if file.endswith(ends):
                    with open(os.path.join(folder, file), encoding="utf-8") as text:
                        total += sum(1 for _ in text)
    return total


def tests_in(crate):
    """The number of a crate's tests."""
    total = 0
    for folder, _, files in os.walk(os.path.join(CRATES, crate, "src")):
        for file in files:
            with open(os.path.join(folder, file), encoding="utf-8") as text:
                total += len(re.findall(r"^#\[test\]$", text.read(), re.M))
    return total


def row(crate, minutes):
    """The row of a crate."""
    folder = os.path.join(CRATES, crate, "must-fail")
    edits = len(os.listdir(folder)) if os.path.isdir(folder) else 0
    shown = [f"{minutes[kind]:.1f}" if kind in minutes else "-" for kind in KINDS]
    code, rest = lines_in(crate, ["src"], ".rt"), lines_in(crate, ["specs", "proofs"], ".antt")
    return (
        f"| `{crate}` | {code:,} | {code + rest:,} | {tests_in(crate)} | {edits} | "
        + " | ".join(shown)
        + f" | {sum(minutes.values()):.1f} |"
    )


def table(taken):
    """The lines of the table, in the order of the crates."""
    with open(os.path.join(TOP, "crates.txt"), encoding="utf-8") as file:
        minutes = {crate: {} for crate in re.findall(r"^(\w+)(?: \w+)?:", file.read(), re.M)}
    for crate, kind, seconds in taken.values():
        if crate in minutes:
            minutes[crate][kind] = minutes[crate].get(kind, 0) + seconds / 60
    lines = [
        "| Crate | Lines of code | Lines in all | Tests | Edits | Proofs | Tests proved | Edits tried | Minutes |",
        "|---|---|---|---|---|---|---|---|---|",
    ]
    lines += [row(crate, minutes[crate]) for crate in minutes]
    total = sum(sum(each.values()) for each in minutes.values())
    return lines + ["", f"{total:.0f} processor minutes in all."]


def record(lines):
    """Adds the rows of the table to the data: a line a crate on which time was spent."""
    from results import FOLDER, commit, machine

    where = [time.strftime("%Y-%m-%d"), commit(), machine(), f"{os.getloadavg()[0]:.0f}"]
    with open(os.path.join(FOLDER, "gate.csv"), "a", encoding="utf-8", newline="") as file:
        out = csv.writer(file, lineterminator="\n")
        for line in lines[2:]:
            cells = [it.strip(" `").replace(",", "") for it in line.split("|")[1:-1]]
            if cells and cells[-1] != "0.0":
                out.writerow([*where, *("" if it == "-" else it for it in cells)])


def main():
    parser = argparse.ArgumentParser(description=__doc__, formatter_class=argparse.RawDescriptionHelpFormatter)
    parser.add_argument("crates", nargs="*")
    parser.add_argument("--watch", type=float)
    parser.add_argument("--record", action="store_true")
    words = parser.parse_args()
    taken, began = {}, time.monotonic()
    gate = None if words.watch else subprocess.Popen(["rt", "ci", *words.crates], cwd=TOP, stdout=sys.stderr)
    while gate.poll() is None if gate else time.monotonic() - began < words.watch:
        look(taken)
        time.sleep(PAUSE)
    lines = table(taken)
    print("\n".join(lines))
    if words.record:
        record(lines)
    print(f"{(time.monotonic() - began) / 60:.1f} minutes by the clock.")
    return gate.returncode if gate else 0


if __name__ == "__main__":
    sys.exit(main())
