#!/usr/bin/env python3
"""The results of the benchmarks: data files in bench/results, which this script writes, and what is made of them.

    bench/results.py measure NAME [--program COMMAND]   measures, and puts what came out at the end of the file of NAME:
                                                        steps, boards or machines
    bench/results.py record NAME                        puts lines of standard input there: what, value, unit and,
                                                        where there is an aim, what is wanted, with tabs between
    bench/results.py table NAME                         the latest value of everything there, as a table of Markdown
    bench/results.py plot                               the history of the steps a second, as a picture (SVG)

A line of a file has the date, the commit, the machine, its load (how many processes wanted a core beside this one),
what was measured, the value, its unit, and what is wanted. The other scripts of bench/ print their numbers;
`record` takes them. `tools/build/pages --write` puts the tables and the picture into the documents."""
import argparse
import csv
import datetime
import os
import re
import subprocess
import sys
import tempfile

sys.dont_write_bytecode = True
sys.path.insert(0, os.path.dirname(os.path.abspath(__file__)))
sys.path.insert(0, os.path.join(os.path.dirname(os.path.dirname(os.path.abspath(__file__))), "tools", "lib"))
from benchmarks import FIELDS, FOLDER, plot, table
from measuring import TOP, add_program, board_words, program_of, run_once, write, write_ring
from run import increments

MILLION = 10**6
RING = 1 << 20
STEPS = 200 * MILLION
BEST_OF = 3
# So many steps of a machine may be asked for, and the status of a run that goes on behind those that were.
MOST, RUNS_ON = 1 << 20, 12


# ---- what is measured


def machine():
    """What is said of the machine."""
    with open("/proc/cpuinfo", encoding="utf-8") as file:
        model = re.search(r"model name\s*: (.*)", file.read())
    name = re.sub(r"\(R\)|CPU |Processor |@", "", model[1]) if model else "unknown"
    return f"{' '.join(name.split())}, {os.cpu_count()} cores"


def commit():
    """The commit on which it was measured, with a + where something was changed."""
    git = ["git", "-C", TOP]
    found = subprocess.run([*git, "rev-parse", "--short", "HEAD"], capture_output=True, text=True).stdout.strip()
    changed = subprocess.run([*git, "status", "--porcelain", "-uno"], capture_output=True, text=True).stdout
    return found + ("+" if changed else "")


def add(name, results):
    """Puts results at the end of a file: (what, value, unit, wanted) each."""
    path = os.path.join(FOLDER, f"{name}.csv")
    is_new, where = not os.path.exists(path), [
        str(datetime.date.today()),
        commit(),
        machine(),
        f"{os.getloadavg()[0]:.0f}",
    ]
    with open(path, "a", encoding="utf-8", newline="") as file:
        out = csv.writer(file, lineterminator="\n")
        if is_new:
            out.writerow(FIELDS)
        for result in results:
            out.writerow([*where, *result])


def best(command, source):
    """The seconds of the processor of the best run."""
    return min(run_once(command, source).processor for _ in range(BEST_OF))


def steps(program, folder):
    """Steps a second, forward and back: what a run of many takes more than one of none."""
    for name, count, is_shuffled, aim in (
        ("one element", 1, False, 100),
        ("ring of 1,048,576 in order", RING, False, 50),
        ("ring of 1,048,576 shuffled", RING, True, 5),
    ):
        made = STEPS // (20 if is_shuffled else 1)
        path = write_ring(os.path.join(folder, "text"), count, is_shuffled, 1)
        far = os.path.join(folder, "far")
        run_once([*program, "step", str(made)], path, far)
        for word, source in (("step", path), ("back", far)):
            seconds = best([*program, word, str(made)], source) - best([*program, word, "0"], source)
            yield f"{name}, `{word}`", f"{made / MILLION / max(seconds, 1e-6):.1f}", "million steps/s", aim if word == "step" else ""


def boards(program, folder):
    """Seconds for boards that are made, and run."""
    table_of = write(os.path.join(folder, "increment"), increments(1))
    for what, words, aim in (
        ("`compile =1011 0 5 6140 5`, 4,194,114 elements", ["compile", *board_words(4 * RING)], 0.7),
        ("`run =1011 0 5 11 5`, 2,507,884 steps", ["run", "=1011", "0", "5", "11", "5"], 0.008),
        ("`generate 4`, 301,770 elements, 99,257,312 steps", ["generate", "4"], 0.25),
    ):
        yield what, f"{best([*program, *words], table_of):.4f}", "s", aim


def machines(program, folder):
    """Steps a second of machines without a circuit: what a run of a million takes more than one of one step."""
    both = write(os.path.join(folder, "both"), increments(1) + b"%\n" + increments(1))
    word = "=" + "1" * 100000
    for what, command, source in (
        ("`machine`, 100,000 ones", "machine", write(os.path.join(folder, "four"), increments(4))),
        ("`erase` run, 98 quadruples", "erase", both),
    ):
        seconds = [
            min(
                run_once([*program, command, word, str(made)], source, wanted=RUNS_ON).processor for _ in range(BEST_OF)
            )
            for made in (MOST // 2, 1)
        ]
        yield what, f"{MOST / 2 / MILLION / max(seconds[0] - seconds[1], 1e-6):.3g}", "million steps/s", 5


MEASURES = {"steps": steps, "boards": boards, "machines": machines}


def recorded(lines):
    """The results in lines with tabs between their fields."""
    for line in lines:
        what, value, unit, *aim = line.rstrip("\n").split("\t")
        yield what, f"{float(value):g}", unit, aim[0] if aim else ""


def main():
    parser = argparse.ArgumentParser(description=__doc__, formatter_class=argparse.RawDescriptionHelpFormatter)
    parser.add_argument("act", choices=["measure", "record", "table", "plot"])
    parser.add_argument("name", nargs="?", default="steps")
    add_program(parser)
    options = parser.parse_args()
    if options.act == "plot":
        print(plot(), end="")
    elif options.act == "table":
        print(table(options.name), end="")
    elif options.act == "record":
        add(options.name, list(recorded(sys.stdin)))
    else:
        with tempfile.TemporaryDirectory() as folder:
            add(options.name, list(MEASURES[options.name](program_of(options), folder)))


if __name__ == "__main__":
    main()
