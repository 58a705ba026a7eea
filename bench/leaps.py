#!/usr/bin/env python3
"""Measures runs that leap over banks beside those that walk every element, on longer and longer runs of one machine. It
proves nothing and is no part of rt ci.

    bench/leaps.py > bench/leaps.csv             by the proved program, crates/bn_main/out/bn_main
    bench/leaps.py --program PATH --most 1000000000
                                                 by another one, and `step` for runs of at most so many element steps

The machine is bench/palindrome.csv, the word a palindrome of so many letters, the window the one that `run auto` finds. Each
length has a line: the letters, the machine's own steps, the board's elements and the element steps to its exit; the seconds of
making the board (`view` with no step); those of `run`, of `view` at the exit, and of `step` on the board's text, each without
those of making or reading it (`step 0`). Seconds are of the processor, the best of --runs. Lines with # tell what it was
measured beside.
"""
import argparse
import csv
import os
import re
import subprocess
import sys
import tempfile

sys.dont_write_bytecode = True
import measuring

TABLE = os.path.join(measuring.BENCH, "palindrome.csv")
LENGTHS = [2, 4, 6, 8, 10, 12, 14, 18, 24, 32, 48, 64, 96, 128]
HEADS = ["letters", "machine steps", "elements", "element steps", "making", "run", "view", "step"]
# The last lines of a run: 4i + 4L + 5 quadruple steps, of i steps of the machine and an output of L letters.
BESIDE = 9
# The status of a circuit that is too large.
TOO_LARGE = 6


def options_of():
    parser = argparse.ArgumentParser(description=__doc__, formatter_class=argparse.RawDescriptionHelpFormatter)
    measuring.add_program(parser)
    parser.add_argument("--runs", type=int, default=3, metavar="N", help="how often each is run (3)")
    parser.add_argument(
        "--most", type=int, default=2_000_000_000, metavar="N", help="the most element steps one by one"
    )
    parser.add_argument("--letters", type=int, default=LENGTHS[-1], metavar="N", help="the longest word")
    return parser.parse_args()


def palindrome(letters):
    half = ("abaababbb" * letters)[: letters // 2]
    return half + half[::-1]


def best(command, source, runs):
    """Seconds of the processor of the quickest run."""
    return min(measuring.run_once(command, source).processor for _ in range(runs))


def row_of(program, letters, options, folder):
    """What one length comes to; None where its circuit would have too many elements."""
    word = f"={palindrome(letters)}"
    with open(TABLE, "rb") as table:
        ran = subprocess.run([*program, "run", word, "auto"], stdin=table, stdout=subprocess.PIPE, text=True)
    if ran.returncode == TOO_LARGE:
        return None
    said = ran.stdout
    window = re.search(r"^window (.*)$", said, flags=re.M)[1].split()
    elements, steps, quadruple = (
        int(re.search(rf"^{name} (\d+)$", said, flags=re.M)[1]) for name in ("elements", "steps", "quadruple steps")
    )
    words = [word, *window]
    making = best([*program, "view", *words, "0"], TABLE, options.runs)
    run = best([*program, "run", *words], TABLE, options.runs) - making
    view = best([*program, "view", *words, str(steps)], TABLE, options.runs) - making
    walked = ""
    if steps <= options.most:
        board = os.path.join(folder, "board")
        measuring.run_once([*program, "compile", *words], TABLE, board)
        read = best([*program, "step", "0"], board, options.runs)
        walked = f"{best([*program, 'step', str(steps)], board, 1) - read:.3f}"
    return [letters, (quadruple - BESIDE) // 4, elements, steps, f"{making:.3f}", f"{run:.3f}", f"{view:.3f}", walked]


def main():
    options = options_of()
    program, load = measuring.program_of(options), os.getloadavg()[0]
    table = csv.writer(sys.stdout, lineterminator="\n")
    table.writerow(HEADS)
    with tempfile.TemporaryDirectory() as folder:
        for letters in LENGTHS:
            row = row_of(program, letters, options, folder) if letters <= options.letters else None
            if row is None:
                break
            table.writerow(row)
            sys.stdout.flush()
    print(f"# {measuring.circumstances(load)}, the best of {options.runs}, of step one run")


if __name__ == "__main__":
    sys.exit(main())
