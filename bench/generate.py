#!/usr/bin/env python3
"""Runs `generate` for each number of increments, compares what it answers, and times it. It is no part of rt ci.

Usage: bench/generate.py [PROGRAM] [--csv]
PROGRAM is the built program, as for bench.py. Each number is run five times; all times are shown, in seconds of the
processor, and the best is the last column. With --csv the lines are `k,machine steps,element steps,seconds`, for
tools/plot. The exit status is 1 where an answer isn't the expected one.
"""
import os
import resource
import subprocess
import sys

TOP = os.path.dirname(os.path.dirname(os.path.abspath(__file__)))
PROGRAM = os.path.join(TOP, "crates", "bn_main", "out", "bn_main")
RUNS = 5

# For each number of increments: the elements of the board, its element steps, and the output.
EXPECTED = {
    1: (14136, 2507884, "1100"),
    2: (55078, 12637184, "1101"),
    3: (144476, 40283462, "1110"),
    4: (301770, 99257312, "1111"),
}


def expected_lines(k):
    """The lines of the answer that are compared."""
    elements, steps, output = EXPECTED[k]
    return [
        f"increments {k}",
        f"elements {elements}",
        "exit end",
        f"steps {steps}",
        f"quadruple steps {40 * k + 25}",
        f"output ={output}",
    ]


def timed(program, k):
    """The answer of one run, and its seconds of the processor."""
    before = resource.getrusage(resource.RUSAGE_CHILDREN)
    done = subprocess.run([program, "generate", str(k)], stdin=subprocess.DEVNULL, capture_output=True, check=False)
    after = resource.getrusage(resource.RUSAGE_CHILDREN)
    seconds = after.ru_utime + after.ru_stime - before.ru_utime - before.ru_stime
    return done.stdout.decode().splitlines(), seconds


def main():
    words = [word for word in sys.argv[1:] if word != "--csv"]
    program = words[0] if words else PROGRAM
    as_csv = "--csv" in sys.argv
    is_right = True
    for k in EXPECTED:
        seconds = []
        for _ in range(RUNS):
            lines, taken = timed(program, k)
            seconds.append(taken)
            if [line for line in lines if not line.startswith("tape ")] != expected_lines(k):
                print(f"generate {k}: another answer", file=sys.stderr)
                is_right = False
        if as_csv:
            print(f"{k},{10 * k + 1},{EXPECTED[k][1]},{min(seconds):.3f}")
        else:
            print(f"generate {k}: " + " ".join(f"{taken:.3f}" for taken in seconds) + f", best {min(seconds):.3f} s")
    return 0 if is_right else 1


if __name__ == "__main__":
    sys.exit(main())
