#!/usr/bin/env python3
"""Measures what reading and writing a configuration text takes. It proves nothing and is no part of rt ci.

Usage: bench/texts.py [PROGRAM]
PROGRAM is the built program, as for bench.py. `step 0` reads a text and writes it again: a ring of 1,048,576 elements in
version 1, and in version 2 a ring of 4,194,304 and the board of the widest window. Seconds are of the processor, the best
of three; memory is the peak of the whole process, by element.
"""
import os
import random
import sys

sys.dont_write_bytecode = True
from bench import RING, RING_IN_TWO, TOP, ring
from run import best, increments

# The widest window of one increment: 4,194,114 elements.
WIDEST = ["=1011", "0", "5", "6140", "5"]


def shuffled(count):
    """The numbers below this one in an order that is the same each time."""
    order = list(range(count))
    random.Random(1973).shuffle(order)
    return order


def measure(program, words, text, name):
    """Prints seconds and memory of one command, and gives its answer."""
    seconds, memory, out = best(program, words, text)
    elements = int((out if out.startswith(b"rotary") else text).split(b"\n", 2)[1].split()[1])
    print(f"{name}: {elements} elements, {seconds:.2f} s, peak {memory / elements:.1f} bytes an element", flush=True)
    return out


def main():
    program = sys.argv[1] if len(sys.argv) > 1 else os.path.join(TOP, "crates/bn_main/out/bn_main")
    if not os.path.exists(program):
        sys.exit("build the program first: tools/prove")
    for name, order, version in (
        ("ring in order, version 1", list(range(RING)), 1),
        ("ring shuffled, version 1", shuffled(RING), 1),
        ("ring in order, version 2", list(range(RING_IN_TWO)), 2),
        ("ring shuffled, version 2", shuffled(RING_IN_TWO), 2),
    ):
        text = ring(order, version)
        assert measure(program, ["step", "0"], text, f"step 0, {name}") == text
    measure(program, ["migrate"], ring(shuffled(RING), 1), "migrate, ring shuffled, version 1")
    board = measure(program, ["compile", *WIDEST], increments(1), "compile, widest window")
    assert measure(program, ["step", "0"], board, "step 0, that board") == board


if __name__ == "__main__":
    main()
