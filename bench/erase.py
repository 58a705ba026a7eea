#!/usr/bin/env python3
"""Times the steps of `erase =W n` on small and on large erasing machines. It proves nothing and is no part of rt ci.

Usage: bench/erase.py [PROGRAM]
PROGRAM is the built program, as for bench.py. Each machine is joined with itself and run on a word of 100,000 letters
for 1,000,000 quadruple steps, and the loop is the time of that run less that of a run of no steps. All times are of the
processor; five runs each, of which all loops are shown. The load of the machine is told first.
"""
import os
import string
import sys

sys.dont_write_bytecode = True
from bench import TOP, launched
from run import INSIDE, increments

RUNS = 5
STEPS = 1_000_000
LENGTH = 100_000
# The letters in turn of which words are made.
LETTERS = "12"


def round_trip(states):
    """A machine that goes over its word and comes back, each way in so many states in turn: on the way out it has come
    to one state where the word ends, and on the way back to another where it begins."""
    entries = ["S,_,_,+,A0"]
    for number in range(states):
        letter, back = LETTERS[number % 2], LETTERS[(LENGTH - 1 - number) % 2]
        after = (number + 1) % states
        entries += [f"A{number},{letter},{letter},+,A{after}", f"B{number},{back},{back},-,B{after}"]
    last = LENGTH % states
    entries += [f"A{last},_,_,0,C", "C,_,_,-,B0", f"B{last},_,_,0,F"]
    return ("\n".join(entries) + "\n").encode()


def one_state_a_way(letters):
    """A machine that goes over its word and comes back, each way in one state, which reads all these letters."""
    entries = ["S,_,_,+,A"] + [f"A,{letter},{letter},+,A" for letter in letters]
    entries += ["A,_,_,-,B"] + [f"B,{letter},{letter},-,B" for letter in letters] + ["B,_,_,0,F"]
    return ("\n".join(entries) + "\n").encode()


def seconds(program, text, word, steps):
    """Seconds of the processor of a run of so many steps, which isn't over then."""
    taken, _, out = launched(program, ["erase", "=" + word, str(steps)], text, INSIDE)[1:]
    assert out == f"running {steps}\n".encode()
    return taken


def time_machine(program, name, table, word):
    """The loops of the runs, and how many steps a second they make."""
    text = table + b"%\n" + table
    quadruples = len(launched(program, ["erase"], text)[3].splitlines())
    loops = sorted(seconds(program, text, word, STEPS) - seconds(program, text, word, 0) for _ in range(RUNS))
    print(
        f"{name}, {quadruples} quadruples: "
        + " ".join(f"{loop:.3f}" for loop in loops)
        + f" s, {STEPS / max(loops[0], 0.001) / 1e6:.1f} million steps a second"
    )


def main():
    program = sys.argv[1] if len(sys.argv) > 1 else os.path.join(TOP, "crates/bn_main/out/bn_main")
    print(f"load {os.getloadavg()[0]:.0f} on {os.cpu_count()} cores")
    time_machine(program, "increment", increments(1), "1" * LENGTH)
    word = LETTERS * (LENGTH // 2)
    for states in (2, 100, 1246):
        time_machine(program, f"round trip in {states} states each way", round_trip(states), word)
    many = string.ascii_letters + string.digits
    time_machine(
        program,
        f"round trip in one state each way over {len(many)} letters",
        one_state_a_way(many),
        (many * LENGTH)[:LENGTH],
    )


if __name__ == "__main__":
    main()
