#!/usr/bin/env python3
"""Times `compile` and `run` beside a bare run of the same circuit by `step`, and a run whose window the program finds
beside one in that window. It proves nothing and is no part of rt ci.

Usage: bench/run.py [PROGRAM]
PROGRAM is the built program, as for bench.py. The machine increments a binary number k times, one time after another, on
the word 1011 with a history just as long as it needs. The loop of `run` is the time of a whole run less that of a run of
no steps; that of `step`, on the compiled text, likewise. All times are of the processor, the best of three.
"""
import os
import sys

sys.dont_write_bytecode = True
from bench import TOP, launched

# The exit statuses where the signal has left by a window, and where it is still inside.
WINDOW, INSIDE = 11, 12
# Which of the window's numbers l1 r1 n r3 is doubled for an exit.
ENDS = {"1 left": 0, "1 right": 1, "2 right": 2, "3 right": 3}


def increments(rounds):
    """The table of quintuples of a machine that goes over its word, adds one and comes back, so many times."""
    entries = ["S,_,_,+,R1"]
    for number in range(1, rounds + 1):
        right, carry, left = f"R{number}", f"P{number}", f"L{number}"
        after = f"+,R{number + 1}" if number < rounds else "0,F"
        entries += [
            f"{right},0,0,+,{right}",
            f"{right},1,1,+,{right}",
            f"{right},_,_,-,{carry}",
            f"{carry},1,0,-,{carry}",
            f"{carry},0,1,-,{left}",
            f"{carry},_,1,-,{left}",
            f"{left},0,0,-,{left}",
            f"{left},1,1,-,{left}",
            f"{left},_,_,{after}",
        ]
    return ("\n".join(entries) + "\n").encode()


def best(program, words, text, wanted=0):
    """Seconds of the processor, peak memory in bytes, and the output of the quickest of three runs with this status."""
    return min((launched(program, words, text, wanted)[1:] for _ in range(3)), key=lambda found: found[0])


def number_behind(word, out):
    """The number behind a word at the beginning of a line of the answer."""
    return next(int(line.split()[-1]) for line in out.decode().splitlines() if line.startswith(word + " "))


def time_increments(program, rounds):
    """A whole run, its loop, and the loop of `step` on the compiled text up to the same exit."""
    table, words = increments(rounds), ["=1011", "0", "5", str(10 * rounds + 1), "5"]
    whole, memory, out = best(program, ["run", *words], table)
    elements, steps = number_behind("elements", out), number_behind("steps", out)
    opened, _, _ = best(program, ["run", *words, "0"], table, INSIDE)
    _, _, compiled = best(program, ["compile", *words], table)
    stepped, _, last = best(program, ["step", str(steps)], compiled)
    read, _, _ = best(program, ["step", "0"], compiled)
    assert f"\nsteps {steps}\n" in last[:200].decode() and b"\nexit end\n" in out
    loop, bare = whole - opened, stepped - read
    print(
        f"increments, k = {rounds}: {elements} elements, {steps} steps, run {whole:.2f} s,"
        f" peak {memory / elements:.0f} bytes an element"
    )
    if bare > 0.05:
        print(
            f"  loop of run: {steps / loop / 1e6:.0f} million steps a second; step: {steps / bare / 1e6:.0f};"
            f" run makes {bare / loop:.2f} of its speed"
        )


def windows_before(program, word, table, found):
    """The windows that are tried before the one that is found, with the steps of their runs."""
    window, tried = [1, max(1, len(word)), 1, 1], []
    while window != found:
        _, _, out = best(program, ["run", f"={word}", *map(str, window)], table, WINDOW)
        tried.append((list(window), number_behind("steps", out)))
        exit_line = next(line for line in out.decode().splitlines() if line.startswith("exit window "))
        window[ENDS[exit_line.removeprefix("exit window ")]] *= 2
    return tried


def time_found(program, word):
    """A run whose window the program finds beside one in that window: what the rounds before the last one cost."""
    table = increments(1)
    searched, _, out = best(program, ["run", f"={word}", "auto"], table)
    found = [int(number) for number in out.decode().splitlines()[0].split()[1:]]
    given, _, last = best(program, ["run", f"={word}", *map(str, found)], table)
    tried = windows_before(program, word, table, found)
    steps, before = number_behind("steps", last), sum(made for _, made in tried)
    print(
        f"run ={word} auto: {1000 * searched:.1f} ms, in the window {' '.join(map(str, found))} that it finds"
        f" {1000 * given:.1f} ms; {len(tried)} rounds before the last one make {before} steps beside its {steps},"
        f" which is {before / (before + steps):.0%} of all"
    )


def time_widest(program):
    """One increment in the widest window that a circuit of 1,048,576 elements has."""
    table, words = increments(1), ["=1011", "0", "5", "1527", "5"]
    for command in ("compile", "run"):
        seconds, memory, _ = best(program, [command, *words], table)
        print(
            f"{command} {' '.join(words)}, 1048048 elements: {seconds:.2f} s,"
            f" peak {memory / 1048048:.0f} bytes an element"
        )


def main():
    program = sys.argv[1] if len(sys.argv) > 1 else os.path.join(TOP, "crates/bn_main/out/bn_main")
    if not os.path.exists(program):
        sys.exit("build the program first: tools/prove")
    time_widest(program)
    for word in ("1011", "1" * 20, "1" * 200):
        time_found(program, word)
    for rounds in range(1, 5):
        time_increments(program, rounds)


if __name__ == "__main__":
    main()
