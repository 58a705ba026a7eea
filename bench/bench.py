#!/usr/bin/env python3
"""Times the program on circuits and tables that this script writes. It proves nothing and is no part of rt ci.

Usage: bench/bench.py [PROGRAM]
PROGRAM is the built program; without it the script takes crates/bn_main/out/bn_main, which
tools/prove leaves there.
"""
import os
import random
import subprocess
import sys
import tempfile

TOP = os.path.dirname(os.path.dirname(os.path.abspath(__file__)))
RING = 1048576
RING_IN_TWO = 4194304


def one_element():
    """An endless run of one element: its south output leads to its north input."""
    return b"rotary 1\nelements 1\nstart 0.e\nend 0.w\nsteps 0\nat 0.n\ne 0 V - - 0.n -\n"


def ring(order, version=1):
    """A ring of elements with upright bars, visited in this order by their north lines, as a text of this version."""
    count = len(order)
    target = [0] * count
    for place, element in enumerate(order):
        target[element] = order[(place + 1) % count]
    lines = [f"rotary {version}", f"elements {count}", "start 0.e", "end 0.w", "steps 0", f"at {order[0]}.n"]
    lines += [f"e {element} V - - {target[element]}.n -" for element in range(count)]
    return ("\n".join(lines) + "\n").encode()


def quadruples(state, symbols, following):
    """A table of 20,000 quadruples of which no two overlap, each with these fields by its number."""
    entries = []
    for number in range(20000):
        reads = symbols(number)
        acts = ["0" if read == "/" else read for read in reads]
        entries.append(",".join([state(number), *reads, *acts, following(number)]))
    return ("\n".join(entries) + "\n").encode()


def time_quadruples(program):
    """Both tests of 20,000 quadruples: all pairs are compared, on one tape or on all three."""
    tables = {
        "each of its own state": quadruples(lambda n: f"a{n}", lambda n: ["_", "/", "/"], lambda n: f"b{n}"),
        "of one state, apart on tape 1": quadruples(lambda n: "A", lambda n: [f"{n}", "/", "/"], lambda n: "B"),
        "of one state, apart on tape 3": quadruples(lambda n: "A", lambda n: ["_", "_", f"{n}"], lambda n: "B"),
        "of 100 states, apart on tape 3": quadruples(
            lambda n: f"A{n % 100}", lambda n: ["_", "_", f"{n}"], lambda n: f"B{n % 100}"
        ),
    }
    for name, table in tables.items():
        seconds, _, verdicts = timed(program, ["reversible"], table)
        assert verdicts == b"deterministic yes\nreversible yes\n"
        print(f"20,000 quadruples, {name}: {seconds:.2f} s for both tests")


def time_bank(program):
    """A machine of 65,536 moves with 1,024 states and 1,023 lines: its bank has 1,048,576 elements."""
    moves = [(n % 1024 + 1, n // 1024 + 1, 1024 - n % 1024, 64 - n // 1024) for n in range(65535)]
    moves.append((1024, 1023, 1024, 1023))
    table = "".join(f"{q},{i},{to},{out}\n" for q, i, to, out in moves).encode()
    seconds, memory, text = timed(program, ["realise", "1", "1"], table)
    assert text.startswith(f"rotary 2\nelements {RING}\n".encode())
    print(f"bank of {RING} elements, realise: {seconds:.2f} s, peak {memory / RING:.0f} bytes an element")


# Runs a program and tells its seconds, its seconds of the processor, its peak memory in kilobytes and its status. It is
# a small process of its own, since a child's peak begins with what its parent had in memory.
LAUNCH = """
import os, subprocess, sys, time
begin = time.perf_counter()
child = subprocess.Popen(sys.argv[1:])
_, status, usage = os.wait4(child.pid, 0)
seconds = time.perf_counter() - begin
told = seconds, usage.ru_utime + usage.ru_stime, usage.ru_maxrss, os.waitstatus_to_exitcode(status)
print(*told, file=sys.stderr)
"""


def launched(program, words, text, wanted=0):
    """Seconds, seconds of the processor, peak memory in bytes, and the output of one run with this status."""
    with tempfile.TemporaryFile() as source, tempfile.TemporaryFile() as sink:
        source.write(text)
        source.seek(0)
        ran = subprocess.run(
            [sys.executable, "-c", LAUNCH, program, *words],
            stdin=source,
            stdout=sink,
            stderr=subprocess.PIPE,
            check=True,
        )
        sink.seek(0)
        out = sink.read()
    seconds, processor, kilobytes, status = ran.stderr.split()
    if int(status) != wanted:
        sys.exit(f"{' '.join(words)}: status {int(status)}: {out[:80]!r}")
    return float(seconds), float(processor), int(kilobytes) * 1024, out


def timed(program, words, text):
    """Seconds, peak memory in bytes, and the output of one run."""
    seconds, _, memory, out = launched(program, words, text)
    return seconds, memory, out


def main():
    program = sys.argv[1] if len(sys.argv) > 1 else os.path.join(TOP, "crates/bn_main/out/bn_main")
    if not os.path.exists(program):
        sys.exit("build the program first: tools/prove")
    time_quadruples(program)
    time_bank(program)
    small = one_element()
    base, _, _ = timed(program, ["step", "0"], small)
    count = 400_000_000
    seconds, _, there = timed(program, ["step", str(count)], small)
    print(f"one element, step: {count / (seconds - base) / 1e6:.0f} million steps a second")
    seconds, _, back = timed(program, ["back", str(count)], there)
    print(f"one element, back: {count / (seconds - base) / 1e6:.0f} million steps a second")
    assert back == small
    shuffled = list(range(RING))
    random.Random(1973).shuffle(shuffled)
    for name, order, count in (("in order", list(range(RING)), 200_000_000), ("shuffled", shuffled, 20_000_000)):
        text = ring(order)
        seconds, memory, same = timed(program, ["step", "0"], text)
        assert same == text
        print(
            f"ring of {RING} {name}, step 0: {seconds:.2f} s for {len(text) / 1e6:.1f} MB,"
            f" {2 * len(text) / seconds / 1e6:.0f} MB a second read and written,"
            f" peak {memory / RING:.0f} bytes an element"
        )
        longer, _, there = timed(program, ["step", str(count)], text)
        print(f"ring of {RING} {name}, step: {count / (longer - seconds) / 1e6:.0f} million steps a second")
        # the first step back makes the way back
        seconds, _, _ = timed(program, ["back", "1"], there)
        longer, _, back = timed(program, ["back", str(count)], there)
        print(f"ring of {RING} {name}, back: {(count - 1) / (longer - seconds) / 1e6:.0f} million steps a second")
        assert back == text


if __name__ == "__main__":
    main()
