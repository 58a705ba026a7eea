#!/usr/bin/env python3
"""Times the program's steps beside a C loop over the same arrays. It proves nothing and is no part of rt ci.

Usage: bench/packed.py [PROGRAM]
PROGRAM is the built program, as for bench.py. The C loop is written, compiled by `gcc -O2` and run here: one bit a bar,
and one 32-bit number an output line and an input line, with branches on bar and line and no table of moves. Each pair of
figures is measured side by side, three times over, in seconds of the processor, and the best of each is shown: other
work on the machine slows both.
"""
import os
import random
import subprocess
import sys
import tempfile

sys.dont_write_bytecode = True
from bench import RING, TOP, launched, one_element, ring

C_LOOP = r"""
#include <stdint.h>
#include <stdio.h>
#include <stdlib.h>
#include <time.h>

#define LOOSE 0xffffffffu

/* The lines of an element: north 0, east 1, south 2, west 3. A line's number is 4 times its element's, and its own. */

static uint64_t forward(const uint32_t *targets, uint64_t *bars, uint32_t *place, uint64_t count) {
    uint32_t at = *place;
    for (uint64_t made = 0; made < count; made++) {
        uint32_t element = at >> 2, line = at & 3, out;
        uint64_t *word = &bars[element >> 6], bit = 1ull << (element & 63);
        if (*word & bit) {
            switch (line) {
            case 0: out = 2; break;
            case 1: out = 0; *word ^= bit; break;
            case 2: out = 0; break;
            default: out = 2; *word ^= bit;
            }
        } else {
            switch (line) {
            case 0: out = 3; *word ^= bit; break;
            case 1: out = 3; break;
            case 2: out = 1; *word ^= bit; break;
            default: out = 1;
            }
        }
        uint32_t to = targets[4 * (uint64_t)element + out];
        if (to == LOOSE) { *place = 4 * element + out; return made + 1; }
        at = to;
    }
    *place = at;
    return count;
}

static uint64_t backward(const uint32_t *sources, uint64_t *bars, uint32_t *place, uint64_t count) {
    uint32_t at = *place;
    for (uint64_t made = 0; made < count; made++) {
        uint32_t from = sources[at];
        if (from == LOOSE) { *place = at; return made; }
        uint32_t element = from >> 2, line = from & 3, in;
        uint64_t *word = &bars[element >> 6], bit = 1ull << (element & 63);
        if (*word & bit) {
            switch (line) {
            case 0: in = 2; break;
            case 1: in = 2; *word ^= bit; break;
            case 2: in = 0; break;
            default: in = 0; *word ^= bit;
            }
        } else {
            switch (line) {
            case 0: in = 1; *word ^= bit; break;
            case 1: in = 3; break;
            case 2: in = 3; *word ^= bit; break;
            default: in = 1;
            }
        }
        at = 4 * element + in;
    }
    *place = at;
    return count;
}

static double now(void) {
    struct timespec t;
    clock_gettime(CLOCK_PROCESS_CPUTIME_ID, &t);
    return t.tv_sec + t.tv_nsec / 1e9;
}

/* The order of a ring's elements comes on standard input, as 32-bit numbers; the bars are upright. */
int main(int argc, char **argv) {
    uint32_t n = strtoul(argv[1], 0, 10);
    uint64_t count = strtoull(argv[2], 0, 10);
    uint32_t *order = malloc(4ull * n), *targets = malloc(16ull * n), *sources = malloc(16ull * n);
    uint64_t *bars = malloc(8ull * (n / 64 + 1));
    if (argc != 3 || fread(order, 4, n, stdin) != n) return 1;
    for (uint64_t i = 0; i < 4ull * n; i++) targets[i] = sources[i] = LOOSE;
    for (uint32_t i = 0; i < n / 64 + 1; i++) bars[i] = ~0ull;
    for (uint32_t i = 0; i < n; i++) {
        uint32_t from = 4 * order[i] + 2, to = 4 * order[(i + 1) % n];
        targets[from] = to;
        sources[to] = from;
    }
    uint32_t place = 4 * order[0];
    double begin = now();
    uint64_t made = forward(targets, bars, &place, count);
    double middle = now();
    uint64_t back = backward(sources, bars, &place, count);
    double end = now();
    if (made != count || back != count || place != 4 * order[0]) return 1;
    printf("%f %f\n", count / (middle - begin) / 1e6, count / (end - middle) / 1e6);
    return 0;
}
"""


def c_loop(folder):
    """The C loop, compiled."""
    source, program = os.path.join(folder, "loop.c"), os.path.join(folder, "loop")
    with open(source, "w", encoding="utf-8") as out:
        out.write(C_LOOP)
    subprocess.run(["gcc", "-O2", "-o", program, source], check=True)
    return program


def c_figures(loop, order, count):
    """Millions of steps a second of the C loop, forward and backward."""
    numbers = b"".join(element.to_bytes(4, "little") for element in order)
    ran = subprocess.run([loop, str(len(order)), str(count)], input=numbers, stdout=subprocess.PIPE, check=True)
    forward, backward = ran.stdout.split()
    return float(forward), float(backward)


def program_figures(program, text, count):
    """Millions of steps a second of the program, forward and backward: what `step 0` and `back 1`, whose step makes the
    way back, take is taken off."""
    _, base, _, same = launched(program, ["step", "0"], text)
    assert same == text
    _, longer, _, there = launched(program, ["step", str(count)], text)
    _, first, _, _ = launched(program, ["back", "1"], there)
    _, again, _, back = launched(program, ["back", str(count)], there)
    assert back == text
    return count / (longer - base) / 1e6, (count - 1) / (again - first) / 1e6


def main():
    program = sys.argv[1] if len(sys.argv) > 1 else os.path.join(TOP, "crates/bn_main/out/bn_main")
    if not os.path.exists(program):
        sys.exit("build the program first: tools/prove")
    shuffled = list(range(RING))
    random.Random(1973).shuffle(shuffled)
    cases = (
        ("one element", [0], 400_000_000),
        (f"ring of {RING} in order", list(range(RING)), 400_000_000),
        (f"ring of {RING} shuffled", shuffled, 20_000_000),
    )
    with tempfile.TemporaryDirectory() as folder:
        loop = c_loop(folder)
        for name, order, count in cases:
            text = one_element() if len(order) == 1 else ring(order)
            loops, programs = [], []
            for _ in range(3):
                loops.append(c_figures(loop, order, count))
                programs.append(program_figures(program, text, count))
            for way, words in enumerate(("step", "back")):
                best, most = max(pair[way] for pair in programs), max(pair[way] for pair in loops)
                print(f"{name}, {words}: {best:.1f} million steps a second, the C loop {most:.1f}: {best / most:.0%}")


if __name__ == "__main__":
    main()
