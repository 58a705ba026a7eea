"""What no clause sees, held by bounds on large inputs: the peak of memory, and seconds of the processor.

A body would still be proved that keeps a text whole, reads a byte at a time, has 64 bits for each line where 32 are enough,
or looks a rule up by going through all. Each costs more than what is measured here may. That the bounds see it is tried with
the first three planted beneath the program, in the calls that it makes of the system (a library laid before the system's;
a C compiler makes it), and with the last one as so much more work behind the same answer.

A bound in bytes is a tenth above what was measured, which is far less than a text more; one in seconds is some times what was
measured, and greater where this machine is slower now.
"""
import os
import sys

import limits
import places
import pytest

sys.path.append(os.path.join(places.TOP, "bench"))
from bench import RING, launched, ring
from run import increments

pytestmark = [pytest.mark.slow, pytest.mark.engine]

# Bytes an element at the peak, and seconds of the processor on an idle machine.
MOST_OF_READING, MOST_OF_WRITING, MOST_OF_READING_SECONDS, MOST_OF_LOOKING_UP_SECONDS = 29, 25, 0.6, 2
# A word whose run makes 5,383,404,320 element steps in this window, and the seconds for them: some 2 when each move of a
# module is made at once, and above 20 element by element.
LONG, LONG_WINDOW, LONG_STEPS, MOST_OF_LEAPING_SECONDS = f"={'1' * 400}", ["1", "401", "804", "402"], 5_383_404_320, 6
# Bytes at the peak for a trace of 800,000 steps, whose text has 32 million; some 14 million are those of what measures it.
TRACED_STEPS, MOST_OF_TRACING = 800_000, 25_000_000

BENEATH = r"""#define _GNU_SOURCE
#include <dlfcn.h>
#include <stdlib.h>
#include <string.h>
#include <unistd.h>
extern void *__libc_malloc(size_t);
static int is(const char *name) { const char *told = getenv("PLANTED"); return told && !strcmp(told, name); }
static void keep(const void *bytes, ssize_t count) {
    if (count > 0) { void *copy = __libc_malloc((size_t)count); if (copy) memcpy(copy, bytes, (size_t)count); }
}
ssize_t read(int file, void *bytes, size_t count) {
    static ssize_t (*real)(int, void *, size_t);
    if (!real) *(void **)&real = dlsym(RTLD_NEXT, "read");
    return real(file, bytes, count && is("a byte at a time") ? 1 : count);
}
ssize_t write(int file, const void *bytes, size_t count) {
    static ssize_t (*real)(int, const void *, size_t);
    if (!real) *(void **)&real = dlsym(RTLD_NEXT, "write");
    ssize_t given = real(file, bytes, count);
    if (is("a text kept whole")) keep(bytes, given);
    return given;
}
void *malloc(size_t count) {
    if (count < 1 << 24 || !is("64 bits a line")) return __libc_malloc(count);
    char *room = __libc_malloc(2 * count);
    if (room) memset(room + count, 1, count);
    return room;
}
"""


def held(cost, most, what):
    assert cost <= most, f"{what}: {cost:.2f}, where {most:.2f} is the most"


def hold_reading(program):
    """`step 0` of a ring: its wires take 16 bytes an element, in 32 bits a line, and its text isn't kept."""
    text = ring(list(range(RING)), 1)
    _, seconds, memory, out = launched(program, ["step", "0"], text)
    assert out == text
    held(memory / RING, MOST_OF_READING, "`step 0` of a ring, bytes an element")
    held(seconds, MOST_OF_READING_SECONDS * limits.slowness(), "`step 0` of a ring, seconds")


def hold_writing(program):
    """`compile` of the widest window: its text of 220 MB isn't kept."""
    _, _, memory, out = launched(program, ["compile", *limits.WIDEST], increments(1))
    assert out.startswith(f"rotary 2\nelements {limits.WIDEST_ELEMENTS}\n".encode())
    held(memory / limits.WIDEST_ELEMENTS, MOST_OF_WRITING, "`compile` of the widest window, bytes an element")


def hold_looking_up(program):
    """`moments` of as many steps as may be, by the first and the last but one of the most quadruples."""
    count = limits.MOST_QUADRUPLES - 3
    passed = "".join(f"U{number},_,/,/,_,0,0,U{number + 1}\n" for number in range(1, count + 1))
    table = f"A,/,/,/,+,-,0,B\n{passed}B,_,/,/,_,0,0,A\nC,_,_,_,_,_,_,F\n".encode()
    words = ["moments", "=", str(limits.MOST_MACHINE_STEPS)]
    _, seconds, _, out = launched(program, words, table, limits.INSIDE)
    assert out.endswith(f"running {limits.MOST_MACHINE_STEPS}\n".encode())
    held(seconds, MOST_OF_LOOKING_UP_SECONDS * limits.slowness(), "`moments` with the most quadruples, seconds")


def hold_rooms(program):
    """`room` of as many steps as may be, by the most quadruples: its text is a line, and it has no circuit."""
    count = limits.MOST_QUADRUPLES - 4
    passed = "".join(f"U{number},_,/,/,_,0,0,U{number + 1}\n" for number in range(1, count + 1))
    table = f"S,_,/,/,1,0,0,R\nR,/,/,/,+,0,0,A\n{passed}A,_,/,/,_,0,0,R\nC,_,/,/,_,0,0,F\n".encode()
    _, seconds, _, out = launched(program, ["room", "=", str(limits.MOST_MACHINE_STEPS)], table, limits.INSIDE)
    assert out == f"running {limits.MOST_MACHINE_STEPS}\n".encode()
    held(seconds, MOST_OF_LOOKING_UP_SECONDS * limits.slowness(), "`room` with the most quadruples, seconds")


def hold_leaping(program):
    """`run`, and `drive` of the same machine, of five thousand million element steps."""
    table = places.text_of("examples/increment.csv").encode()
    quadruples = launched(program, ["bennett"], table)[3]
    left, *others = LONG_WINDOW
    for words, text in (
        (["run", LONG, left, *others], table),
        (["drive", LONG, left, *others, str(10 * LONG_STEPS)], quadruples),
    ):
        _, seconds, _, out = launched(program, words, text)
        assert f"\nsteps {LONG_STEPS}\n".encode() in out
        held(seconds, MOST_OF_LEAPING_SECONDS * limits.slowness(), f"`{words[0]}` of a long run, seconds")


def hold_tracing(program):
    """`trace` of many steps: its text isn't kept."""
    table = b"S,_,_,+,A\nA,_,_,+,B\nB,_,_,-,A\nC,_,_,0,F\n"
    _, _, memory, out = launched(program, ["trace", "=", str(TRACED_STEPS)], table, limits.INSIDE)
    assert out.endswith(f"running {TRACED_STEPS}\n".encode())
    held(memory, MOST_OF_TRACING, "`trace` of many steps, bytes")


HOLDS = [hold_reading, hold_writing, hold_looking_up, hold_rooms, hold_leaping, hold_tracing]


@pytest.mark.parametrize("hold", HOLDS, ids=lambda it: it.__name__)
def test_what_a_command_costs(hold, proved_program):
    hold(proved_program)


@pytest.fixture(scope="module")
def planted(proved_program, laid_before, tmp_path_factory):
    """Makes a script that runs the proved program with one of the bodies planted, and gives its path."""
    library, work = laid_before("beneath", BENEATH), str(tmp_path_factory.mktemp("planted"))

    def script(name, behind=""):
        path = os.path.join(work, name.replace(" ", "-"))
        run = f'LD_PRELOAD={library} PLANTED="{name}" {proved_program} "$@"'
        places.write(path, f"#!/bin/sh\n{run}\nended=$?\n{behind}\nexit $ended\n", is_run=True)
        return path

    return script


@pytest.mark.parametrize(
    "name, hold",
    [
        ("a text kept whole", hold_reading),
        ("a text kept whole", hold_writing),
        ("a text kept whole", hold_tracing),
        ("a byte at a time", hold_reading),
        ("64 bits a line", hold_reading),
    ],
)
def test_a_planted_body_is_seen(planted, name, hold):
    with pytest.raises(AssertionError, match="is the most"):
        hold(planted(name))


def test_a_rule_that_is_found_by_looking_through_all_is_seen(planted):
    """20,000 rules are looked at for every other step of a million, which is no less than such a sum."""
    looked = f"{sys.executable} -c 'sum(range(1_000_000_000))'"
    with pytest.raises(AssertionError, match="seconds"):
        hold_looking_up(planted("looking through all", looked))
