"""Every command with a heap that refuses an allocation, and what is answered beside the answer that it has.

For a number n the n-th allocation is refused, alone or with all behind it. The answer is the command's own, or status 9 and a
front of its own text; nothing is on standard error. By themselves the tests try a command at no more than 60 numbers, which are
close together at first and far apart later; with `--every` at every one, and on larger inputs too, which takes ten minutes.
The heap is a library that is laid before the system's; a C compiler makes it.
"""
import os
import subprocess
from concurrent.futures import ThreadPoolExecutor

import places
import pytest

NO_MEMORY = 9
NUMBERS = 60
SECONDS = 60
HEAP = r"""#include <stddef.h>
#include <stdio.h>
#include <stdlib.h>
extern void *__libc_malloc(size_t);
extern void *__libc_realloc(void *, size_t);
static long asked, refused = -1, only;
__attribute__((constructor)) static void begin(void) {
    const char *text = getenv("REFUSED");
    if (text) sscanf(text, "%ld %ld", &refused, &only);
    asked = 0;
}
__attribute__((destructor)) static void end(void) {
    const char *path = getenv("ASKED");
    if (!path) return;
    refused = -1;
    long number = asked;
    FILE *file = fopen(path, "w");
    if (file) { fprintf(file, "%ld", number); fclose(file); }
}
static int fails(void) { asked++; return refused >= 0 && (only ? asked == refused : asked >= refused); }
void *malloc(size_t n) { return fails() ? 0 : __libc_malloc(n); }
void *realloc(void *p, size_t n) { return fails() ? 0 : __libc_realloc(p, n); }
"""

# Commands with the example that each reads.
SMALL = [
    ("step 3", "two-elements.txt"),
    ("step 1", "two-columns.txt"),
    ("back 2", "two-elements.txt"),
    ("plan", "eight-rows.txt"),
    ("migrate", "two-elements.txt"),
    ("mirror", "two-columns.txt"),
    ("check", "increment.csv"),
    ("check", "faulty.csv"),
    ("machine =1011 40", "increment.csv"),
    ("reversible", "reversible.csv"),
    ("moments = 5", "reversible.csv"),
    ("bennett", "increment.csv"),
    ("standard", "not.csv"),
    ("realise 1 1", "two-moves.csv"),
    ("compile = 0 2 2 1", "least.csv"),
    ("run = 0 2 2 1", "least.csv"),
    ("run = 0 2 2 1 1564", "least.csv"),
    ("run = auto", "least.csv"),
    ("view = 0 2 2 1 6539", "least.csv"),
    ("session = 0 2 2 1", "least-session.txt"),
    ("look =1 =0 = 0 1 1 0 4000", "controlled-not.csv"),
    ("play =11 =110 = 0 3 4 3", "adder-session.txt"),
    ("generate 1", None),
    ("element 4 289", None),
    ("window =1011 40", "increment.csv"),
    ("room =11 :1,1,0 = 1000", "adder.csv"),
    ("behaviour 9 99", "two-elements.txt"),
    ("behaviour 9 99 :0.w :0.s,0.w", "circuits/toggle.txt"),
    ("crossings 9 99 :0.n,1.e :1.e,0.n", "two-elements.txt"),
    ("equal 1 1", "two-toggles.txt"),
    ("erase", "least-twice.txt"),
    ("erase =1 40", "not-twice.txt"),
    ("farm", "two-boards.txt"),
    ("walk", "two-elements-walk.txt"),
    ("Step 1", None),
]
# The same on larger inputs, for --every.
LARGE = [
    ("compile =1011 0 5 11 5", "increment.csv"),
    ("run =1011 0 5 11 5", "increment.csv"),
    ("run =1011 auto", "increment.csv"),
    ("view =1011 0 5 11 5 100000", "increment.csv"),
    ("generate 2", None),
]


pytestmark = [pytest.mark.slow, pytest.mark.engine]


@pytest.fixture(scope="module")
def refusals(proved_program, laid_before):
    """Runs commands of the proved program on a heap that refuses."""
    path = laid_before("heap", HEAP)
    return Refusals(proved_program, path, os.path.dirname(path))


class Refusals:
    """Runs commands on this heap."""

    def __init__(self, program, heap, work):
        self.program, self.heap, self.work = program, heap, work

    def run(self, words, data, **variables):
        """The status, the output and the errors."""
        ran = subprocess.run(
            [self.program, *words],
            input=data,
            stdout=subprocess.PIPE,
            stderr=subprocess.PIPE,
            timeout=SECONDS,
            env={"LD_PRELOAD": self.heap, **variables},
        )
        return ran.returncode, ran.stdout, ran.stderr

    def count_of(self, words, data):
        """How many allocations the answer takes, and the answer."""
        path = os.path.join(self.work, "asked")
        answer = self.run(words, data, ASKED=path)
        with open(path, encoding="ascii") as file:
            return int(file.read()), answer

    def faults(self, words, data, numbers, own):
        """What went wrong, for each number and both ways to refuse."""

        def one(case):
            number, only = case
            try:
                status, text, errors = self.run(words, data, REFUSED=f"{number} {only}")
            except subprocess.TimeoutExpired:
                return f"  allocation {number}: no answer in {SECONDS} s"
            is_own = (status, text) == own[:2]
            is_front = status == NO_MEMORY and own[1].startswith(text)
            if errors or not (is_own or is_front):
                return f"  allocation {number}, {'alone' if only else 'and all behind'}: status {status}, {text[:60]!r} {errors[:60]!r}"
            return None

        with ThreadPoolExecutor(len(os.sched_getaffinity(0))) as pool:
            return list(pool.map(one, [(number, only) for number in numbers for only in (0, 1)]))


def numbers_of(count, is_all):
    """The allocations that are refused: all, or some, far apart where they are many."""
    if is_all or count <= NUMBERS:
        return range(1, count + 1)
    half = NUMBERS // 2
    rest = count - half
    return [*range(1, half + 1), *(half + rest * step // half for step in range(1, half + 1))]


def pytest_generate_tests(metafunc):
    """A case a command and its input."""
    if "line" in metafunc.fixturenames:
        metafunc.parametrize("line, name", SMALL + (LARGE if metafunc.config.getoption("--every") else []))


def test_an_answer_where_memory_is_refused(request, refusals, line, name, comparisons):
    words, data = line.split(), b""
    if name:
        with open(os.path.join(places.TOP, "examples", name), "rb") as file:
            data = file.read()
    asked, own = refusals.count_of(words, data)
    faults = refusals.faults(words, data, numbers_of(asked, request.config.getoption("--every")), own)
    assert not any(faults), "\n".join([f"{asked} allocations:", *filter(None, faults)])
    comparisons(len(faults))
