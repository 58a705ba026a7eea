"""What an exception in the midst of a call leaves behind, and what processes hand to one another, in the package of Python.

Calls are interrupted at drawn times, by Ctrl-C and by an exception of a signal handler, and every later answer is compared,
with a child of Node.js and with a shared library as the engine. A signal handler that calls meanwhile gets its own answer, and
the interrupted call its own. Pools of processes hand over answers and refusals, spawned and forked. (js/test does the same for
JavaScript.)
"""
import os
import subprocess
import sys
import textwrap

import places
import pytest
from places import TOP

ROUNDS, MOST, LATER = 16, 0.08, 3
# A library with the header's call which answers by the length of the words, for machines without the toolchain: the text is
# the input, so many times.
ECHO = """#include <stddef.h>
#include <stdint.h>
#include <string.h>
uint32_t hithwelor_answer(const uint8_t *words, size_t words_length, const uint8_t *input, size_t input_length,
                          uint8_t *output, size_t output_length, uint64_t *taken) {
    size_t times = words_length;
    *taken = times * input_length;
    if (*taken > output_length) return 8;
    for (size_t i = 0; i < times; i++) memcpy(output + i * input_length, input, input_length);
    return 0;
}
"""
BEGIN = """
import os, random, signal, sys, threading, time
from hithwelor import answers
kind, path, seed, rounds, most, later = sys.argv[1:]
random.seed(int(seed))
rounds, most, later = int(rounds), float(most), int(later)
if kind == "node":
    answers.SHARED, answers.COMMANDS = [], [path]
    table = open("examples/increment.csv").read()
    long = (["run", "=1011", "auto"], table)
    of_long = lambda it: it[1].endswith(b"output =1100\\n")
    asked = lambda k: (["machine", f"={k:b}", "1000"], table)
    right = lambda k, it: it[0] == 0 and it[1].endswith(f"output ={k + 1:b}\\n".encode())
elif kind == "library":
    answers.SHARED = [path]
    table = open("examples/increment.csv").read()
    long = (["run", "=1011", "auto"], table)
    of_long = lambda it: it[1].endswith(b"output =1100\\n")
    asked = lambda k: (["machine", f"={k:b}", "1000"], table)
    right = lambda k, it: it[0] == 0 and it[1].endswith(f"output ={k + 1:b}\\n".encode())
else:
    answers.SHARED = [path]
    long = (["x" * 200_000], b"0123456789" * 10)
    of_long = lambda it: it == (0, long[1] * 200_000)
    asked = lambda k: (["x" * (k % 7 + 1)], str(k))
    right = lambda k, it: it == (0, str(k).encode() * (k % 7 + 1))
    most /= 4
"""
INTERRUPTED = """
class Stop(BaseException):
    pass

def stop(number, frame):
    raise KeyboardInterrupt if random.random() < 0.5 else Stop

signal.signal(signal.SIGALRM, stop)
stopped = 0
assert of_long(answers.answer(*long))
for round in range(rounds):
    try:
        signal.setitimer(signal.ITIMER_REAL, 1e-6 + random.random() * most)
        try:
            while True:
                assert of_long(answers.answer(*long))
        finally:
            signal.setitimer(signal.ITIMER_REAL, 0)
    except (KeyboardInterrupt, Stop):
        stopped += 1
    for k in range(later):
        assert right(later * round + k, answers.answer(*asked(later * round + k))), (seed, round, k)
print(stopped)
"""
NESTED = """
count = [0]

def ask(number, frame):
    count[0] += 1
    assert right(count[0], answers.answer(*asked(count[0]))), (seed, count)

signal.signal(signal.SIGALRM, ask)
began = time.monotonic()
assert of_long(answers.answer(*long))
most, round = time.monotonic() - began, 0
while count[0] < rounds // 2:
    round += 1
    signal.setitimer(signal.ITIMER_REAL, 1e-6 + random.random() * most)
    assert of_long(answers.answer(*long)), (seed, round)
    signal.setitimer(signal.ITIMER_REAL, 0)
    assert right(round, answers.answer(*asked(round))), (seed, round)
print(count[0])
"""
POOLS = """
import multiprocessing
import sys
from concurrent.futures import ProcessPoolExecutor
from hithwelor import Machine, Refused

def main():
    machine, words = Machine.open("examples/increment.csv"), ["1", "10x1", "11"]
    context = multiprocessing.get_context(sys.argv[1])
    machine.check()
    with context.Pool(2) as pool:
        print([it.output for it in pool.map(machine.by_itself, ["1", "11"])])
        try:
            pool.map(machine.by_itself, words, chunksize=1)
        except Refused as refused:
            print(refused.status, refused.text, refused)
    with ProcessPoolExecutor(2, mp_context=context) as pool:
        told = [pool.submit(machine.by_itself, word) for word in words]
        print([it.exception() or it.result().output for it in told])

if __name__ == "__main__":
    main()
"""
TOLD = """['10', '100']
5 word: 3
 word: 3 (status 5, word)
['10', Refused('word: 3 (status 5, word)'), '100']
"""


@pytest.fixture(scope="module")
def echo(laid_before):
    return laid_before("echo", ECHO)


@pytest.fixture(params=["node", "library", "echo"])
def engine(request):
    """The kind of an engine, and the path of its program."""
    fixture = {"node": "module", "library": "shared_library", "echo": "echo"}[request.param]
    return request.param, request.getfixturevalue(fixture)


def told(script, *words, folder=TOP):
    """What a script of Python prints in the repository."""
    bare = {name: what for name, what in os.environ.items() if name != "HITHWELOR_LIBRARY"}
    ran = subprocess.run(
        [sys.executable, script, *map(str, words)],
        cwd=TOP,
        env={**bare, "PYTHONPATH": os.path.join(TOP, "python")},
        capture_output=True,
        text=True,
        timeout=120,
    )
    assert ran.returncode == 0, ran.stdout + ran.stderr
    return ran.stdout


@pytest.mark.engine
@pytest.mark.parametrize("body, least", [(INTERRUPTED, ROUNDS // 2), (NESTED, ROUNDS // 2)], ids=["stopped", "nested"])
def test_calls_interrupted_at_drawn_times_leave_every_later_answer_right(engine, body, least, tmp_path, pytestconfig):
    script = tmp_path / "script.py"
    script.write_text(BEGIN + textwrap.dedent(body), encoding="utf-8")
    seed = pytestconfig.getoption("--seed")
    assert int(told(script, *engine, seed, ROUNDS, MOST, LATER)) >= least


@pytest.mark.engine
@pytest.mark.parametrize("way", ["spawn", "fork"])
def test_pools_of_processes_hand_over_answers_and_refusals(answering, way, tmp_path):
    script = tmp_path / "pools.py"
    script.write_text(POOLS, encoding="utf-8")
    assert told(script, way) == TOLD
