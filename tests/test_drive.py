"""Holds what `drive` prints against the machine alone, and against `build` and `step`.

Of drawn uniform machines, of two that are made to be so, of Bennett's machines and an erasing one, with a word on each tape in
a window, a small interpreter of quadruples (quadruple_rules.py) tells the exit, the steps of the machine and the three tapes. The
circuit that `build` prints is stepped as many element steps: it has left by a line then, and a step before it had not; and after
any number of steps `drive` tells where its signal is and what its cells show. Machines that are stuck at a first, a second and a
third read, and those that leave a window at each side, are among them.

The answers are those of the program that --program names, else the library's, or those of node by bin/hithwelor. `--drawn N`
draws so many, and `--seed S` others.
"""
import os
import random
import re

import pytest
from places import TOP

import quadruple_rules as rules
from test_build import marked_columns, worded_case
from test_ends import drawn_run
from test_moments import rows_of
from test_traces import table_of

# How many machines are drawn by themselves, and after how many steps each is looked at.
NUMBER, LOOKS = 60, 4
# No drive makes more element steps, no run more steps, and no circuit is stepped further one by one.
MOST, PATIENCE, MOST_STEPS = 1 << 61, 2000, 3_000_000
DONE, USAGE, STUCK, WINDOW, INSIDE = 0, 2, 10, 11, 12
pytestmark = pytest.mark.engine
# Heads go to cell 1, where all tapes have to show one letter.
THREE = "S,/,/,/,+,+,+,A\nA,a,a,a,a,a,a,F\nA,b,b,b,b,b,b,F\n"


def status_of(exit):
    return {"end": DONE, "stuck": STUCK, "window": WINDOW}[exit.split()[1]]


def cells_of(rows, window, text):
    """The lines of the three tapes that the cells of a configuration text show."""
    # Where the signal is within a column, its elements have entries of their own.
    marked = marked_columns(text) | {int(number) for number in re.findall(r"^e (\d+) H ", text, re.M)}
    found = {tape: [None, []] for tape in (1, 2, 3)}
    for place, first, columns, lines in rules.modules(rows, window)[1:]:
        tape, names = found[place[0]], rules.symbols_of(rows, place[0])
        column = next((it for it in range(columns) if first + it * (lines + 1) + lines in marked), None)
        tape[1].append("?" if column is None else names[column % len(names)])
        if column is not None and column >= len(names):
            tape[0] = place[1]
    return [
        f"tape {tape} from {low} head {'?' if head is None else head}: {' '.join(cells)}"
        for (tape, (head, cells)), (low, _) in zip(found.items(), rules.bounds(window))
    ]


def driven(asks, rows, arguments, window, steps):
    """The status and the lines of an answer."""
    status, text = asks(["drive", *arguments, *window, steps], table_of(rows).encode())
    return status, text.decode().splitlines()


def hold_end(asks, rows, arguments, window):
    """The drive ends as the machine's own run in the window; gives its element steps, or None where that run is too long."""
    words = [names for names, _ in rules.words_of(arguments, rows)]
    wanted = rules.ended(rows, words, window, PATIENCE)
    if wanted is None:
        status, lines = driven(asks, rows, arguments, window, 1000)
        assert status == INSIDE and lines[2] == "steps 1000"
        return None
    status, lines = driven(asks, rows, arguments, window, MOST)
    steps = re.fullmatch(r"steps (\d+)", lines[2])[1]
    head = [
        f"elements {rules.count_of(rows, window)}",
        wanted.exit,
        f"steps {steps}",
        f"quadruple steps {wanted.steps}",
    ]
    assert lines == head + rules.tape_lines(wanted.tapes, window), (table_of(rows), arguments, window)
    assert status == status_of(wanted.exit)
    return int(steps)


def hold_steps(asks, rows, arguments, window, steps, draw):
    """After some numbers of steps the drive tells what the circuit shows that is stepped one by one."""
    status, built = asks(["build", *arguments, *window], table_of(rows).encode())
    assert status == DONE
    made = 0
    for step in sorted({0, steps - 1, steps, *(draw.randrange(steps) for _ in range(LOOKS))}):
        stepped = asks(["step", step], built)[1].decode()
        status, lines = driven(asks, rows, arguments, window, step)
        assert lines[2] == f"steps {step}" == re.search(r"^steps \d+$", stepped, re.M)[0]
        assert lines[4:] == cells_of(rows, window, stepped)
        place = re.search(r"^(at|left) (\S+)$", stepped, re.M)
        assert (place[1] == "left") == (step == steps) == (status != INSIDE)
        assert place[1] == "left" or lines[1] == f"inside {place[2]}"
        number = int(lines[3].removeprefix("quadruple steps "))
        assert made <= number and (step or number == 0)
        made = number


def hold_case(asks, rows, arguments, window, draw):
    steps = hold_end(asks, rows, arguments, window)
    if steps and steps <= MOST_STEPS:
        hold_steps(asks, rows, arguments, window, steps, draw)
    return 1 if steps is None else LOOKS + 4


def pytest_generate_tests(metafunc):
    if "drawn" in metafunc.fixturenames:
        number = metafunc.config.getoption("--drawn") or NUMBER
        metafunc.parametrize("drawn", range(number), ids=[f"{it}" for it in range(1, number + 1)])


def drawing(pytestconfig, name, number):
    return random.Random(f"{pytestconfig.getoption('--seed')} {name} {number}")


def test_a_drawn_machine_is_driven(drawn, asks, pytestconfig, comparisons):
    draw = drawing(pytestconfig, "machine", drawn)
    rows, arguments, window = worded_case(draw, 0)
    room = max(len(names) for names, _ in rules.words_of(arguments, rows))
    window = (draw.randrange(3), *(max(room, draw.randrange(5)) for _ in range(3)))
    comparisons(hold_case(asks, rows, arguments, window, draw))


def test_bennetts_machine_is_driven(drawn, asks, pytestconfig, comparisons):
    draw = drawing(pytestconfig, "Bennett", drawn)
    quintuples, word, (left, right, most, room) = drawn_run(draw)
    table = asks(["bennett"], table_of(quintuples).encode())[1]
    comparisons(hold_case(asks, rows_of(table), [f"={word}"], (left, right, most, room), draw))


@pytest.mark.parametrize(
    "letters, read", [("aaa", 0), ("bbb", 0), (" aa", 1), ("aba", 2), ("a a", 2), ("aab", 3), ("bb ", 3)]
)
def test_a_machine_is_stuck_at_each_read(letters, read, asks):
    """What was read by then shows the blank, and what wasn't shows its symbol; the exit tells all symbols as they were."""
    rows, arguments = rows_of(THREE.encode()), [f"={letter.strip()}" for letter in letters]
    window = (0, 2, 2, 2)
    hold_case(asks, rows, arguments, window, random.Random(1))
    status, lines = driven(asks, rows, arguments, window, MOST)
    if read:
        assert status == STUCK and lines[1] == "exit stuck A " + " ".join(letters.replace(" ", "_"))
        assert lines[3] == "quadruple steps 1"
        cells = ["_" if tape <= read else letter.replace(" ", "_") for tape, letter in enumerate(letters, 1)]
        assert [line.split()[-2] for line in lines[4:]] == cells
    else:
        assert status == DONE and lines[1] == "exit end"


@pytest.mark.parametrize("tape", [1, 2, 3])
@pytest.mark.parametrize("shift, side", [("-", "left"), ("+", "right")])
def test_a_window_is_left_at_each_side(tape, shift, side, asks):
    row = ["S", "/", "/", "/", "0", "0", "0", "F"]
    row[3 + tape] = shift
    status, lines = driven(asks, [row], ["="], (0, 0, 0, 0), MOST)
    assert (status, lines[1], lines[3]) == (WINDOW, f"exit window {tape} {side}", "quadruple steps 0")
    hold_case(asks, [row], ["="], (0, 0, 0, 0), random.Random(1))


def test_where_two_windows_would_be_left_it_is_the_lesser_tape(asks):
    row = ["S", "/", "/", "/", "0", "-", "+", "F"]
    assert driven(asks, [row], ["="], (0, 0, 0, 0), MOST)[1][1] == "exit window 2 left"


@pytest.mark.parametrize("name, words", [("adder.csv", ["=11", "=110", "="]), ("adder.csv", ["=1", ":0,1", ":"])])
def test_an_example_is_driven(name, words, asks):
    with open(os.path.join(TOP, "examples", name), "rb") as file:
        hold_case(asks, rows_of(file.read()), words, (0, 3, 4, 3), random.Random(1))


def test_an_erasing_machine_is_driven(asks):
    with open(os.path.join(TOP, "examples", "not-twice.txt"), "rb") as file:
        table = asks(["erase"], file.read())[1]
    hold_case(asks, rows_of(table), ["=10"], (0, 3, 10, 3), random.Random(1))


def test_words_without_a_form(asks):
    for words in (
        ["="],
        ["=", 0, 2, 2, 1],
        ["=", "=", 0, 2, 2, 1, 5],
        ["1", 0, 2, 2, 1, 5],
        ["=", 0, 2, 2, 1, MOST + 1],
    ):
        assert asks(["drive", *words], b"") == (USAGE, b"usage\n")


def test_each_kind_of_exit_is_drawn(pytestconfig):
    """Of as many as are drawn by itself each kind is among the machines that are driven."""
    kinds = set()
    for number in range(NUMBER):
        draw = drawing(pytestconfig, "machine", number)
        rows, arguments, _ = worded_case(draw, 0)
        words = [names for names, _ in rules.words_of(arguments, rows)]
        window = (draw.randrange(3), *(max(*map(len, words), draw.randrange(5)) for _ in range(3)))
        end = rules.ended(rows, words, window, PATIENCE)
        kinds.add(end.exit.split()[1] if end else "inside")
    assert {"end", "stuck", "window"} <= kinds
