"""Holds what `run` prints at each exit against the machine alone: a small interpreter of quintuples, which knows no circuit.

Machines in standard form, words and narrow windows are drawn. Of each answer everything is compared but the numbers of elements
and of element steps: the exit, the steps of the reversible machine, the output, and what the three tapes show, also where the
machine is stuck or has no room. All of it is proved (the clause `headline` of `workbench`); here it is tried by a program that
was written from the rule alone. The rule, for a run of i steps from the word to a moment with this tape:

- It is stuck: the tape, but for the scanned symbol, which was read off it; the numbers of the i quintuples, with the head at the
  last; a blank output.
- The history has no room (its window ends at cell i): the same, but that the history shows no head.
- The next step's head would leave the work tape: the tape with that step's symbol written and no head; the numbers of the i
  quintuples, with the head at cell i + 1, which is blank still; a blank output.
- It halted, and its output is copied from cell to cell: the work tape as it is. Where the copy is j cells from the halted head,
  and the next cell isn't on the work tape: no head there, and j letters on the output tape, with its head at cell j. Where the
  output tape has no next cell: the work tape's head one cell further, and no head on the output tape. The history as it is.

The answers are the library's, or those of node by bin/hithwelor; where neither is here all is skipped. Each run is a case:
`--drawn N` draws so many, and `--seed S` others; the same seed draws the same runs.
"""
import random
import re

import pytest
from hithwelor import answers

SHIFTS = {"-": -1, "0": 0, "+": 1}
BLANK, PATIENCE = "_", 300
# How many runs are drawn by themselves.
NUMBER = 400


def drawn_machine(draw):
    """Quintuples in standard form of up to three states and two letters between the start and the end."""
    states, letters = ["A", "B", "C"][: draw.randrange(1, 4)], "_01"
    rows = [
        (state, read, draw.choice(letters), draw.choice("-0++"), draw.choice(states + ["H"]))
        for state in states
        for read in letters
        if draw.random() < 0.85
    ]
    return [("S", "_", "_", "+", "A"), *rows, ("H", "_", "_", "0", "F")]


class Tape:
    """The cells of a tape that aren't blank, and its head, which may be nowhere."""

    def __init__(self, word="", head=0):
        self.cells, self.head = {number: letter for number, letter in enumerate(word, 1)}, head

    def scanned(self):
        return self.cells.get(self.head, BLANK)

    def line(self, number, first, last):
        cells = " ".join(self.cells.get(cell, BLANK) for cell in range(first, last + 1))
        return f"tape {number} from {first} head {'?' if self.head is None else self.head}: {cells}"


def history(numbers, head):
    tape = Tape("", head)
    tape.cells = {cell: str(number) for cell, number in enumerate(numbers, 1)}
    return tape


def copied(work, numbers, window):
    """The end of a run that has halted: exit, tapes and output."""
    _, right, _, room = window
    output = ""
    while (letter := work.cells.get(work.head + len(output) + 1, BLANK)) != BLANK:
        output += letter
    history_tape, start = history(numbers, len(numbers)), work.head
    for cell in range(1, len(output) + 2):
        copy = Tape(output[: cell - 1], cell - 1)
        if start + cell > right:
            work.head = None
            return "window 1 right", (work, history_tape, copy), None
        if cell > room:
            work.head, copy.head = start + cell, None
            return "window 3 right", (work, history_tape, copy), None
    return "end", None, output


def ended(rows, word, window):
    """How the machine's own run comes out: its exit, the three tapes there, the output and the number of steps."""
    left, right, most, _ = window
    by_place = {(row[0], row[1]): (number, row) for number, row in enumerate(rows, 1)}
    state, work, numbers = rows[0][0], Tape(word), []
    for _ in range(PATIENCE):
        if state == rows[-1][4]:
            exit, tapes, output = copied(work, numbers, window)
            return exit, tapes or (Tape(word), Tape(), Tape(output)), output, len(numbers)
        found = by_place.get((state, work.scanned()))
        if found is None:
            exit = f"stuck {state} {work.scanned()}"
            work.cells.pop(work.head, None)
            return exit, (work, history(numbers, len(numbers)), Tape()), None, len(numbers)
        number, (_, _, write, shift, after) = found
        if len(numbers) == most:
            work.cells.pop(work.head, None)
            return "window 2 right", (work, history(numbers, None), Tape()), None, len(numbers)
        work.cells[work.head] = write
        head = work.head + SHIFTS[shift]
        if not -left <= head <= right:
            work.head = None
            return (
                f"window 1 {'left' if head < 0 else 'right'}",
                (work, history(numbers, len(numbers) + 1), Tape()),
                None,
                len(numbers),
            )
        work.head, state = head, after
        numbers.append(number)
    raise AssertionError("the history ends every run")


def expected(rows, word, window):
    """The lines of `run`, with * in place of the elements and the element steps."""
    exit, tapes, output, steps = ended(rows, word, window)
    left, right, most, room = window
    lines = ["elements *", f"exit {exit}", "steps *"]
    if exit == "end":
        lines.append(f"quadruple steps {4 * steps + 4 * len(output) + 5}")
    ends = ((-left, right), (0, most), (0, room))
    lines += [tape.line(number, *end) for number, (tape, end) in enumerate(zip(tapes, ends), 1)]
    return lines + ([f"output ={output}"] if exit == "end" else [])


def told(answer):
    status, text = answer
    text = re.sub(r"(?m)^(elements|steps) \d+$", r"\1 *", text.decode())
    return status, text.splitlines()


def drawn_run(draw):
    """Quintuples, a word and a window."""
    rows = drawn_machine(draw)
    letters = sorted({letter for row in rows for letter in row[1:3]} - {BLANK})
    word = "".join(draw.choice(letters) for _ in range(draw.randrange(5) if letters else 0))
    return rows, word, (draw.randrange(3), len(word) + draw.randrange(4), draw.randrange(9), draw.randrange(5))


def drawn_runs(config):
    draw = random.Random(config.getoption("--seed"))
    return [drawn_run(draw) for _ in range(config.getoption("--drawn") or NUMBER)]


def pytest_generate_tests(metafunc):
    if "drawn" in metafunc.fixturenames:
        runs = drawn_runs(metafunc.config)
        metafunc.parametrize("drawn", runs, ids=[f"{number}" for number in range(1, len(runs) + 1)])


@pytest.mark.engine
def test_what_a_run_ends_with_is_what_the_machine_alone_tells(drawn, answering):
    rows, word, window = drawn
    table = "".join(",".join(row) + "\n" for row in rows).encode()
    status, lines = told(answers.answer(["run", f"={word}", *map(str, window)], table))
    assert lines == expected(
        rows, word, window
    ), f"run ={word} {' '.join(map(str, window))} of {table!r}: status {status}"


def test_each_kind_of_exit_is_drawn(pytestconfig):
    """Of runs as many as are drawn by itself each kind is among them."""
    kinds = {re.sub(r"stuck .*", "stuck", expected(*run)[1]) for run in drawn_runs(pytestconfig)}
    assert (
        kinds
        == {
            "exit end",
            "exit stuck",
            "exit window 1 left",
            "exit window 1 right",
            "exit window 2 right",
            "exit window 3 right",
        }
        or (pytestconfig.getoption("--drawn") or NUMBER) < NUMBER
    )
