"""Holds what `look` and `play` print against `build` and `step`, against `drive`, and against the machine alone.

Of drawn uniform machines, of Bennett's machines and of examples, with a word on each tape in a window, the board is
looked at after some numbers of element steps. Its place is that of the circuit that `build` prints and `step` walks;
its module that which the rules of boards tell (quadruple_rules.py); where the signal has left, the exit is `drive`'s.
The state and the tapes are those of the machine alone, in the window, after as many of its own steps as `drive` tells.

A script that is played goes on and back in drawn pieces, and shows at each place what `look` shows there. With a
breakpoint of a state it stops at each moment of that state and at no other, forward and back.

The answers are those of the program that --program names, else the library's, or those of node by bin/hithwelor.
`--drawn N` draws so many, and `--seed S` others.
"""
import os
import random
import re

import pytest
from hithwelor.texts import Look, Session
from places import TOP

import quadruple_rules as rules
from test_build import worded_case
from test_drive import PATIENCE, drawing
from test_ends import drawn_run
from test_layout import Looked
from test_moments import rows_of
from test_traces import table_of

# How many machines are drawn by themselves, at how many places each is looked at, in how many pieces a script goes on.
NUMBER, LOOKS, PIECES = 40, 6, 6
# No number of a script is greater, and no circuit is stepped further one by one.
MOST, MOST_STEPS = 1 << 62, 3_000_000
DONE, USAGE, TEXT = 0, 2, 3
pytestmark = pytest.mark.engine
# Each tape is read in its turn; where it shows no 1 the machine is stuck.
ONES = b"S,/,/,/,+,+,+,A\nA,1,1,1,1,1,1,F\n"


class Board:
    """A machine of quadruples with words and a window, and its answers."""

    def __init__(self, asks, rows, arguments, window):
        self.asks, self.rows, self.window = asks, rows, window
        self.words, self.table = [*arguments, *window], table_of(rows).encode()
        self.lists = [names for names, _ in rules.words_of(arguments, rows)]
        self.looked = Looked(rules.layout(rows, window))
        self.built = asks(["build", *self.words], self.table)[1]
        self.steps = int(self.drive(MOST >> 1)[2].removeprefix("steps "))

    def drive(self, steps):
        return self.asks(["drive", *self.words, steps], self.table)[1].decode().splitlines()

    def look(self, steps):
        status, text = self.asks(["look", *self.words, steps], self.table)
        assert status == DONE, (self.table, self.words, text)
        return text.decode().splitlines()

    def play(self, *script):
        """The answers to a script."""
        text = self.table + b"%\n" + "".join(f"{line}\n" for line in script).encode()
        status, answer = self.asks(["play", *self.words], text)
        assert status == DONE, (text, self.words, answer)
        return Session.read(answer.decode(), Look).answers

    def stepped(self, steps):
        """Whether the signal is at a line or has left by it, and the line, where the circuit is stepped one by one."""
        text = self.asks(["step", steps], self.built)[1].decode()
        return re.search(r"^(at|left) (\S+)$", text, re.M).groups()

    def moment(self, number):
        """The lines of the state and the tapes after so many steps of the machine alone."""
        machine = rules.Machine(self.rows, self.lists, self.window)
        for _ in range(number):
            assert machine.step() is None
        return [f"quadruple {machine.state}", *rules.tape_lines(machine.tapes(), self.window)]

    def states(self):
        """The state of each moment of the machine's own run in the window."""
        machine = rules.Machine(self.rows, self.lists, self.window)
        found = [machine.state]
        while machine.step() is None:
            found.append(machine.state)
        return found


def hold_looks(board, draw):
    """What is shown at some places is what is told otherwise of them."""
    last = board.steps
    for step in sorted({0, last - 1, last, last + 7, MOST, *(draw.randrange(last + 1) for _ in range(LOOKS))}):
        lines, driven = board.look(step), board.drive(min(step, MOST >> 1))
        kind, place = board.stepped(step)
        assert lines[0] == f"element {kind} {place} steps {min(step, last)}"
        assert lines[1] == (driven[1] if kind == "left" else board.looked.module_line(place))
        assert (kind == "left") == driven[1].startswith("exit ")
        assert lines[2:] == board.moment(int(driven[3].removeprefix("quadruple steps ")))


def hold_script(board, draw):
    """A script that goes on and back shows at each place what a look shows that goes there at once."""
    pieces = [
        (draw.choice(["step", "step", "back", "go", "rev"]), draw.randrange(1, board.steps + 2)) for _ in range(PIECES)
    ]
    answers = board.play(*(line for kind, number in pieces for line in (f"{kind} {number}", "view")))
    step = 0
    for (kind, number), told, shown in zip(pieces, answers[::2], answers[1::2]):
        step = min(board.steps, step + number) if kind in ("step", "go") else max(0, step - number)
        assert shown.lines == board.look(step)
        assert told == shown.lines[0].removeprefix("element ")


def hold_breakpoint(board, draw):
    """Forward and back a breakpoint of a state stops at the moments of that state and at no others."""
    states = board.states()
    state = draw.choice(states[-9:])
    numbers = [number for number, it in enumerate(states) if it == state][:20]
    answers = board.play(
        f"break here state {state}",
        *[f"go {MOST}", "view"] * len(numbers),
        *[f"rev {MOST}", "view"] * (len(numbers) - 1),
    )
    forward, back = answers[1 : 1 + 2 * len(numbers)], answers[1 + 2 * len(numbers) :]
    for number, told, shown in zip(numbers, forward[::2], forward[1::2]):
        step = shown.steps
        assert told == f"{shown.lines[0].removeprefix('element ')} break here"
        assert shown.lines[2:] == board.moment(number) and shown.quadruple == state
        before = board.drive(step - 1)[3]
        assert board.drive(step)[3] == f"quadruple steps {number}"
        assert before == f"quadruple steps {max(0, number - 1)}"
    assert back == tuple(it for at in range(len(numbers) - 2, -1, -1) for it in forward[2 * at : 2 * at + 2])


def hold_board(asks, rows, arguments, window, draw):
    """All of it; how much was compared. A run that is too long is left."""
    words = [names for names, _ in rules.words_of(arguments, rows)]
    if rules.ended(rows, words, window, PATIENCE) is None:
        return 0
    board = Board(asks, rows, arguments, window)
    if board.steps > MOST_STEPS:
        return 0
    hold_looks(board, draw)
    hold_script(board, draw)
    hold_breakpoint(board, draw)
    return LOOKS + PIECES + 6


def pytest_generate_tests(metafunc):
    if "drawn" in metafunc.fixturenames:
        number = metafunc.config.getoption("--drawn") or NUMBER
        metafunc.parametrize("drawn", range(number), ids=[f"{it}" for it in range(1, number + 1)])


def test_a_drawn_machine_is_shown(drawn, asks, pytestconfig, comparisons):
    draw = drawing(pytestconfig, "shown machine", drawn)
    rows, arguments, window = worded_case(draw, 0)
    room = max(len(names) for names, _ in rules.words_of(arguments, rows))
    window = (draw.randrange(3), *(max(room, draw.randrange(5)) for _ in range(3)))
    comparisons(hold_board(asks, rows, arguments, window, draw))


def test_bennetts_machine_is_shown(drawn, asks, pytestconfig, comparisons):
    draw = drawing(pytestconfig, "shown Bennett", drawn)
    quintuples, word, (left, right, most, room) = drawn_run(draw)
    table = asks(["bennett"], table_of(quintuples).encode())[1]
    comparisons(hold_board(asks, rows_of(table), [f"={word}"], (left, right, most, room), draw))


def test_of_bennetts_machine_a_look_is_a_view_without_its_last_line(drawn, asks, pytestconfig, comparisons):
    draw = drawing(pytestconfig, "viewed Bennett", drawn)
    quintuples, word, window = drawn_run(draw)
    window = (window[0], max(window[1], len(word), 1), *window[2:])
    table = table_of(quintuples).encode()
    bennett = asks(["bennett"], table)[1]
    for step in (0, draw.randrange(100_000), draw.randrange(1_000_000), MOST):
        status, view = asks(["view", f"={word}", *window, step], table)
        assert status == DONE
        shown, (status, look) = view.decode().splitlines(), asks(["look", f"={word}", *window, step], bennett)
        looked = look.decode().splitlines()
        assert status == DONE and looked[:1] + looked[2:] == shown[:1] + shown[2:6]
        # Where the machine is stuck a view tells its letter, and a look the symbols of three tapes.
        assert (
            looked[1].startswith(shown[1]) or looked[1].startswith("exit stuck ") and shown[1].startswith("exit stuck ")
        )
    comparisons(4)


@pytest.mark.parametrize("letters", ["111", " 11", "1 1", "11 "])
@pytest.mark.parametrize("window", [(0, 2, 2, 2), (0, 1, 1, 1)])
def test_each_exit_of_a_read_is_shown(letters, window, asks):
    hold_board(asks, rows_of(ONES), [f"={letter.strip()}" for letter in letters], window, random.Random(1))


@pytest.mark.parametrize("tape", [1, 2, 3])
@pytest.mark.parametrize("shift, side", [("-", "left"), ("+", "right")])
def test_a_window_that_is_left_is_shown(tape, shift, side, asks):
    row = ["S", "/", "/", "/", "0", "0", "0", "F"]
    row[3 + tape] = shift
    hold_board(asks, [row], ["="], (0, 0, 0, 0), random.Random(1))
    assert Board(asks, [row], ["="], (0, 0, 0, 0)).look(MOST)[1:3] == [f"exit window {tape} {side}", "quadruple S"]


@pytest.mark.parametrize(
    "name, words, window",
    [
        ("adder.csv", ["=11", "=110", "="], (0, 3, 4, 3)),
        ("adder.csv", ["=1", ":0,1", ":"], (0, 3, 4, 3)),
        ("counter.csv", ["=110"], (0, 4, 0, 0)),
    ],
)
def test_an_example_is_shown(name, words, window, asks):
    with open(os.path.join(TOP, "examples", name), "rb") as file:
        hold_board(asks, rows_of(file.read()), words, window, random.Random(1))


@pytest.mark.parametrize("command, behind", [("look", [5]), ("play", [])])
def test_words_without_a_form(command, behind, asks):
    for words in (
        ["="],
        ["=", 0, 2, 2],
        ["=", "=", 0, 2, 2, 1, *behind],
        ["1", 0, 2, 2, 1, *behind],
        ["=", 0, 2, 2, 1, *behind, 5],
        ["=", 0, 2, 2, 1, MOST + 1],
    ):
        assert asks([command, *words], b"") == (USAGE, b"usage\n")


REFUSED = [
    (["=1", 0, 0, 0, 0], b"S,/\n"),
    (["=1", 0, 0, 0, 0], b""),
    (["=1", 0, 0, 0, 0], b"S,/,/,/,0,0,0,F\n"),
    (["=1", 0, 0, 0, 0], ONES + b"A,1,1,1,1,1,1,B\n"),
    (["=12", 0, 0, 0, 0], ONES),
    (["=", "=1", ":1,", 0, 0, 0, 0], ONES),
    (["=1", 0, 0, 0, 0], ONES),
    (["=1", 0, 1, 0, 1_048_576], ONES),
]


@pytest.mark.parametrize("words, table", REFUSED)
def test_what_build_refuses_is_refused_before_a_script_is_read(words, table, asks):
    refused = asks(["build", *words], table)
    assert refused[0] in (3, 4, 5, 6)
    assert asks(["look", *words, 5], table) == refused
    assert asks(["play", *words], table + b"%\nview \n") == refused
    assert asks(["play", *words], table) == (TEXT, b"text: no script\n")


@pytest.mark.parametrize(
    "script, fault",
    [
        ("view \n", "line 1 form"),
        ("view\nstep 1", "line 2 form"),
        ("go 0\n", "line 1 form"),
        ("break a state A\nbreak b state T\n", "line 2 no state"),
        ("break a state A\nbreak a element 1\n", "line 2 same break"),
        ("break a state A\ndrop a\ndrop a\n", "line 3 no break"),
    ],
)
def test_a_fault_of_a_script_is_told(script, fault, asks):
    told = asks(["play", "=1", 0, 1, 0, 0], ONES + b"%\n" + script.encode())
    assert told == (TEXT, f"text: script {fault}\n".encode())
