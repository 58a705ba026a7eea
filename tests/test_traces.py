"""Holds what `trace` and `inverse` print against small programs that were written from the rules alone.

Of drawn machines in standard form each line of a trace is compared: the state, the cells from the first to the last that isn't
blank or has the head, the number of the quintuple that comes next, and how the run comes out. Of drawn tables of quadruples the
inverse is compared entry by entry, and twice it is the first table.

The answers are the library's, or those of node by bin/hithwelor; where neither is here all is skipped. `--drawn N` draws so
many, and `--seed S` others.
"""
import random

import pytest
from hithwelor import answers

from test_ends import BLANK, SHIFTS, drawn_machine

# How many machines and tables are drawn by themselves.
NUMBER = 300
OPPOSITE = {"-": "+", "0": "0", "+": "-"}


def traced(rows, word, most):
    """The status and the lines of a trace."""
    cells = {number: letter for number, letter in enumerate(word, 1)}
    state, head, lines = rows[0][0], 0, []
    for step in range(most + 1):
        shown = [place for place, letter in cells.items() if letter != BLANK] + [head]
        first, last = min(shown), max(shown)
        scanned = cells.get(head, BLANK)
        rule = (
            None
            if state == rows[-1][4]
            else next((number for number, row in enumerate(rows, 1) if row[:2] == (state, scanned)), None)
        )
        letters = " ".join(cells.get(place, BLANK) for place in range(first, last + 1))
        lines.append(
            f"{step} {state} from {first} head {head} cells {last - first + 1}: {letters}"
            + (f" rule {rule}" if rule else "")
        )
        if state == rows[-1][4]:
            return 0, [*lines, f"halted {step}"]
        if rule is None:
            return 10, [*lines, f"stuck {state} {scanned} {step}"]
        if step == most:
            return 12, [*lines, f"running {step}"]
        _, _, cells[head], shift, state = rows[rule - 1]
        head += SHIFTS[shift]
    raise AssertionError("the last turn ends every run")


def drawn_quadruples(draw):
    """Quadruples of few states and symbols, which needn't pass any test."""
    rows = []
    for _ in range(draw.randrange(1, 7)):
        tapes = [
            (draw.choice("_ab"), draw.choice("_ab")) if draw.random() < 0.5 else ("/", draw.choice("-0+"))
            for _ in range(3)
        ]
        rows.append([draw.choice("PQR"), *(read for read, _ in tapes), *(act for _, act in tapes), draw.choice("PQR")])
    return rows


def turned(row):
    """A quadruple turned round."""
    first, *tapes, last = row
    tapes = [("/", OPPOSITE[act]) if read == "/" else (act, read) for read, act in zip(tapes[:3], tapes[3:])]
    return [last, *(read for read, _ in tapes), *(act for _, act in tapes), first]


def table_of(rows):
    return "".join(",".join(row) + "\n" for row in rows)


def drawn_cases(config, drawn):
    draw = random.Random(config.getoption("--seed"))
    return [drawn(draw) for _ in range(config.getoption("--drawn") or NUMBER)]


def drawn_run(draw):
    rows = drawn_machine(draw)
    letters = sorted({letter for row in rows for letter in row[1:3]} - {BLANK})
    word = "".join(draw.choice(letters) for _ in range(draw.randrange(6) if letters else 0))
    return rows, word, draw.choice([0, 1, 2, 5, 30, 200])


def pytest_generate_tests(metafunc):
    for name, drawn in (("run", drawn_run), ("quadruples", drawn_quadruples)):
        if name in metafunc.fixturenames:
            cases = drawn_cases(metafunc.config, drawn)
            metafunc.parametrize(name, cases, ids=[f"{number}" for number in range(1, len(cases) + 1)])


@pytest.mark.engine
def test_a_trace_is_the_run_moment_by_moment(run, answering):
    rows, word, most = run
    status, text = answers.answer(["trace", f"={word}", str(most)], table_of(rows).encode())
    assert (status, text.decode().splitlines()) == traced(
        rows, word, most
    ), f"trace ={word} {most} of {table_of(rows)!r}"


@pytest.mark.engine
def test_an_inverse_is_the_table_turned_round(quadruples, answering):
    inverse = table_of([turned(row) for row in reversed(quadruples)])
    table = table_of(quadruples).encode()
    assert answers.answer(["inverse"], table) == (0, inverse.encode())
    assert answers.answer(["inverse"], inverse.encode()) == (0, table)


@pytest.mark.engine
@pytest.mark.parametrize(
    "words, table, status, text",
    [
        (["trace", "=2", "5"], b"S,_,_,+,T\nT,1,1,0,T\nT,_,_,0,F\n", 5, b"word: 1\n"),
        (["trace", "=", "5"], b"S,_,_,+,T\nT,_,1,0,F\n", 4, b"machine: S4\n"),
        (
            ["trace", "=", "5"],
            b"S,_,_,+,T\nt,_,_,0,F\n",
            10,
            b"0 S from 0 head 0 cells 1: _ rule 1\n1 T from 1 head 1 cells 1: _\nstuck T _ 1\n",
        ),
        (["trace", "=", "5"], b"S,_,_,+\n", 3, b"text: record 1 fields\n"),
        (["trace", "=", "1048577"], b"S,_,_,+,T\nT,_,_,0,F\n", 2, b"usage\n"),
        (["trace", "="], b"", 2, b"usage\n"),
        (["trace", "=", "0"], b"S,_,_,+,T\nT,_,_,0,F\n", 12, b"0 S from 0 head 0 cells 1: _ rule 1\nrunning 0\n"),
        (["inverse"], b"", 3, b"text: empty\n"),
        (["inverse"], b"A,/,_,/,+,2,0\n", 3, b"text: record 1 fields\n"),
        (["inverse"], b"A,/,_,/,+,2,9,B\n", 3, b"text: record 1 field 7 shift\n"),
        (["inverse", "0"], b"A,/,_,/,+,2,0,B\n", 2, b"usage\n"),
    ],
)
def test_what_is_refused_and_the_smallest(words, table, status, text, answering):
    assert answers.answer(words, table) == (status, text)


@pytest.mark.engine
def test_a_run_that_goes_left_has_positions_below_0(answering):
    table = b"S,_,_,+,A\nA,_,1,-,A\nA,1,1,-,A\nH,_,_,0,F\n"
    status, text = answers.answer(["trace", "=", "4"], table)
    assert status == 12 and text.decode().splitlines()[-2] == "4 A from -2 head -2 cells 4: _ 1 1 1 rule 2"


@pytest.mark.engine
def test_a_long_run_has_a_line_each_moment(answering):
    status, text = answers.answer(["trace", "=", "100000"], b"S,_,_,+,A\nA,_,_,+,A\nH,_,_,0,F\n")
    lines = text.decode().splitlines()
    assert status == 12 and len(lines) == 100_002
    assert lines[-2:] == ["100000 A from 100000 head 100000 cells 1: _ rule 2", "running 100000"]
