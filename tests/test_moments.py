"""Holds what `moments` prints against a small program that was written from the rules alone.

Of drawn machines in standard form the reversible machine is run that `bennett` prints; of drawn tables of quadruples those
that pass both tests, from a word on each tape, and the inverse of what has halted, which leads back. Each line is compared:
the state, the cells of each tape from the first to the last that isn't blank or has the head, the number of the quadruple that
comes next, and how the run comes out. And where a drawn machine halts soon, its circuit is played from moment to moment by a
session, with a breakpoint in each state: each view shows the state and the tapes that `moments` tells.

The answers are the library's, or those of node by bin/hithwelor; where neither is here all is skipped. `--drawn N` draws so
many, and `--seed S` others.
"""
import random
import re

import pytest
from hithwelor import answers

from test_ends import BLANK, SHIFTS
from test_traces import drawn_quadruples, drawn_run, table_of

# How many machines and tables are drawn by themselves, and how many whose circuits are played.
NUMBER = 150
PLAYED = 200
# The most steps of the reversible machine whose circuit is played.
SOON = 60
TAPE = r"tape (\d) from (-?\d+) head (-?\d+)(?: cells \d+)?:((?: (?!tape |rule )\S+)+)"


def shown(cells, head):
    """What is told of a tape."""
    places = [place for place, symbol in cells.items() if symbol != BLANK] + [head]
    first, last = min(places), max(places)
    symbols = " ".join(cells.get(place, BLANK) for place in range(first, last + 1))
    return f"from {first} head {head} cells {last - first + 1}: {symbols}"


def applies(row, state, tapes, heads):
    """Whether a quadruple applies."""
    return row[0] == state and all(
        read in ("/", cells.get(head, BLANK)) for read, cells, head in zip(row[1:4], tapes, heads)
    )


def told(rows, words, most):
    """The status and the lines of the moments of a run."""
    tapes = [dict(enumerate(word, 1)) for word in words]
    state, heads, lines = rows[0][0], [0, 0, 0], []
    for step in range(most + 1):
        final = state == rows[-1][7]
        rule = (
            None
            if final
            else next((number for number, row in enumerate(rows, 1) if applies(row, state, tapes, heads)), None)
        )
        told_tapes = " ".join(f"tape {number} {shown(*tape)}" for number, tape in enumerate(zip(tapes, heads), 1))
        lines.append(f"{step} {state} {told_tapes}" + (f" rule {rule}" if rule else ""))
        if final:
            return 0, [*lines, f"halted {step}"]
        if rule is None:
            scanned = " ".join(cells.get(head, BLANK) for cells, head in zip(tapes, heads))
            return 10, [*lines, f"stuck {state} {scanned} {step}"]
        if step == most:
            return 12, [*lines, f"running {step}"]
        row = rows[rule - 1]
        for number, (read, act) in enumerate(zip(row[1:4], row[4:7])):
            if read == "/":
                heads[number] += SHIFTS[act]
            else:
                tapes[number][heads[number]] = act
        state = row[7]
    raise AssertionError("the last turn ends every run")


def rows_of(text):
    return [line.split(",") for line in text.decode().splitlines()]


def drawn_words(draw):
    """A table that may pass both tests, words of its letters, and a greatest number of steps."""
    rows = drawn_quadruples(draw)
    words = ["".join(draw.choice("ab") for _ in range(draw.randrange(4))) for _ in range(3)]
    return rows, words, draw.choice([0, 1, 2, 5, 30])


def places(line):
    """What the tapes hold by a line, or by lines: of each the head, and the symbols but for the blank, by their places."""
    return {
        tape: (
            int(head),
            {int(first) + number: symbol for number, symbol in enumerate(symbols.split()) if symbol != BLANK},
        )
        for tape, first, head, symbols in re.findall(TAPE, line)
    }


def drawn_soon(draw):
    """A machine that halts soon, with its word and its table."""
    while True:
        rows, word, _ = drawn_run(draw)
        status, lines = told(rows_of(answers.answer(["bennett"], table_of(rows).encode())[1]), [word, "", ""], SOON)
        if status == 0:
            return rows, word, lines


def pytest_generate_tests(metafunc):
    draw = random.Random(metafunc.config.getoption("--seed"))
    for name, drawn in (("run", drawn_run), ("words_of_three", drawn_words)):
        if name in metafunc.fixturenames:
            cases = [drawn(draw) for _ in range(metafunc.config.getoption("--drawn") or NUMBER)]
            metafunc.parametrize(name, cases, ids=[f"{number}" for number in range(1, len(cases) + 1)])


@pytest.mark.engine
def test_the_reversible_machine_is_told_moment_by_moment(run, answering):
    rows, word, most = run
    status, table = answers.answer(["bennett"], table_of(rows).encode())
    assert status == 0
    status, text = answers.answer(["moments", f"={word}", str(4 * most)], table)
    assert (status, text.decode().splitlines()) == told(rows_of(table), [word, "", ""], 4 * most)


@pytest.mark.engine
def test_words_on_three_tapes(words_of_three, answering):
    rows, words, most = words_of_three
    table = table_of(rows).encode()
    status, text = answers.answer(["moments", *(f"={word}" for word in words), str(most)], table)
    verdicts = answers.answer(["reversible"], table)[1].decode().splitlines()
    failing = next((line.split() for line in verdicts if " no " in line), None)
    if failing:
        test = "domain" if failing[0] == "deterministic" else "range"
        assert (status, text.decode()) == (4, f"machine: {test} {failing[2]} {failing[3]}\n")
        return
    known = [
        {row[number] for row in rows if row[1 + tape] != "/" for number in (1 + tape, 4 + tape)} for tape in range(3)
    ]
    foreign = next(
        (
            (tape + 1, place)
            for tape, word in enumerate(words)
            for place, letter in enumerate(word, 1)
            if letter not in known[tape]
        ),
        None,
    )
    if foreign:
        assert (status, text.decode()) == (5, f"word: {foreign[0]} {foreign[1]}\n")
        return
    assert (status, text.decode().splitlines()) == told(rows, words, most)


@pytest.mark.engine
def test_the_inverse_goes_through_the_same_moments_backward(run, answering):
    rows, word, most = run
    table = answers.answer(["bennett"], table_of(rows).encode())[1]
    status, text = answers.answer(["moments", f"={word}", str(4 * most)], table)
    forth = text.decode().splitlines()
    if status:
        return
    output = (
        answers.answer(["machine", f"={word}", str(most)], table_of(rows).encode())[1]
        .decode()
        .split("output =")[1]
        .strip()
    )
    status, text = answers.answer(
        ["moments", f"={word}", "=", f"={output}", str(4 * most)], answers.answer(["inverse"], table)[1]
    )
    back = text.decode().splitlines()
    assert status == 0 and back[-1] == forth[-1]
    said = lambda line: line.split(" ", 1)[1].split(" rule ")[0]
    assert [said(line) for line in back[-2::-1]] == [said(line) for line in forth[:-1]]


@pytest.mark.engine
def test_a_word_is_moved_to_another_tape(answering):
    table = b"S,/,_,/,+,_,0,A\nA,1,/,/,_,+,0,B\nB,/,_,/,+,1,0,A\nA,_,/,/,_,0,0,H\n"
    status, text = answers.answer(["moments", "=11", "50"], table)
    assert status == 0 and text.decode().splitlines()[-2:] == [
        "6 H tape 1 from 3 head 3 cells 1: _ tape 2 from 1 head 2 cells 2: 1 1 tape 3 from 0 head 0 cells 1: _",
        "halted 6",
    ]


@pytest.mark.engine
@pytest.mark.parametrize(
    "words, table, status, text",
    [
        (["moments", "=", "5"], b"", 3, b"text: empty\n"),
        (["moments", "=", "5"], b"A,/,_,/,+,2,9,B\n", 3, b"text: record 1 field 7 shift\n"),
        (["moments", "=2", "5"], b"A,/,_,/,+,2,0,B\nA,_,/,/,_,+,0,B\n", 4, b"machine: domain 1 2\n"),
        (["moments", "=2", "5"], b"A,/,_,/,+,1,0,B\nC,/,_,/,+,1,0,B\n", 4, b"machine: range 1 2\n"),
        (["moments", "=2", "5"], b"A,1,_,/,1,2,0,B\n", 5, b"word: 1\n"),
        (["moments", "=1_", "5"], b"A,1,_,/,1,2,0,B\n", 5, b"word: 2\n"),
        (["moments", "=", "=12", "=", "5"], b"A,1,_,/,1,22,0,B\n", 5, b"word: 2 1\n"),
        (["moments", "=11", "=", "=1", "5"], b"A,1,_,/,1,22,0,B\n", 5, b"word: 3 1\n"),
        (["moments", "=3", "=3", "=1", "5"], b"A,1,_,/,1,22,0,B\n", 5, b"word: 1 1\n"),
        (
            ["moments", "=", "0"],
            b"A,/,_,/,+,2,0,B\n",
            12,
            b"0 A tape 1 from 0 head 0 cells 1: _ tape 2 from 0 head 0 cells 1: _ tape 3 from 0 head 0 cells 1: _ rule 1\nrunning 0\n",
        ),
        (
            ["moments", "=1", "5"],
            b"A,1,_,/,1,22,0,B\n",
            10,
            b"0 A tape 1 from 0 head 0 cells 2: _ 1 tape 2 from 0 head 0 cells 1: _ tape 3 from 0 head 0 cells 1: _\nstuck A _ _ _ 0\n",
        ),
        (["moments", "=", "1048577"], b"A,/,_,/,+,2,0,B\n", 2, b"usage\n"),
        (["moments", "=", "=", "5"], b"A,/,_,/,+,2,0,B\n", 2, b"usage\n"),
        (["moments", "5"], b"", 2, b"usage\n"),
    ],
)
def test_what_is_refused_and_the_smallest(words, table, status, text, answering):
    assert answers.answer(words, table) == (status, text)


@pytest.mark.engine
def test_a_long_run_has_a_line_each_moment(answering):
    status, text = answers.answer(["moments", "=", "100000"], b"A,/,_,/,+,_,-,B\nB,_,/,/,_,0,0,A\nC,_,_,_,_,_,_,F\n")
    lines = text.decode().splitlines()
    assert status == 12 and len(lines) == 100_002 and lines[-1] == "running 100000"
    assert lines[-2].startswith(
        "100000 A tape 1 from 50000 head 50000 cells 1: _ tape 2 from 0 head 0 cells 1: _ tape 3 from -50000"
    )


@pytest.mark.engine
def test_sessions_show_the_same_moments(answering, request):
    draw = random.Random(request.config.getoption("--seed"))
    for _ in range(request.config.getoption("--drawn") or PLAYED):
        rows, word, _ = drawn_soon(draw)
        table = table_of(rows).encode()
        reversible = answers.answer(["bennett"], table)[1]
        moments = answers.answer(["moments", f"={word}", str(SOON)], reversible)[1].decode().splitlines()[:-1]
        window = answers.answer(["run", f"={word}", "auto"], table)[1].decode().split("\n")[0].split()[1:]
        states = dict.fromkeys(name for row in rows_of(reversible) for name in (row[0], row[7]))
        breaks = [f"break s{number} state {name}" for number, name in enumerate(states)]
        script = "\n".join([*breaks, *["go 4000000000\nview"] * len(moments)]) + "\n"
        played = (
            answers.answer(["session", f"={word}", *window], table + b"%\n" + script.encode())[1].decode().splitlines()
        )
        views = [played[at : at + 7] for at in range(len(breaks) + 1, len(played), 8)]
        assert [view[2].split()[1] for view in views] == [line.split()[1] for line in moments], f"{word} of {table!r}"
        assert [places("\n".join(view[3:6])) for view in views] == [
            places(line) for line in moments
        ], f"{word} of {table!r}"
