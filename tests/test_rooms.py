"""Holds what `room` prints against the rules of docs/use/formats.md, which quadruple_rules.py has once more, and against `drive`.

Of drawn machines of quadruples, of which some stop, some are stuck and some go left of their start, the answer is the one of the
rules; in the window that is printed `drive` ends, with any number less it leaves by a window, or a word does not fit; and what
is refused is what `build` refuses. The answers are those of the program that --program names, else the library's, or those of
Node.js by bin/hithwelor."""
import random
from pathlib import Path

import pytest
import quadruple_rules

pytestmark = pytest.mark.engine
EXAMPLES = Path(__file__).resolve().parents[1] / "examples"
DONE, WINDOW, INSIDE = 0, 11, 12
WIDE = [9, 9, 9, 9]
MOST = 2**61


@pytest.fixture
def ask(asks):
    """The status and the text of an answer."""
    return lambda words, text: (lambda it: (it[0], it[1].decode()))(asks([str(word) for word in words], text.encode()))


def drawn_act(draw):
    """What a quadruple reads and does on each tape: it shifts heads, or reads some tapes."""
    acts = [("/", draw.choice("-0+")) for _ in range(3)]
    if draw.random() < 0.5 and any(act != "0" for _, act in acts):
        return acts
    for tape in draw.sample(range(3), draw.randrange(1, 4)):
        acts[tape] = (draw.choice("__ab"), draw.choice("_ab"))
    return acts


def drawn_machine(draw):
    """A table whose states follow one another, or one that goes to and fro on tape 1; with a fault in one of six."""
    acts = [drawn_act(draw) for _ in range(draw.randrange(1, 9))]
    rows = [
        [f"q{number}", *(read for read, _ in act), *(act for _, act in act), f"q{number + 1}"]
        for number, act in enumerate(acts)
    ]
    if draw.random() < 0.2:
        rows = [row.split(",") for row in ("S,_,/,/,a,0,0,R", "R,/,/,/,+,0,0,A", "A,_,/,/,_,0,0,R", "A,a,/,/,a,0,0,F")]
    if draw.random() < 0.16:
        rows.insert(draw.randrange(len(rows) + 1), draw.choice(rows))
    return rows


def drawn_words(draw):
    """A word on tape 1, or one on each tape: the exact arguments."""
    word = lambda: draw.choice(["", "a", "b", "ab", "aa", "c" if draw.random() < 0.2 else "a"])
    return [
        f"={it}" if draw.random() < 0.7 else f":{','.join(it)}" for it in (word() for _ in range(draw.choice([1, 3])))
    ]


def letters_of(arguments):
    """The word on each of the three tapes."""
    words = [it[1:] if it[0] == "=" else it[1:].replace(",", "") for it in arguments]
    return words + [""] * (3 - len(words))


def exit_of(ask, table, arguments, window):
    """The exit by which `drive` leaves in a window, or the refusal."""
    status, text = ask(["drive", *arguments, *window, MOST], table)
    return text.rstrip("\n") if status == 6 else text.splitlines()[1]


def hold_window(ask, table, arguments, told):
    """`drive` ends in this window, and in a greater one; it does not with any number less."""
    window = list(map(int, told.split()[1:]))
    end = exit_of(ask, table, arguments, window)
    assert end == "exit end" or end.startswith("exit stuck"), (window, end)
    assert exit_of(ask, table, arguments, [number + 1 for number in window]) == end
    for place, number in enumerate(window):
        if number:
            smaller = [*window[:place], number - 1, *window[place + 1 :]]
            assert exit_of(ask, table, arguments, smaller).startswith(("exit window", "size: word")), (window, smaller)


@pytest.mark.parametrize("seed", range(60))
def test_rooms_of_drawn_machines(ask, seed):
    draw = random.Random(seed)
    rows, arguments = drawn_machine(draw), drawn_words(draw)
    table = "".join(f"{','.join(row)}\n" for row in rows)
    refused = ask(["build", *arguments, *WIDE], table)
    for most in (0, 1, 3, 30):
        answer = ask(["room", *arguments, most], table)
        if refused[0] not in (DONE, 6):
            assert answer == refused
            continue
        assert answer == quadruple_rules.room(rows, letters_of(arguments), most), (table, arguments, most)
    if refused[0] == DONE and answer[0] == DONE:
        hold_window(ask, table, arguments, answer[1])
    if refused[0] == DONE and answer[0] == WINDOW:
        assert exit_of(ask, table, arguments, WIDE) == f"exit window {answer[1].split()[1]} left"


@pytest.mark.parametrize(
    "name, arguments, told",
    [
        ("counter", ["=110"], "room 0 3 0 0\n"),
        ("adder", ["=11", ":1,1,0", "="], "room 0 3 3 3\n"),
        ("controlled-not", ["=11"], "room 0 2 1 0\n"),
    ],
)
def test_rooms_of_examples(ask, name, arguments, told):
    table = (EXAMPLES / f"{name}.csv").read_text()
    assert ask(["room", *arguments, 1000], table) == (DONE, told)
    hold_window(ask, table, arguments, told)


ENDLESS = "S,_,/,/,1,0,0,R\nR,/,/,/,+,0,0,A\nA,_,/,/,_,0,0,R\nC,_,/,/,_,0,0,F\n"


@pytest.mark.parametrize(
    "words, table, answer",
    [
        (["=", 7], ENDLESS, (INSIDE, "running 7\n")),
        (["=", 1], "S,/,/,/,0,-,-,F\n", (WINDOW, "none 2\n")),
        (["=", 0], "S,/,/,/,0,-,-,F\n", (INSIDE, "running 0\n")),
        (["=", 1], "S,/,/,/,-,0,-,F\n", (WINDOW, "none 3\n")),
        (["=", 1], "S,/,/,/,-,0,0,F\n", (DONE, "room 1 0 0 0\n")),
        (["=1", "=", "=", 10], "S,/,/,/,+,+,+,A\nA,1,/,1,1,0,1,F\n", (DONE, "room 0 1 1 1\n")),
        (["=", "=", "=1", 0], "S,/,/,/,+,+,+,A\nA,1,/,1,1,0,1,F\n", (INSIDE, "running 0\n")),
        (["=1", 9], ENDLESS.replace("S,_", "S,/"), (3, "text: record 1 field 5 shift\n")),
        (["=1", 9], ENDLESS + "A,_,/,/,_,0,0,R\n", (4, "machine: domain 3 5\n")),
        (["=1", 9], "S,/,/,/,0,0,0,F\n", (4, "machine: silent 1\n")),
        (["=2", 9], ENDLESS, (5, "word: 1\n")),
        (["=", "=", ":1", 9], ENDLESS, (5, "word: 3 1\n")),
        (["=", 1048577], ENDLESS, (2, "usage\n")),
        (["=", "=", 9], ENDLESS, (2, "usage\n")),
        (["="], ENDLESS, (2, "usage\n")),
    ],
)
def test_rooms_and_refusals(ask, words, table, answer):
    assert ask(["room", *words], table) == answer


def test_a_tape_with_too_many_symbols_is_refused(ask):
    rows = "".join(f"q{i},{i},/,/,{i},0,0,q{i + 1}\n" for i in range(4001))
    assert ask(["room", "=", 9], rows) == (6, "size: symbols 1 4002\n")
