"""Holds what `layout` prints against the rules alone, and against `view`.

Of drawn machines in standard form, and of the examples, the text is compared with the one that quadruple_rules.py makes of the
quadruples that `bennett` prints: modules, columns and lines, all by docs/use/formats.md. At places all along their runs the module
line of `view` is found in it: the element in a module, by its column and row, and a line's name by its number. And what is
refused is what `compile` refuses, in its words.

The answers are those of the program that --program names, else the library's, or those of node by bin/hithwelor. `--drawn N`
draws so many machines, and `--seed S` others.
"""
import os
import random
import re

import pytest
from places import TOP

import quadruple_rules as rules
from test_ends import drawn_run
from test_traces import table_of

# How many machines are drawn by themselves, and at how many places of each its `view` is looked up.
NUMBER = 20
LOOKS = 50
EXAMPLES = [("least.csv", "", (0, 2, 2, 1)), ("increment.csv", "1011", (0, 5, 11, 5)), ("not.csv", "01", (1, 3, 9, 3))]
pytestmark = pytest.mark.engine


def window_of(word, window):
    """A drawn window with room for the word and for more than the first steps."""
    left, right, most, room = window
    return (left, max(right, len(word), 1), most + 2, room + 2)


def drawn_cases(config):
    draw = random.Random(config.getoption("--seed"))
    found = []
    for _ in range(config.getoption("--drawn") or NUMBER):
        rows, word, window = drawn_run(draw)
        found.append((table_of(rows).encode(), word, window_of(word, window), draw.random()))
    return found


def pytest_generate_tests(metafunc):
    if "drawn" in metafunc.fixturenames:
        found = drawn_cases(metafunc.config)
        metafunc.parametrize("drawn", found, ids=[f"{number}" for number in range(1, len(found) + 1)])


def rows_of(text):
    return [line.split(",") for line in text.decode().splitlines()]


def done(asks, words, data):
    status, text = asks(words, data)
    assert status == 0, (words, text[:200])
    return text


def hold_text(asks, table, word, window):
    """The text is that of the rules; it is given."""
    wanted = rules.layout(rows_of(done(asks, ["bennett"], table)), window)
    text = done(asks, ["layout", f"={word}", *window], table).decode()
    assert text == wanted
    return text


class Looked:
    """A text of `layout` in which places are looked up."""

    def __init__(self, text):
        module = r"(?m)^module \d+ (control|tape \d cell -?\d+) from (\d+) columns (\d+) lines (\d+)$"
        self.modules = [(name, *map(int, numbers)) for name, *numbers in re.findall(module, text)]
        self.count = int(re.match(r"elements (\d+)\n", text)[1])
        line = r"(?m)^line (\d+) of (control|tape \d) (?:in )?(.*?)(?: out .*)?$"
        self.lines = {(of, int(number)): name for number, of, name in re.findall(line, text)}

    def module_line(self, place):
        """What `view` has to say of a signal that is about to enter this line."""
        element, side = place.split(".")
        name, first, _, lines = max((it for it in self.modules if it[1] <= int(element)), key=lambda it: it[1])
        column, row = divmod(int(element) - first, lines + 1)
        line = self.lines[name.partition(" cell")[0], row] if column == 0 and side == "w" and row < lines else None
        return f"module {name} inside" if line is None else f"module {name} line {line}"


def hold_views(asks, case, draw, looks):
    """At so many places of the run the line of the module is the one that is looked up; how many the signal had not left."""
    table, word, window = case
    looked, inside = Looked(done(asks, ["layout", f"={word}", *window], table).decode()), 0
    ran = asks(["run", f"={word}", *window], table)[1].decode()
    assert ran.startswith(f"elements {looked.count}\n")
    steps = int(re.search(r"(?m)^steps (\d+)$", ran)[1])
    for step in [0, *(draw.randrange(steps + 1) for _ in range(looks - 1))]:
        view = done(asks, ["view", f"={word}", *window, step], table).decode().splitlines()
        found = re.fullmatch(r"element (at|left) (\S+) steps (\d+)", view[0])
        assert int(found[3]) == step and int(found[2].split(".")[0]) < looked.count
        if found[1] == "at":
            assert view[1] == looked.module_line(found[2]), (case, step)
            inside += 1
    return inside


@pytest.mark.parametrize("name, word, window", EXAMPLES)
def test_an_examples_text_is_that_of_the_rules(name, word, window, asks):
    with open(os.path.join(TOP, "examples", name), "rb") as file:
        hold_text(asks, file.read(), word, window)


def test_a_drawn_text_is_that_of_the_rules(drawn, asks):
    table, word, window, _ = drawn
    hold_text(asks, table, word, window)


def test_what_view_names_is_looked_up(drawn, asks, comparisons):
    table, word, window, seed = drawn
    comparisons(hold_views(asks, (table, word, window), random.Random(seed), LOOKS))


@pytest.mark.parametrize(
    "words, table",
    [
        (["=", 0, 2, 2, 1], b""),
        (["=", 0, 2, 2, 1], b"S,_,_,+\n"),
        (["=", 0, 2, 2, 1], b"S,_,_,+,T\nT,_,_,+,F\n"),
        (["=12", 0, 2, 2, 1], b"S,_,_,+,T\nT,_,_,0,F\n"),
        (["=1", 0, 0, 2, 1], b"S,_,_,+,T\nT,1,1,+,T\nT,_,_,0,F\n"),
        (["=", 0, 1048576, 2, 1], b"S,_,_,+,T\nT,_,_,0,F\n"),
        (["=12", 0, 0, 2, 1], b"S,_,_,+,T\nT,1,1,+,T\nT,_,_,0,F\n"),
        (["=11", 0, 1, 1048576, 1], b"S,_,_,+,T\nT,1,1,+,T\nT,_,_,0,F\n"),
    ],
)
def test_what_is_refused_is_what_compile_refuses(words, table, asks):
    refused = asks(["compile", *words], table)
    assert refused[0] in (3, 4, 5, 6) and asks(["layout", *words], table) == refused


@pytest.mark.parametrize(
    "words",
    [["="], ["=", 0, 2, 2], ["=", 0, 2, 2, 1, 1], ["1", 0, 2, 2, 1], [":", 0, 2, 2, 1], ["=", 0, 2, 2, 1048577]],
)
def test_words_without_a_form(words, asks):
    assert asks(["layout", *words], b"") == (2, b"usage\n")
