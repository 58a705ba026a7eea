"""Sentences of docs/use/formats.md that a second implementation could read otherwise, each with what the program answers."""
import os

import hithwelor
import pytest
from hithwelor import answers
from places import TOP

pytestmark = pytest.mark.engine
LEAST = hithwelor.Machine.open(os.path.join(TOP, "examples", "least.csv"))
WINDOW = (0, 2, 2, 1)
ROOM = [str(it) for it in WINDOW]


def test_symbols_of_the_controls_states_are_numbers(answering):
    """Tape 2 has the blank and the numbers of two quintuples: `reads A3 0 2` is after the symbol 2, which is named 2 too."""
    adder = hithwelor.Machine.from_rules(
        [
            ("S", "_", "_", "+", "Q"),
            ("Q", "a", "a", "+", "Q"),
            ("Q", "_", "_", "-", "H"),
            ("H", "a", "a", "-", "H"),
            ("H", "_", "_", "0", "F"),
        ]
    )
    names = adder.layout("a", (0, 2, 6, 2)).columns["control"]
    after = [word for name in names if name.startswith(("reads", "writes")) for word in name.split(" ")[2:]]
    assert (
        after
        and all(word.isdigit() for word in after)
        and "plain a" in adder.layout("a", (0, 2, 6, 2)).columns["tape 1"]
    )


@pytest.mark.parametrize(
    "name, fault", [("A_1", "form"), ("R R", "form"), ("A" * 33, "form"), ("A" * 32, "no state"), ("Nope", "no state")]
)
def test_a_name_that_has_not_the_form_of_a_states_name_is_form(answering, name, fault):
    for machine, play in ((LEAST, LEAST.session), (LEAST.reversible(), LEAST.reversible().play)):
        with pytest.raises(hithwelor.Refused) as told:
            play("", WINDOW, [f"break b state {name}"])
        assert told.value.text == f"text: script line 1 {fault}\n"


def test_a_head_is_not_told_while_no_column_of_its_own_cell_is_marked(answering, comparisons):
    machine, layout = LEAST.reversible(), LEAST.layout("", WINDOW)
    unknown = 0
    for steps in range(2200, 2300):
        run = machine.drive("", WINDOW, steps)
        spot = layout.spot(int(run.text.splitlines()[1].split(" ")[1].split(".")[0]))
        for tape in run.tapes:
            if tape.head is None:
                unknown += 1
                assert spot.module.tape == tape.number and tape[spot.module.cell] == "?"
            else:
                assert "?" not in tape.symbols
        comparisons(1)
    assert unknown == 8


@pytest.mark.parametrize(
    "words",
    [
        ["trace", b"=\xff", "5"],
        ["machine", b"=\xff", "5"],
        ["moments", "=", b"=1\xff", "=", "5"],
        ["run", b"=\xff", "auto"],
        ["build", b":\xff", *ROOM],
        [b"check\xff"],
    ],
    ids=str,
)
def test_a_word_that_is_not_utf_8_is_usage(answering, words):
    assert answers.answer(words, LEAST.table) == (2, b"usage\n")


def test_a_letter_that_is_utf_8_and_not_in_the_table_is_told_by_its_place(answering):
    assert answers.answer(["trace", "=\u00e9", "5"], LEAST.table) == (5, b"word: 1\n")
