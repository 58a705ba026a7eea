"""`element k n` as Morita numbers the reversible elements with one bit of memory (2017, chapter 6): the permutations in
lexicographic order, the classes of elements that differ only in the names of states, inputs and outputs, and the rotary
element, whose class has 289 as its least number."""
import itertools
import math

import pytest
from hithwelor import answers

pytestmark = pytest.mark.engine
# The rotary element by its rule: lines n, e, s, w; along the bar straight on, across it to the right, turning the bar.
ROTARY = [7, 3, 5, 1, 6, 0, 4, 2]
# How many classes there are of elements with so many lines.
CLASSES = {2: 8, 3: 24}


def pairs_of(k, text):
    """The permutation of pairs that a table says, with its entries in order."""
    entries = [tuple(map(int, line.split(","))) for line in text.splitlines()]
    assert [it[:2] for it in entries] == [(j // k + 1, j % k + 1) for j in range(2 * k)]
    return [(q - 1) * k + i - 1 for _, _, q, i in entries]


def least(k, pairs):
    """The first permutation in lexicographic order of those that differ only in names of states, inputs and outputs."""
    found = []
    for state in itertools.permutations(range(2)):
        for into in itertools.permutations(range(k)):
            for out in itertools.permutations(range(k)):
                renamed = [0] * (2 * k)
                for j, pair in enumerate(pairs):
                    renamed[state[j // k] * k + into[j % k]] = state[pair // k] * k + out[pair % k]
                found.append(renamed)
    return min(found)


def number_of(pairs):
    """The place of a permutation in lexicographic order, counted from 0."""
    left, number = sorted(pairs), 0
    for pair in pairs:
        place = left.index(pair)
        left.pop(place)
        number += place * math.factorial(len(left))
    return number


@pytest.fixture
def table(answering):
    """The status and the text of an element."""

    def asked(k, n):
        status, text = answers.answer(["element", str(k), str(n)], b"")
        return status, text.decode()

    return asked


@pytest.mark.parametrize("k", [1, 2, 3])
def test_elements_are_the_permutations_in_order(table, k):
    for number, pairs in enumerate(itertools.permutations(range(2 * k))):
        status, text = table(k, number)
        assert (status, pairs_of(k, text)) == (0, list(pairs))


@pytest.mark.parametrize("k, classes", CLASSES.items())
def test_classes_are_as_many_as_morita_counts(k, classes):
    assert len({tuple(least(k, it)) for it in itertools.permutations(range(2 * k))}) == classes


def test_the_rotary_element_has_number_289(table):
    assert number_of(least(4, ROTARY)) == 289
    status, text = table(4, 289)
    assert (status, pairs_of(4, text)) == (0, least(4, ROTARY))


def test_there_are_no_more(table):
    for k in range(1, 11):
        assert table(k, math.factorial(2 * k)) == (5, "word: number\n")
        assert table(k, math.factorial(2 * k) - 1)[0] == 0
