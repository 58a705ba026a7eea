"""Texts of the program as values: tapes as sequences by position, and refusals that are pickled and copied."""
import copy
import pickle
import unittest

import sweeping  # noqa: F401 (the package's folder)
from hithwelor import Refused, Tape

TAPE = Tape.read("tape 1 from -2 head 0: _ 1 _ 0 _")
NAMED = Tape.read("tape 3 from 5 head ?: _ _a _ b_ _ _")


class Tapes(unittest.TestCase):
    def test_a_loop_gives_each_cell_from_the_first_one_shown(self):
        self.assertEqual(list(TAPE), ["_", "1", "_", "0", "_"])
        self.assertEqual(list(reversed(TAPE)), ["_", "0", "_", "1", "_"])
        self.assertEqual((len(TAPE), list(TAPE.positions)), (5, [-2, -1, 0, 1, 2]))
        self.assertEqual([TAPE[place] for place in TAPE.positions], list(TAPE))
        self.assertEqual(dict(zip(NAMED.positions, NAMED)), {5: "_", 6: "_a", 7: "_", 8: "b_", 9: "_", 10: "_"})
        self.assertIn("b_", NAMED)

    def test_a_position_that_is_not_shown_is_an_index_error(self):
        for place in (-3, 3):
            with self.assertRaisesRegex(IndexError, "tape 1 is shown from -2 to 2"):
                TAPE[place]
        for place in (slice(0, 2), "0", 1.0):
            with self.assertRaises(TypeError):
                TAPE[place]

    def test_the_word_keeps_the_underscores_of_names(self):
        self.assertEqual((TAPE.word, NAMED.word), ("1_0", "_a _ b_"))
        self.assertEqual(Tape.read("tape 2 from 0 head 0: _ _").word, "")


class Refusals(unittest.TestCase):
    def test_they_are_pickled_and_copied(self):
        refused = Refused(5, "word: 3\n")
        for other in (pickle.loads(pickle.dumps(refused)), copy.copy(refused), copy.deepcopy(refused)):
            self.assertEqual((other.status, other.text, str(other)), (5, "word: 3\n", "word: 3 (status 5, word)"))


if __name__ == "__main__":
    unittest.main()
