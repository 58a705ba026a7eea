"""Columns, banks and the ways of wires."""
import unittest
from itertools import combinations

import samples
from circuit import MovesByBank, banks_of, columns_of
from wiring import BOX, IN, OUT, plan_of
from workbench_text import Fault, Frame, Line, read_configuration


def pieces_of(points):
    """The level and plumb pieces of a way, as (is upright, coordinate, least, greatest)."""
    for (x, y), (u, v) in zip(points, points[1:]):
        if x == u and y != v:
            yield True, x, min(y, v), max(y, v)
        elif y == v and x != u:
            yield False, y, min(x, u), max(x, u)
        elif (x, y) != (u, v):
            raise AssertionError(f"an oblique piece from {x, y} to {u, v}")


class Columns(unittest.TestCase):
    def test_the_bank_of_two_moves_has_two_columns(self):
        configuration = read_configuration(samples.BANK)
        columns = columns_of(configuration)
        self.assertEqual([(column.rows, column.bottom) for column in columns], [([0, 1], 2), ([3, 4], 5)])
        banks = banks_of(configuration, columns)
        self.assertEqual([bank.elements for bank in banks], [[0, 1, 2, 3, 4, 5]])

    def test_columns_are_found_in_each_bank(self):
        for states, lines in ((1, 1), (1, 4), (3, 1), (5, 6)):
            configuration = samples.bank(states, lines, 0, 7)
            columns = columns_of(configuration)
            self.assertEqual(len(columns), states)
            banks = banks_of(configuration, columns)
            self.assertEqual([len(bank.columns) for bank in banks], [states])

    def test_one_wire_less_is_no_column(self):
        lines = samples.BANK.splitlines()
        for row in range(6, 9):
            words = lines[row].split(" ")
            kept = [0, 2] if row != 8 else [0, 2, 3]
            for output in kept:
                cut = words[:]
                cut[3 + output] = "-"
                text = "\n".join([*lines[:row], " ".join(cut), *lines[row + 1 :]]) + "\n"
                columns = columns_of(read_configuration(text))
                self.assertEqual([column.bottom for column in columns], [5], f"{row} {output}")

    def test_moves_are_told_by_rows_and_marks(self):
        configuration = read_configuration(samples.BANK)
        places = ["0.w", "1.n", "2.n", "0.n", "4.e", "3.s", "5.e", "4.s"]
        turns = [[], [(0, "H")], [], [(2, "V")], [(0, "V")], [(4, "H")], [], [(5, "H")], [(4, "V")]]
        frames = [
            Frame(number, False, Line(int(place[0]), place[2]), turns[number]) for number, place in enumerate(places)
        ]
        frames.append(Frame(8, True, Line(4, "e"), turns[8]))
        moves = MovesByBank(configuration, frames, banks_of(configuration, columns_of(configuration))).moves()
        self.assertEqual(len(moves), 1)
        self.assertEqual((moves[0].before, moves[0].after, moves[0].first, moves[0].last), ([1], [2], 0, 8))
        self.assertEqual(moves[0].came_in, "row 1 (0.w)")
        self.assertEqual(moves[0].went_out, "row 2 (4.e)")


class Wires(unittest.TestCase):
    def circuits(self):
        yield read_configuration(samples.BANK)
        for states, lines in ((4, 4), (9, 11)):
            yield samples.bank(states, lines, 1, 3)
        for seed in range(4):
            yield samples.tangle(3 + 9 * seed, seed)

    def test_wires_lead_from_line_to_line(self):
        for configuration in self.circuits():
            plan = plan_of(configuration, banks_of(configuration, columns_of(configuration)))
            self.assertEqual([(route.out, route.into) for route in plan.routes], list(configuration.wires()))
            for route in plan.routes:
                self.assertEqual(route.points[0], plan.port(route.out, OUT))
                self.assertEqual(route.points[-1], plan.port(route.into, IN))

    def test_no_two_wires_lie_on_one_another(self):
        for configuration in self.circuits():
            plan = plan_of(configuration, banks_of(configuration, columns_of(configuration)))
            lanes = {}
            for route in plan.routes:
                for upright, at, least, greatest in pieces_of(route.points):
                    lanes.setdefault((upright, at), []).append((least, greatest, route.out))
            for pieces in lanes.values():
                for (a, b, one), (c, d, other) in combinations(pieces, 2):
                    self.assertTrue(one == other or b < c or d < a, f"{one} and {other} share a piece")

    def test_no_wire_goes_through_an_element(self):
        half = BOX // 2
        for configuration in self.circuits():
            plan = plan_of(configuration, banks_of(configuration, columns_of(configuration)))
            for route in plan.routes:
                for upright, at, least, greatest in pieces_of(route.points):
                    for x, y in plan.middles:
                        across, along = (x, y) if upright else (y, x)
                        inside = abs(at - across) < half and least < along + half and greatest > along - half
                        self.assertFalse(inside, f"{route.out} goes through the box at {x, y}")

    def test_no_two_elements_stand_at_one_place(self):
        for configuration in self.circuits():
            middles = plan_of(configuration, banks_of(configuration, columns_of(configuration))).middles
            self.assertEqual(len(set(middles)), configuration.count)


class Texts(unittest.TestCase):
    def test_faults_name_their_line(self):
        lines = samples.BANK.splitlines()
        for number, wrong, wanted in (
            (1, "rotary 3", "line 1 isn't"),
            (3, "start 0", "line 3: '0' is no line"),
            (9, "e 2 X - - - -", "line 9 isn't that of element 2"),
            (2, "elements 7", "line 2 says 7"),
        ):
            text = "\n".join([*lines[: number - 1], wrong, *lines[number:]]) + "\n"
            with self.assertRaisesRegex(Fault, wanted):
                read_configuration(text, "it")

    def test_both_versions_spell_one_configuration(self):
        one, two = read_configuration(samples.BANK), read_configuration(samples.BANK_OF_COLUMNS)
        self.assertEqual((one.bars, one.targets, one.place_text), (two.bars, two.targets, two.place_text))

    def test_faults_of_columns_name_their_line(self):
        lines = samples.BANK_OF_COLUMNS.splitlines()
        for number, wrong, wanted in (
            (7, "c 1 2 H", "line 7 isn't that of a column from element 0 on"),
            (9, "r 4.w", "line 9 isn't that of a row"),
            (10, "e 3 V - - -", "line 10 isn't"),
        ):
            text = "\n".join([*lines[: number - 1], wrong, *lines[number:]]) + "\n"
            with self.assertRaisesRegex(Fault, wanted):
                read_configuration(text, "it")
