"""Values of the package beside the program's texts: circuits, traces, layouts, machines as entries, arguments."""
import pathlib
import random
import unittest

import pytest
from sweeping import TOP, answering
import hithwelor
from hithwelor import Circuit, Machine, Moment, ReversibleMachine

INCREMENT, LEAST = (Machine.open(f"{TOP}/examples/{name}.csv") for name in ("increment", "least"))
WINDOW = (0, 2, 2, 1)


def in_version_1(circuit):
    """The text of a circuit in version 1, by its elements."""
    lines = circuit.text.splitlines()[1:6]
    lines += [" ".join(["e", *(str(it) if it is not None else "-" for it in element)]) for element in circuit]
    return "".join(f"{line}\n" for line in ["rotary 1", *lines])


@unittest.skipUnless(answering(), "no engine is here")
class Circuits(unittest.TestCase):
    pytestmark = pytest.mark.engine

    def test_the_elements_of_columns_are_those_of_version_1(self):
        for name in ("two-columns", "eight-rows", "two-elements", "across"):
            circuit = Circuit.open(f"{TOP}/examples/{name}.txt").migrate()
            self.assertEqual(Circuit(in_version_1(circuit)).migrate(), circuit, name)
        circuit = LEAST.compile("", WINDOW).step(12_345)
        self.assertEqual(Circuit(in_version_1(circuit)).migrate(), circuit)
        self.assertEqual(len(list(circuit)), len(circuit))

    def test_steps_go_forward_and_back_and_chunks_end_at_the_exit(self):
        start, draw = LEAST.compile("", WINDOW), random.Random(80)
        chunks = list(start.chunks(7_000))
        self.assertEqual(chunks[-1], start.step(2**62))
        self.assertEqual((chunks[-1].has_left, chunks[-1].steps), (True, LEAST.run("", WINDOW).steps))
        self.assertEqual([it.steps for it in chunks[:-1]], [7_000 * k for k in range(1, len(chunks))])
        for _ in range(5):
            steps = draw.randrange(60_000)
            there = start.step(steps)
            self.assertEqual((there.back(steps), there.steps), (start, steps))
            self.assertEqual(there.mirror().step(steps).mirror().text.splitlines()[5], start.text.splitlines()[5])

    def test_a_chunk_that_would_begin_too_late_is_a_timeout_and_what_was_given_goes_on(self):
        start, last = LEAST.compile("", WINDOW), None
        with self.assertRaisesRegex(TimeoutError, "after element step"):
            for last in start.chunks(10, timeout=0.2):
                pass
        self.assertEqual(last, start.step(last.steps))
        self.assertEqual(list(last.chunks(10**6))[-1], start.step(10**6))

    def test_a_faulty_circuit_is_refused_or_a_value_error(self):
        with self.assertRaises(hithwelor.Refused):
            Circuit("rotary 3\n").step()
        with self.assertRaisesRegex(ValueError, "is.* a circuit"):
            Circuit("rotary 3\n").elements
        self.assertEqual(repr(Circuit("rotary 3\n")), "Circuit('rotary 3\\n'..)")

    def test_a_spot_is_where_the_program_says(self):
        layout = LEAST.layout("", WINDOW)
        for steps in range(0, 60_000, 997):
            view = LEAST.view("", WINDOW, steps)
            spot = layout.spot(int(view.place.split(".")[0]))
            kind = "control" if spot.module.kind == "control" else f"{spot.module.kind} cell {spot.module.cell}"
            self.assertIn(f"module {kind} ", view.module)
        with self.assertRaises(IndexError):
            layout.spot(layout.elements)


@unittest.skipUnless(answering(), "no engine is here")
class Runs(unittest.TestCase):
    pytestmark = pytest.mark.engine

    def test_a_trace_has_each_moment_and_its_outcome(self):
        trace = INCREMENT.trace("1011")
        for number, moment in enumerate(trace):
            self.assertEqual((moment.steps, moment), (number, trace[number]))
            if number < len(trace) - 1:
                rule = INCREMENT.rules[moment.rule - 1]
                self.assertEqual((rule.state, rule.read), (moment.state, moment.tape[moment.tape.head]))
        self.assertEqual((trace.outcome.kind, trace.outcome.steps, trace[-1].rule), ("halted", 11, None))
        self.assertEqual(trace[-1].tape.word, INCREMENT.by_itself("1011").output)
        self.assertEqual([it.steps for it in trace[-2:]], [10, 11])
        self.assertEqual(INCREMENT.trace("1011", 3).outcome.kind, "running")

    def test_symbols_that_are_words_of_the_line_are_read_as_symbols(self):
        moment = Moment.read(
            "7 Q tape 1 from -1 head 0 cells 2: rule tape tape 2 from 0 head 0 cells 1: _ tape 3 from 5 head 5 cells 1: from rule 12"
        )
        self.assertEqual([tape.symbols for tape in moment.tapes], [("rule", "tape"), ("_",), ("from",)])
        self.assertEqual((moment.rule, moment.tapes[0].first, moment.tapes[2].head), (12, -1, 5))

    def test_a_stuck_machine_of_quadruples_tells_its_symbols(self):
        machine = ReversibleMachine.from_rules(
            [("A", "/", "/", "/", "+", "0", "0", "B"), ("B", "1", "_", "/", "1", "_", "0", "C")]
        )
        outcome = machine.moments("").outcome
        self.assertEqual(
            (outcome.kind, outcome.state, outcome.symbols, outcome.letter), ("stuck", "B", ("_", "_", "_"), None)
        )
        self.assertEqual(machine.moments("1").outcome.kind, "halted")

    def test_the_window_of_a_generated_run_is_the_one_that_is_shown(self):
        run = hithwelor.generate(1)
        self.assertEqual(INCREMENT.run("1011", run.window).steps, run.steps)


class Machines(unittest.TestCase):
    def test_machines_are_equal_by_their_entries(self):
        other = Machine(INCREMENT.table.replace("\n", "\r\n").rstrip())
        self.assertEqual((other, hash(other)), (INCREMENT, hash(INCREMENT)))
        self.assertNotEqual(INCREMENT, LEAST)
        self.assertNotEqual(INCREMENT, ReversibleMachine(INCREMENT.table))
        self.assertNotEqual(INCREMENT, INCREMENT.table)
        self.assertEqual(Machine.from_rules(INCREMENT.rules).table, INCREMENT.table)
        self.assertEqual(Machine('"S",_,_,+,T\n').rules[0].state, "S")

    def test_a_repr_fits_on_a_line(self):
        many = Machine.from_rules([(f"State{k}", "_", "_", "+", f"State{k + 1}") for k in range(100)])
        self.assertLess(len(repr(many)), 100)
        self.assertEqual(repr(LEAST), "Machine(2 quintuples; S, T, F)")
        self.assertEqual(repr(Machine("S,_,_,+,T")), "Machine(1 quintuple; S, T)")
        self.assertEqual(repr(Machine("")), "Machine(0 quintuples; )")

    def test_arguments_of_wrong_types_and_sizes_are_named(self):
        for call, kind, part in (
            (lambda: INCREMENT.by_itself("1", 1e3), TypeError, "steps is a whole number, and not float"),
            (lambda: INCREMENT.by_itself("1", 10**12), ValueError, "from 0 to 1,048,576"),
            (lambda: INCREMENT.trace("1", -1), ValueError, "not -1"),
            (lambda: INCREMENT.run(["1"]), TypeError, "the word is a str of letters, and not list"),
            (lambda: INCREMENT.run("1", 5), TypeError, "a window is four numbers"),
            (lambda: INCREMENT.run("1", (1, 2, 3)), ValueError, "and not 3"),
            (lambda: INCREMENT.run("1", (1, 2, 3, 2.5)), TypeError, "r3 is a whole number"),
            (lambda: INCREMENT.run("1", steps=5), ValueError, "needs a window"),
            (lambda: INCREMENT.erase("x"), TypeError, "a Machine, and not str"),
            (lambda: Machine(pathlib.Path("x.csv")), TypeError, "`open` reads a file"),
            (lambda: Circuit(None), TypeError, "a circuit is a text"),
            (lambda: ReversibleMachine("").drive([1], WINDOW), TypeError, "a word is a str"),
            (lambda: ReversibleMachine("").drive(["1", "1"], WINDOW), ValueError, "one word, or three"),
            (lambda: hithwelor.generate(5), ValueError, "from 1 to 4"),
            (lambda: hithwelor.answer(["check"], 7), TypeError, "the input is a str or bytes"),
        ):
            with self.assertRaisesRegex(kind, part):
                call()


if __name__ == "__main__":
    unittest.main()
