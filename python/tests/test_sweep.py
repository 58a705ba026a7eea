"""The sweep: its cases, its rows, what it compares, how it goes on after a kill, and what it says to bad input."""
import os
import signal
import subprocess
import sys
import time
import unittest

from sweeping import (
    ENDLESS,
    INCREMENT,
    LEAST,
    PACKAGES,
    PATIENCE,
    TOP,
    Sweeps,
    needs,
    python_with,
    whole,
    without_seconds,
)
from hithwelor import answers
from hithwelor.faults import Fault
from hithwelor.sweep import cases, command, rows, table


class Cases(unittest.TestCase):
    def test_all_words_come_by_length(self):
        words = cases.AllWords("01", 0, 2)
        self.assertEqual([words[number] for number in range(words.count)], ["", "0", "1", "00", "01", "10", "11"])
        self.assertEqual(cases.AllWords("", 0, 3).count, 1)
        self.assertEqual(cases.AllWords("abc", 2, 2)[8], "cc")
        self.assertEqual(cases.AllWords("01", 30, 30)[2**29 + 5], "1" + "0" * 26 + "101")

    def test_drawn_words_are_the_same_in_each_run(self):
        self.assertEqual(cases.drawn("01", 0, 5, 6, 3).words, cases.drawn("01", 0, 5, 6, 3).words)
        self.assertEqual(cases.drawn("01", 4, 4, 5, 1).words, ["1100", "1100", "0100", "0110", "1100"])

    def test_parts_are_all_groups_once(self):
        plan = cases.Plan(
            (cases.Table("a", b""),) * 2, (cases.AllWords("01", 0, 2), cases.Listed(["x"])), (cases.Kind("machine"),)
        )
        bounds = [plan.part(number, 3) for number in (1, 2, 3)]
        self.assertEqual(bounds, [(0, 2), (2, 5), (5, 8)])
        self.assertEqual([words for _, words in plan.batch(5, 8).parts], [("10", "11"), ("x",)])
        none = cases.Plan(plan.tables, (cases.AllWords("", 1, 2), plan.words[1]), plan.kinds)
        self.assertEqual([words for _, words in none.batch(0, 1).parts], [("x",)])

    def test_the_machine_of_increments_is_the_one_that_is_generated(self):
        self.assertEqual(cases.generated("generate:1").letters, "01")
        self.assertEqual(cases.increments(4).count(b"\n"), 37)


class Comparison(unittest.TestCase):
    def row(self, outcome, steps="", quadruples="", output="", status="0"):
        return ["m", "f", "w", "", status, outcome, steps, quadruples, "", output, "0"]

    def test_quadruple_steps_are_those_of_the_headline(self):
        machine = self.row("halted", "11", output="1100")
        self.assertTrue(rows.agrees(machine, self.row("end", "9", "65", "1100")))
        self.assertFalse(rows.agrees(machine, self.row("end", "9", "66", "1100")))
        self.assertFalse(rows.agrees(machine, self.row("end", "9", "65", "1101")))
        self.assertFalse(rows.agrees(machine, self.row("stuck Go 1", "9", status="10")))

    def test_what_has_no_answer_is_not_compared(self):
        machine = self.row("halted", "11", output="1100")
        for other in (
            self.row("window 1 left", "9", status="11"),
            self.row("word: 1", status="5"),
            self.row("time", status=""),
        ):
            self.assertIsNone(rows.agrees(machine, other))
        self.assertIsNone(rows.agrees(self.row("running", "9", status="12"), self.row("end", "9", "65", "1100")))
        self.assertTrue(rows.agrees(self.row("stuck Go 1", "1", status="10"), self.row("stuck Go 1", "9", status="10")))


class Rows(Sweeps):
    def test_each_form_has_its_counts(self):
        words = self.file("words", "1011\n")
        self.assertEqual(
            self.sweep(INCREMENT, "--words", words, "--form", "machine", "run", "compile", "--window", "0,5,11,5"),
            [
                f"{INCREMENT},machine,1011,,0,halted,11,,,1100",
                f"{INCREMENT},run,1011,0 5 11 5,0,end,2507884,65,14136,1100",
                f"{INCREMENT},compile,1011,0 5 11 5,0,compiled,,,14136,",
            ],
        )

    def test_windows_are_found_and_erased_machines_counted(self):
        machine = os.path.join(TOP, "examples", "not.csv")
        self.assertEqual(
            self.sweep(machine, "--length", 1, "--letters", "1", "--form", "erase", "run", "compile"),
            [
                f"{machine},erase,1,,0,halted,,58,,0",
                f"{machine},run,1,1 2 8 2,0,end,618518,29,7580,0",
                f"{machine},compile,1,1 2 8 2,0,compiled,,,7580,",
            ],
        )

    def test_a_machine_is_brought_into_standard_form_where_that_is_asked(self):
        machine = os.path.join(TOP, "examples", "complement.csv")
        self.assertEqual(
            self.sweep(machine, "--words", self.file("words", "1011\n"), "--standard"),
            [f"{machine},standard machine,1011,,0,halted,11,,,0100"],
        )

    def test_the_machine_agrees_with_its_circuit(self):
        status, out, said = self.call("sweep", INCREMENT, "--up-to", 3, "--check", "--out", self.table, "--jobs", 2)
        self.assertEqual((status, out, said), (0, "15 agree, 0 differ\n", ""))
        self.assertEqual(self.content().count(b"\n"), 31)

    def test_words_of_the_package_are_no_commands_of_the_program(self):
        for word in ("sweep", "plot"):
            self.assertEqual(answers.answer([word]), (2, b"usage\n"))


def children_of(running):
    """The numbers of the processes that a process has started, in order."""
    found = []
    for task in os.listdir(f"/proc/{running.pid}/task"):
        with open(f"/proc/{running.pid}/task/{task}/children", encoding="utf-8") as file:
            found += map(int, file.read().split())
    return sorted(found)


def workers_of(running):
    """The numbers of the processes that answer for it; Python's own tracker of resources is none."""

    def words(child):
        with open(f"/proc/{child}/cmdline", "rb") as file:
            return file.read()

    return [child for child in children_of(running) if b"spawn_main" in words(child)]


@unittest.skipUnless(os.path.exists("/proc/self/task"), "there is no /proc")
class Resumed(Sweeps):
    WORDS = [INCREMENT, "--up-to", 4, "--form", "machine", "run", "--jobs", 2]

    def end_in_the_middle(self, how):
        """A sweep that is ended in the middle, once more where it was faster: what it said, and the processes below it."""
        for _ in range(10):
            running = self.start("sweep", *self.WORDS, "--out", self.table, stderr=subprocess.PIPE)
            self.wait_for_rows(9, running)
            below = children_of(running)
            running.send_signal(how)
            said = running.communicate(timeout=PATIENCE)[1].decode()
            if running.returncode:
                return running.returncode, said, below
            os.remove(self.table)
        self.fail("ten sweeps were whole before they could be ended")

    def kill(self, how):
        """A sweep that is ended in the middle; the processes below it are gone soon."""
        status, said, below = self.end_in_the_middle(how)
        until = time.monotonic() + 10
        while any(os.path.exists(f"/proc/{child}") for child in below) and time.monotonic() < until:
            time.sleep(0.05)
        self.assertEqual([child for child in below if os.path.exists(f"/proc/{child}")], [])
        return status, said

    def assert_goes_on(self):
        self.assertLess(self.content().count(b"\n"), 63)
        status, out, said = self.call("sweep", *self.WORDS, "--out", self.table, "--resume", "--check")
        self.assertEqual((status, out, said), (0, "31 agree, 0 differ\n", ""))
        self.assertEqual(without_seconds(self.content()), without_seconds(whole(4)))

    def test_after_a_kill_no_row_is_lost_and_none_is_there_twice(self):
        self.kill(signal.SIGKILL)
        with open(self.table, "ab") as file:
            file.write(b"a torn li")
        self.assert_goes_on()

    def test_ctrl_c_leaves_a_table_that_can_be_gone_on_with(self):
        status, said = self.kill(signal.SIGINT)
        self.assertEqual(status, 130)
        self.assert_line(said, "stopped; the same words with --resume go on")
        self.assert_goes_on()

    def test_sigterm_leaves_the_same_table_and_no_warning(self):
        status, said = self.kill(signal.SIGTERM)
        self.assertEqual(status, 143)
        self.assert_line(said, "stopped; the same words with --resume go on")
        self.assert_goes_on()

    def test_ctrl_c_and_a_death_end_no_sweep_of_large_batches_by_waiting(self):
        words = self.file("words", "".join(f"{number:060b}\n" for number in range(0, 2**60, 2**60 // 300_000)))
        running = self.start(
            "sweep", INCREMENT, "--words", words, "--jobs", 2, "--out", self.table, stderr=subprocess.PIPE
        )
        self.wait_for_rows(1000, running)
        os.kill(workers_of(running)[0], signal.SIGKILL)
        self.wait_for_rows(5000, running)
        running.send_signal(signal.SIGINT)
        said = running.communicate(timeout=PATIENCE)[1].decode()
        self.assertEqual(running.returncode, 130, said)
        self.assert_line(said, "stopped; the same words with --resume go on")

    def test_a_process_that_dies_loses_nothing(self):
        running = self.start("sweep", *self.WORDS, "--check", "--out", self.table, stdout=subprocess.PIPE)
        self.wait_for_rows(9, running)
        for worker in workers_of(running)[-1:]:
            os.kill(worker, signal.SIGKILL)
        out, _ = running.communicate(timeout=PATIENCE)
        self.assertEqual((running.returncode, out), (0, b"31 agree, 0 differ\n"))
        self.assertEqual(without_seconds(self.content()), without_seconds(whole(4)))

    def test_a_table_is_never_overwritten_nor_gone_on_with_by_other_words(self):
        self.assertEqual(self.call("sweep", LEAST, "--up-to", 0, "--out", self.table)[0], 0)
        before = self.content()
        self.assert_line(self.call("sweep", LEAST, "--up-to", 0, "--out", self.table)[2], "is there", "--resume")
        status, _, said = self.call("sweep", INCREMENT, "--up-to", 1, "--out", self.table, "--resume")
        self.assertEqual(status, 2)
        self.assert_line(said, "line 2 isn't of this sweep")
        self.assertEqual(self.content(), before)

    def test_parts_are_joined_to_the_same_table(self):
        words = ["sweep", INCREMENT, "--up-to", 3, "--check", "--jobs", 1, "--out"]
        self.assertEqual(self.call(*words, self.table, "--part", "2/2")[:2], (0, "8 agree, 0 differ\n"))
        status, _, said = self.call("sweep", "join", self.table)
        self.assertEqual(status, 2)
        self.assert_line(said, "table.1-of-2.csv isn't there")
        self.assertEqual(self.call(*words, self.table, "--part", "1/2")[:2], (0, "7 agree, 0 differ\n"))
        self.assertEqual(self.call("sweep", "join", self.table)[:2], (0, "15 agree, 0 differ\n"))
        self.assertEqual(without_seconds(self.content()), without_seconds(whole(3)))
        self.assertEqual(table.parts_of(self.table), [table.part_name(self.table, number, 2) for number in (1, 2)])


class Long(Sweeps):
    def test_a_case_that_takes_too_long_has_its_row_and_the_sweep_goes_on(self):
        words = ["sweep", self.file("endless.csv", ENDLESS), "--up-to", 1, "--form", "run", "--seconds", 4, "--jobs", 1]
        status, out, said = self.call(*words)
        self.assertEqual(status, 0)
        self.assert_line(said, "took too long: 1")
        late, ended = out.splitlines()[1:]
        self.assertIn(",run,,auto,,time,,,,,", late)
        self.assertLess(float(late.rsplit(",", 1)[1]), 20)
        self.assertIn(",run,0,1 2 4 1,0,end,216636,17,3756,,", ended)

    def test_a_line_tells_how_far_it_is(self):
        words = ["sweep", INCREMENT, "--up-to", 4, "--jobs", 1]
        said = self.said_on_a_terminal(*words, blocked=["tqdm"])
        self.assertRegex(said, r"31 of 31 rows, [\d,]+ a second, 0 s left")
        self.assertEqual(self.call(*words)[2], "")

    @needs("tqdm")
    def test_the_line_is_that_of_tqdm_where_it_is_installed(self):
        said = self.said_on_a_terminal("sweep", INCREMENT, "--up-to", 4, "--jobs", 1, python=python_with("tqdm"))
        self.assertRegex(said, r"31/31 .* rows/s")

    @unittest.skipUnless(os.path.exists("/dev/full"), "there is no /dev/full")
    def test_a_full_device_says_its_cause(self):
        status, _, said = self.call("sweep", LEAST, "--up-to", 0, "--out", "/dev/full")
        self.assertEqual(status, 8)
        self.assert_line(said, "/dev/full: No space left on device")


class Wrong(Sweeps):
    def test_a_table_that_is_none_and_a_foreign_letter_have_rows_and_the_others_too(self):
        none = self.file("none.csv", "no table\n")
        status, out, said = self.call("sweep", none, INCREMENT, "--words", self.file("words", "1x\n1\n"))
        self.assertEqual(status, 0)
        self.assert_line(said, "tell a refusal: 3, the first", "text: record 1 fields", "isn't a table of quintuples")
        self.assertEqual(
            [line.split(",")[4:6] for line in out.splitlines()[1:]],
            [["3", "text: record 1 fields"]] * 2 + [["5", "word: 2"], ["0", "halted"]],
        )

    def test_a_folder_without_machines_is_told_and_passed_over(self):
        status, out, said = self.call("sweep", self.folder, LEAST, "--up-to", 0)
        self.assertEqual((status, out.count("\n")), (0, 2))
        self.assert_line(said, "no file of this folder ends in .csv")
        self.assertEqual(self.call("sweep", self.folder, "--up-to", 0)[0], 2)

    def test_a_sweep_without_an_engine_leaves_no_table(self):
        bare = {"PATH": self.blocks, "PYTHONPATH": PACKAGES, "PYTHONDONTWRITEBYTECODE": "1"}
        script = "import sys; from hithwelor import answers, __main__; answers.SHARED = []; sys.exit(__main__.main(sys.argv[1:]))"
        words = ["sweep", LEAST, "--up-to", "2", "--out", self.table]
        ran = subprocess.run([sys.executable, "-c", script, *words], env=bare, capture_output=True, text=True)
        self.assertEqual((ran.returncode, os.listdir(self.folder)), (1, []))
        self.assert_line(ran.stderr, "no engine is here: install Node.js 18 or later")

    def test_words_that_have_no_form_say_what_to_do(self):
        for words, part in (
            ([LEAST], "--up-to"),
            ([LEAST, "--up-to", "01x"], "is no number"),
            ([LEAST, "--up-to", 1, "--resume"], "--out"),
            (["nonesuch.csv", "--up-to", 1], "No such file"),
            (["generate:0", "--up-to", 1], "from 1 to 444"),
            ([LEAST, "--up-to", 1, "--form", "run", "--window", "1,2"], "l1,r1,n,r3"),
            ([LEAST, "--up-to", 1, "--part", "3/2"], "K from 1 to N"),
            ([LEAST, "--words", self.file("w")], "no word"),
            ([LEAST, "--up-to", 1, "--form", "run", "--check"], "name both"),
        ):
            ran = [str(word) for word in words]
            with self.assertRaises(Fault, msg=ran) as told:
                command.sweep(ran)
            self.assertIn(part, str(told.exception))
            self.assertNotIn("\n", str(told.exception))
        status, out, said = self.call("sweep", LEAST)
        self.assertEqual((status, out), (2, ""))
        self.assert_line(said, "hithwelor sweep: ", "--up-to")
