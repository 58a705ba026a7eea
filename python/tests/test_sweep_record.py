"""The record beside a table: a machine that has changed since its rows were made isn't gone on with, nor joined."""
import os
import re
import subprocess

from sweeping import INCREMENT, LEAST, Sweeps

# As examples/least.csv, with a state of another name.
OTHER = "S,_,_,+,Other\nOther,_,_,0,F\n"


class Recorded(Sweeps):
    def setUp(self):
        super().setUp()
        with open(LEAST, encoding="utf-8") as file:
            self.least = file.read()
        self.machine = self.file("machine.csv", self.least)
        self.words = ["sweep", "machine.csv", "--up-to", 0, "--jobs", 1, "--out", "table.csv"]
        self.record = self.table + ".machines"

    def run_well(self, *words):
        status, _, said = self.call(*words)
        self.assertEqual((status, said), (0, ""))

    def assert_refused(self, words, *parts):
        """One line refuses it, and the table stays as it is."""
        before = self.content()
        status, out, said = self.call(*words)
        self.assertEqual((status, out), (2, ""))
        self.assert_line(said, *parts)
        self.assertEqual(self.content(), before)

    def test_it_is_as_sha256sum_writes_it(self):
        self.run_well("sweep", "machine.csv", INCREMENT, "generate:1", "--length", 0, "--out", "table.csv")
        told = subprocess.check_output(["sha256sum", "machine.csv", INCREMENT], cwd=self.folder)
        self.assertEqual(self.content(self.record), told)

    def test_a_machine_that_has_changed_is_not_gone_on_with(self):
        self.run_well(*self.words)
        self.file("machine.csv", OTHER)
        self.assert_refused([*self.words, "--resume"], "machine.csv has changed", "--out")
        self.file("machine.csv", self.least)
        self.run_well(*self.words, "--resume")

    def test_a_machine_without_rows_may_have_changed(self):
        self.file("second.csv", self.least)
        self.run_well(*self.words)
        self.file("second.csv", OTHER)
        more = ["sweep", "machine.csv", "second.csv", *self.words[2:], "--resume"]
        self.run_well(*more)
        self.assertEqual(self.content(self.record).count(b"\n"), 2)
        self.file("second.csv", self.least)
        self.assert_refused(more, "second.csv has changed")

    def test_the_machine_back_is_recorded_where_erase_takes_it(self):
        self.file("back.csv", self.least)
        erase = [*self.words, "--form", "erase", "--second", "back.csv"]
        self.run_well(*erase)
        self.file("back.csv", OTHER)
        self.assert_refused([*erase, "--resume"], "back.csv has changed")

    def test_a_table_without_a_record_says_how_to_make_one(self):
        self.run_well(*self.words)
        os.remove(self.record)
        self.assert_refused([*self.words, "--resume"], "table.csv.machines isn't there", "sha256sum")
        said = self.call(*self.words, "--resume")[2]
        subprocess.run(["bash", "-c", re.search(r"`(.*)`", said)[1]], cwd=self.folder, check=True)
        self.run_well(*self.words, "--resume")
        self.file("table.csv.machines", "")
        self.assert_refused([*self.words, "--resume"], "no line of machine.csv", "sha256sum")

    def test_generated_machines_need_none(self):
        words = ["sweep", "generate:1", *self.words[2:]]
        self.run_well(*words)
        os.remove(self.record)
        self.run_well(*words, "--resume")

    def test_parts_of_different_machines_are_not_joined(self):
        words = ["sweep", "machine.csv", "--words", self.file("words", "\n\n"), "--out", "table.csv", "--part"]
        self.run_well(*words, "1/2")
        self.file("machine.csv", OTHER)
        self.run_well(*words, "2/2")
        status, _, said = self.call("sweep", "join", "table.csv")
        self.assertEqual(status, 2)
        self.assert_line(said, "table.2-of-2.csv was made of another machine.csv than table.1-of-2.csv")
        os.remove(os.path.join(self.folder, "table.1-of-2.csv.machines"))
        status, _, said = self.call("sweep", "join", "table.csv")
        self.assertEqual((status, said.count("\n")), (0, 2))
        self.assertIn("parts without a record, as table.1-of-2.csv.machines: 1 of 2", said)
        self.assertFalse(os.path.exists(self.record))
