"""The order in which crates are proved, the processes that each gets, and the estimate: with crates that prove nothing."""
import contextlib
import importlib.machinery
import importlib.util
import io
import os
import sys
import tempfile
import threading
import unittest

from workbench_text import TOP


def loaded():
    """The tool as a module."""
    loader = importlib.machinery.SourceFileLoader("tool_prove", os.path.join(TOP, "tools", "prove"))
    module = importlib.util.module_from_spec(importlib.util.spec_from_loader(loader.name, loader))
    sys.dont_write_bytecode, before = True, sys.dont_write_bytecode
    try:
        loader.exec_module(module)
    finally:
        sys.dont_write_bytecode = before
    return module


class Crate:
    """A crate of so many lines, over others, whose proof notes when it was called and ends with a status."""

    called, lock = [], threading.Lock()

    def __init__(self, room, name, lines, *deps, status=0, is_built=False):
        self.name, self.deps, self.status, self.built, self.out = name, deps, status, is_built, sys.stdout
        self.folder = os.path.join(room, name)
        self.rlib, self.text = os.path.join(self.folder, "out", "rlib", f"{name}.rlib"), "first"
        os.makedirs(os.path.join(self.folder, "src"))
        with open(os.path.join(self.folder, "src", "lib.rt"), "w", encoding="utf-8") as file:
            file.write("\n" * lines)
        with open(os.path.join(self.folder, "src", "tests.rt"), "w", encoding="utf-8") as file:
            file.write("\n" * 1000)

    def below(self):
        found = []
        for dep in self.deps:
            found += [it for it in [*dep.below(), dep] if it not in found]
        return found

    def is_built(self):
        return self.built

    def stamp(self):
        return " ".join([self.text, *(it.stamp() for it in self.deps)])

    def build_rlib(self, flags, anew):
        with Crate.lock:
            Crate.called.append((self.name, int(flags[1]), anew))
        if anew:
            self.write_rlib(f"built of {self.stamp()}")
        print(f"{self.name} is proved", file=self.out)
        return self.status

    def write_rlib(self, text):
        os.makedirs(self.rlib, exist_ok=True)
        with open(os.path.join(self.rlib, "format"), "w", encoding="utf-8") as file:
            file.write(text)


class Kit:
    """The kit's Python, as far as the tool asks it: files by their text, and a gate that has kept some libraries."""

    def __init__(self, *kept):
        class OfKit:
            cuts_libraries = False

        self.Crate, self.rtlib, self.kept, self.noted = OfKit, self, kept, []

    def Kept(self, crates):
        return self

    def share_work(self, is_alone):
        self.noted.append(is_alone)

    def text_of(self, path):
        if not os.path.isfile(path):
            return "none"
        with open(path, encoding="utf-8") as file:
            return file.read()

    sum_of = text_of

    def key(self, crate):
        return crate.name

    def give(self, crate, tests, key):
        if key not in self.kept:
            return False
        crate.write_rlib("kept by the gate")
        return True

    def is_built(self, crate):
        self.noted.append(crate.name)


class Proving(unittest.TestCase):
    def setUp(self):
        self.tool = loaded()
        Crate.called = []
        room = tempfile.TemporaryDirectory()
        self.addCleanup(room.cleanup)
        self.room = room.name

    def diamond(self, **of_right):
        """A base, a short crate and a long one over it, and a top over both."""
        base = Crate(self.room, "base", 10)
        short, long = Crate(self.room, "short", 10, base), Crate(self.room, "long", 500, base, **of_right)
        return [base, short, long, Crate(self.room, "top", 10, short, long)]

    def with_proofs(self):
        return self.tool.WithProofs(Kit(), None)

    def names_proved(self, crates, kit):
        """The crates that were proved from nothing over statements."""
        Crate.called = []
        with contextlib.redirect_stderr(io.StringIO()), contextlib.redirect_stdout(io.StringIO()):
            self.assertEqual(self.tool.prove_all(self.tool.Work(crates, self.tool.FromNothing(kit, crates[-1])), 1), [])
        self.assertTrue(kit.Crate.cuts_libraries)
        self.assertTrue(all(anew for _, _, anew in Crate.called))
        return [name for name, _, _ in Crate.called]

    def prove_all(self, crates, lanes):
        """The names of those that failed, what is said and what is logged."""
        said, log = io.StringIO(), io.StringIO()
        with contextlib.redirect_stderr(said), contextlib.redirect_stdout(log):
            failed = self.tool.prove_all(self.tool.Work(crates, self.with_proofs()), lanes)
        return failed, said.getvalue(), log.getvalue()

    def test_tests_are_no_lines_of_code(self):
        self.assertEqual(self.tool.lines_of_code(self.diamond()[2].folder), 500)

    def test_the_longest_chain_goes_first(self):
        self.prove_all(self.diamond(), 1)
        self.assertEqual([name for name, _, _ in Crate.called], ["base", "long", "short", "top"])

    def test_a_crate_alone_and_the_last_ones_get_all_processes(self):
        self.prove_all(self.diamond(), 4)
        self.assertEqual({name: jobs for name, jobs, _ in Crate.called}, {"base": 4, "long": 4, "short": 4, "top": 4})

    def test_what_is_built_is_not_proved_again(self):
        crates = self.diamond()
        crates[0].built = crates[1].built = True
        self.prove_all(crates, 4)
        self.assertEqual([(name, anew) for name, _, anew in Crate.called], [("long", False), ("top", False)])

    def test_from_nothing_each_is_proved_once(self):
        crates = self.diamond()
        self.assertEqual(self.names_proved(crates, Kit()), ["base", "long", "short", "top"])
        self.assertEqual(self.names_proved(crates, Kit()), [])

    def test_from_nothing_what_changed_is_proved_again_with_those_above(self):
        crates = self.diamond()
        self.names_proved(crates, Kit())
        crates[1].text = "second"
        self.assertEqual(self.names_proved(crates, Kit()), ["short", "top"])

    def test_from_nothing_a_library_over_another_build_is_proved_again(self):
        crates = self.diamond()
        self.names_proved(crates, Kit())
        crates[2].write_rlib("built otherwise")
        self.assertEqual(self.names_proved(crates, Kit()), ["top"])

    def test_what_the_gate_has_kept_is_taken(self):
        crates, kit = self.diamond(), Kit("base", "long")
        self.assertEqual(self.names_proved(crates, kit), ["short", "top"])
        self.assertEqual(kit.noted, ["base", "long", "short", "top"])
        self.assertEqual(self.names_proved(crates, Kit()), [])

    def test_nothing_is_begun_behind_a_failure(self):
        failed, said, log = self.prove_all(self.diamond(status=1), 1)
        self.assertEqual((failed, [name for name, _, _ in Crate.called]), (["long"], ["base", "long"]))
        self.assertIn("workbench: long isn't proved\n", said)
        self.assertIn("== long\nlong is proved\n", log)

    def test_each_crate_is_told_with_what_is_left(self):
        _, said, _ = self.prove_all(self.diamond(), 1)
        self.assertEqual(len(said.splitlines()), 4)
        self.assertRegex(said.splitlines()[-1], r"^workbench: 4 of 4 top 0:00, about a minute left$")

    def test_the_estimate_is_the_work_on_one_core_and_no_less_than_the_chain(self):
        work = self.tool.Work(self.diamond(), self.with_proofs())
        whole, last = sum(work.seconds.values()), self.tool.LAST_SECONDS
        self.assertAlmostEqual(work.left([], 1), whole + last)
        self.assertAlmostEqual(work.left([], 8), max(work.chain.values()) + last)
        self.assertLess(work.left([], 2), whole + last)

    def test_the_pace_is_that_of_what_was_proved(self):
        work = self.tool.Work(self.diamond(), self.with_proofs())
        before = work.left([], 1)
        work.note(work.crates[0], 1, 0.1)
        self.assertLess(work.left([], 1), before)
        work.note(work.crates[1], 1, 1000.0)
        self.assertGreater(work.left([], 1), before)
