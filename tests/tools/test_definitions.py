"""What stands behind a definition: how the files of definitions are read, and what tools/definitions prints of them."""
import importlib.machinery
import importlib.util
import os
import re
import subprocess
import sys
import tempfile
import unittest

from workbench_text import TOP

TOOL = os.path.join(TOP, "tools", "definitions")

SAMPLE = """-- A sample, with one of each kind of head.
use Rattle.std.specs.Prelude.{ℕ, List}
use Rattle.other.specs.Far.{Far, near as close}

-- a pair of numbers
pub record Pair
    {k : ℕ}
    (n : ℕ) : Type 0 where
  pub first : ℕ
  pub close : ℕ

-- a tree
pub data Tree : Type 0 where
  Leaf : Tree
  Node : Pair → Tree

-- twice a number, and once
abbrev pub twice : ℕ → ℕ
twice n = n + n

abbrev once : ℕ → ℕ
once n = n

abbrev pub paired : Pair
paired = record { first = twice 1; close = once 2 }

unfoldable pub Uses : Type 0
Uses = Node paired ≡ Node paired
  → Far
"""


def printed(*words):
    """The status, the output and what is said, of the tool."""
    called = subprocess.run([TOOL, *words], capture_output=True, text=True, check=False)
    return called.returncode, called.stdout, called.stderr


def loaded():
    """The tool as a module."""
    loader = importlib.machinery.SourceFileLoader("tool_definitions", TOOL)
    module = importlib.util.module_from_spec(importlib.util.spec_from_loader(loader.name, loader))
    sys.dont_write_bytecode, before = True, sys.dont_write_bytecode
    try:
        loader.exec_module(module)
    finally:
        sys.dont_write_bytecode = before
    return module


def sample():
    """The items of the sample, by their names, and its imports."""
    with tempfile.TemporaryDirectory() as folder:
        path = os.path.join(folder, "Sample.antt")
        with open(path, "w", encoding="utf-8") as file:
            file.write(SAMPLE)
        items, imports = loaded().read_module("Rattle.sample.specs.Sample", path)
    return {item.name: item for item in items}, imports


class Reading(unittest.TestCase):
    def test_each_item_is_found_once(self):
        items, _ = sample()
        self.assertEqual(list(items), ["Pair", "Tree", "twice", "once", "paired", "Uses"])

    def test_a_record_whose_head_goes_on_has_all_its_lines(self):
        items, _ = sample()
        self.assertEqual([len(items[name].lines) for name in ("Pair", "Tree", "twice", "Uses")], [5, 3, 2, 3])

    def test_constructors_name_their_family(self):
        items, _ = sample()
        self.assertEqual(items["Tree"].names, {"Tree", "Leaf", "Node"})

    def test_fields_name_nothing(self):
        items, _ = sample()
        self.assertNotIn("close", items["Pair"].words())
        self.assertNotIn("close", items["paired"].words())
        self.assertIn("once", items["paired"].words())

    def test_the_comment_above_an_item_is_its_sentence_and_that_of_those_that_follow(self):
        items, _ = sample()
        self.assertEqual(
            [items[name].sentence for name in ("Pair", "twice", "once")],
            ["a pair of numbers", "twice a number, and once", "twice a number, and once"],
        )
        self.assertEqual([items[name].sentence_of for name in ("Pair", "twice", "once")], ["Pair", "twice", "twice"])

    def test_imports_are_told_with_their_other_names(self):
        _, (names, _) = sample()
        self.assertEqual(
            (names["Far"], names["close"]), (("Rattle.other.specs.Far", "Far"), ("Rattle.other.specs.Far", "near"))
        )


class Printing(unittest.TestCase):
    def test_what_stands_behind_a_relation_is_listed(self):
        status, text, _ = printed("CheckReplies")
        self.assertEqual(status, 0)
        self.assertIn("Rattle.bn_machine.specs.Standard IsStandard ", text)
        self.assertIn("Rattle.bn_table.specs.Rows SpellsQuintuples ", text)
        self.assertNotIn("bn_netlist", text)

    def test_the_total_is_that_of_the_list(self):
        lines = printed("CheckReplies")[1].splitlines()
        wanted = f"{len(lines)} definitions, {sum(int(line.split()[-1]) for line in lines)} lines\n"
        self.assertEqual(printed("behind", "CheckReplies"), (0, wanted, ""))

    def test_names_together_count_each_definition_once(self):
        self.assertEqual(printed("behind", "CheckReplies", "IsStandard")[1], printed("behind", "CheckReplies")[1])

    def test_a_page_has_each_definition_once_and_begins_with_the_one_asked_for(self):
        text = printed("read", "CheckReplies")[1]
        heads = re.findall(r"^### `(.*)` \((\w+), (\w+)\)$", text, re.M)
        self.assertEqual(heads[0][0], "CheckReplies")
        listed = {tuple(line.split()[:2]) for line in printed("CheckReplies")[1].splitlines()}
        self.assertEqual(sorted((f"Rattle.{crate}.specs.{file}", name) for name, crate, file in heads), sorted(listed))

    def test_the_count_ends_with_the_program_and_its_commands(self):
        lines = printed()[1].splitlines()
        self.assertTrue(any(re.fullmatch(r"behind workbench: \d+ lines", line) for line in lines))
        self.assertTrue(re.fullmatch(r"behind all commands: \d+ lines", lines[-1]))

    def test_a_name_that_is_none_is_refused(self):
        said = "definitions: no definition is named Nothing\n"
        for words in (["Nothing"], ["behind", "Nothing"], ["read", "CheckReplies", "Nothing"]):
            self.assertEqual(printed(*words), (1, "", said))
