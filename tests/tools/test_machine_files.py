"""Machines of JFLAP and of turingmachine.io become tables, or a line says why not."""
import os
import unittest

from hithwelor.foreign.machine_files import new_names, read_jflap, read_yaml, read_yaml_text, table_of
from workbench_text import TOP, Fault, read_file

PARITY_TABLE = """even-so-far,0,0,+,even-so-far
even-so-far,1,1,+,odd-so-far
even-so-far,_,0,-,back
odd-so-far,0,0,+,odd-so-far
odd-so-far,1,1,+,even-so-far
odd-so-far,_,1,-,back
back,0,0,-,back
back,1,1,-,back
back,_,_,+,done
"""
VERDICTS = """blank: _
start state: q 1
synonyms:
  accept: {R: yes}
  reject:
    R: no
table:
  q 1:
    a: accept
    b: reject
    c:
      write: a
      R: q 1
  yes: {}
  no:
"""
JFLAP = """<?xml version="1.0" encoding="UTF-8" standalone="no"?>
<structure>
  <type>turing</type>
  <automaton>
    <block id="0" name="q0"><tag>Machine0</tag><x>95.0</x><y>98.0</y><initial/></block>
    <block id="1" name="q1"><tag>Machine1</tag><x>195.0</x><y>98.0</y></block>
    <block id="2" name="q2"><tag>Machine2</tag><x>295.0</x><y>98.0</y><final/></block>
    <block id="3" name="q3"><tag>Machine3</tag><x>295.0</x><y>198.0</y><final/></block>
    <transition><from>0</from><to>0</to><read>a</read><write>b</write><move>R</move></transition>
    <transition><from>0</from><to>2</to><read/><write/><move>S</move></transition>
    <transition><from>0</from><to>1</to><read>b</read><write>b</write><move>R</move></transition>
    <transition><from>1</from><to>3</to><read>b</read><write/><move>L</move></transition>
    <Machine0/><Machine1/><Machine2/><Machine3/>
  </automaton>
</structure>
"""
JFLAP_TABLE = "q0,a,b,+,q0\nq0,_,_,0,q2\nq0,b,b,+,q1\nq1,b,_,-,q2\n"


def example(name):
    """The text of an example file."""
    return read_file(os.path.join(TOP, "examples", name))


def from_yaml(text, halt=None):
    return table_of(read_yaml(text, "it"), "it", halt)


def from_jflap(text, halt=None):
    return table_of(read_jflap(text, "it"), "it", halt)


class Yaml(unittest.TestCase):
    def test_a_machine_becomes_a_table(self):
        table, names = from_yaml(example("parity.yaml"))
        self.assertEqual(table, PARITY_TABLE)
        self.assertEqual(names["even_so_far"], "even-so-far")

    def test_a_halting_state_is_named_where_there_are_two(self):
        with self.assertRaisesRegex(Fault, "^it: 2 states halt, yes, no"):
            from_yaml(VERDICTS)
        table, _ = from_yaml(VERDICTS, "yes")
        self.assertEqual(table, "q-1,b,b,+,no\nq-1,c,a,+,q-1\nq-1,a,a,+,yes\n")
        table, _ = from_yaml(VERDICTS, "no")
        self.assertEqual(table, "q-1,a,a,+,yes\nq-1,c,a,+,q-1\nq-1,b,b,+,no\n")

    def test_words_are_read_with_quotes_lists_and_comments(self):
        entries = read_yaml_text("a: 'it''s' # not this\n\"b\\\"\": {x: [1, ' '], y}\n[1,2]:\n  c: d#e\n", "it")
        self.assertEqual([(entry.key, entry.line) for entry in entries], [("a", 1), ('b"', 2), (("1", "2"), 3)])
        self.assertEqual(entries[0].value, "it's")
        self.assertEqual(entries[1].value, [("x", ("1", " ")), ("y", None)])
        self.assertEqual((entries[2].value[0].key, entries[2].value[0].value), ("c", "d#e"))

    def test_faults_name_their_line(self):
        whole = "blank: ' '\nstart state: A\ntable:\n  A:\n"
        for text, wanted in (
            ("a: [1\n", "line 1: no '\\]' or comma"),
            ("a: b c: d\n", "line 1: words behind the value"),
            ("a:\n\tb: 1\n", "line 2: a tab"),
            ("a:\n  - b\n", "line 2: '-' begins nothing"),
            ("a: 1\n  b: 2\n", "line 2: deeper"),
            ("a:\n   b: 2\n  c: 3\n", "line 3: as deep as no line"),
            ("  a: 1\nb: 2\n", "line 2: less deep"),
            ("a: 'x\n", "line 1: a quote that isn't closed"),
            ("a: &x 1\n", "line 1: '&' begins nothing"),
            ("just words\n", "line 1: no colon"),
            ("blank: ' '\n", "no line has the key 'start state'"),
            ("table: x\nblank: ' '\nblank: ' '\n", "line 3: 'blank' stands twice"),
            (whole + "    1: {R: B}\n", "line 5: no state of the table is called 'B'"),
            (whole + "    1: {R: A, L: A}\n", "line 5: an instruction has one of R and L"),
            (whole + "    1: {write: 2}\n", "line 5: an instruction has one of R and L"),
            (whole + "    1: {go: 2, R: A}\n", "line 5: an instruction has no 'go'"),
            (whole + "    12: R\n", "line 5: '12' is no single symbol"),
            (whole + "    1: X\n", "line 5: 'X' is no instruction"),
            (whole + "    1: R\n  A:\n", "line 6: state 'A' stands twice"),
            (whole + "    1: R\n", "^it: no state halts"),
            (
                whole + "    1: {L: B}\n    [2, 1]: R\n  B:\n",
                "line 6: an earlier rule is for state 'A' and '1' too \\(S1\\)",
            ),
            (whole + "    /: {L: B}\n  B:\n", "line 5: '/' is no letter"),
            (whole + "    _: {L: B}\n  B:\n", "line 5: the letter '_' is the blank"),
            (whole + "    1: R\n  B:\n", "no rule leads to 'B'"),
            ("blank: ' '\nstart state: B\ntable:\n  A:\n    1: {R: B}\n  B:\n", "no rule leaves the start state 'B'"),
        ):
            with self.subTest(text), self.assertRaisesRegex(Fault, wanted):
                from_yaml(text)

    def test_a_halting_state_that_is_left_is_told(self):
        with self.assertRaisesRegex(Fault, "line 6: leaves 'even_so_far', in which the machine halts.*S5"):
            from_yaml(example("parity.yaml"), "even_so_far")


class Jflap(unittest.TestCase):
    def test_a_machine_becomes_a_table_with_one_halting_state(self):
        self.assertEqual(from_jflap(JFLAP)[0], JFLAP_TABLE)

    def test_the_example_is_read(self):
        self.assertEqual(
            from_jflap(example("swap.jff"))[0],
            "over-the-word,a,b,+,over-the-word\nover-the-word,b,a,+,over-the-word\nover-the-word,_,_,-,done\n",
        )

    def test_states_of_the_older_form_are_read(self):
        older = JFLAP.replace("<block", "<state").replace("</block", "</state")
        self.assertEqual(from_jflap(older)[0], JFLAP_TABLE)

    def test_faults_name_their_place(self):
        for old, new, wanted in (
            ("</structure>", "", "no XML"),
            (">turing<", ">fa<", "its type is 'fa'"),
            ("<automaton>", "<tapes>2</tapes><automaton>", "the machine has 2 tapes"),
            ("<initial/>", "", "no state is the initial one"),
            ("<to>1</to>", "<to>9</to>", "transition 3: no state has the id '9'"),
            ("<read>a</read>", "<read>!a</read>", "transition 1: reads '!a'"),
            ("<move>S</move>", "<move>X</move>", "transition 2: moves 'X'"),
            ("<read/>", "<read>a</read>", "transition 2: an earlier rule is for state 'q0' and 'a' too \\(S1\\)"),
            ("<from>1</from>", "<from>2</from>", "transition 4: leaves 'q2'"),
            ("<Machine1/>", "<Machine1><transition/></Machine1>", "block 'q1' is a machine of its own"),
        ):
            with self.subTest(wanted), self.assertRaisesRegex(Fault, wanted):
                from_jflap(JFLAP.replace(old, new))


class Names(unittest.TestCase):
    def test_names_are_allowed_and_differ(self):
        names = new_names(["q_0", "q 0", "q-0", "", "a'" * 30, "a'" * 31])
        self.assertEqual(list(names.values()), ["q-0", "q-0.2", "q-0.3", "q", "a'" * 16, "a'" * 15 + ".2"])
