"""The tools as they are called: their pages, pictures and texts, and what they say to bad input.

The program's answers are recorded ones, so these tests run without it; where the program is at hand, each recorded
answer is compared with the one that it gives now.
"""
import importlib.machinery
import importlib.util
import json
import os
import re
import subprocess
import sys
import unittest
import xml.etree.ElementTree as ElementTree

import recorded
import samples
from test_machine_files import JFLAP, JFLAP_TABLE, PARITY_TABLE, example
from workbench_text import TOP, Fault, Tape, has_command, program_at_hand

TOOLS = os.path.join(TOP, "tools")
RECORDED = os.path.join(os.path.dirname(os.path.abspath(__file__)), "recorded.py")
SVG = "{http://www.w3.org/2000/svg}"
LEAST = "S,_,_,+,T\nT,_,_,0,F\n"
LEAST_RUN = ["=", "0", "2", "2", "1"]


def called(tool, words, text=""):
    """The status, the output and what was said, of a tool with the recorded program."""
    program = [] if tool in ("plot",) else ["--program", RECORDED]
    ran = subprocess.run([os.path.join(TOOLS, tool), *program, *words], input=text.encode(), capture_output=True)
    return ran.returncode, ran.stdout.decode(), ran.stderr.decode()


def loaded(tool):
    """A tool as a module."""
    loader = importlib.machinery.SourceFileLoader(f"tool_{tool}", os.path.join(TOOLS, tool))
    module = importlib.util.module_from_spec(importlib.util.spec_from_loader(loader.name, loader))
    sys.dont_write_bytecode, before = True, sys.dont_write_bytecode
    try:
        loader.exec_module(module)
    finally:
        sys.dont_write_bytecode = before
    return module


def frames_of(text):
    """The frames of a page."""
    return json.loads(re.search(r"^const frames = (.*);$", text, flags=re.M)[1])


class Tools(unittest.TestCase):
    def call(self, tool, words, text=""):
        status, out, said = called(tool, words, text)
        self.assertEqual((status, said), (0, ""), f"{tool} {words}")
        return out

    def assert_alone(self, text):
        """A page or a picture wants no other file."""
        self.assertFalse(re.findall(r"""(?:src|href)=|url\(|@import""", text))
        self.assertEqual(set(re.findall(r"https?://[^\"' ]*", text)) - {"http://www.w3.org/2000/svg"}, set())


class Draw(Tools):
    def test_a_page_has_a_frame_for_each_step(self):
        text = self.call("draw", [], samples.BANK)
        frames = frames_of(text)
        self.assertEqual(
            [frame["place"] for frame in frames],
            [
                "steps 0 at 0.w",
                "steps 1 at 1.n",
                "steps 2 at 2.n",
                "steps 3 at 0.n",
                "steps 4 at 4.e",
                "steps 5 at 3.s",
                "steps 6 at 5.e",
                "steps 7 at 4.s",
                "steps 8 left 4.e",
            ],
        )
        self.assertEqual([frame["changed"] for frame in frames[:4]], [[], [[0, "H"]], [], [[2, "V"]]])
        self.assertEqual([frame["wire"] for frame in frames[:4]], ["", "wire-0s", "wire-1s", "wire-2w"])
        self.assertEqual(frames[8]["wire"], "wire-4e")
        self.assertIn("then <code>./workbench step 1</code> 8 times", text)
        self.assertIn(samples.BANK, text)
        self.assert_alone(text)

    def test_a_page_ends_after_the_number_of_frames(self):
        text = self.call("draw", ["--frames", "3"], samples.BANK)
        self.assertEqual(len(frames_of(text)), 4)
        self.assertIn("The page ends after at most 3 steps; the signal runs on.", text)

    def test_a_picture_shows_bars_marks_and_the_path(self):
        text = self.call("draw", ["--svg", "--frames", "4"], samples.BANK)
        self.assert_alone(text)
        root = ElementTree.fromstring(text)
        bars = [it for it in root.iter(f"{SVG}line") if it.get("class") == "bar"]
        self.assertEqual(["H" if it.get("transform") == it.get("data-lying") else "V" for it in bars], list("VVVVVV"))
        kinds = {
            it.get("id"): it.get("class") for it in root.iter(f"{SVG}g") if (it.get("id") or "").startswith("wire")
        }
        self.assertEqual({name for name, kind in kinds.items() if kind == "past"}, {"wire-0s", "wire-1s", "wire-2w"})
        self.assertEqual({name for name, kind in kinds.items() if kind == "now"}, {"wire-0w"})
        spans = [it.get("class") for it in root.iter(f"{SVG}rect") if (it.get("class") or "").startswith("span")]
        self.assertEqual(spans, ["span", "span"])
        first = ElementTree.fromstring(self.call("draw", ["--svg"], samples.BANK))
        spans = [it.get("class") for it in first.iter(f"{SVG}rect") if (it.get("class") or "").startswith("span")]
        self.assertEqual(spans, ["span marked", "span"])

    def test_a_graph_has_each_wire_and_column(self):
        text = self.call("draw", ["--dot"], samples.BANK)
        self.assertEqual(text.count("taillabel"), 18)
        self.assertEqual(text.count("subgraph cluster_"), 2)
        self.assertIn('  2:w -> 0:n [taillabel="w", headlabel="n"];', text)

    def test_bad_input_is_told_in_one_line(self):
        status, out, said = called("draw", [], LEAST)
        self.assertEqual((status, out), (2, ""))
        self.assertEqual(said, "draw: ./workbench step 0 says: text: line 1 syntax (status 3)\n")


class Answers:
    """Answers a session and a view by the recorded views at the moments of the least machine."""

    path = None
    moments = [0, 6540, 11356, 16734, 20468, 27696, 30316, 37840, 40248, 47722, 51412, 56742, 61294, 67300]

    def __init__(self):
        self.views = [
            subprocess.run(
                [RECORDED, "view", *LEAST_RUN, str(steps)], input=LEAST.encode(), capture_output=True, check=True
            ).stdout.decode()
            for steps in self.moments
        ]

    def run(self, words, data):
        if words[0] == "bennett":
            return subprocess.run([RECORDED, *words], input=data, capture_output=True, check=True).stdout.decode()
        if words[0] == "view":
            return self.view(int(words[-1]))
        return self.session(data.decode().split("%\n")[1])

    def view(self, steps):
        """The view after so many steps: but for its first line that of the last moment."""
        number = max(place for place, moment in enumerate(self.moments) if moment <= steps)
        text = self.views[number]
        return text if number == len(self.moments) - 1 else re.sub(r"steps \d+", f"steps {steps}", text, count=1)

    def session(self, script):
        """The answers to a script: labels, places at the moments one after another, and views there."""
        said, number = "", -1
        for line in script.splitlines():
            words = line.split(" ")
            if words[0] == "break":
                said += f"break {words[1]}\n"
            elif words[0] == "go":
                number = min(number + 1, len(self.views) - 1)
                said += self.views[number].split("\n")[0].removeprefix("element ") + " break s1\n"
            else:
                said += self.views[number]
        return said


class Tapes(Tools):
    @classmethod
    def setUpClass(cls):
        cls.program = Answers()
        cls.tapes = loaded("tapes")
        cls.names = cls.tapes.state_names(cls.program.run(["bennett"], LEAST.encode()))
        cls.views = cls.tapes.views_by_session(cls.program, LEAST_RUN, LEAST.encode(), cls.names, 40)

    def test_moments_are_found_by_views_alone(self):
        found = self.tapes.views_by_view(self.program, LEAST_RUN, LEAST.encode(), 40)
        self.assertEqual(found, self.views)
        self.assertEqual([view.steps for view in found], self.program.moments)

    def test_the_number_of_moments_is_kept(self):
        self.assertEqual(len(self.tapes.views_by_session(self.program, LEAST_RUN, LEAST.encode(), self.names, 5)), 5)
        self.assertEqual(len(self.tapes.views_by_view(self.program, LEAST_RUN, LEAST.encode(), 5)), 5)

    def test_an_exit_without_a_moment_shows_the_last_moment_once(self):
        last = self.views[3]
        gone = type(last)(**{**vars(last), "has_left": True, "module": "exit window 2 right"})
        self.assertEqual(self.tapes.without_double_end(self.views[:4] + [gone]), self.views[:3] + [gone])
        self.assertEqual(self.tapes.without_double_end(self.views), self.views)

    def test_text_shows_each_moment(self):
        lines = self.tapes.text_of(self.views).splitlines()
        self.assertEqual(len(lines), 15)
        self.assertEqual(lines[0], "   0 compute  A1     [_] _  _  | [_] _  _  | [_] _ ")
        self.assertEqual(lines[2], "   2 compute  A2      _ [_] _  |  _ [1] _  | [_] _ ")
        self.assertEqual(lines[-2], "  13 retrace  C1     [_] _  _  | [_] _  _  | [_] _ ")
        self.assertEqual(lines[-1], "exit end")

    def test_a_page_has_a_frame_for_each_moment(self):
        text = self.tapes.page_of(LEAST_RUN, self.views, "`it`", LEAST.encode())
        self.assert_alone(text)
        frames = frames_of(text)
        self.assertEqual([frame["stage"] for frame in frames], ["compute"] * 5 + ["copy"] * 4 + ["retrace"] * 5)
        self.assertEqual(
            [frame["state"] for frame in frames],
            ["A1", "A1'", "A2", "A2'", "A3", "B1'", "B1", "B2'", "B2", "C3", "C2'", "C2", "C1'", "C1"],
        )
        self.assertEqual(frames[1]["place"], "at 930.w steps 6540")
        self.assertEqual(frames[-1]["place"], "left 848.e steps 67300")

    def test_a_picture_has_a_row_for_each_moment(self):
        text = self.tapes.picture_of(LEAST_RUN, self.views)
        self.assert_alone(text)
        root = ElementTree.fromstring(text)
        heads = [it for it in root.iter(f"{SVG}rect") if "head" in (it.get("class") or "").split()]
        self.assertEqual(len(heads), 14 * 3)

    def test_answers_of_another_form_are_faults(self):
        for text, wanted in (
            ("at 0.w\n", "line 1: 'at 0.w' is no place line"),
            ("at 0.w steps 1\nx\n", "line 2: 1 lines"),
            ("", "no moment"),
            ("at 0.w steps 1\n" + self.program.views[0].replace("tape 2", "tape 9"), "tape 2"),
        ):
            with self.assertRaisesRegex(Fault, wanted):
                self.tapes.moments_of(text, 0)


class Layers(Tools):
    def test_a_picture_has_the_lines_of_the_view(self):
        text = self.call("layers", [*LEAST_RUN, "1564"], LEAST)
        self.assert_alone(text)
        words = [it.text for it in ElementTree.fromstring(text).iter(f"{SVG}text")]
        for line in (
            "element at 864.w steps 1564",
            "module tape 1 cell 0 line Rd",
            "quadruple A1",
            "machine compute state S step 0",
            "It is row 0 of column 0 of tape 1 cell 0, which stands for: plain _.",
        ):
            self.assertIn(line, words)

    def test_long_tapes_are_shown_around_their_heads(self):
        layers = loaded("layers")
        tape = Tape(1, -3, 40, tuple(str(place % 10) for place in range(100)))
        part, before, behind = layers.near_head(tape, 30)
        self.assertEqual((part.first, len(part.symbols), before, behind), (25, 30, True, True))
        self.assertEqual(part.symbols, tape.symbols[28:58])
        part, before, behind = layers.near_head(Tape(1, 0, 99, tape.symbols), 30)
        self.assertEqual((part.first, before, behind), (70, True, False))
        self.assertEqual(layers.near_head(tape, 100), (tape, False, False))


class Import(Tools):
    def test_tables_are_printed(self):
        status, out, said = called("import", [], example("parity.yaml"))
        self.assertEqual((status, out), (0, PARITY_TABLE))
        self.assertEqual(
            said.splitlines(),
            [
                "import: state 'even_so_far' is called even-so-far in the table",
                "import: state 'odd_so_far' is called odd-so-far in the table",
            ],
        )
        status, out, said = called("import", ["--from", "jflap"], JFLAP)
        self.assertEqual((status, out), (0, JFLAP_TABLE))
        self.assertEqual(said, "import: state 'q3' is called q2 in the table\n")

    def test_standard_form_is_made_by_the_program(self):
        status, out, _ = called("import", ["--standard"], JFLAP)
        self.assertEqual(status, 0)
        self.assertEqual(out.splitlines()[0], "I,_,_,+,Q1")
        self.assertEqual(out.splitlines()[-1], "Q2,_,_,0,O")

    def test_faults_are_told_in_one_line(self):
        status, out, said = called("import", [], "table:\n\tb: 1\n")
        self.assertEqual(
            (status, out, said), (2, "", "import: standard input: line 2: a tab stands before the first word\n")
        )


class Plot(Tools):
    def test_lines_and_tables_give_one_picture(self):
        lines = "1 10 2507884 0.01\n2 19 12637184 0.06\n"
        picture = self.call("plot", [], lines)
        self.assert_alone(picture)
        ElementTree.fromstring(picture)
        self.assertIn(">2,507,884<", picture)
        self.assertEqual(self.call("plot", [], "k,N,steps,seconds\n" + lines.replace(" ", ",")), picture)

    def test_faults_name_their_line(self):
        for text, wanted in (
            ("1 10 5\n", "line 1: 3 fields"),
            ("1 10 5 x\n", "line 1: '1 10 5 x' has a field"),
            ("# none\n", "no measurements"),
            ("1 10 5 0\n", "line 1: k, steps and seconds"),
            ("1 10 5 nan\n", "line 1: k, "),
        ):
            status, _, said = called("plot", [], text)
            self.assertEqual(status, 2)
            self.assertIn(f"plot: standard input: {wanted}", said)


class Words(Tools):
    def test_each_tool_has_help(self):
        for tool in ("draw", "tapes", "layers", "farm", "import", "plot", "build/gallery", "build/try_pages"):
            self.assertTrue(self.call(tool, ["--help"]).startswith("usage: "))

    def test_faults_of_the_words_are_told_in_one_line(self):
        for tool, words in (
            ("draw", ["--frames", "5001"]),
            ("draw", ["--svg", "--dot"]),
            ("tapes", ["="]),
            ("tapes", ["1011", "0", "5", "11", "5"]),
            ("tapes", ["=", "auto", "5"]),
            ("layers", ["=", "0", "2", "02", "1", "5"]),
            ("layers", ["=", "auto"]),
            ("farm", ["--frames", "x"]),
            ("import", ["--from", "xml"]),
            ("plot", ["--x"]),
            ("build/gallery", ["x"]),
        ):
            status, out, said = called(tool, words)
            self.assertEqual((status, out, said.count("\n")), (2, "", 1), f"{tool} {words}: {said}")
            self.assertTrue(said.startswith(f"{os.path.basename(tool)}: "))

    def test_a_program_that_isnt_there_is_told(self):
        ran = subprocess.run([os.path.join(TOOLS, "draw"), "--program", "./none"], input=b"", capture_output=True)
        self.assertEqual((ran.returncode, ran.stderr), (2, b"draw: ./none: No such file or directory\n"))


@unittest.skipUnless(program_at_hand(), "the program isn't built: no crates/bn_main/out/bn_main, no WORKBENCH_PROGRAM")
class WithProgram(Tools):
    def test_the_program_gives_the_recorded_answers(self):
        for entry in recorded.answers():
            with self.subTest(" ".join(entry["words"])):
                if not has_command(program_at_hand(), entry["words"], entry["input"].encode()):
                    self.skipTest(f"this program has no command {entry['words'][0]}")
                ran = subprocess.run(
                    [program_at_hand(), *entry["words"]], input=entry["input"].encode(), capture_output=True
                )
                self.assertEqual((ran.stdout.decode(), ran.returncode), (entry["output"], entry["status"]))

    def test_the_moves_of_a_large_circuit_have_their_costs(self):
        program = program_at_hand()
        board = subprocess.run([program, "compile", *LEAST_RUN], input=LEAST.encode(), capture_output=True).stdout
        ran = subprocess.run(
            [os.path.join(TOOLS, "draw"), "--program", program, "--frames", "2204"],
            input=board,
            capture_output=True,
            check=True,
        )
        cells = [
            re.findall(r"<td>(.*?)</td>", row)
            for row in ran.stdout.decode().splitlines()
            if row.startswith("<tr data-")
        ]
        self.assertEqual(
            [(row[4], row[5], row[6]) for row in cells],
            [("1 to 3", "1564", "1564"), ("2 to 2", "46", "1610"), ("3 to 4", "594", "2204")],
        )

    def test_tapes_are_drawn(self):
        ran = subprocess.run(
            [os.path.join(TOOLS, "tapes"), "--program", program_at_hand(), "--text", "--moments", "3", *LEAST_RUN],
            input=LEAST.encode(),
            capture_output=True,
            check=True,
        )
        self.assertEqual(
            [line.split()[:3] for line in ran.stdout.decode().splitlines()[:3]],
            [["0", "compute", "A1"], ["1", "compute", "A1'"], ["2", "compute", "A2"]],
        )

    def test_the_window_may_be_found_by_the_program(self):
        program = program_at_hand()
        ran = subprocess.run([program, "run", "=", "auto"], input=LEAST.encode(), capture_output=True, check=True)
        found = ran.stdout.decode().splitlines()[0].split()[1:]
        for tool, more in (("tapes", []), ("layers", ["1564"])):
            pictures = [
                subprocess.run(
                    [os.path.join(TOOLS, tool), "--program", program, "=", *window, *more],
                    input=LEAST.encode(),
                    capture_output=True,
                    check=True,
                ).stdout
                for window in (["auto"], found)
            ]
            self.assertEqual(*pictures)

    def test_an_imported_machine_runs(self):
        program = program_at_hand()
        for name, word, output in (
            ("parity.yaml", "1011", "10111"),
            ("parity.yaml", "", "0"),
            ("swap.jff", "abb", "baa"),
        ):
            table = subprocess.run(
                [os.path.join(TOOLS, "import"), "--program", program, "--standard"],
                input=example(name).encode(),
                capture_output=True,
                check=True,
            ).stdout
            ran = subprocess.run([program, "machine", f"={word}", "100"], input=table, capture_output=True)
            self.assertEqual(ran.returncode, 0)
            self.assertEqual(ran.stdout.decode().splitlines()[1], f"output ={output}", f"{name} {word}")
