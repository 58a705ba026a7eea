"""Tests of the drawing of floor plans."""
import os
import subprocess
import unittest
from xml.etree import ElementTree

import samples
from track_picture import read_plan, tracks_svg
from workbench_text import TOP, Fault, has_command, program_at_hand

TOOLS = os.path.join(TOP, "tools")
SVG = "{http://www.w3.org/2000/svg}"
PLAN = "elements 2\nwires 2\ntracks 2\ndensest 5\nwire 0.s 1.n track 1\nwire 1.w 0.e track 2\n"


class Tracks(unittest.TestCase):
    def test_a_plan_is_read_as_positions(self):
        elements, tracks, densest, wires = read_plan(PLAN)
        self.assertEqual((elements, tracks, densest), (2, 2, 5))
        self.assertEqual([wire[:3] for wire in wires], [(2, 12, 1), (11, 5, 2)])

    def test_a_picture_has_a_box_an_element_and_a_path_a_wire(self):
        root = ElementTree.fromstring(tracks_svg(PLAN, "made"))
        kinds = [it.get("class") for it in root.iter()]
        self.assertEqual((kinds.count("box"), kinds.count("wire"), kinds.count("densest")), (2, 2, 1))

    def test_a_plan_without_wires_has_no_densest_position(self):
        root = ElementTree.fromstring(tracks_svg("elements 1\nwires 0\ntracks 0\ndensest 0\n", "made"))
        self.assertEqual([it.get("class") for it in root.iter(f"{SVG}path")], [])

    def test_another_text_is_refused_with_its_line(self):
        for text, said in [
            ("usage\n", "the plan's line 1 isn't `elements` and a number"),
            (PLAN + "wire 0.x 1.n track 1\n", "the plan's line 7 is no wire with its track"),
        ]:
            with self.assertRaises(Fault) as refused:
                read_plan(text)
            self.assertEqual(str(refused.exception), said)

    @unittest.skipUnless(program_at_hand(), "the program isn't built")
    def test_the_programs_plan_is_drawn(self):
        program = program_at_hand()
        if not has_command(program, ["plan"]):
            self.skipTest("this program has no command plan")
        ran = subprocess.run(
            [os.path.join(TOOLS, "draw"), "--tracks", "--program", program],
            input=samples.BANK.encode(),
            capture_output=True,
            check=True,
        )
        root = ElementTree.fromstring(ran.stdout.decode())
        self.assertEqual([it.get("class") for it in root.iter(f"{SVG}path")].count("wire"), 18)
