"""The pages and pictures of a farm: its frames, the way of a signal, the undoing schedule, and faults."""
import unittest
import xml.etree.ElementTree as ElementTree

import samples
from farm_picture import Board, timeline_group
from farm_text import Event, Farm, Played, cut, frames_by_events, frames_by_lines
from test_machine_files import example
from test_tools import RECORDED, SVG, Tools, called, frames_of, loaded
from workbench_text import Fault, Program

FARM = example("two-boards.txt")
ELEMENT = "rotary 1\nelements 1\nstart 0.e\nend 0.w\nsteps {}\nat 0.n\ne 0 V - - 0.n -\n%\n"


class Loops:
    """A program whose farm is some boards, each the endless circuit of one element, where every event makes a step."""

    def __init__(self, boards):
        self.steps = [5] * boards

    def run(self, words, data):
        steps, undoing = list(self.steps), []
        for line in data.decode().split("%\n")[-1].splitlines():
            sign, board, count = line.split(" ")
            steps[int(board) - 1] += int(sign + count)
            undoing.insert(0, f"{'-' if sign == '+' else '+'} {board} {count}\n")
        return "".join(ELEMENT.format(number) for number in steps) + "".join(undoing)


class Said:
    """A program that prints these texts one after another."""

    def __init__(self, *texts):
        self.texts = list(texts)

    def run(self, words, data):
        return self.texts.pop(0)


def looped(boards, schedule):
    """A farm of endless boards, each after five steps."""
    return Farm(Loops(boards), (ELEMENT.format(5) * boards + schedule).encode())


class Frames(unittest.TestCase):
    def test_a_text_is_cut_behind_its_last_line_of_that_kind(self):
        self.assertEqual(cut(b"a\n%\n%b\n%\n+ 1 1\n- 1 1"), (b"a\n%\n%b\n%\n", 2, [b"+ 1 1\n", b"- 1 1"]))
        self.assertEqual(cut(b"%\n"), (b"%\n", 1, []))
        self.assertEqual(cut(b"a\n%"), (b"a\n%", 0, []))

    def test_each_text_line_has_a_frame(self):
        frames, is_all = frames_by_lines(Farm(Program(RECORDED), FARM.encode()), 10)
        self.assertTrue(is_all)
        self.assertEqual(
            [(it.number, str(it.event), it.made, it.undoing) for it in frames],
            [(1, "+ 1 5", 5, "- 1 5"), (2, "+ 2 3", 3, "- 2 3"), (3, "+ 1 10", 3, "- 1 3"), (4, "- 2 1", 1, "+ 2 1")],
        )
        self.assertEqual(
            [(it.frame.steps, it.frame.place_text) for it in frames],
            [(5, "at 3.s"), (3, "at 0.n"), (8, "left 4.e"), (2, "at 0.n")],
        )

    def test_each_step_has_a_frame(self):
        frames, is_all = frames_by_events(Farm(Program(RECORDED), FARM.encode()), 20)
        self.assertTrue(is_all)
        self.assertEqual([it.frame.steps for it in frames], [1, 2, 3, 4, 5, 1, 2, 3, 6, 7, 8, 2])
        self.assertEqual([it.undoing for it in frames][4:9], ["- 1 5", "- 2 1", "- 2 2", "- 2 3", "- 1 1"])

    def test_the_number_of_frames_is_kept(self):
        for frames_of_farm in (frames_by_lines, frames_by_events):
            frames, is_all = frames_of_farm(looped(1, "+ 1 1\n+ 1 4611686018427387904\n+ 1 1\n"), 2)
            self.assertEqual(([it.number for it in frames], is_all), ([1, 2], False))
        self.assertEqual([it.made for it in frames], [1, 1])

    def test_answers_of_another_form_are_faults(self):
        one, two = ELEMENT.format(0), ELEMENT.format(1)
        for schedule, texts, wanted in (
            ("", ["x"], "0 boards, and 1 were read"),
            ("", ["x\n%\n"], "board 1: line 1 isn't that of a configuration text"),
            ("+ 1 1\n", [one, two + "- 1 1\n- 1 1\n"], "isn't the one before with one text line more"),
            ("+ 1 1\n", [one, two + "+ 1 1\n"], "\\+ 1 1 doesn't undo \\+ 1 1"),
            ("+ 2 1\n", [one, two + "- 2 1\n"], "another board than that of \\+ 2 1 has changed"),
            ("+ 1 x\n", [one, one], "schedule line 1: '\\+ 1 x' is no event"),
        ):
            with self.assertRaisesRegex(Fault, wanted):
                frames_by_lines(Farm(Said(*texts), (one + schedule).encode()), 10)


class Ways(unittest.TestCase):
    def test_the_way_grows_and_shrinks_with_single_steps(self):
        farm = looped(1, "+ 1 2\n- 1 3\n+ 1 1\n")
        board = Board(1, farm.first[0])
        self.assertEqual(
            [board.advance(it, True) for it in frames_by_events(farm, 10)[0]],
            [(0, ["wire-0s"]), (1, ["wire-0s"]), (1, []), (0, []), (0, []), (0, ["wire-0s"])],
        )

    def test_of_text_lines_the_last_wire_alone_is_known(self):
        farm = looped(1, "+ 1 2\n- 1 1\n- 1 1\n")
        board = Board(1, farm.first[0])
        self.assertEqual(
            [board.advance(it, False) for it in frames_by_lines(farm, 10)[0]],
            [(0, ["wire-0s"]), (0, ["wire-0s"]), (0, [])],
        )

    def test_a_text_line_without_a_step_leaves_the_way(self):
        board = Board(1, looped(1, "").first[0])
        board.advance(Played(1, Event(True, 1, 1), 1, "- 1 1", board.first), True)
        for is_single in (True, False):
            self.assertEqual(board.advance(Played(2, Event(False, 1, 1), 0, "", board.first), is_single), (1, []))


class Room(unittest.TestCase):
    def test_a_ground_has_room_for_the_longest_words(self):
        farm = looped(2, "+ 1 4611686018427387904\n- 1 4611686018427387904\n")
        frames = frames_by_lines(farm, 10)[0]
        first, second = (Board(number, it, frames) for number, it in enumerate(farm.first, 1))
        self.assertEqual((first.longest, second.longest), (len("board 1: steps 4611686018427387909 at 0.n"), 23))
        self.assertGreater(first.size()[0], second.size()[0])


class Pages(Tools):
    def test_a_page_has_a_frame_for_each_text_line(self):
        text = self.call("farm", [], FARM)
        self.assert_alone(text)
        frames = frames_of(text)
        self.assertEqual(
            [frame["place"] for frame in frames],
            [
                "before the schedule",
                "+ 1 5: board 1: steps 5 at 3.s",
                "+ 2 3: board 2: steps 3 at 0.n",
                "+ 1 10: board 1: steps 8 left 4.e",
                "- 2 1: board 2: steps 2 at 0.n",
            ],
        )
        self.assertEqual(frames[1]["changed"], [[2, "V"], [4, "H"]])
        self.assertEqual([frame["undoing"] for frame in frames[1:]], ["- 1 5", "- 2 3", "- 1 3", "+ 2 1"])
        self.assertIn("<code>./workbench farm</code> on the boards", text)
        self.assertIn(FARM, text)

    def test_a_page_of_single_steps_has_more(self):
        text = self.call("farm", ["--events", "--frames", "7"], FARM)
        self.assertEqual(len(frames_of(text)), 8)
        self.assertIn("The page ends after at most 7 frames, and the schedule goes on.", text)

    def test_boards_alone_have_a_page_and_a_picture(self):
        text = self.call("farm", ["--frames", "0"], FARM)
        self.assertEqual(frames_of(text), [{"place": "before the schedule", "line": 0, "board": 0}])
        self.assertIn("with an empty schedule. The page ends after at most 0 frames", text)
        boards = FARM[: FARM.rindex("%") + 2]
        picture = ElementTree.fromstring(self.call("farm", ["--svg"], boards))
        words = [it.text for it in picture.iter(f"{SVG}text")]
        self.assertIn("board 2: steps 0 at 0.n", words)
        self.assertTrue(picture.find(f"{SVG}desc").text.endswith("of a text with an empty schedule."))
        self.assertEqual([it for it in picture.iter() if it.get("data-line")], [])

    def test_parts_of_different_boards_have_different_names(self):
        root = ElementTree.fromstring(self.call("farm", ["--svg"], FARM))
        names = [it.get("id") for it in root.iter() if it.get("id")]
        self.assertEqual(len(set(names)), len(names))
        self.assertTrue({"board-1-bar-5", "board-2-bar-0", "board-2-wire-0s"} <= set(names))

    def test_a_picture_shows_the_last_frame_and_the_schedule(self):
        text = self.call("farm", ["--svg", "--events"], FARM)
        self.assert_alone(text)
        root = ElementTree.fromstring(text)
        kinds = {it.get("id"): it.get("class") for it in root.iter() if it.get("id")}
        self.assertEqual([it for it, kind in kinds.items() if kind == "now"], ["board-1-wire-4e", "board-2-wire-0s"])
        self.assertEqual(sum(kind == "past" for kind in kinds.values()), 7)
        self.assertEqual((kinds["board-1-ground"], kinds["board-2-ground"]), ("ground", "ground moved"))
        marks = [it.get("class") for it in root.iter(f"{SVG}path") if "ward" in (it.get("class") or "")]
        self.assertEqual(marks, ["forward", "forward", "forward", "backward"])
        words = [it.text for it in root.iter(f"{SVG}text")]
        for word in ("board 1: steps 8 left 4.e", "board 2: steps 2 at 0.n", "+ 1 10", "3 of 10", "- 1 3", "+ 2 1"):
            self.assertIn(word, words)

    def test_a_long_schedule_shows_its_end(self):
        frames, _ = frames_by_lines(looped(1, "+ 1 1\n" * 60), 100)
        body, width, _ = timeline_group([None], frames, 60)
        self.assertEqual((body.count("data-line"), "…" in body, width < 3200), (40, True, True))
        self.assertEqual(timeline_group([None], frames, 60, 60)[0].count("data-line"), 60)


class Faults(Tools):
    def test_bad_input_is_told_in_one_line(self):
        for text, wanted in (
            (samples.BANK, "text: no schedule (status 3)"),
            (example("refused/no-board.txt"), "text: schedule line 2 board (status 3)"),
        ):
            self.assertEqual(called("farm", [], text), (2, "", f"farm: ./workbench farm says: {wanted}\n"))

    def test_too_many_elements_are_told(self):
        tool = loaded("farm")
        self.assertEqual(len(tool.small_enough(looped(300, "")).first), 300)
        with self.assertRaisesRegex(Fault, ": 301 elements, and the boards that are drawn have at most 300 together"):
            tool.small_enough(looped(301, ""))
