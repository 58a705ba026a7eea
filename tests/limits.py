"""Every command on inputs at its limits, and one step beyond them, with what is answered: the cases, and what runs them.

That memory which is there is used is no clause: a body that gives up for want of memory on large inputs is still proved, so
these cases are part of the merge gate. A case is a function that asks for answers and holds them; where one isn't as it has
to be, it ends in an AssertionError. Nothing of this wants pytest: test_limits.py runs the cases, and check/quick on a new
machine.
"""
import os
import subprocess
import sys
import time

import quadruple_rules as rules
from places import TOP

sys.path.append(os.path.join(TOP, "bench"))
from bench import RING, RING_IN_TWO, one_element, quadruples, ring
from generate import EXPECTED, expected_lines
from run import increments

# The statuses of an answer.
DONE, USAGE, TEXT, WORD, SIZE, STUCK, WINDOW, INSIDE = 0, 2, 3, 5, 6, 10, 11, 12

MOST_INPUT = 256 << 20
MOST_STEPS = 1 << 62
MOST_QUINTUPLES = 4000
MOST_QUADRUPLES = 20_000
MOST_MOVES = 65_536
MOST_MACHINE_STEPS = 1_048_576
WIDEST = ["=1011", "0", "5", "6140", "5"]
WIDEST_ELEMENTS = 4_194_114

# The least machine in standard form.
LEAST = b"S,_,_,+,T\nT,_,_,0,F\n"

# The 91 bytes that are letters, the blank's first.
LETTERS = "_" + "".join(chr(byte) for byte in range(33, 127) if chr(byte) not in '_,"/')
# How long the most quintuples' reversible machine may take on an idle machine, and the seconds that a loop takes there.
BENNETT_SECONDS, LOOP_SECONDS = 3, 0.07


def slowness():
    """How many times as long a piece of work takes now as on an idle machine, which is at least once."""
    begin = time.perf_counter()
    sum(number * number for number in range(1_000_000))
    return max(1, (time.perf_counter() - begin) / LOOP_SECONDS)


class Limits:
    """Runs commands of a program, and holds what comes out; `held` is how much held."""

    def __init__(self, program):
        self.program = program
        self.held = 0

    def answer(self, words, text):
        """The output of a run, and its status."""
        begin = time.perf_counter()
        ran = subprocess.run([self.program, *words], input=text, capture_output=True, check=False)
        self.seconds = time.perf_counter() - begin
        return ran.stdout, ran.returncode

    def hold(self, name, holds, seen=""):
        assert holds, f"{name}: {seen}"
        self.held += 1

    def expect(self, name, words, text, wanted, status=DONE):
        """Holds an answer against these lines, or against a question on its lines; the output."""
        out, given = self.answer(words, text)
        lines = out.decode().splitlines()
        try:
            is_wanted = wanted(lines) if callable(wanted) else lines == wanted
        except IndexError:
            is_wanted = False
        self.hold(name, is_wanted and given == status, f"`{' '.join(words)[:60]}` gives status {given}, {out[:80]!r}")
        return out


CASES = []


def case(function):
    """Lists a case; a function of Limits."""
    CASES.append(function)
    return function


def chain(count, letters):
    """A machine in standard form of so many quintuples: it passes a word of these letters, one by one, and halts at the
    blank behind them."""
    entries = ["S,_,_,+,A0"]
    for number in range(count - 2):
        letter = letters[1 + number % (len(letters) - 1)]
        entries.append(f"A{number},{letter},{letter},+,A{number + 1}")
    entries.append(f"A{count - 2},_,_,0,F")
    return ("\n".join(entries) + "\n").encode()


def word_of(count, letters):
    """The word that the chain of so many quintuples passes."""
    return "".join(letters[1 + number % (len(letters) - 1)] for number in range(count - 2))


def endless():
    """A machine in standard form of 200 quintuples that goes right for ever."""
    entries = [
        "S,_,_,+,R",
        "R,_,_,+,R",
        *(f"U{number},_,_,0,U{number + 1}" for number in range(1, 198)),
        "U198,_,_,0,F",
    ]
    return ("\n".join(entries) + "\n").encode()


# ---- inputs


@case
def an_input_of_the_most_bytes(by):
    by.expect("an input of 256 MiB", ["check"], b"\n" * MOST_INPUT, ["text: empty"], TEXT)
    by.expect("one byte more", ["check"], b"\n" * (MOST_INPUT + 1), ["size: input"], SIZE)


# ---- tables of quintuples and of quadruples as large as they may be

WALKING = b"S,_,_,+,A\nA,_,_,+,A\nA,1,1,+,A\nH,_,_,0,F\n"


@case
def a_table_of_the_most_quintuples(by):
    table = chain(MOST_QUINTUPLES, LETTERS)
    word = word_of(MOST_QUINTUPLES, LETTERS)
    counted = f"standard states {MOST_QUINTUPLES + 1} symbols 91 quintuples {MOST_QUINTUPLES}"
    by.expect("check", ["check"], table, [counted])
    by.expect(
        "one quintuple too many",
        ["check"],
        chain(MOST_QUINTUPLES + 1, LETTERS),
        [f"text: record {MOST_QUINTUPLES + 1} too many"],
        TEXT,
    )
    by.expect(
        "machine", ["machine", "=" + word, str(MOST_MACHINE_STEPS)], table, [f"halted {MOST_QUINTUPLES}", "output ="]
    )


@case
def a_trace_of_the_most_steps(by):
    last = f"{MOST_MACHINE_STEPS} A from {MOST_MACHINE_STEPS} head {MOST_MACHINE_STEPS} cells 1: _ rule 2"
    by.expect(
        "a trace of as many steps as may be",
        ["trace", "=", str(MOST_MACHINE_STEPS)],
        WALKING,
        lambda lines: len(lines) == MOST_MACHINE_STEPS + 2
        and lines[-1] == f"running {MOST_MACHINE_STEPS}"
        and lines[-2] == last,
        INSIDE,
    )
    by.expect("a trace of one step more", ["trace", "=", str(MOST_MACHINE_STEPS + 1)], WALKING, ["usage"], USAGE)


@case
def a_word_of_100000_letters(by):
    first = "0 S from 0 head 0 cells 100001: _" + " 1" * 100_000 + " rule 1"
    by.expect(
        "a trace on a word of 100,000 letters",
        ["trace", "=" + "1" * 100_000, "2"],
        WALKING,
        lambda lines: len(lines) == 4 and lines[0] == first,
        INSIDE,
    )
    by.expect(
        "machine on a word of 100,000 letters",
        ["machine", "=" + "1" * 100_000, str(MOST_MACHINE_STEPS)],
        increments(1),
        ["halted 200004", "output =1" + "0" * 100_000],
    )


@case
def bennett_of_the_most_quintuples(by):
    table = chain(MOST_QUINTUPLES, LETTERS)
    listed = by.expect("bennett", ["bennett"], table, lambda lines: len(lines) == 4 * MOST_QUINTUPLES + 2 * 91 + 3)
    by.hold(
        f"bennett in under {BENNETT_SECONDS} seconds", by.seconds < BENNETT_SECONDS * slowness(), f"{by.seconds:.2f} s"
    )
    by.expect("reversible of it", ["reversible"], listed, ["deterministic yes", "reversible yes"])
    by.expect("standard", ["standard"], chain(1000, LETTERS[:3]), lambda lines: len(lines) == 1000 + 3 + 1)


@case
def a_table_of_the_most_quadruples(by):
    apart = quadruples(lambda n: f"a{n}", lambda n: ["_", "/", "/"], lambda n: f"b{n}")
    by.expect("20,000 quadruples", ["reversible"], apart, ["deterministic yes", "reversible yes"])
    by.expect(
        "one quadruple too many",
        ["reversible"],
        apart + b"A,_,/,/,_,0,0,B\n",
        [f"text: record {MOST_QUADRUPLES + 1} too many"],
        TEXT,
    )


@case
def moments_of_the_most_steps(by):
    running = b"A,/,/,/,+,-,0,B\nB,_,/,/,_,0,0,A\nC,_,_,_,_,_,_,F\n"
    by.expect(
        "moments of as many steps as may be",
        ["moments", "=", str(MOST_MACHINE_STEPS)],
        running,
        lambda lines: len(lines) == MOST_MACHINE_STEPS + 2 and lines[-1] == f"running {MOST_MACHINE_STEPS}",
        INSIDE,
    )
    by.expect("moments of one step more", ["moments", "=", str(MOST_MACHINE_STEPS + 1)], running, ["usage"], USAGE)


# ---- the erasing machine of two tables


@case
def erasing_two_large_tables(by):
    letters = LETTERS[:3]
    large, word = chain(2496, letters), word_of(2496, letters)
    most = 4 * (2 * 2496) + 4 * 3 + 6
    by.expect("erase", ["erase"], large + b"%\n" + large, lambda lines: len(lines) == most)
    by.expect(
        "too many quadruples",
        ["erase"],
        large + b"%\n" + chain(2600, letters),
        [f"size: quadruples {4 * (2496 + 2600) + 4 * 3 + 6}"],
        SIZE,
    )
    by.expect(
        "a run of the most steps",
        ["erase", "=" + word, str(MOST_MACHINE_STEPS)],
        large + b"%\n" + large,
        lambda lines: lines[0].startswith("stuck G"),
        STUCK,
    )


@case
def erasing_on_a_long_word(by):
    copying = b"S,_,_,+,A\nA,1,1,+,A\nA,_,_,-,B\nB,1,1,-,B\nB,_,_,0,F\n"
    ones = "1" * 100_000
    steps = 4 * 2 * (2 * 100_000 + 3) + 4 * 200_000 + 10
    by.expect(
        "a long word",
        ["erase", "=" + ones, str(MOST_MACHINE_STEPS)],
        copying + b"%\n" + copying,
        [f"running {MOST_MACHINE_STEPS}"] if steps > MOST_MACHINE_STEPS else [f"halted {steps}"],
        INSIDE,
    )


# ---- circuits of the most elements, and runs of the most steps


@case
def a_text_of_one_element(by):
    loop = one_element()
    there = by.expect("a text of one element", ["step", "0"], loop, lambda lines: True)
    by.hold("the same text", there == loop)


@case
def a_ring_there_and_back(by):
    text = ring(list(range(RING)))
    there = by.expect("a ring, once round", ["step", str(RING)], text, lambda lines: lines[4] == f"steps {RING}")
    back = by.expect("and back", ["back", str(MOST_STEPS)], there, lambda lines: lines[4] == "steps 0")
    by.hold("a ring and back is the same text", back == text)
    image = by.expect("its mirror", ["mirror"], there, lambda lines: lines[4] == "steps 0")
    there = by.expect("the mirror, once round", ["step", str(RING)], image, lambda lines: lines[4] == f"steps {RING}")
    by.hold("mirrored again it is the same text", by.answer(["mirror"], there)[0] == text)
    by.expect("a floor plan", ["plan"], text, lambda lines: len(lines) == RING + 4)


@case
def a_floor_plan_of_a_ring_back_and_forth(by):
    half = [number // 2 + (number % 2) * (RING // 2) for number in range(RING)]
    by.expect("its floor plan", ["plan"], ring(half), lambda lines: f"tracks {RING}" in lines)


@case
def one_element_too_many(by):
    by.expect("in version 1", ["step", "0"], b"rotary 1\nelements 1048577\n", ["text: line 2 too many"], TEXT)
    by.expect("in version 2", ["step", "0"], b"rotary 2\nelements 4194305\n", ["text: line 2 too many"], TEXT)


@case
def a_ring_in_version_2(by):
    text = ring(list(range(RING_IN_TWO)), 2)
    there = by.expect(
        "a ring in version 2, once round",
        ["step", str(RING_IN_TWO)],
        text,
        lambda lines: lines[4] == f"steps {RING_IN_TWO}",
    )
    back = by.expect("and back", ["back", str(MOST_STEPS)], there, lambda lines: lines[4] == "steps 0")
    by.hold("it is the same text", back == text)
    by.hold("migrated it stays", by.answer(["migrate"], text)[0] == text)
    image = by.expect("its mirror", ["mirror"], text, lambda lines: lines[4] == "steps 0")
    by.hold("mirrored twice it is the same text", by.answer(["mirror"], image)[0] == text)
    by.expect("its floor plan", ["plan"], text, lambda lines: len(lines) == RING_IN_TWO + 4)
    by.expect("a farm of it alone", ["farm"], text + b"%\n+ 1 5\n", lambda lines: lines[-1] == "- 1 5")
    by.expect(
        "a farm with one element too many",
        ["farm"],
        text + b"%\n" + one_element() + b"%\n",
        [f"size: elements {RING_IN_TWO + 1}"],
        SIZE,
    )


@case
def a_farm_of_1000_boards(by):
    boards = (one_element() + b"%\n") * 1000
    events = "".join(f"{'+-'[number % 3 == 2]} {number * 7 % 1000 + 1} {number % 5 + 1}\n" for number in range(100_000))
    there = by.expect(
        "1,000 boards under 100,000 events", ["farm"], boards + events.encode(), lambda lines: len(lines) > 8000
    )
    back = by.answer(["farm"], there)[0]
    by.hold("undone it is the same farm", back[: len(boards)] == boards)


@case
def a_table_of_the_most_moves(by):
    moves = [(n % 2048 + 1, n // 2048 + 1, 2048 - n % 2048, 32 - n // 2048) for n in range(MOST_MOVES - 1)]
    moves.append((2048, 2047, 2048, 2047))
    table = "".join(f"{q},{i},{to},{out}\n" for q, i, to, out in moves)
    bank = by.expect(
        "realise", ["realise", "1", "1"], table.encode(), lambda lines: lines[1] == f"elements {RING_IN_TWO}"
    )
    by.expect(
        "a run of at most 2^62 steps", ["step", str(MOST_STEPS)], bank, lambda lines: lines[5].startswith("left ")
    )
    without = (table.replace("1,1,2048,32\n", "", 1) + "2048,2046,2048,32\n").encode()
    by.expect(
        "a state and a line without a move",
        ["realise", "1", "1"],
        without,
        lambda lines: lines[1] == f"elements {RING_IN_TWO}",
    )
    by.expect(
        "one move too many",
        ["realise", "1", "1"],
        (table + "1,2047,1,2047\n").encode(),
        [f"text: record {MOST_MOVES + 1} too many"],
        TEXT,
    )
    by.expect(
        "one line too many",
        ["realise", "1", "1"],
        without.replace(b"2048,2047,2048,2047", b"2048,2048,2048,2048"),
        ["size: elements 4196352"],
        SIZE,
    )


# ---- boards of the widest window, and sessions of long scripts


@case
def a_board_of_the_widest_window(by):
    table = increments(1)
    compiled = by.expect(
        "compile", ["compile", *WIDEST], table, lambda lines: lines[1] == f"elements {WIDEST_ELEMENTS}"
    )
    by.expect(
        "a text of four million elements again",
        ["step", "0"],
        compiled,
        lambda lines: lines[1] == f"elements {WIDEST_ELEMENTS}",
    )


@case
def runs_in_the_widest_window(by):
    table, last = increments(1), WIDEST_ELEMENTS - 1
    by.expect("run", ["run", *WIDEST], table, lambda lines: "output =1100" in lines)
    by.expect("view", ["view", *WIDEST, str(MOST_STEPS)], table, lambda lines: "exit end" in lines)
    by.expect("one element too many", ["run", "=1011", "0", "5", "6141", "5"], table, ["size: elements 4194796"], SIZE)
    by.expect(
        "a breakpoint on the last element of the widest board",
        ["session", *WIDEST],
        table + b"%\n" + f"break e element {last}\ngo {MOST_STEPS}\n".encode(),
        lambda lines: lines[1].startswith(f"at {last}.") and lines[1].endswith(" break e"),
    )


@case
def a_layout_of_the_widest_window(by):
    table = increments(1)
    by.expect(
        "layout",
        ["layout", *WIDEST],
        table,
        lambda lines: lines[:2] == [f"elements {WIDEST_ELEMENTS}", "modules 6154"]
        and lines[6155].startswith("module 6153 tape 3 cell 5 from ")
        and lines[-1].endswith(" of tape 3 TakeL"),
    )
    by.expect(
        "one element too many", ["layout", "=1011", "0", "5", "6141", "5"], table, ["size: elements 4194796"], SIZE
    )
    by.expect(
        "layout of 100 quintuples",
        ["layout", "=", "0", "1", "1", "1"],
        chain(100, LETTERS[:3]),
        lambda lines: lines[0] == "elements 278888",
    )
    by.expect(
        "layout of 4,000 quintuples",
        ["layout", "=", "0", "1", "1", "1"],
        chain(MOST_QUINTUPLES, LETTERS[:3]),
        ["size: elements 385513088"],
        SIZE,
    )


# It goes over words of one letter on all three tapes at once, and halts behind them.
GOING = b"S,_,_,_,_,_,_,R\nR,/,/,/,+,+,+,A\nA,a,a,a,a,a,a,R\nA,_,_,_,_,_,_,F\n"
GOING_ROWS = [line.split(",") for line in GOING.decode().splitlines()]
MOST_DRIVE_STEPS = 1 << 61


def window_of(cells):
    """A window with so many cells right of position 0 on each tape, as words; and how many elements the board has there."""
    return ["0", *[str(cells)] * 3], rules.count_of(GOING_ROWS, (0, cells, cells, cells))


@case
def boards_with_long_words_on_three_tapes(by):
    window, count = window_of(26_000)
    by.hold("about as many elements as may be", 4_000_000 < count < 4_194_304, str(count))
    letters = by.expect(
        "by letters",
        ["build", *["=" + "a" * 26_000] * 3, *window],
        GOING,
        lambda lines: lines[1] == f"elements {count}",
    )
    names = by.expect("by names", ["build", *[":" + ",".join("a" * 26_000)] * 3, *window], GOING, lambda lines: True)
    by.hold("letters and names are the same words", letters == names)
    longer = ["=", "=", ":" + ",".join("a" * 26_001)]
    by.expect("one letter too many", ["build", *longer, *window], GOING, ["size: word 3 needs 26001"], SIZE)
    foreign = ["=", "=" + "a" * 26_000 + "b", "="]
    by.expect("a foreign letter behind many", ["build", *foreign, *window], GOING, ["word: 2 26001"], WORD)
    window, count = window_of(27_000)
    by.expect("too many elements", ["build", "=", *window], GOING, [f"size: elements {count}"], SIZE)


@case
def drives_of_the_most_steps(by):
    window, count = window_of(26_000)
    words = ["=" + "a" * 300, ":" + ",".join("a" * 300), "=" + "a" * 300]
    ended = rules.ended(GOING_ROWS, ["a" * 300] * 3, (0, *[26_000] * 3), 1000)
    by.expect(
        "a drive of at most 2^61 steps",
        ["drive", *words, *window, str(MOST_DRIVE_STEPS)],
        GOING,
        lambda lines: lines[:2] == [f"elements {count}", "exit end"]
        and lines[3:] == [f"quadruple steps {ended.steps}", *rules.tape_lines(ended.tapes, (0, *[26_000] * 3))],
    )
    by.expect("one step more", ["drive", *words, *window, str(MOST_DRIVE_STEPS + 1)], GOING, ["usage"], USAGE)
    by.expect(
        "no step",
        ["drive", *words, *window, "0"],
        GOING,
        lambda lines: lines[1:4] == ["inside 0.w", "steps 0", "quadruple steps 0"],
        INSIDE,
    )


@case
def looks_and_plays_of_the_most_steps(by):
    window, count = window_of(26_000)
    words = ["=" + "a" * 300, ":" + ",".join("a" * 300), "=" + "a" * 300]
    ended = rules.ended(GOING_ROWS, ["a" * 300] * 3, (0, *[26_000] * 3), 1000)
    tapes = rules.tape_lines(ended.tapes, (0, *[26_000] * 3))
    shown = ["exit end", f"quadruple {GOING_ROWS[-1][-1]}", *tapes]
    by.expect(
        "a look after at most 2^62 steps",
        ["look", *words, *window, str(MOST_STEPS)],
        GOING,
        lambda lines: lines[0].startswith("element left ") and lines[1:] == shown,
    )
    by.expect("one step more", ["look", *words, *window, str(MOST_STEPS + 1)], GOING, ["usage"], USAGE)
    script = f"%\nbreak end state {GOING_ROWS[-1][-1]}\nstep {MOST_STEPS}\nview\nback {MOST_STEPS}\n"
    by.expect(
        "a script that is played to the end and back",
        ["play", *words, *window],
        GOING + script.encode(),
        lambda lines: lines[0] == "break end" and lines[3:-1] == shown and lines[-1] == "at 0.w steps 0",
    )


@case
def a_drive_that_is_stuck_at_the_last_of_the_most_quadruples(by):
    """The control's states are named once more where a machine is stuck."""
    last = MOST_QUADRUPLES - 1
    rows = [
        f"q{i},{'1' if i == last else '_'},/,/,_,0,0,q{i + 1}"
        if i % 2
        else f"q{i},/,/,/,{'+-'[i // 2 % 2]},0,0,q{i + 1}"
        for i in range(MOST_QUADRUPLES)
    ]
    by.expect(
        "stuck after 19,999 steps",
        ["drive", "=", "0", "1", "0", "0", str(MOST_DRIVE_STEPS)],
        ("\n".join(rows) + "\n").encode(),
        lambda lines: lines[1] == f"exit stuck q{last} _ _ _" and lines[3] == f"quadruple steps {last}",
        STUCK,
    )


@case
def boards_of_long_tapes(by):
    table = increments(1)
    by.expect(
        "a long work tape",
        ["run", "=1011", "11000", "5", "11", "5"],
        table,
        lambda lines: lines[0] == "elements 1004136" and lines[-1] == "output =1100",
    )
    by.expect(
        "a long output tape",
        ["run", "=1011", "0", "5", "11", "11000"],
        table,
        lambda lines: lines[0] == "elements 1003686" and lines[-1] == "output =1100",
    )


@case
def boards_of_large_tables(by):
    by.expect(
        "a board of 100 quintuples",
        ["run", "=", "0", "1", "1", "1"],
        chain(100, LETTERS[:3]),
        lambda lines: lines[0] == "elements 278888",
        STUCK,
    )
    by.expect(
        "a board of 4,000 quintuples",
        ["run", "=", "0", "1", "1", "1"],
        chain(MOST_QUINTUPLES, LETTERS[:3]),
        ["size: elements 385513088"],
        SIZE,
    )


@case
def a_session_of_many_labels(by):
    labels = "".join(f"break L{number} element {number % 1000}\n" for number in range(50_000)) + "drop L0\n"
    by.expect(
        "a script of 50,000 labels",
        ["session", "=", "0", "2", "2", "1"],
        LEAST + b"%\n" + labels.encode(),
        lambda lines: len(lines) == 50_001,
    )


@case
def a_session_of_many_lines(by):
    script = (
        "".join(f"break L{number} element {number}\n" for number in range(100)) + "view\n" + "step 1\nback 1\n" * 50_000
    )
    by.expect(
        "a script of 100,101 lines",
        ["session", "=", "0", "2", "2", "1"],
        LEAST + b"%\n" + script.encode(),
        lambda lines: len(lines) == 100_000 + 100 + 7,
    )


@case
def walks_of_many_lines_and_many_elements(by):
    text = ring(list(range(RING_IN_TWO)), 2)
    script = f"break e element {RING_IN_TWO - 1}\ngo {MOST_STEPS}\nrev {MOST_STEPS}\nview\n"
    by.expect(
        "a breakpoint on the last element of a ring",
        ["walk"],
        text + b"%\n" + script.encode(),
        lambda lines: lines[1].startswith(f"at {RING_IN_TWO - 1}.")
        and lines[1].endswith(" break e")
        and lines[2].endswith(" steps 0")
        and lines[3:] == [lines[2].removesuffix(" steps 0"), "steps 0", "turned"],
    )
    lines = "".join(f"break L{number} line {number}.n\n" for number in range(1000)) + "step 1\nback 1\n" * 50_000
    by.expect(
        "a script of 101,000 lines",
        ["walk"],
        one_element() + b"%\n" + lines.encode(),
        lambda lines: len(lines) == 101_000,
    )
    by.expect(
        "a step beyond 2^62",
        ["walk"],
        one_element() + b"%\ngo 4611686018427387905\n",
        ["text: script line 1 form"],
        TEXT,
    )


@case
def generated_increments(by):
    for rounds in EXPECTED:
        by.expect(
            f"generate {rounds}",
            ["generate", str(rounds)],
            b"",
            lambda lines, rounds=rounds: [it for it in lines if not it.startswith("tape ")] == expected_lines(rounds),
        )


# ---- numbered elements, up to the last one with ten lines


@case
def numbered_elements(by):
    last = [f"{i // 10 + 1},{i % 10 + 1},{2 - i // 10},{10 - i % 10}" for i in range(20)]
    by.expect("the last element", ["element", "10", "2432902008176639999"], b"", last)
    by.expect("an element too many", ["element", "10", "2432902008176640000"], b"", ["word: number"], WORD)
    by.expect("the greatest number", ["element", "1", "4611686018427387904"], b"", ["word: number"], WORD)


# ---- circuits of 65,536 states, and machines of as many entries


def counter(bits):
    """The circuit of a counter of so many bits, each an element, and the ports by which it is used: 0.n, and an exit a bit and
    one for the overflow."""
    lines = ["rotary 1", f"elements {bits}", "start 0.n", f"end {bits - 1}.w", "steps 0", "at 0.n"]
    lines += [f"e {bit} V - - {bit}.e {bit + 1}.n" for bit in range(bits - 1)] + [f"e {bits - 1} V - - {bits - 1}.e -"]
    outputs = [*(f"{bit}.n" for bit in range(bits)), f"{bits - 1}.w"]
    return ("\n".join(lines) + "\n").encode(), [":0.n", f":{','.join(outputs)}"]


@case
def circuits_of_many_states(by):
    most = str(2**62)
    text, ports = counter(16)
    table = by.expect(
        "65,536 states",
        ["behaviour", "65536", most, *ports],
        text,
        lambda lines: len(lines) == 65536 and lines[-1] == "65536,1,1,17",
    )
    by.expect("a state too many", ["behaviour", "65535", most, *ports], text, ["more 65535 1"], INSIDE)
    more, more_ports = counter(17)
    by.expect("more than 65,536 states", ["crossings", "65536", most, *more_ports], more, ["more 65536 1"], INSIDE)
    two = [":0.n,1.s", ports[1]]
    by.expect(
        "more than 65,536 entries",
        ["behaviour", "65536", most, *two],
        text,
        lambda lines: lines[0][:5] == "more ",
        INSIDE,
    )
    by.expect("a crossing of 17 steps", ["behaviour", "65536", "16", *ports], text, ["running 32768 1"], INSIDE)
    by.expect("with as many as it makes", ["behaviour", "65536", "17", *ports], text, lambda lines: len(lines) == 65536)
    by.expect("equal to itself", ["equal", "1", "1"], table + b"%\n" + table, ["equal"])
    by.expect("one state on", ["equal", "1", "2"], table + b"%\n" + table, ["differ 1", "first 1", "second 2"])
    by.expect(
        "an entry too many",
        ["equal", "1", "1"],
        table + b"%\n" + table + b"1,2,1,18\n",
        ["text: second record 65537 too many"],
        TEXT,
    )


@case
def least_windows(by):
    by.expect("a machine that runs on", ["window", "=", "1048576"], endless(), ["running 1048576"], INSIDE)
    by.expect(
        "the longest word", ["window", "=" + "1" * 100_000, "300000"], increments(1), ["window 1 100001 200004 100002"]
    )


@case
def least_windows_of_quadruples(by):
    running = b"A,/,/,/,+,+,0,B\nB,_,/,/,_,0,0,C\nC,/,/,/,-,-,0,D\nD,_,/,/,_,0,0,E\nE,/,/,/,+,0,0,F\n"
    by.expect("five steps", ["room", "=", "5"], running, ["room 0 1 1 0"])
    by.expect("one step too few", ["room", "=", "4"], running, ["running 4"], INSIDE)
    endless = b"S,_,/,/,1,0,0,R\nR,/,/,/,+,0,0,A\nA,_,/,/,_,0,0,R\nC,_,/,/,_,0,0,F\n"
    most = str(MOST_MACHINE_STEPS)
    by.expect("a machine that runs on", ["room", "=", most], endless, [f"running {most}"], INSIDE)
    going = ["=" + "a" * 26_000, ":" + ",".join("a" * 26_000), "=" + "a" * 26_000]
    by.expect("long words", ["room", *going, most], GOING, ["room 0 26001 26001 26001"])
    by.expect("a step beyond", ["room", "=", str(MOST_MACHINE_STEPS + 1)], GOING, ["usage"], USAGE)
    by.expect("to the left", ["room", "=", "9"], b"S,/,/,/,+,0,-,F\n", ["none 3"], WINDOW)


# ---- windows that the program finds, up to the first circuit that is too large


@case
def a_window_that_is_found(by):
    by.expect(
        "a window is found",
        ["run", "=1011", "auto"],
        increments(1),
        lambda lines: lines[0] == "window 1 8 16 8" and lines[-1] == "output =1100",
    )
    by.expect("a machine that runs on", ["run", "=", "auto"], endless(), ["size: elements 6057744"], SIZE)
