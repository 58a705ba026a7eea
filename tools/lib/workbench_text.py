"""What the tools share: runs of the program, and the texts that it prints.

The program makes every step. A reader here takes a text that the program printed and gives its parts names; where a
text isn't of the form that docs/use/formats.md says, a Fault tells what is wrong and where. Tapes and views are those of the
Python package.
"""
import argparse
import os
import re
import subprocess
import sys
from dataclasses import dataclass

from repository import TOP

sys.path.append(os.path.join(TOP, "python"))
from hithwelor.answers import Unavailable, answer
from hithwelor.faults import Fault
from hithwelor.texts import Tape, View

MODULE = os.path.join(TOP, "bin", "hithwelor")
BUILT = os.path.join(TOP, "crates", "bn_main", "out", "bn_main")
SIDES = "nesw"
GREATEST_STEPS = 2**62
GREATEST_WINDOW = 1048576
# The word in place of a window's numbers, and the statuses of a run in the window that is found: halted, and stuck.
AUTO = "auto"
ENDED = (0, 10)


def guarded(main):
    """Runs a tool's main function: a fault becomes one line on standard error and exit status 2."""
    try:
        sys.exit(main() or 0)
    except Fault as fault:
        print(f"{os.path.basename(sys.argv[0])}: {fault}", file=sys.stderr)
        sys.exit(2)
    except BrokenPipeError:
        os.dup2(os.open(os.devnull, os.O_WRONLY), sys.stdout.fileno())
        sys.exit(0)


class Parser(argparse.ArgumentParser):
    """An argument parser that tells a fault of the words in one line."""

    def error(self, message):
        raise Fault(f"{message}; --help tells the words")


def plain_parser_of(description, **more):
    """An argument parser for a tool that runs no program."""
    return Parser(description=description, formatter_class=argparse.RawDescriptionHelpFormatter, **more)


def parser_of(description, **more):
    """An argument parser with the option of every tool that runs the program."""
    parser = plain_parser_of(description, **more)
    parser.add_argument(
        "--program",
        metavar="PATH",
        help="the program to run; without it, what answers ./try: the proved program where it is current, else the module "
        "under Node.js; no proof is started",
    )
    return parser


def number_up_to(greatest, least=0):
    """A reader of an option's number, for argparse."""

    def read(word):
        if not re.fullmatch(r"0|[1-9][0-9]*", word) or not least <= int(word) <= greatest:
            raise argparse.ArgumentTypeError(f"{word!r} is no number from {least} to {greatest}")
        return int(word)

    return read


def read_file(path, binary=False):
    """The bytes or the text of a file; `-` is standard input."""
    try:
        if path == "-":
            data = sys.stdin.buffer.read()
        else:
            with open(path, "rb") as file:
                data = file.read()
    except OSError as error:
        raise Fault(f"{path}: {error.strerror}") from None
    if binary:
        return data
    try:
        return data.decode("utf-8-sig")
    except UnicodeDecodeError as error:
        raise Fault(f"{name_of(path)}: byte {error.start} isn't UTF-8") from None


def name_of(path):
    """How a message names a file."""
    return "standard input" if path == "-" else path


def program_behind(path):
    """The program of a path; without one, that which answers: the proved program where it is current, else bin/hithwelor, the
    same code under Node.js. No proof is started."""
    if path:
        return path
    why = ""
    for words in ([], ["--module"]):
        ran = subprocess.run([os.path.join(TOP, "tools", "program"), *words], capture_output=True, text=True)
        if ran.returncode == 0:
            return ran.stdout.strip()
        why = ran.stderr.strip().removeprefix("tools/program: ")
    raise Fault(f"nothing here can answer: the proved program isn't built of these sources, and {why}")


class Program:
    """The program, by its path; without one it is chosen at the first run."""

    def __init__(self, path=None):
        self.path = path

    def answer(self, words, data):
        """The status and the bytes of one run. One process of Node.js is kept for all runs of the module."""
        self.path = program_behind(self.path)
        try:
            if self.path == MODULE:
                return answer(words, data)
            ran = subprocess.run([self.path, *words], input=data, stdout=subprocess.PIPE)
        except (OSError, Unavailable, MemoryError) as error:
            raise Fault(f"{self.path}: {getattr(error, 'strerror', None) or error}") from None
        return ran.returncode, ran.stdout

    def run(self, words, data, statuses=(0,)):
        """The text that one run prints. A refusal, or a status that isn't wanted, is a fault."""
        status, printed = self.answer(words, data)
        text = printed.decode("utf-8", errors="replace")
        if status not in statuses:
            said = text.splitlines()[0] if text.strip() else "nothing"
            raise Fault(f"./workbench {' '.join(words)} says: {said} (status {status})")
        return text


def program_at_hand():
    """The built program for tests, which never build it; else None. WORKBENCH_PROGRAM names another one."""
    for path in (os.environ.get("WORKBENCH_PROGRAM"), BUILT):
        if path and os.access(path, os.X_OK):
            return path
    return None


def has_command(path, words, data=b""):
    """Whether the program knows these words: an older one says `usage`."""
    return Program(path).answer(words, data)[1] != b"usage\n"


@dataclass(frozen=True)
class Line:
    """A line of an element: its number and one of n, e, s, w."""

    element: int
    side: str

    def __str__(self):
        return f"{self.element}.{self.side}"


@dataclass
class Configuration:
    """A configuration text. `targets` has for each element the inputs to which its outputs n, e, s, w lead, or None."""

    start: Line
    end: Line
    steps: int
    has_left: bool
    place: Line
    bars: list
    targets: list

    @property
    def count(self):
        return len(self.bars)

    @property
    def place_text(self):
        return f"{'left' if self.has_left else 'at'} {self.place}"

    def wires(self):
        """The wires as pairs of an output line and an input line, in the order of the text."""
        for element, row in enumerate(self.targets):
            for side, target in zip(SIDES, row):
                if target is not None:
                    yield Line(element, side), target

    def target(self, line):
        """The input line to which an output line leads, or None."""
        return self.targets[line.element][SIDES.index(line.side)]

    def sources(self):
        """For each input line that is fed, the output line that feeds it."""
        return {into: out for out, into in self.wires()}


def line_of(word, place):
    """The line that a word E.L names."""
    found = re.fullmatch(r"(0|[1-9][0-9]*)\.([nesw])", word)
    if not found:
        raise Fault(f"{place}: {word!r} is no line of an element")
    return Line(int(found[1]), found[2])


def head_of(lines, where):
    """The first six text lines of a configuration text, without its element lines."""
    patterns = [
        r"rotary ([12])",
        r"elements ([1-9][0-9]*)",
        r"start (\S+)",
        r"end (\S+)",
        r"steps (\d+)",
        r"(at|left) (\S+)",
    ]
    found = []
    for number, pattern in enumerate(patterns, 1):
        match = re.fullmatch(pattern, lines[number - 1]) if number <= len(lines) else None
        if not match:
            raise Fault(f"{where}: line {number} isn't that of a configuration text")
        found.append(match)
    return found


def inner_targets(top, rows):
    """Where the outputs of a column's elements lead by the column's own wires, from the top row to the bottom."""
    bottom = top + rows
    targets = [[Line(top + row - 1, "s"), None, Line(top + row + 1, "n"), None] for row in range(rows)]
    targets[0][0] = Line(bottom, "e")
    return [*targets, [Line(bottom - 1, "s"), None, Line(bottom, "s"), Line(top, "n")]]


def target_of(word, place):
    """The input line that a word of an entry names, or None for a dash."""
    return None if word == "-" else line_of(word, place)


def column_of(lines, number, top, where):
    """The bars and the targets of a column whose entry begins behind so many text lines, its top row this element."""
    at = f"{where}: line {number + 1}"
    words = lines[number].split(" ")
    if (
        len(words) != 4
        or words[1] != str(top)
        or not re.fullmatch(r"[1-9][0-9]*", words[2])
        or words[3] not in ("H", "V")
    ):
        raise Fault(f"{at} isn't that of a column from element {top} on")
    rows = int(words[2])
    targets = inner_targets(top, rows)
    for row in range(rows):
        at = f"{where}: line {number + row + 2}"
        words_of_row = lines[number + row + 1].split(" ") if number + row + 1 < len(lines) else []
        if len(words_of_row) != 3 or words_of_row[0] != "r":
            raise Fault(f"{at} isn't that of a row")
        targets[row][1] = target_of(words_of_row[1], at)
        targets[row][3] = target_of(words_of_row[2], at)
    return ["V"] * rows + [words[3]], targets


def entries_of(lines, version, where):
    """The bars and the targets that the text lines behind the first six say. Each of them names one element."""
    bars, targets = [], []
    while 6 + len(bars) < len(lines):
        number, element = 6 + len(bars), len(bars)
        words = lines[number].split(" ")
        if version == "2" and words[0] == "c":
            more_bars, more_targets = column_of(lines, number, element, where)
            bars += more_bars
            targets += more_targets
            continue
        at = f"{where}: line {number + 1}"
        if len(words) != 7 or words[:2] != ["e", str(element)] or words[2] not in ("H", "V"):
            raise Fault(f"{at} isn't that of element {element}")
        bars.append(words[2])
        targets.append([target_of(word, at) for word in words[3:]])
    return bars, targets


def read_configuration(text, where="standard input"):
    """The configuration that a text of either version spells."""
    lines = text.split("\n")[:-1]
    version, count, start, end, steps, place = head_of(lines, where)
    if len(lines) != 6 + int(count[1]):
        raise Fault(f"{where}: {len(lines) - 6} text lines of elements, and line 2 says {count[1]}")
    bars, targets = entries_of(lines, version[1], where)
    return Configuration(
        line_of(start[1], f"{where}: line 3"),
        line_of(end[1], f"{where}: line 4"),
        int(steps[1]),
        place[1] == "left",
        line_of(place[2], f"{where}: line 6"),
        bars,
        targets,
    )


@dataclass
class Frame:
    """One configuration of a run: its steps, its place, and the bars that the step before it changed."""

    steps: int
    has_left: bool
    place: Line
    changed: list

    @property
    def place_text(self):
        return f"{'left' if self.has_left else 'at'} {self.place}"


def frame_of(configuration, before):
    """The frame of a configuration, with the elements whose bars differ from those before."""
    changed = [(number, new) for number, (old, new) in enumerate(zip(before.bars, configuration.bars)) if old != new]
    return Frame(configuration.steps, configuration.has_left, configuration.place, changed)


def frames_of(program, data, greatest):
    """The first configuration and the frames of a run: `step 0`, then `step 1` again and again, at most so often."""
    text = program.run(["step", "0"], data)
    first = read_configuration(text, "what step 0 prints")
    now, frames = first, [frame_of(first, first)]
    while len(frames) <= greatest and not frames[-1].has_left:
        text = program.run(["step", "1"], text.encode())
        before, now = now, read_configuration(text, "what step 1 prints")
        frames.append(frame_of(now, before))
    return first, frames


def read_tape(line, number, where):
    """The tape of this number that a tape line spells."""
    try:
        tape = Tape.read(line)
    except ValueError:
        tape = None
    if tape is None or tape.number != number:
        raise Fault(f"{where}: {line!r} isn't the line of tape {number}")
    return tape


def read_view(lines, where):
    """The view that seven lines spell."""
    for number, line in enumerate(lines[3:6], 1):
        read_tape(line, number, where)
    try:
        return View.read(lines)
    except ValueError as fault:
        raise Fault(f"{where}: {fault}") from None


def add_window(parser):
    """The positional words of a run: =W l1 r1 n r3, or =W auto."""
    parser.add_argument("word", metavar="=W", help="the word behind a =, as for run; = alone is the empty word")
    parser.add_argument(
        "window",
        metavar="N",
        nargs="+",
        type=number_or_auto,
        help="the window l1 r1 n r3: tape 1 from -l1 to r1, history 0 to n, output 0 to r3; or auto: the "
        "one that `run =W auto` finds",
    )


def number_or_auto(word):
    """A number of a window, or the word auto in place of all four, for argparse."""
    return word if word == AUTO else number_up_to(GREATEST_WINDOW)(word)


def window_words(options, program, table):
    """The words =W l1 r1 n r3 of a run on a table, from a tool's options; the program finds the window of auto."""
    numbers = options.window
    if numbers == [AUTO]:
        numbers = found_window(program, options.word, table)
    elif len(numbers) != 4 or AUTO in numbers:
        raise Fault("a window is the four numbers l1 r1 n r3, or the word auto; --help tells the words")
    return [options.word, *(str(number) for number in numbers)]


def found_window(program, word, table):
    """The window that the program finds for a word on a table: four numbers as it prints them."""
    line = program.run(["run", word, AUTO], table, ENDED).partition("\n")[0]
    found = re.fullmatch(r"window (\d+) (\d+) (\d+) (\d+)", line)
    if not found:
        raise Fault(f"what run prints: {line!r} is no line of a window")
    return found.groups()


def checked_word(word):
    """The word of a run, which begins with =."""
    if not word.startswith("="):
        raise Fault(f"the word {word!r} has no = before it")
    return word
