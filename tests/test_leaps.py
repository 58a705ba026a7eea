"""Holds the commands that leap over banks against `step`, which walks every element.

Machines in standard form, words and narrow windows are drawn, and for each of them numbers E of element steps: 0 and 1, places
within banks, places where the signal is about to enter a bank, the end of the run, and beyond it. `compile | step E` gives the
text of the board there, every bar of it. Beside it are asked:

- `run` with E: the place, the steps, and what every cell of the three tapes shows, read off the bars of the text.
- `view` with E: the place and the steps.
- `session`: `step E`, and then on from there, in pieces that are drawn: each place with that of the text. A bar that was wrong
  behind a leap would lead the signal another way.

All of it is proved (the clauses of `Board::run` and `Board::run_counting`, and of the crate `bn_leap`); here it is tried. The
answers are those of the program that --program names; without one they are the library's, or those of node by bin/hithwelor;
where neither is here all is skipped. Each machine is a case: `--drawn N` draws so many, and `--seed S` others.
"""
import random
import re
import subprocess

import pytest
from hithwelor import answers
from test_ends import BLANK, drawn_run
from workbench_text import read_configuration

# A run that is longer is left: `step` walks it once for each number of steps.
LONGEST = 3_000_000


def by_program(path):
    """What answers words and an input by running a program: its text."""

    def ask(words, data):
        return subprocess.run([path, *words], input=data, stdout=subprocess.PIPE, stderr=subprocess.DEVNULL).stdout

    return ask


def by_library(words, data):
    """The same by the library, or by node."""
    return answers.answer(words, data)[1]


class Drawn:
    """A machine with a word and a window, and its answers."""

    def __init__(self, draw, text_of):
        self.text_of = text_of
        self.rows, word, self.window = drawn_run(draw)
        self.words = [f"={word}", *map(str, self.window)]
        self.table = "".join(",".join(row) + "\n" for row in self.rows).encode()

    def __str__(self):
        return f"{' '.join(self.words)} of {self.table!r}"

    def ask(self, command, *behind, after=b""):
        """The lines of a command's answer."""
        return self.text_of([command, *self.words, *behind], self.table + after).decode().splitlines()

    def tapes(self, bars):
        """What the cells of the three tapes show, by the bars of the board."""
        numbered = list(dict.fromkeys([BLANK, *(letter for row in self.rows for letter in row[1:3])]))
        history = [BLANK, *map(str, range(1, len(self.rows) + 1))]
        left, right, most, room = self.window
        tapes = [(-left, right, numbered), (0, most, history), (0, room, numbered)]
        sizes = [2 * len(names) * (2 * len(names) + 9) for _, _, names in tapes]
        first = len(bars) - sum((last - at + 1) * size for (at, last, _), size in zip(tapes, sizes))
        for number, ((at, last, names), size) in enumerate(zip(tapes, sizes), 1):
            head, shown = "?", []
            for cell in range(at, last + 1):
                column = marked(bars[first : first + size], 2 * len(names) + 9)
                shown.append("?" if column is None else names[column % len(names)])
                if column is not None and column >= len(names):
                    head = cell
                first += size
            yield f"tape {number} from {at} head {head}: {' '.join(shown)}"


def marked(bars, height):
    """The marked column of a bank: the first one whose bottom lies flat."""
    return next((number for number, bar in enumerate(bars[height - 1 :: height]) if bar == "H"), None)


def budgets_of(drawn, steps, elements, draw):
    """Numbers of element steps that matter: at the ends, within banks, and where the signal is about to enter one."""
    found = [0, 1, steps - 1, steps, steps + 1, 3 * steps + 7, *(draw.randrange(steps + 1) for _ in range(4))]
    script = f"%\nbreak a element {draw.randrange(elements)}\nbreak b element 0\n" + f"go {steps}\n" * 5
    for line in drawn.ask("session", after=script.encode()):
        border = re.match(r"at \S+ steps (\d+) break", line)
        if border:
            found += [int(border[1]) - 1, int(border[1])]
    return sorted({number for number in found if number >= 0})


def place_of(text):
    return f"{text.place_text} steps {text.steps}"


def faults_of(drawn, text, budget):
    """What the leaping commands tell otherwise after so many steps than the text there."""
    run = drawn.ask("run", str(budget))
    wanted = [f"elements {text.count}", *drawn.tapes(text.bars)]
    told = [run[0], *(line for line in run if line.startswith("tape "))]
    inside = [f"inside {text.place}"] if not text.has_left else [line for line in run if line.startswith("exit ")]
    if told != wanted or run[1:3] != [*inside, f"steps {text.steps}"]:
        yield f"run {budget} {drawn}: {run}, and not {place_of(text)} {wanted}"
    view = drawn.ask("view", str(budget))
    if view[0] != f"element {place_of(text)}":
        yield f"view {budget} {drawn}: {view[0]}, and not {place_of(text)}"


def faults_of_way(drawn, board, budget, draw):
    """What is told otherwise of the places on the way behind a leap than by texts."""
    pieces = [budget, 1, draw.randrange(40), draw.randrange(4000), 1]
    script = "%\n" + "".join(f"step {piece}\n" for piece in pieces)
    wanted = [place_of(text_after(drawn, board, sum(pieces[:number]))) for number in range(1, len(pieces) + 1)]
    told = drawn.ask("session", after=script.encode())
    if told != wanted:
        yield f"session {pieces} {drawn}: {told}, and not {wanted}"


def text_after(drawn, board, steps):
    """The board's text after so many steps, one by one."""
    return read_configuration(drawn.text_of(["step", str(steps)], board).decode())


def pytest_generate_tests(metafunc):
    config = metafunc.config
    if "number" in metafunc.fixturenames:
        metafunc.parametrize("number", range(1, 1 + (config.getoption("--drawn") or 100)))


def drawn_short(draw, text_of):
    """A machine whose run isn't too long, with its end and the number of its elements."""
    while True:
        drawn = Drawn(draw, text_of)
        run = drawn.ask("run")
        if (steps := int(run[2].split()[1])) <= LONGEST:
            return drawn, steps, int(run[0].split()[1])


@pytest.fixture(scope="module")
def text_of(request, pytestconfig):
    named = pytestconfig.getoption("--program")
    return by_program(named) if named else request.getfixturevalue("answering") and by_library


@pytest.mark.slow
@pytest.mark.engine
def test_what_leaps_tells_what_single_steps_do(number, text_of, pytestconfig):
    draw = random.Random(f"{pytestconfig.getoption('--seed')} {number}")
    drawn, steps, elements = drawn_short(draw, text_of)
    board = text_of(["compile", *drawn.words], drawn.table)
    budgets = budgets_of(drawn, steps, elements, draw)
    faults = [it for budget in budgets for it in faults_of(drawn, text_after(drawn, board, budget), budget)]
    assert len(budgets) >= 5
    assert not [*faults, *faults_of_way(drawn, board, draw.choice(budgets), draw)]
