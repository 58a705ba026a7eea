"""The window of a run: the least one in which the circuit ends as the machine does, by the command `window`, and for quadruples by
`room`. Of a run that has not ended after so many steps, or that no window has room for, the window of these steps, by `trace` and
`moments`."""
from __future__ import annotations

import csv
import io
import re
from dataclasses import dataclass
from typing import Callable

from .cli_engine import Ask

DONE, STUCK, WINDOW, INSIDE = 0, 10, 11, 12
# A circuit of more steps than this has too many elements, whatever the machine: the history alone has 90 a step.
MOST_TRACED = 46_603
FIRST_MOMENTS = 256
GREATEST = 1_048_576
HEADS = re.compile(rb" head (-?\d+)")
TAPES, FIELDS = 3, 8
SIZE = 6
# The letters that stand for symbols with names; ~ stands for a name that no symbol has.
LETTERS = [chr(code) for code in range(ord("0"), ord("~")) if chr(code) != "_"]
Window = tuple[int, int, int, int]


@dataclass(frozen=True)
class Found:
    """What is known of a run: the window, how the machine comes out (`halted 11`), and whether it came to its end."""

    window: Window
    outcome: str
    is_over: bool


class Refusal(Exception):
    """The program refused what was asked on the way to a window: the exact arguments, the status and the text."""

    def __init__(self, words: list[str], status: int, text: bytes) -> None:
        self.words, self.status, self.text = words, status, text
        super().__init__(text.decode(errors="replace"))


Say = Callable[[str], None]


def least_window(ask: Ask, is_quadruples: bool, table: bytes, words: list[str], steps: int, say: Say) -> Found:
    """The least window for a machine's run from its words, of at most so many steps."""
    if is_quadruples:
        return window_of_quadruples(ask, table, words, steps, say)
    return window_of_quintuples(ask, table, words[0], steps)


def asked(ask: Ask, words: list[str], table: bytes) -> tuple[int, bytes]:
    """An answer that is no refusal."""
    status, text = ask(words, table)
    if status not in (DONE, STUCK, INSIDE):
        raise Refusal(words, status, text)
    return status, text


def window_of_quintuples(ask: Ask, table: bytes, word: str, steps: int) -> Found:
    """The window of Bennett's circuit; of a run that goes on, the heads of its first steps, and a cell of history a step."""
    status, text = asked(ask, ["machine", word, str(steps)], table)
    outcome, letters = text.decode(errors="replace").splitlines()[0], len(word) - 1
    if status != INSIDE:
        _, line = asked(ask, ["window", word, str(steps)], table)
        return Found(window_in(line), outcome, True)
    made = int(outcome.split(" ")[-1])
    if made > MOST_TRACED:
        return Found((0, letters, made, 0), outcome, False)
    _, trace = asked(ask, ["trace", word, str(made)], table)
    heads = [int(it) for it in HEADS.findall(trace)]
    return Found((max(0, -min(heads)), max(letters, *heads), made, 0), outcome, False)


def window_in(line: bytes) -> Window:
    """The window of a line of `window` or `room`."""
    left, right, history, output = map(int, line.split()[1:])
    return left, right, history, output


def lengths_of(words: list[str]) -> list[int]:
    """How many letters there are on each tape."""
    counts = [len(it) - 1 if it[0] == "=" else len([name for name in it[1:].split(",") if name]) for it in words]
    return counts + [0] * (TAPES - len(counts))


def spelled(table: bytes, words: list[str]) -> tuple[bytes, list[str]]:
    """The table and the words with a letter in place of each symbol, since `moments` takes words of letters alone; as they are
    where no word has names. A name that no symbol has stays, and is refused."""
    if not any(word.startswith(":") for word in words):
        return table, words
    rows = [row for row in csv.reader(io.StringIO(table.decode(errors="surrogateescape"), newline="")) if row]
    symbols = {row[at] for row in rows if len(row) == FIELDS for at in range(1, 7) if row[at] not in ("/", "_")}
    letters = dict(zip(sorted(symbols), LETTERS))
    if len(letters) < len(symbols):
        raise Refusal(["moments", *words], SIZE, b"size: names\n")
    for row in rows:
        for at in range(1, 7) if len(row) == FIELDS else ():
            row[at] = row[at] if is_move(row, at) else letters.get(row[at], row[at])
    made = io.StringIO()
    csv.writer(made, lineterminator="\n").writerows(rows)
    lists = [list(word[1:]) if word[0] == "=" else [it for it in word[1:].split(",") if word != ":"] for word in words]
    return made.getvalue().encode(errors="surrogateescape"), [
        "=" + "".join(letters.get(it, "~") for it in names) for names in lists
    ]


def is_move(row: list[str], at: int) -> bool:
    """Whether a field of a quadruple is a move: an act on a tape that isn't read."""
    return at > TAPES and row[at - TAPES] == "/"


def window_of_quadruples(ask: Ask, table: bytes, words: list[str], steps: int, say: Say) -> Found:
    """The window of the circuit of quadruples."""
    exact = ["room", *words, str(steps)]
    status, line = ask(exact, table)
    if status == DONE:
        return Found(window_in(line), f"over after at most {steps:,} steps", True)
    if status not in (WINDOW, INSIDE):
        raise Refusal(exact, status, line)
    return window_of_moments(ask, table, words, steps, say)


def window_of_moments(ask: Ask, table: bytes, words: list[str], steps: int, say: Say) -> Found:
    """The window of the steps of a machine of quadruples: where the heads come on each tape, and the words."""
    limit, lengths = min(FIRST_MOMENTS, steps), lengths_of(words)
    table, words = spelled(table, words)
    while True:
        status, text = asked(ask, ["moments", *words, str(limit)], table)
        if status != INSIDE or limit >= steps:
            break
        limit = min(4 * limit, steps)
        say(f"no end after {limit // 4:,} steps; looking at {limit:,}")
    heads = [int(it) for it in HEADS.findall(text)]
    rights = [max(length, *heads[tape::TAPES]) for tape, length in enumerate(lengths)]
    left = max(0, -min(heads[0::TAPES]))
    outcome = text.rstrip(b"\n").rpartition(b"\n")[2].decode(errors="replace")
    return Found((left, rights[0], rights[1], rights[2]), outcome, status != INSIDE)
