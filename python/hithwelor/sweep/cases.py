"""The cases of a sweep, each by its number: machines by words, and each of these groups by forms and windows."""
from __future__ import annotations

import bisect
import csv
import functools
import glob
import io
import itertools
import math
import os
import random
from collections.abc import Iterable, Sequence
from dataclasses import dataclass
from typing import Callable, Union

from ..answers import answer
from ..faults import Fault, cause

BLANK, AUTO = "_", "auto"
FORMS = ("machine", "run", "compile", "erase")
WINDOWED = ("run", "compile")
MOST_STEPS = 1_048_576
MOST_INCREMENTS = 444
FEW = 4096
GENERATED = "generate:"


@dataclass(frozen=True)
class Kind:
    """What is asked of each word: a form, a window of it (a text of four numbers, or `auto`), and a greatest number of steps."""

    form: str
    window: str = ""
    steps: int = MOST_STEPS


@dataclass(frozen=True)
class Table:
    """A machine: its name in the rows, its table, what `erase` reads, and, where `standard` refused it, the status and line."""

    name: str
    data: bytes
    both: bytes = b""
    refusal: tuple[int, bytes] | None = None

    @property
    def letters(self) -> str:
        """The letters of the table but the blank, by first appearance; of a table that is none, those that can be found."""
        records = csv.reader(io.StringIO(self.data.decode("utf-8-sig", errors="replace"), newline=""))
        found = [field for record in records if len(record) == 5 for field in record[1:3]]
        return "".join(dict.fromkeys(it for it in found if len(it) == 1 and it != BLANK))


class AllWords:
    """All words of these letters with `least` to `most` letters, the shorter ones first, in the order of the letters."""

    def __init__(self, letters: str, least: int, most: int) -> None:
        self.letters, self.least = letters, least
        self.counts = [len(letters) ** length for length in range(least, most + 1)]
        self.count = sum(self.counts)
        self.step = max(1, int(math.log(FEW, max(2, len(letters)))))

    def __getitem__(self, number: int) -> str:
        for length, count in enumerate(self.counts, self.least):
            if number < count:
                return self.spelled(number, length)
            number -= count
        raise IndexError(number)

    def spelled(self, number: int, length: int) -> str:
        """The word of this number among those of a length."""
        found = []
        while length > self.step:
            number, low = divmod(number, len(self.letters) ** self.step)
            found.append(spellings(self.letters, self.step)[low])
            length -= self.step
        found.append(spellings(self.letters, length)[number])
        return "".join(reversed(found))


@functools.cache
def spellings(letters: str, length: int) -> list[str]:
    """All words of a length, which is so small that they are few."""
    return ["".join(it) for it in itertools.product(letters, repeat=length)]


class Listed:
    """Words that are listed."""

    def __init__(self, words: list[str]) -> None:
        self.words, self.count = words, len(words)

    def __getitem__(self, number: int) -> str:
        return self.words[number]


Words = Union[AllWords, Listed]
Tell = Callable[[str], None]


def drawn(letters: str, least: int, most: int, count: int, seed: int) -> Listed:
    """So many words, drawn by a seed: first the length, then each letter. The same ones in each run."""
    draw = random.Random(seed)

    def below(number: int) -> int:
        return int(draw.random() * number)

    lengths: Sequence[int] = range(least, most + 1) if letters else [0]
    return Listed(
        ["".join(letters[below(len(letters))] for _ in range(lengths[below(len(lengths))])) for _ in range(count)]
    )


def words_of_file(path: str) -> Listed:
    """The words of a file, one a line; an empty line is the empty word."""
    data = read(path).removeprefix(b"\xef\xbb\xbf")
    lines = data.decode("utf-8", errors="surrogateescape").split("\n")
    if lines[-1] == "":
        lines.pop()
    words = [line.removesuffix("\r") for line in lines]
    for number, word in enumerate(words, 1):
        if "\0" in word or "\r" in word:
            raise Fault(f"{path}: line {number} has a byte 0 or 13, and no word has one")
    if not words:
        raise Fault(f"{path}: there is no word in it; one stands on each line, and an empty line is the empty word")
    return Listed(words)


def read(path: str) -> bytes:
    """The bytes of a file."""
    try:
        with open(path, "rb") as file:
            return file.read()
    except OSError as error:
        raise Fault(f"{path}: {cause(error)}; nothing was made") from None


def increments(count: int) -> bytes:
    """The table of the machine that adds one so many times, as docs/use/formats.md has it."""
    lines = ["S,_,_,+,R1"]
    for i in range(1, count + 1):
        last = f"L{i},_,_,0,F" if i == count else f"L{i},_,_,+,R{i + 1}"
        lines += [
            f"R{i},0,0,+,R{i}",
            f"R{i},1,1,+,R{i}",
            f"R{i},_,_,-,P{i}",
            f"P{i},1,0,-,P{i}",
            f"P{i},0,1,-,L{i}",
            f"P{i},_,1,-,L{i}",
            f"L{i},0,0,-,L{i}",
            f"L{i},1,1,-,L{i}",
            last,
        ]
    return "".join(f"{line}\n" for line in lines).encode()


def generated(name: str) -> Table:
    """The table of `generate:K`."""
    number = name.removeprefix(GENERATED)
    if not (number.isascii() and number.isdigit()) or not 1 <= int(number) <= MOST_INCREMENTS:
        raise Fault(f"{name}: behind the colon stands the number of increments, from 1 to {MOST_INCREMENTS}")
    return Table(name, increments(int(number)))


def tables_of(names: Iterable[str], tell: Tell) -> list[Table]:
    """The machines that are named: files, folders of *.csv, and `generate:K`. A folder without one is told, and passed over."""
    found = []
    for name in names:
        if name.startswith(GENERATED):
            found.append(generated(name))
        elif os.path.isdir(name):
            paths = sorted(glob.glob(os.path.join(glob.escape(name), "*.csv")))
            if not paths:
                tell(f"{name}: no file of this folder ends in .csv; name a folder with tables of machines")
            found += [Table(path, read(path)) for path in paths]
        else:
            found.append(Table(name, read(name)))
    if not found:
        raise Fault("no machine is left, and nothing was made; docs/use/many.md has examples")
    if any(ord(it) < 32 for table in found for it in table.name):
        raise Fault("the name of a machine's file has a line end or a tab, and can't stand in a row; rename it")
    return found


def in_standard_form(table: Table) -> Table:
    """The machine that `standard` makes of this one, or this one with what `standard` says against it."""
    status, text = answer(["standard"], table.data)
    if status:
        return Table(table.name, table.data, refusal=(status, text))
    return Table(table.name, text)


def with_second(table: Table, second: bytes | None) -> Table:
    """The machine with what `erase` reads: its table, a text line %, and the table of the machine back, or its own again."""
    first = table.data if table.data.endswith(b"\n") else table.data + b"\n"
    return Table(table.name, table.data, first + b"%\n" + (table.data if second is None else second), table.refusal)


def window_of(word: str) -> str:
    """The window that a word of the command line names: `auto`, or four numbers with commas between them."""
    parts = word.replace(",", " ").split()
    if parts == [AUTO] or len(parts) == 4 and all(it.isascii() and it.isdigit() for it in parts):
        return " ".join(AUTO if it == AUTO else str(int(it)) for it in parts)
    raise Fault(f"{word}: a window is auto, or four numbers l1,r1,n,r3 with commas between them, as 0,5,11,5")


def kinds_of(forms: Sequence[str], windows: Sequence[str], steps: int) -> tuple[Kind, ...]:
    """What is asked of each word, in order."""
    return tuple(Kind(form, window, steps) for form in forms for window in (windows if form in WINDOWED else [""]))


@dataclass(frozen=True)
class Batch:
    """Groups in a row, as they are handed to a worker: for each machine its words. A group is a machine and a word with all
    that is asked of it; so a batch can be answered and compared by itself."""

    parts: tuple[tuple[Table, tuple[str, ...]], ...]
    kinds: tuple[Kind, ...]
    front: str
    seconds: float | None

    @property
    def groups(self) -> int:
        return sum(len(words) for _, words in self.parts)


@dataclass(frozen=True)
class Plan:
    """All cases of a sweep. `front` is what stands before the form in a row: `standard ` or nothing. `sources` are the
    machines as they were read, and `back` the machine back of `erase`, where one was named."""

    tables: tuple[Table, ...]
    words: tuple[Words, ...]
    kinds: tuple[Kind, ...]
    front: str = ""
    seconds: float | None = None
    sources: tuple[Table, ...] = ()
    back: Table | None = None

    @functools.cached_property
    def starts(self) -> list[int]:
        """The number of each machine's first group, and at the end the number of all groups."""
        return list(itertools.accumulate((words.count for words in self.words), initial=0))

    @property
    def groups(self) -> int:
        return self.starts[-1]

    def batch(self, first: int, last: int) -> Batch:
        """The groups from one number up to another."""
        parts: list[tuple[Table, tuple[str, ...]]] = []
        place = bisect.bisect_right(self.starts, first) - 1
        while first < last and place < len(self.tables):
            start, high, words = self.starts[place], min(last, self.starts[place + 1]), self.words[place]
            if first < high:
                parts.append((self.tables[place], tuple(words[number - start] for number in range(first, high))))
                first = high
            place += 1
        return Batch(tuple(parts), self.kinds, self.front, self.seconds)

    def part(self, number: int, count: int) -> tuple[int, int]:
        """The first and the last group, one beyond, of a part of so many."""
        return self.groups * (number - 1) // count, self.groups * number // count
