"""The table of a sweep: rows behind one another, gone on with after a kill, and parts that are joined."""
from __future__ import annotations

import csv
import fcntl
import os
import re
import stat
import sys
from collections.abc import Iterable, Sequence
from typing import IO

from ..faults import FULL, Fault, cause
from . import record
from .cases import AUTO, Plan, Tell
from .rows import COLUMNS, FORM, MACHINE, WINDOW, WORD, Row, Tally

HEAD = (",".join(COLUMNS) + "\n").encode()
UNFINISHED = ".unfinished"
MODE = "utf-8", "surrogateescape"


def row_of_line(line: bytes) -> Row:
    """The fields of a line of a table."""
    return next(csv.reader([line.decode(*MODE)]), [])


def has_no_row(path: str) -> bool:
    """Whether a file is empty, or a table's head and nothing else."""
    try:
        with open(path, "rb") as file:
            return HEAD.startswith(file.read(len(HEAD) + 1))
    except OSError as error:
        raise Fault(f"{path}: {cause(error)}") from None


class Old:
    """What stands in a table already: its rows in whole groups, how many bytes they take, and their tally."""

    def __init__(self) -> None:
        self.groups, self.length, self.tally = 0, 0, Tally()

    def read(self, path: str, plan: Plan, first: int, last: int) -> None:
        """Reads a table whose groups are to be those from one number up to another."""
        with open(path, "rb") as file:
            if file.readline() != HEAD:
                raise Fault(f"{path} isn't the table of a sweep, and stays as it is: name another one by --out")
            self.length = len(HEAD)
            self.take(file, path, plan, first, last)

    def take(self, lines: Iterable[bytes], path: str, plan: Plan, first: int, last: int) -> None:
        """Takes in the rows, group by group, up to a torn line or a group that isn't whole."""
        length = self.length
        group: list[Row] = []
        wanted: list[Row] = []
        for number, line in enumerate(lines, 2):
            if not line.endswith(b"\n"):
                return
            at, row = first + self.groups, row_of_line(line)
            if not group and at < last:
                wanted = wanted_rows(plan, at)
            if at == last or len(row) != len(COLUMNS) or not is_row_of(row, wanted[len(group)]):
                raise Fault(f"{path}: line {number} isn't of this sweep; --resume takes the words of the first run")
            group.append(row)
            length += len(line)
            if len(group) == len(plan.kinds):
                self.tally.take(group)
                self.groups, self.length, group = self.groups + 1, length, []


def wanted_rows(plan: Plan, at: int) -> list[Row]:
    """The first four fields that the rows of a group have; a window may be `auto`."""
    ((table, words),) = plan.batch(at, at + 1).parts
    return [[table.name, plan.front + kind.form, words[0], kind.window] for kind in plan.kinds]


def is_row_of(row: Row, wanted: Row) -> bool:
    """Whether a row is of this machine, form, word and window; a window that was found stands for `auto`."""
    return row[MACHINE:WINDOW] == wanted[:WINDOW] and (wanted[WINDOW] in (AUTO, row[WINDOW]))


class Written:
    """A table that is being written: a file, or standard output. Each piece is handed to the system before the next."""

    def __init__(self, path: str | None, hint: str = "; make room, and go on by --resume") -> None:
        self.path, self.name, self.hint = path, path or "standard output", hint if path else ""

    def open(self, length: int) -> None:
        """Opens it behind so many bytes, and writes the head where there are none."""
        try:
            self.file: IO[bytes] = (
                open(self.path, "r+b" if length else "wb", buffering=0) if self.path else sys.stdout.buffer
            )
            self.is_kept = bool(self.path) and stat.S_ISREG(os.fstat(self.file.fileno()).st_mode)
            if self.is_kept:
                self.lock()
                self.file.truncate(length)
                self.file.seek(length)
        except OSError as error:
            raise Fault(f"{self.name}: {cause(error)}", FULL) from None
        if not length:
            self.write(HEAD)

    def lock(self) -> None:
        """Lets no other sweep write the same table."""
        try:
            fcntl.flock(self.file, fcntl.LOCK_EX | fcntl.LOCK_NB)
        except BlockingIOError:
            raise Fault(
                f"{self.name}: another sweep is writing it; wait for it, or name another one by --out"
            ) from None
        except OSError:
            pass

    def write(self, data: bytes) -> None:
        try:
            rest = memoryview(data)
            while rest:
                rest = rest[self.file.write(rest) :]
            self.file.flush()
        except OSError as error:
            raise Fault(f"{self.name}: {cause(error)}{self.hint}", FULL) from None

    def add(self, text: str) -> None:
        self.write(text.encode(*MODE))

    def close(self) -> None:
        if self.path:
            self.file.close()


# ---- parts


def part_name(path: str, number: int | str, count: int | str) -> str:
    """The name of a part of a table: of table.csv it is table.2-of-4.csv."""
    front, end = os.path.splitext(path)
    return f"{front}.{number}-of-{count}{end}"


def parts_of(path: str) -> list[str]:
    """The names of the parts of a table, in order; they are found beside its name."""
    front, end = os.path.splitext(path)
    folder, pattern = os.path.dirname(front) or ".", re.compile(
        re.escape(os.path.basename(front)) + r"\.\d+-of-(\d+)" + re.escape(end)
    )
    try:
        counts = {
            int(it[1])
            for it in map(pattern.fullmatch, (it.removesuffix(UNFINISHED) for it in os.listdir(folder)))
            if it
        }
    except OSError as error:
        raise Fault(f"{folder}: {cause(error)}") from None
    if len(counts) != 1:
        told = (
            f"parts of {' and of '.join(map(str, sorted(counts)))} stand there"
            if counts
            else "no part of it stands there"
        )
        raise Fault(f"{path}: {told}; `sweep .. --part K/N --out {path}` makes {part_name(path, 'K', 'N')}")
    count = counts.pop()
    return [part_name(path, number, count) for number in range(1, count + 1)]


def begins_group(row: Row, group: Sequence[Row]) -> bool:
    """Whether a row is of another group than the rows before: of another machine or word, or of a form that comes round again."""
    last, seen = group[-1], [it[FORM] for it in group]
    comes_again = row[FORM] in seen and (row[FORM] != last[FORM] or not row[WINDOW])
    return (row[MACHINE], row[WORD]) != (last[MACHINE], last[WORD]) or comes_again


def tally_of_text(data: bytes) -> Tally:
    """The tally of a table's rows, group by group."""
    tally = Tally()
    group: list[Row] = []
    for row in map(row_of_line, data.splitlines(keepends=True)):
        if group and begins_group(row, group):
            tally.take(group)
            group = []
        group.append(row)
    tally.take(group)
    return tally


def join(path: str, tell: Tell) -> tuple[int, Tally]:
    """Joins the parts of a table, with their records. Gives the number of parts, and the tally."""
    names, tally = parts_of(path), Tally()
    missing = [name for name in names if not os.path.exists(name)]
    if missing:
        what = "isn't finished: go on with it by --resume" if os.path.exists(missing[0] + UNFINISHED) else "isn't there"
        raise Fault(f"{missing[0]} {what}; {len(names) - len(missing)} of {len(names)} parts are whole")
    if os.path.exists(path):
        raise Fault(f"{path} is there, and stays as it is: move it away first")
    files = record.together(names, tell)
    joined = Written(path + UNFINISHED, "; make room, and join again")
    joined.open(0)
    for name in names:
        with open(name, "rb") as file:
            if file.readline() != HEAD:
                raise Fault(f"{name} isn't the part of a table")
            data = file.read()
        tally.add(tally_of_text(data))
        joined.write(data)
    joined.close()
    if files is not None:
        record.write(path, files)
    os.replace(path + UNFINISHED, path)
    return len(names), tally
