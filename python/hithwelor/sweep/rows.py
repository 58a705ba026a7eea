"""Rows of a sweep: what the program answers to a case, read into columns, and the machine's row compared with the circuit's."""
from __future__ import annotations

import csv
import io
import time
from collections.abc import Sequence
from dataclasses import dataclass, field
from typing import Callable, Union

from .. import answers
from .cases import AUTO, WINDOWED, Batch, Kind, Table
from .limited import Direct, Ended, Limited, TimeUp

COLUMNS = (
    "machine",
    "form",
    "word",
    "window",
    "status",
    "outcome",
    "steps",
    "quadruple steps",
    "elements",
    "output",
    "seconds",
)
MACHINE, FORM, WORD, WINDOW, STATUS, OUTCOME, STEPS, QUADRUPLE, ELEMENTS, OUTPUT, SECONDS = range(len(COLUMNS))
ANSWERED = ("0", "10", "11", "12")
TIME, NO_MEMORY, ENDED = "time", "no memory", "ended"
LEFT, INSIDE = (0, 10), 12
# `machine` and `erase` take room for all the steps that they may make, so they are asked with fewer first: where they end
# within these, the answer is the same.
FEWER_STEPS = (4096, 65_536)


# A row of a table; the outcome, the steps, the quadruple steps, the elements and the output of one; what answers.
Row = list[str]
Counts = tuple[str, str, str, str, str]
Ask = Callable[[bytes, bytes], tuple[int, bytes]]


def command_of(form: str, word: str, *behind: str) -> bytes:
    """The words of a case for the program, with a byte 0 between them."""
    return "\0".join([form, f"={word}", *behind]).encode("utf-8", errors="surrogateescape")


def ask_with_fewer_steps(ask: Ask, form: str, data: bytes, word: str, most: int) -> tuple[int, bytes]:
    """The answer of `machine` or `erase` in at most so many steps."""
    for steps in (*(it for it in FEWER_STEPS if it < most), most):
        code, text = ask(command_of(form, word, str(steps)), data)
        if code != INSIDE:
            break
    return code, text


def counts_of_machine(text: str, is_erase: bool) -> Counts:
    """Outcome, steps, quadruple steps, elements and output of what `machine` or `erase` printed."""
    first, _, rest = text.partition("\n")
    outcome, _, steps = first.rpartition(" ")
    output = rest.rpartition("output =")[2].rstrip("\n") if outcome == "halted" else ""
    return (outcome, "", steps, "", output) if is_erase else (outcome, steps, "", "", output)


def counts_of_run(text: str) -> tuple[Counts, str | None]:
    """The same of what `run` printed, and the window that it found, if it did."""
    told = {name: rest for name, _, rest in (line.partition(" ") for line in text.splitlines())}
    quadruples = told.get("quadruple", "").removeprefix("steps ")
    output = told.get("output", "=")[1:]
    return (told["exit"], told["steps"], quadruples, told["elements"], output), told.get("window")


def counts_of_compiled(text: str) -> Counts:
    """The same of the configuration text that `compile` printed."""
    return "compiled", "", "", text.split("\n", 2)[1].partition(" ")[2], ""


def compile_in_found_window(ask: Ask, table: bytes, word: str) -> tuple[int, bytes, str]:
    """What `compile` says in the window that `run` finds, and that window; or what `run` refuses."""
    code, text = ask(command_of("run", word, AUTO), table)
    if code not in LEFT:
        return code, text, AUTO
    window = text.decode().split("\n", 1)[0].removeprefix("window ")
    return *ask(command_of("compile", word, *window.split(" ")), table), window


def counts_of(ask: Ask, table: Table, kind: Kind, word: str) -> tuple[int, Counts, str]:
    """The status, the counts and the window of a case."""
    window, form = kind.window, kind.form
    if table.refusal:
        code, given = table.refusal
    elif form == "compile" and window == AUTO:
        code, given, window = compile_in_found_window(ask, table.data, word)
    elif form in WINDOWED:
        code, given = ask(command_of(form, word, *window.split(" ")), table.data)
    else:
        code, given = ask_with_fewer_steps(ask, form, table.both if form == "erase" else table.data, word, kind.steps)
    text = given.decode("ascii", errors="replace")
    if code == answers.NO_MEMORY:
        return code, (NO_MEMORY, "", "", "", ""), window
    if str(code) not in ANSWERED:
        return code, (text.split("\n", 1)[0], "", "", "", ""), window
    if form == "run":
        counts, found = counts_of_run(text)
        return code, counts, found or window
    return code, counts_of_compiled(text) if form == "compile" else counts_of_machine(text, form == "erase"), window


def row_of(asker: Union[Direct, Limited], table: Table, kind: Kind, word: str, front: str) -> Row:
    """The row of a case, with its seconds."""
    began = time.perf_counter()
    asker.begin()
    status, window = "", kind.window
    try:
        code, counts, window = counts_of(asker.ask, table, kind, word)
        status = str(code)
    except TimeUp:
        counts = (TIME, "", "", "", "")
    except Ended:
        counts = (ENDED, "", "", "", "")
    return [table.name, front + kind.form, word, window, status, *counts, f"{time.perf_counter() - began:.6f}"]


# ---- the machine beside its circuit


def agrees(machine: Row, run: Row) -> bool | None:
    """Whether the row of `run` is what the machine's row says it must be; None where the two can't be compared, since one of
    them was refused or not ended, or the window was too small."""
    if machine[STATUS] not in ANSWERED or run[STATUS] not in ANSWERED:
        return None
    if machine[OUTCOME] == "running" or run[OUTCOME].startswith(("window", "inside")):
        return None
    if machine[OUTCOME] != "halted":
        return machine[OUTCOME] == run[OUTCOME]
    steps = 4 * int(machine[STEPS]) + 4 * len(machine[OUTPUT]) + 5
    return (run[OUTCOME], run[OUTPUT], run[QUADRUPLE]) == ("end", machine[OUTPUT], str(steps))


@dataclass
class Tally:
    """What was compared and what was refused, in how many rows; `lines` has the rows that differ and the first refusal."""

    agree: int = 0
    differ: int = 0
    open: int = 0
    refused: int = 0
    late: int = 0
    lines: list[str] = field(default_factory=list)
    first: str = ""
    first_outcome: str = ""

    def take(self, group: Sequence[Row]) -> None:
        """Takes in the rows of a machine and a word."""
        for row in group:
            if row[OUTCOME] == TIME:
                self.late += 1
            elif row[STATUS] not in ANSWERED:
                self.refused += 1
                if not self.first:
                    self.first, self.first_outcome = (
                        f"{row[MACHINE]} {row[FORM]} ={row[WORD]}: {row[OUTCOME]}",
                        row[OUTCOME],
                    )
        machine = next((row for row in group if row[FORM].endswith("machine")), None)
        for row in group:
            if machine and row[FORM].endswith("run"):
                self.compare(machine, row)

    def compare(self, machine: Row, run: Row) -> None:
        verdict = agrees(machine, run)
        if verdict is None:
            self.open += 1
        elif verdict:
            self.agree += 1
        else:
            self.differ += 1
            self.lines.append(
                f"{run[MACHINE]}: ={run[WORD]} in the window {run[WINDOW]} differs: the machine says "
                f"{' '.join(machine[OUTCOME:QUADRUPLE])} {machine[OUTPUT]!r}, the circuit "
                f"{run[OUTCOME]} {run[QUADRUPLE]} {run[OUTPUT]!r}"
            )

    def add(self, other: Tally) -> None:
        """Takes in what another has."""
        for name in ("agree", "differ", "open", "refused", "late", "lines"):
            setattr(self, name, getattr(self, name) + getattr(other, name))
        if not self.first:
            self.first, self.first_outcome = other.first, other.first_outcome


# ---- batches


@dataclass(frozen=True)
class Answer:
    """The rows of a batch as the text of a table, how many groups they are, the seconds that they took, and their tally."""

    text: str
    groups: int
    seconds: float
    tally: Tally


def work(batch: Batch) -> Answer:
    """Answers a batch: what a worker does."""
    began, text, tally = time.perf_counter(), io.StringIO(), Tally()
    write = csv.writer(text, lineterminator="\n").writerows
    asker: Union[Direct, Limited] = Limited.kept(batch.seconds) if batch.seconds else Direct()
    for table, words in batch.parts:
        for word in words:
            group = [row_of(asker, table, kind, word, batch.front) for kind in batch.kinds]
            write(group)
            tally.take(group)
    return Answer(text.getvalue(), batch.groups, time.perf_counter() - began, tally)
