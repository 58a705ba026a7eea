"""What the program prints, read: outcomes, runs, views, sessions, tapes. Nothing here is computed; names are given to parts.

Each class keeps the program's own text as `text`; `_repr_html_` shows it in a notebook.
"""
from __future__ import annotations

import html
import operator
import re
from collections.abc import Iterable, Iterator, Sequence
from dataclasses import dataclass, field
from typing import Any, ClassVar, Generic, TypeVar, Union, overload

from .arguments import Window

STATUSES = {
    2: "usage",
    3: "text",
    4: "machine",
    5: "word",
    6: "size",
    7: "read fault",
    8: "write fault",
    9: "no memory",
    11: "window",
    12: "inside",
}

BLANK = "_"


class Refused(ValueError):
    """The program refused the words or the input: `status` is its exit code, `text` the line that it printed."""

    def __init__(self, status: int, text: str) -> None:
        self.status, self.text = status, text
        super().__init__(f"{text.strip()} (status {status}, {STATUSES.get(status, 'unknown')})")

    def __reduce__(self) -> tuple[type[Refused], tuple[int, str]]:
        """Lets a Refused be pickled: the pools of processes hand it from a worker to the caller."""
        return type(self), (self.status, self.text)


def checked(status: int, text: bytes, *statuses: int) -> str:
    """The text of an answer with one of these statuses, as a str; else Refused."""
    told = text.decode(errors="replace")
    if status not in statuses:
        raise Refused(status, told)
    return told


def matched(found: re.Match[str] | None, line: str, what: str) -> re.Match[str]:
    """What was found in a line, or a ValueError."""
    if not found:
        raise ValueError(f"{line!r} isn't the line of {what}")
    return found


@dataclass(frozen=True)
class Tape:
    """A tape: its number (1 is the work tape, 2 the history, 3 the output), the position of its first cell, that of the head
    or None, and the symbols of its cells. A blank is `_`."""

    number: int
    first: int
    head: int | None
    symbols: tuple[str, ...]

    LINE: ClassVar[re.Pattern[str]] = re.compile(r"tape ([123]) from (-?\d+) head (-?\d+|\?):((?: \S+)*)")
    NAMES: ClassVar[dict[int, str]] = {1: "work", 2: "history", 3: "output"}

    @classmethod
    def read(cls, line: str) -> Tape:
        found = matched(cls.LINE.fullmatch(line), line, "a tape")
        head = None if found[3] == "?" else int(found[3])
        return cls(int(found[1]), int(found[2]), head, tuple(found[4].split()))

    @property
    def word(self) -> str:
        """The symbols without the blanks at both ends: joined if each has one letter, else with spaces between them."""
        shown = [place for place, symbol in enumerate(self.symbols) if symbol != BLANK]
        inside = self.symbols[shown[0] : shown[-1] + 1] if shown else ()
        return ("" if all(len(it) == 1 for it in self.symbols) else " ").join(inside)

    @property
    def positions(self) -> range:
        """The positions of the cells that are shown, in the order in which a loop over the tape gives their symbols."""
        return range(self.first, self.first + len(self.symbols))

    def __len__(self) -> int:
        """How many cells are shown."""
        return len(self.symbols)

    def __iter__(self) -> Iterator[str]:
        """The symbols from the first cell that is shown to the last one."""
        return iter(self.symbols)

    def __reversed__(self) -> Iterator[str]:
        return reversed(self.symbols)

    def __getitem__(self, position: int) -> str:
        """The symbol at a position, which may be negative; beyond the cells that are shown that is an IndexError."""
        place = operator.index(position) - self.first
        if not 0 <= place < len(self.symbols):
            raise IndexError(f"tape {self.number} is shown from {self.first} to {self.positions[-1]}")
        return self.symbols[place]

    def _row(self) -> str:
        cells = []
        for place, symbol in enumerate(self.symbols, self.first):
            style = "border:1px solid #999;padding:2px 7px;text-align:center;font-family:monospace"
            if place == self.head:
                style += ";border:3px solid #c33"
            cells.append(
                f'<td style="{style}" title="cell {place}">{"&middot;" if symbol == BLANK else html.escape(symbol)}</td>'
            )
        return f'<tr><th style="text-align:left;padding-right:8px">{self.NAMES[self.number]}</th>{"".join(cells)}</tr>'

    def _repr_html_(self) -> str:
        return f'<table style="border-collapse:collapse">{self._row()}</table>'


def tapes_html(tapes: Iterable[Tape]) -> str:
    return "".join(f'<div style="margin:2px 0">{tape._repr_html_()}</div>' for tape in tapes)


@dataclass(frozen=True)
class Outcome:
    """How a machine runs by itself: `kind` is `halted`, `stuck` or `running`, after `steps` steps. A halted one has an
    `output`, if it was printed; a stuck one its `state` and the `letter` that it scans, or of a machine of quadruples the
    `symbols` under its three heads."""

    kind: str
    steps: int
    output: str | None = None
    state: str | None = None
    letter: str | None = None
    text: str = field(default="", repr=False)
    symbols: tuple[str, ...] = field(default=(), repr=False)

    @classmethod
    def read(cls, text: str) -> Outcome:
        first, _, rest = text.partition("\n")
        kind, *words = first.split(" ")
        if kind == "stuck":
            state, *symbols, steps = words
            letter = symbols[0] if len(symbols) == 1 else None
            return cls(kind, int(steps), None, state, letter, text, () if letter else tuple(symbols))
        output = rest.split("\n")[0].removeprefix("output =") if kind == "halted" and rest else None
        return cls(kind, int(words[0]), output=output, text=text)


@dataclass(frozen=True)
class Exit:
    """By which exit the signal left: `kind` is `end`, `stuck` (with `state` and `letter`, or of a machine of quadruples the
    `symbols` under its three heads), `window` (with the number of the `tape` and the `side`), or `inside`, where it hadn't
    left yet."""

    kind: str
    state: str | None = None
    letter: str | None = None
    tape: int | None = None
    side: str | None = None
    symbols: tuple[str, ...] = ()

    @classmethod
    def read(cls, words: str) -> Exit:
        kind, *rest = words.split(" ")
        if kind == "stuck" and len(rest) == 4:
            return cls(kind, state=rest[0], symbols=tuple(rest[1:]))
        if kind == "stuck":
            return cls(kind, state=rest[0], letter=rest[1])
        if kind == "window":
            return cls(kind, tape=int(rest[0]), side=rest[1])
        return cls(kind)


@dataclass(frozen=True)
class Run:
    """A run of a machine's circuit: its `window` (l1, r1, n, r3), the number of `elements`, the `exit`, the element `steps`,
    the `quadruple_steps` of the reversible machine where they are told, the `tapes` and, at the end, the `output`."""

    window: Window
    elements: int
    exit: Exit
    steps: int
    quadruple_steps: int | None
    tapes: tuple[Tape, ...]
    output: str | None
    text: str = field(default="", repr=False)

    @classmethod
    def read(cls, text: str, window: Window | None = None) -> Run:
        told: dict[str, str] = {}
        tapes: list[Tape] = []
        for line in text.splitlines():
            if line.startswith("tape "):
                tapes.append(Tape.read(line))
            else:
                name, _, rest = line.partition(" ")
                told[name] = rest
        if "window" in told:
            left, right, history, output_room = map(int, told["window"].split(" "))
            window = left, right, history, output_room
        if window is None:
            first, second, third = (it.positions for it in tapes)
            window = -first[0], first[-1], second[-1], third[-1]
        quadruples = told.get("quadruple")
        output = told.get("output")
        return cls(
            window,
            int(told["elements"]),
            Exit.read(told.get("exit", "inside")),
            int(told["steps"]),
            int(quadruples.removeprefix("steps ")) if quadruples else None,
            tuple(tapes),
            None if output is None else output.removeprefix("="),
            text,
        )

    def _repr_html_(self) -> str:
        told = self.text.split("\ntape ")[0].splitlines()
        output = "" if self.output is None else f"<p>output <b>{html.escape(self.output) or '(no letter)'}</b></p>"
        return f"<p>{' &middot; '.join(map(html.escape, told))}</p>{tapes_html(self.tapes)}{output}"


@dataclass(frozen=True)
class Look:
    """Every layer of the circuit of a machine of quadruples at one step: `place` is the line of the element (as
    `12.w`), and `has_left` says whether the signal has left by it; then the `module`, the machine's state and the
    `tapes`."""

    place: str
    has_left: bool
    steps: int
    module: str
    quadruple: str
    tapes: tuple[Tape, ...]
    text: str = field(repr=False)

    LINES: ClassVar[int] = 6

    @staticmethod
    def begins(line: str) -> bool:
        """Whether this line of a session is the first of what is shown."""
        return line.startswith("element ")

    @classmethod
    def read(cls, lines: Sequence[str]) -> Look:
        if len(lines) < cls.LINES:
            raise ValueError(f"{len(lines)} lines, and {cls.LINES} are shown")
        element = matched(re.fullmatch(r"element (at|left) (\S+) steps (\d+)", lines[0]), lines[0], "an element")
        quadruple = matched(re.fullmatch(r"quadruple (\S+)", lines[2]), lines[2], "a quadruple")
        return Look(
            element[2],
            element[1] == "left",
            int(element[3]),
            lines[1],
            quadruple[1],
            tuple(map(Tape.read, lines[3:6])),
            "".join(f"{line}\n" for line in lines[: cls.LINES]),
        )

    @property
    def lines(self) -> list[str]:
        """The lines as the program prints them."""
        return self.text.splitlines()

    def _told(self) -> list[str]:
        return [f"quadruple {self.quadruple}", self.module, f"element step {self.steps}"]

    def _repr_html_(self) -> str:
        return f"<p>{' &middot; '.join(map(html.escape, self._told()))}</p>{tapes_html(self.tapes)}"


@dataclass(frozen=True)
class View(Look):
    """Every layer of the circuit of Bennett's machine at one step: what a Look has, the `stage`, and what the machine
    itself does."""

    stage: str
    machine: str

    LINES: ClassVar[int] = 7
    MACHINE: ClassVar[re.Pattern[str]] = re.compile(
        r"machine (compute|copy|retrace) ((?:state \S+|quintuple \d+) step (?:\d+|\?))"
    )

    @classmethod
    def read(cls, lines: Sequence[str]) -> View:
        look = super().read(lines)
        machine = matched(cls.MACHINE.fullmatch(lines[6]), lines[6], "a machine")
        return cls(
            look.place,
            look.has_left,
            look.steps,
            look.module,
            look.quadruple,
            look.tapes,
            look.text,
            machine[1],
            machine[2],
        )

    def _told(self) -> list[str]:
        return [self.stage, self.machine, *super()._told()]


@dataclass(frozen=True)
class WalkView:
    """A circuit on a walk: `place` is the input that the signal is about to enter (as `12.w`), or the output by which it has
    left, where `has_left`; then the element `steps` and the numbers of the elements that are `turned`, whose bars differ from
    those of the circuit with which the walk began, in rising order."""

    place: str
    has_left: bool
    steps: int
    turned: tuple[int, ...]
    text: str = field(repr=False)

    LINES: ClassVar[int] = 3
    PLACE: ClassVar[re.Pattern[str]] = re.compile(r"(at|left) (\S+)")

    @classmethod
    def begins(cls, line: str) -> bool:
        """Whether this line of a walk is the first of what is shown."""
        return cls.PLACE.fullmatch(line) is not None

    @classmethod
    def read(cls, lines: Sequence[str]) -> WalkView:
        place = matched(cls.PLACE.fullmatch(lines[0]), lines[0], "a place")
        steps, turned = (line.split(" ")[1:] for line in lines[1:])
        text = "".join(f"{line}\n" for line in lines)
        return cls(place[2], place[1] == "left", int(steps[0]), tuple(map(int, turned)), text)

    def _repr_html_(self) -> str:
        return f"<p>{' &middot; '.join(map(html.escape, self.text.splitlines()))}</p>"


Shown = TypeVar("Shown", bound=Union[Look, WalkView])


@dataclass(frozen=True)
class Session(Generic[Shown]):
    """The answers to a script, one an entry: for `view` what is shown, a View, a Look of a machine of quadruples, or a
    WalkView of a circuit; else the line that was answered."""

    answers: tuple[Shown | str, ...]
    text: str = field(default="", repr=False)

    @overload
    @classmethod
    def read(cls, text: str) -> Session[View]:
        ...

    @overload
    @classmethod
    def read(cls, text: str, kind: type[Shown]) -> Session[Shown]:
        ...

    @classmethod
    def read(cls, text: str, kind: type[Any] = View) -> Session[Any]:
        lines, at = text.splitlines(), 0
        answers: list[Look | WalkView | str] = []
        while at < len(lines):
            if kind.begins(lines[at]):
                answers.append(kind.read(lines[at : at + kind.LINES]))
                at += kind.LINES
            else:
                answers.append(lines[at])
                at += 1
        return Session(tuple(answers), text)

    def __len__(self) -> int:
        return len(self.answers)

    def __iter__(self) -> Iterator[Shown | str]:
        return iter(self.answers)

    @overload
    def __getitem__(self, place: int) -> Shown | str:
        ...

    @overload
    def __getitem__(self, place: slice) -> tuple[Shown | str, ...]:
        ...

    def __getitem__(self, place: int | slice) -> Shown | str | tuple[Shown | str, ...]:
        return self.answers[place]

    def _repr_html_(self) -> str:
        return "".join(
            f"<pre>{html.escape(it)}</pre>" if isinstance(it, str) else it._repr_html_() for it in self.answers
        )
