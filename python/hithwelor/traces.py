"""The moments of a machine's own run, as `trace` and `moments` print them, read when they are asked for."""
from __future__ import annotations

import html
from collections.abc import Iterator, Sequence
from dataclasses import dataclass, field
from typing import overload

from .texts import Outcome, Tape, tapes_html


@dataclass(frozen=True)
class Moment:
    """A configuration of a run: after so many `steps`, the `state`, the `tapes` (one, or three of a machine of quadruples), and
    the number of the `rule` that is applied next, from 1, or None if none is."""

    steps: int
    state: str
    tapes: tuple[Tape, ...]
    rule: int | None

    @classmethod
    def read(cls, line: str) -> Moment:
        steps, state, *rest = line.split(" ")
        tapes: list[Tape] = []
        while rest and rest[0] in ("from", "tape"):
            number = 1
            if rest[0] == "tape":
                number, rest = int(rest[1]), rest[2:]
            # from F head H cells C: and so many symbols, each of which may be any word.
            first, head, end = int(rest[1]), int(rest[3]), 6 + int(rest[5][:-1])
            tapes.append(Tape(number, first, head, tuple(rest[6:end])))
            rest = rest[end:]
        return cls(int(steps), state, tuple(tapes), int(rest[1]) if rest else None)

    @property
    def tape(self) -> Tape:
        """The first tape, which is the only one of a machine of quintuples."""
        return self.tapes[0]

    def _repr_html_(self) -> str:
        rule = "" if self.rule is None else f" &middot; rule {self.rule}"
        return f"<p>step {self.steps} &middot; {html.escape(self.state)}{rule}</p>{tapes_html(self.tapes)}"


@dataclass(frozen=True)
class Trace(Sequence[Moment]):
    """The moments of a run, from the one before the first step, and its `outcome`, without the output."""

    text: str = field(repr=False)
    lines: tuple[str, ...] = field(init=False, repr=False, compare=False)
    outcome: Outcome = field(init=False, compare=False)

    def __post_init__(self) -> None:
        *moments, last = self.text.splitlines()
        object.__setattr__(self, "lines", tuple(moments))
        object.__setattr__(self, "outcome", Outcome.read(last))

    @overload
    def __getitem__(self, place: int) -> Moment:
        ...

    @overload
    def __getitem__(self, place: slice) -> tuple[Moment, ...]:
        ...

    def __getitem__(self, place: int | slice) -> Moment | tuple[Moment, ...]:
        if isinstance(place, slice):
            return tuple(map(Moment.read, self.lines[place]))
        return Moment.read(self.lines[place])

    def __len__(self) -> int:
        return len(self.lines)

    def __iter__(self) -> Iterator[Moment]:
        return map(Moment.read, self.lines)

    def _repr_html_(self) -> str:
        return "".join(moment._repr_html_() for moment in self[:100]) + f"<p>{html.escape(repr(self.outcome))}</p>"
