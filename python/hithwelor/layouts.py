"""What a machine's circuit consists of, as `layout` prints it."""
from __future__ import annotations

import bisect
import re
from dataclasses import dataclass, field
from typing import NamedTuple


class Module(NamedTuple):
    """A module of a circuit: the control, where `tape` and `cell` are None, or a cell of a tape. Its bank begins at element
    `first`, and has so many `columns` of `lines` + 1 elements each."""

    number: int
    tape: int | None
    cell: int | None
    first: int
    columns: int
    lines: int

    @property
    def kind(self) -> str:
        """`control`, or the tape, as `tape 2`."""
        return "control" if self.tape is None else f"tape {self.tape}"


class Spot(NamedTuple):
    """Where an element is: its module, its column and its row in the module's bank, and what that column stands for."""

    module: Module
    column: int
    row: int
    name: str


MODULE = re.compile(r"module (\d+) (?:control|tape (\d) cell (-?\d+)) from (\d+) columns (\d+) lines (\d+)")


@dataclass(frozen=True)
class Layout:
    """The `modules` of a circuit; and by a module's kind (`control`, `tape 1`, ..) the names of its `columns` and of its
    `lines`, the input's and the output's."""

    text: str = field(repr=False)
    elements: int = field(init=False)
    modules: tuple[Module, ...] = field(init=False, repr=False)
    columns: dict[str, tuple[str, ...]] = field(init=False, repr=False, compare=False)
    lines: dict[str, tuple[tuple[str, str], ...]] = field(init=False, repr=False, compare=False)

    def __post_init__(self) -> None:
        columns: dict[str, list[str]] = {}
        lines: dict[str, list[tuple[str, str]]] = {}
        modules: list[Module] = []
        first, *rest = self.text.splitlines()
        for line in rest:
            module = MODULE.fullmatch(line)
            named = re.fullmatch(r"(column|line) \d+ of (control|tape \d) (.*)", line)
            if module:
                tape, cell = (int(it) if it else None for it in module.group(2, 3))
                modules.append(Module(int(module[1]), tape, cell, *map(int, module.group(4, 5, 6))))
            elif named and named[1] == "column":
                columns.setdefault(named[2], []).append(named[3])
            elif named:
                both = re.fullmatch(r"in (.*) out (.*)", named[3])
                lines.setdefault(named[2], []).append((both[1], both[2]) if both else (named[3], named[3]))
        object.__setattr__(self, "elements", int(first.split(" ")[1]))
        object.__setattr__(self, "modules", tuple(modules))
        object.__setattr__(self, "columns", {kind: tuple(names) for kind, names in columns.items()})
        object.__setattr__(self, "lines", {kind: tuple(names) for kind, names in lines.items()})

    def spot(self, element: int) -> Spot:
        """Where an element is; a number that no element has is an IndexError."""
        if not 0 <= element < self.elements:
            raise IndexError(f"the circuit has {self.elements:,} elements, and no element {element:,}")
        module = self.modules[bisect.bisect_right([it.first for it in self.modules], element) - 1]
        column, row = divmod(element - module.first, module.lines + 1)
        return Spot(module, column, row, self.columns[module.kind][column])
