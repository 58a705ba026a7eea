"""What `layout` prints of a board, and where an element stands by it."""
import re
from dataclasses import dataclass

from workbench_text import Fault

MODULE = re.compile(r"module \d+ (control|tape [123] cell -?\d+) from (\d+) columns (\d+) lines (\d+)")
COLUMN = re.compile(r"column (\d+) of (control|tape [123]) (\S.*)")


@dataclass(frozen=True)
class Module:
    """The bank of the control or of a cell."""

    name: str
    first: int
    columns: int
    lines: int


class Layout:
    """The modules of a board, and the states for which columns stand."""

    def __init__(self, text):
        lines = text.splitlines()
        found = [it for it in map(MODULE.fullmatch, lines) if it]
        self.modules = [Module(it[1], *map(int, it.groups()[1:])) for it in found]
        self.states = {(it[2], int(it[1])): it[3] for it in map(COLUMN.fullmatch, lines) if it}
        if not self.modules or lines[1:2] != [f"modules {len(self.modules)}"]:
            raise Fault("what layout prints: its modules aren't those that it counts")

    def told(self, element):
        """In which row and column of its module an element stands, and for which state the column does."""
        module = max((it for it in self.modules if it.first <= element), key=lambda it: it.first)
        column, row = divmod(element - module.first, module.lines + 1)
        state = self.states[module.name.partition(" cell")[0], column]
        part = "the bottom" if row == module.lines else f"row {row}"
        name = "the control" if module.name == "control" else module.name
        return f"It is {part} of column {column} of {name}, which stands for: {state}."
