"""Columns and banks of a circuit, found by its wires alone, and the moves by which a signal crosses banks."""
from dataclasses import dataclass, field

from workbench_text import Line


@dataclass
class Column:
    """The elements of a column: its rows from above, and its bottom."""

    rows: list
    bottom: int

    @property
    def elements(self):
        return [*self.rows, self.bottom]


@dataclass
class Bank:
    """Columns of equally many rows, each joined to the next one row by row."""

    columns: list
    elements: list = field(default_factory=list)

    @property
    def height(self):
        return len(self.columns[0].rows)

    def name_of(self, number):
        least, greatest = min(self.elements), max(self.elements)
        return f"bank {number}: {len(self.columns)} of {self.height} rows, elements {least} to {greatest}"


def column_above(configuration, bottom):
    """The column that has this element as its bottom, or None."""
    if configuration.target(Line(bottom, "s")) != Line(bottom, "s"):
        return None
    top = configuration.target(Line(bottom, "w"))
    if top is None or top.side != "n" or configuration.target(Line(top.element, "n")) != Line(bottom, "e"):
        return None
    rows, seen = [], {bottom}
    above, here = None, top.element
    while here != bottom:
        if here in seen or (above is not None and configuration.target(Line(here, "n")) != Line(above, "s")):
            return None
        rows.append(here)
        seen.add(here)
        below = configuration.target(Line(here, "s"))
        if below is None or below.side != "n":
            return None
        above, here = here, below.element
    if not rows or configuration.target(Line(bottom, "n")) != Line(above, "s"):
        return None
    return Column(rows, bottom)


def columns_of(configuration):
    """All columns, in the order of their bottoms. No two share an element."""
    found = (column_above(configuration, element) for element in range(configuration.count))
    return [column for column in found if column]


def next_column(configuration, column, column_of):
    """The column to which this one's east outputs lead row by row, or None."""
    following = set()
    for place, row in enumerate(column.rows):
        target = configuration.target(Line(row, "e"))
        if target is None or target.side != "w" or target.element not in column_of:
            return None
        other = column_of[target.element]
        if len(other.rows) != len(column.rows) or other.rows[place] != target.element:
            return None
        following.add(other.rows[0])
    return column_of[following.pop()] if len(following) == 1 else None


def banks_of(configuration, columns):
    """The banks, in the order of their first columns. Columns that lead round in a ring are banks of their own.

    A column leads to the next one by every row. Two cells of a tape are joined by some of their rows alone, since the
    others carry answers back, so they stay two banks.
    """
    column_of = {row: column for column in columns for row in column.rows}
    following, fed = {}, set()
    for column in columns:
        other = next_column(configuration, column, column_of)
        if other is not None and other.bottom != column.bottom:
            following[column.bottom] = other
            fed.add(other.bottom)
    banks, placed = [], set()
    for column in sorted(columns, key=lambda it: (it.bottom in fed, it.bottom)):
        if column.bottom in placed:
            continue
        chain, seen = [column], {column.bottom}
        while chain[-1].bottom in following and following[chain[-1].bottom].bottom not in seen | placed:
            chain.append(following[chain[-1].bottom])
            seen.add(chain[-1].bottom)
        placed |= seen
        banks.append(Bank(chain, [element for part in chain for element in part.elements]))
    return sorted(banks, key=lambda bank: min(bank.elements))


def marked(bars, column):
    """Whether a column is marked: its bottom lies."""
    return bars[column.bottom] == "H"


@dataclass
class Move:
    """One way through a bank: where the signal came in and went out, the frames, and the marked columns, from 1."""

    bank: object
    came_in: str
    went_out: str
    first: int
    last: int
    before: list
    after: list


def bank_numbers(configuration, banks):
    """For each element the number of its bank, or None where it stands in none."""
    numbers = [None] * configuration.count
    for number, bank in enumerate(banks):
        for element in bank.elements:
            numbers[element] = number
    return numbers


def row_name(bank, line):
    """How a line of a bank is named: by its row, from 1, and its column, from 1, where that is neither first nor last."""
    for number, column in enumerate(bank.columns, 1):
        if line.element in column.rows:
            is_edge = (number == 1 and line.side == "w") or (number == len(bank.columns) and line.side == "e")
            where = "" if is_edge else f" of column {number}"
            return f"row {column.rows.index(line.element) + 1}{where} ({line})"
    return str(line)


class MovesByBank:
    """Follows frames from bank to bank. A move begins where the signal enters a bank and ends where it is outside."""

    def __init__(self, configuration, frames, banks):
        self.configuration = configuration
        self.frames = frames
        self.banks = banks
        self.numbers = bank_numbers(configuration, banks)
        self.sources = configuration.sources()
        self.bars = list(configuration.bars)

    def region(self, frame):
        """What the signal is about to enter: ('bank', number), ('element', number), or None where it has left."""
        if frame.has_left:
            return None
        number = self.numbers[frame.place.element]
        return ("element", frame.place.element) if number is None else ("bank", number)

    def marks(self, region):
        """The marked columns of a bank, from 1."""
        if region is None or region[0] != "bank":
            return []
        columns = self.banks[region[1]].columns
        return [number for number, column in enumerate(columns, 1) if marked(self.bars, column)]

    def starts_move(self, place, region):
        """Whether the frame at this place is the first one of a move: the signal came in from outside the region."""
        if region is None or region[0] == "element" or self.region(self.frames[place - 1]) != region:
            return True
        here = self.frames[place].place
        bank = self.banks[region[1]]
        source = self.sources.get(here)
        last = bank.columns[-1].rows
        return source is not None and here.side == "w" and source.side == "e" and source.element in last

    def moves(self):
        """The moves in order; the last one may still go on."""
        found, opened = [], None
        for place, frame in enumerate(self.frames):
            region = self.region(frame)
            if opened is None:
                opened = (region, place, self.marks(region))
            elif self.starts_move(place, region):
                self.advance(frame)
                found.append(self.closed(opened, place))
                opened = (region, place, self.marks(region))
                continue
            self.advance(frame)
        if opened and opened[0] is not None and len(self.frames) - 1 > opened[1]:
            found.append(self.closed(opened, len(self.frames) - 1, False))
        return found

    def advance(self, frame):
        for element, bar in frame.changed:
            self.bars[element] = bar

    def closed(self, opened, place, is_over=True):
        """The move from where it was opened to the frame at this place."""
        region, first, before = opened
        came_in = self.frames[first].place
        if not is_over:
            went_out = "still inside"
        elif self.frames[place].has_left:
            went_out = self.frames[place].place
        else:
            went_out = self.sources[self.frames[place].place]
        if region[0] == "bank":
            bank = self.banks[region[1]]
            into = row_name(bank, came_in)
            out = went_out if isinstance(went_out, str) else row_name(bank, went_out)
        else:
            into, out = str(came_in), str(went_out)
        return Move(region, into, out, first, place, before, self.marks(region))
