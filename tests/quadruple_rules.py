"""What docs/use/formats.md says of machines of quadruples, written anew: the finite control of a uniform machine, the parts of its
board, and its run in a window. Nothing of it knows a circuit. Symbols stand as their names; a table is a list of rows."""
from collections import namedtuple

BLANK = "_"
SHIFTS = {"-": -1, "0": 0, "+": 1}

# How a run in a window comes out: the exit's words, the steps of the machine, and the three tapes, each its head or None and
# its cells that aren't blank.
Ended = namedtuple("Ended", "exit steps tapes")


def states_of(rows):
    """The states by their numbers: as they come in the table."""
    return list(dict.fromkeys(name for row in rows for name in (row[0], row[7])))


def symbols_of(rows, tape):
    """The symbols of a tape by their numbers: the blank, and then as they come in the table."""
    said = [row[field] for row in rows for field in (tape, tape + 3) if row[tape] != "/"]
    return list(dict.fromkeys([BLANK, *said]))


def read_tapes(row):
    """The tapes that a quadruple reads, and so writes."""
    return [tape for tape in (1, 2, 3) if row[tape] != "/"]


def control_states(rows):
    """The states of the control in the order of their columns, as `layout` names them."""
    states, symbols = states_of(rows), {tape: symbols_of(rows, tape) for tape in (1, 2, 3)}
    left_by = {state: [row for row in rows if row[0] == state] for state in states}
    reads, writes = set(), set()
    for number, state in enumerate(states):
        if not left_by[state] and state != rows[-1][7]:
            reads.add((number, 0, ()))
        for row in left_by[state]:
            read = [symbols[tape].index(row[tape]) for tape in read_tapes(row)]
            reads.update((number, many, tuple(read[:many])) for many in range(len(read)))
    for row in rows:
        rest = [(tape, symbols[tape].index(row[tape + 3])) for tape in reversed(read_tapes(row))]
        for place, (tape, _) in enumerate(rest):
            writes.add((states.index(row[7]), -tape, tuple(symbol for _, symbol in rest[place + 1 :])))
    shifts = [
        (n, tape) for n, row in enumerate(rows, 1) for tape in (1, 2, 3) if row[tape] == "/" and row[tape + 3] != "0"
    ]
    return [
        "begin",
        "end",
        *(" ".join(["reads", states[it[0]], *map(str, it[2])]) for it in sorted(reads)),
        *(f"shifts {number} {tape}" for number, tape in shifts),
        *(" ".join(["writes", states[it[0]], str(-it[1]), *map(str, it[2])]) for it in sorted(writes)),
    ]


def control_lines(rows):
    """The control's lines: the name of each input line, and of the output line with its number."""
    lines = [("Start", "End")]
    for tape in (1, 2, 3):
        count = len(symbols_of(rows, tape))
        came_in = [
            *(f"A {symbol} {tape}" for symbol in range(count)),
            *(f"{it} {tape}" for it in ("DoneW", "DoneR", "DoneL")),
        ]
        went_out = [f"Rd {tape}", *(f"W {symbol} {tape}" for symbol in range(count)), f"SR {tape}", f"SL {tape}"]
        lines += zip(came_in, went_out)
    return lines


def cell_lines(rows, tape):
    """The names of a cell's lines."""
    count = range(len(symbols_of(rows, tape)))
    commands = ["Rd", *(f"W {it}" for it in count), "SR", "SL", "TakeR"]
    return [*commands, *(f"A {it}" for it in count), "DoneW", "DoneR", "DoneL", "TakeL"]


def bounds(window):
    """The first and the last cell of each tape, of the numbers l1, r1, r2 and r3."""
    left, *rights = window
    return list(zip((-left, 0, 0), rights))


def modules(rows, window):
    """The modules of the board: the tape and the cell of each, or None, the first element, the columns and the lines."""
    found = [(None, 0, len(control_states(rows)), len(control_lines(rows)))]
    for tape, (low, high) in enumerate(bounds(window), 1):
        for cell in range(low, high + 1):
            _, first, columns, lines = found[-1]
            size = 2 * len(symbols_of(rows, tape)), len(cell_lines(rows, tape))
            found.append(((tape, cell), first + columns * (lines + 1), *size))
    return found


def count_of(rows, window):
    """How many elements the board has."""
    _, first, columns, lines = modules(rows, window)[-1]
    return first + columns * (lines + 1)


def layout(rows, window):
    """The text of `layout` for the board of a machine of quadruples."""
    parts = modules(rows, window)
    told = [f"elements {count_of(rows, window)}", f"modules {len(parts)}"]
    for number, (place, first, columns, lines) in enumerate(parts):
        name = "control" if place is None else f"tape {place[0]} cell {place[1]}"
        told.append(f"module {number} {name} from {first} columns {columns} lines {lines}")
    told += [f"column {column} of control {state}" for column, state in enumerate(control_states(rows))]
    told += [f"line {line} of control in {came} out {went}" for line, (came, went) in enumerate(control_lines(rows))]
    for tape in (1, 2, 3):
        names = [f"{kind} {it}" for kind in ("plain", "head") for it in symbols_of(rows, tape)]
        told += [f"column {column} of tape {tape} {name}" for column, name in enumerate(names)]
        told += [f"line {line} of tape {tape} {name}" for line, name in enumerate(cell_lines(rows, tape))]
    return "".join(f"{line}\n" for line in told)


class Machine:
    """A machine of quadruples on three tapes in a window, with words from cell 1 on."""

    def __init__(self, rows, words, window):
        self.rows, self.bounds, self.state, self.steps = rows, bounds(window), rows[0][0], 0
        self.cells = [dict(enumerate(word, 1)) for word in words]
        self.heads = [0, 0, 0]

    def scanned(self, tape):
        return self.cells[tape - 1].get(self.heads[tape - 1], BLANK)

    def take(self, tape):
        """What a read does to the cell below the head: it is blank until the symbol is written."""
        self.cells[tape - 1].pop(self.heads[tape - 1], None)

    def tapes(self):
        shown = [{place: it for place, it in cells.items() if it != BLANK} for cells in self.cells]
        return list(zip(self.heads, shown))

    def stuck(self):
        """The exit where no quadruple applies; what was read by then shows the blank."""
        exit = f"exit stuck {self.state} " + " ".join(self.scanned(tape) for tape in (1, 2, 3))
        here, read = [row for row in self.rows if row[0] == self.state], []
        for tape in read_tapes(here[0]) if here else [1]:
            read.append(tape)
            here = [row for row in here if row[tape] == self.scanned(tape)]
            if not here:
                break
        for tape in read:
            self.take(tape)
        return exit

    def step(self):
        """One step; the exit where there is none."""
        if self.state == self.rows[-1][7]:
            return "exit end"
        for row in self.rows:
            if row[0] == self.state and all(row[tape] == self.scanned(tape) for tape in read_tapes(row)):
                break
        else:
            return self.stuck()
        for tape in read_tapes(row):
            self.take(tape)
        for tape in (1, 2, 3):
            if row[tape] == "/" and row[tape + 3] != "0":
                head, (low, high) = self.heads[tape - 1] + SHIFTS[row[tape + 3]], self.bounds[tape - 1]
                if not low <= head <= high:
                    self.heads[tape - 1] = None
                    return f"exit window {tape} {'left' if head < low else 'right'}"
                self.heads[tape - 1] = head
        for tape in read_tapes(row):
            self.cells[tape - 1][self.heads[tape - 1]] = row[tape + 3]
        self.state, self.steps = row[7], self.steps + 1
        return None


def ended(rows, words, window, most):
    """How the run comes out, or None where it makes more steps than so many. Each word is a list of symbols."""
    machine = Machine(rows, words, window)
    while machine.steps <= most:
        exit = machine.step()
        if exit:
            return Ended(exit, machine.steps, machine.tapes())
    return None


def room(rows, words, most):
    """The status and the text of `room`, for a machine that `build` takes and words of its symbols."""
    machine = Machine(rows, words, (most + 1, *(len(word) + most + 1 for word in words)))
    left, rights = 0, [len(word) for word in words]
    while True:
        made = machine.steps
        exit = machine.step()
        if exit and not exit.startswith("exit window"):
            return 0, f"room {left} {rights[0]} {rights[1]} {rights[2]}\n"
        if made == most:
            return 12, f"running {most}\n"
        if exit:
            return 11, f"none {exit.split()[2]}\n"
        left = max(left, -machine.heads[0])
        rights = [max(right, head) for right, head in zip(rights, machine.heads)]


def tape_lines(tapes, window):
    """The lines of the three tapes, as `run` has them."""
    found = []
    for number, ((head, cells), (low, high)) in enumerate(zip(tapes, bounds(window)), 1):
        shown = " ".join(cells.get(place, BLANK) for place in range(low, high + 1))
        found.append(f"tape {number} from {low} head {'?' if head is None else head}: {shown}")
    return found


# ---- words on tapes

MOST_ELEMENTS = 4_194_304


def word_of(argument, symbols):
    """The symbols of a word that is given by letters or by names, and the place of the first that is none of these but the blank,
    or None."""
    names = list(argument[1:]) if argument[0] == "=" else argument[1:].split(",") if argument[1:] else []
    wrong = (place for place, name in enumerate(names, 1) if name == BLANK or name not in symbols)
    return names, next(wrong, None)


def words_of(arguments, rows):
    """The words on the three tapes, each with the place of its first foreign symbol."""
    given = [*arguments, "=", "="] if len(arguments) == 1 else arguments
    return [word_of(argument, symbols_of(rows, tape)) for tape, argument in enumerate(given, 1)]


def refusal(arguments, window, rows):
    """The status and the line that refuse words, window and uniform machine, or None."""
    words, is_one = words_of(arguments, rows), len(arguments) == 1
    for tape, (_, place) in enumerate(words, 1):
        if place:
            return 5, f"word: {place}\n" if is_one else f"word: {tape} {place}\n"
    for tape, (names, _) in enumerate(words, 1):
        if len(names) > window[tape]:
            return 6, f"size: word needs {len(names)}\n" if is_one else f"size: word {tape} needs {len(names)}\n"
    count = count_of(rows, window)
    return (6, f"size: elements {count}\n") if count > MOST_ELEMENTS else None
