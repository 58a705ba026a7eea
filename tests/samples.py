"""Circuits that the tests make: banks by their rule, and elements with wires at random."""
import random

from workbench_text import SIDES, Line, read_configuration

# The bank of examples/two-moves.csv in state 1 with the signal at line 1, in version 1.
BANK = """rotary 1
elements 6
start 0.w
end 4.e
steps 0
at 0.w
e 0 V 2.e 3.w 1.n 4.e
e 1 V 0.s 4.w 2.n -
e 2 H 1.s - 2.s 0.n
e 3 V 5.e - 4.n -
e 4 V 3.s - 5.n 0.e
e 5 V 4.s - 5.s 3.n
"""

# The same in version 2, as `realise 1 1` prints it.
BANK_OF_COLUMNS = """rotary 2
elements 6
start 0.w
end 4.e
steps 0
at 0.w
c 0 2 H
r 3.w 4.e
r 4.w -
c 3 2 V
r - -
r - 0.e
"""


def text_of(rows, start, end, place):
    """The configuration text of rows (bar, four targets)."""
    lines = ["rotary 1", f"elements {len(rows)}", f"start {start}", f"end {end}", "steps 0", f"at {place}"]
    for number, (bar, targets) in enumerate(rows):
        lines.append(f"e {number} {bar} " + " ".join("-" if target is None else str(target) for target in targets))
    return "\n".join(lines) + "\n"


def bank(states, lines, marked, seed):
    """The configuration of a bank whose moves are a random permutation, in this state with the signal at line 1."""
    pairs = [(state, line) for state in range(states) for line in range(lines)]
    goals = pairs[:]
    random.Random(seed).shuffle(goals)
    moves = dict(zip(pairs, goals))

    def element(state, row):
        return state * (lines + 1) + row

    rows = []
    for state in range(states):
        for row in range(lines):
            north = Line(element(state, lines), "e") if row == 0 else Line(element(state, row - 1), "s")
            east = Line(element(state + 1, row), "w") if state + 1 < states else None
            goal = moves[(state, row)]
            rows.append(("V", [north, east, Line(element(state, row + 1), "n"), Line(element(*goal), "e")]))
        bottom = element(state, lines)
        rows.append(
            (
                "H" if state == marked else "V",
                [Line(bottom - 1, "s"), None, Line(bottom, "s"), Line(element(state, 0), "n")],
            )
        )
    return read_configuration(text_of(rows, Line(0, "w"), Line(element(states - 1, 0), "e"), Line(0, "w")))


def tangle(count, seed):
    """The configuration of so many elements with wires at random; all lines but the start and the end are joined."""
    generator = random.Random(seed)
    lines = [Line(element, side) for element in range(count) for side in SIDES]
    goals = lines[:]
    generator.shuffle(goals)
    targets, end = dict(zip(lines, goals)), None
    for out in lines:
        if targets[out] == Line(0, "n"):
            targets[out], end = None, out
    rows = [(generator.choice("HV"), [targets[Line(element, side)] for side in SIDES]) for element in range(count)]
    return read_configuration(text_of(rows, Line(0, "n"), end, Line(0, "n")))
