"""A machine as another program has it: what the readers give, and `table_of` makes a table of quintuples of."""
from dataclasses import dataclass

FOUR = "a machine of turingmachine.io, of JFLAP 4 to 8, of Morphett's simulator, or one line of bbchallenge"
NONE = f"it is none of the four that are read: {FOUR}"
SHIFTS = {"R": "+", "L": "-", "S": "0"}


@dataclass
class Rule:
    """A rule with the place in its file. Symbols are as in the file; a blank is None."""

    state: str
    read: object
    write: object
    shift: str
    following: str
    place: str


@dataclass
class Machine:
    """A machine: its rules, its first state, its halting states, whether these may be taken for one, and its program."""

    rules: list
    start: str
    halting: list
    halts_alike: bool
    program: str


def shown(value):
    """A value of a file as it is named in a fault."""
    return f"'{value}'" if isinstance(value, str) else "nothing" if value is None else "a list or mapping"
