"""Machines of quintuples and of quadruples, and what the program makes of them.

A word is a str of letters, without the blank `_`. Numbers of steps are whole numbers. Where the program refuses something, a
call raises Refused with the program's own line; an argument of another type is a TypeError, a number beyond its limits a
ValueError.
"""
from __future__ import annotations

import csv
import html
import io
import os
from collections.abc import Hashable, Iterable, Sequence
from typing import TYPE_CHECKING, ClassVar, NamedTuple, SupportsIndex, TypeVar

from .answers import answer
from .arguments import (
    MOST_DRIVE_STEPS,
    MOST_ELEMENT_STEPS,
    MOST_STEPS,
    Names,
    Window,
    Word,
    letters,
    spelled,
    text_of,
    whole,
    window_of,
)
from .circuit import Circuit
from .layouts import Layout
from .optional import needs
from .texts import BLANK, Look, Outcome, Refused, Run, Session, View, checked
from .traces import Trace

if TYPE_CHECKING:
    import networkx

__all__ = [
    "ErasingMachine",
    "Machine",
    "Names",
    "Quadruple",
    "ReversibleMachine",
    "Rule",
    "SequentialMachine",
    "Table",
    "Word",
]

DONE, MACHINE, STUCK, WINDOW, INSIDE = 0, 4, 10, 11, 12
MOST_NAMES = 60

Kind = TypeVar("Kind", bound="Table")


class Rule(NamedTuple):
    """A quintuple: in `state`, scanning `read`, the machine writes `write`, moves by `move` (`-`, `0` or `+`) and goes to
    `next`."""

    state: str
    read: str
    write: str
    move: str
    next: str


class Quadruple(NamedTuple):
    """A quadruple: in `state`, where the tapes 1, 2 and 3 show `read1` .. (`/` if a tape is not read), the machine does `act1`
    .. (a symbol to write, or a shift `-`, `0`, `+`) and goes to `next`."""

    state: str
    read1: str
    read2: str
    read3: str
    act1: str
    act2: str
    act3: str
    next: str


class Table:
    """A table that the program is asked about. Two machines are equal if they have the same entries in the same order."""

    HEADS: ClassVar[tuple[str, ...]] = ()
    ENTRY: ClassVar[str] = "entry"

    def __init__(self, table: str | bytes | bytearray) -> None:
        self.table: str = text_of(table, "a table")

    @classmethod
    def open(cls: type[Kind], path: str | os.PathLike[str]) -> Kind:
        """The machine of a file."""
        with open(path, encoding="utf-8", newline="") as file:
            return cls(file.read())

    @classmethod
    def from_rules(cls: type[Kind], rules: Iterable[Sequence[object]]) -> Kind:
        """The machine of these entries, each a sequence of fields."""
        text = io.StringIO()
        csv.writer(text, lineterminator="\n").writerows(rules)
        return cls(text.getvalue())

    @property
    def entries(self) -> tuple[tuple[str, ...], ...]:
        """The fields of each entry of the table, whether or not they have a meaning."""
        rows = csv.reader(io.StringIO(self.table.removeprefix("\ufeff"), newline=""))
        return tuple(tuple(row) for row in rows if row)

    @property
    def states(self) -> tuple[str, ...]:
        """The names of the states, in the order of their first appearance."""
        return tuple(dict.fromkeys(name for entry in self.entries for name in (entry[0], entry[-1])))

    def ask(self, words: Iterable[object], *statuses: int, data: str | None = None) -> str:
        """The program's answer to words and this table, as text; a status that isn't one of these is Refused."""
        return checked(
            *answer([str(word) for word in words], self.table if data is None else data), *(statuses or (DONE,))
        )

    def beside(self, second: str) -> str:
        """The table, the line %, and a second text."""
        table = self.table if self.table.endswith("\n") else self.table + "\n"
        return f"{table}%\n{second}"

    def with_script(self, script: str | Iterable[str]) -> str:
        """The table, the line %, and a script: its commands as a sequence, or as one text."""
        return self.beside(script if isinstance(script, str) else "".join(f"{line}\n" for line in script))

    def _key(self) -> Hashable:
        try:
            return self.entries
        except csv.Error:
            return self.table

    def __eq__(self, other: object) -> bool:
        return isinstance(other, Table) and type(other) is type(self) and self._key() == other._key()

    def __hash__(self) -> int:
        return hash((type(self), self._key()))

    def __repr__(self) -> str:
        try:
            count, names = len(self.entries), ", ".join(self.states)
        except (csv.Error, IndexError):
            return f"{type(self).__name__}({self.table[:40]!r}..)"
        names = names if len(names) <= MOST_NAMES else names[: MOST_NAMES - 2].rpartition(",")[0] + ", .."
        return f"{type(self).__name__}({count} {self.ENTRY}{'' if count == 1 else 's'}; {names})"

    def _repr_html_(self) -> str:
        heads = "".join(f"<th>{head}</th>" for head in self.HEADS)
        rows = "".join(
            f"<tr>{''.join(f'<td>{html.escape(it)}</td>' for it in line.split(','))}</tr>"
            for line in self.table.splitlines()
        )
        return f"<table><tr>{heads}</tr>{rows}</table>"


class Machine(Table):
    """A machine, by its table: a quintuple a line, `state,read,write,shift,next`, as docs/use/formats.md has it.

    A window is (l1, r1, n, r3): cells left and right of position 0 on the work tape, and right of it on the history and on the
    output tape. Steps are the machine's own in `by_itself` and `trace`, and element steps elsewhere. The `status` of a Refused is
    3 for a faulty table, 4 for a machine that is not in standard form (which all but `standard` and `rules` need), 5 for a word
    with another letter, and 6 for a word that does not fit its window or a circuit of more than 4,194,304 elements.
    """

    HEADS = ("state", "read", "write", "move", "next")
    ENTRY = "quintuple"

    @property
    def rules(self) -> tuple[Rule, ...]:
        """The quintuples; an entry of another number of fields is a TypeError."""
        return tuple(Rule(*entry) for entry in self.entries)

    @property
    def letters(self) -> str:
        """The letters of the table in the order of their first appearance, without the blank."""
        return "".join(it for it in dict.fromkeys(it for rule in self.rules for it in rule[1:3]) if it != BLANK)

    def graph(self) -> networkx.MultiDiGraph:
        """The machine as a graph of networkx: states are nodes; quintuples are edges with their number from 1, `rule`, and
        with `read`, `write` and `move`."""
        with needs("networkx", "graphs"):
            import networkx

        graph = networkx.MultiDiGraph()
        graph.add_nodes_from(self.states)
        for number, rule in enumerate(self.rules, 1):
            graph.add_edge(rule.state, rule.next, rule=number, read=rule.read, write=rule.write, move=rule.move)
        return graph

    def check(self) -> str:
        """The verdict on standard form, as the program prints it."""
        return self.ask(["check"]).strip()

    @property
    def is_standard(self) -> bool:
        """Whether the machine is in standard form. A table that isn't one is Refused."""
        try:
            self.check()
        except Refused as refused:
            if refused.status != MACHINE:
                raise
            return False
        return True

    def standard(self) -> Machine:
        """An equivalent machine in standard form, where this one starts on the first letter of its word."""
        return Machine(self.ask(["standard"]))

    def bennett(self) -> str:
        """The table of Bennett's reversible machine, as text."""
        return self.ask(["bennett"])

    def reversible(self) -> ReversibleMachine:
        """Bennett's reversible machine of this one."""
        return ReversibleMachine(self.bennett())

    def erase(self, second: Machine) -> ErasingMachine:
        """The reversible machine that leaves only its output: this machine's, and then that of `second`, which finds the word
        again from the output, run backward."""
        if not isinstance(second, Machine):
            raise TypeError(f"the second machine is a Machine, and not {type(second).__name__}")
        return ErasingMachine(self, second)

    def by_itself(self, word: str, steps: SupportsIndex = MOST_STEPS) -> Outcome:
        """The machine's own run from a word, of at most so many steps: `halted`, `stuck`, or `running` after them."""
        return Outcome.read(
            self.ask(["machine", f"={letters(word)}", whole(steps, "steps", MOST_STEPS)], DONE, STUCK, INSIDE)
        )

    def least_window(self, word: str, steps: SupportsIndex = MOST_STEPS) -> Window:
        """The least window (l1, r1, n, r3) in which the machine's circuit ends as the machine does. Where the machine doesn't
        end in so many steps, it is Refused with status 12."""
        return least(self.ask(["window", f"={letters(word)}", whole(steps, "steps", MOST_STEPS)]))

    def trace(self, word: str, steps: SupportsIndex = MOST_STEPS) -> Trace:
        """The moments of that run: a sequence, one longer than the steps made."""
        return Trace(self.ask(["trace", f"={letters(word)}", whole(steps, "steps", MOST_STEPS)], DONE, STUCK, INSIDE))

    def run(self, word: str, window: Iterable[SupportsIndex] | None = None, steps: SupportsIndex | None = None) -> Run:
        """The run of the machine's circuit, in a window (l1, r1, n, r3) or in an automatic one, to its exit or of at most so
        many element steps, which needs a window."""
        asked = f"={letters(word)}"
        if window is None:
            if steps is not None:
                raise ValueError("a run of so many steps needs a window")
            return Run.read(self.ask(["run", asked, "auto"], DONE, STUCK, WINDOW))
        chosen = window_of(window)
        most = [] if steps is None else [whole(steps, "steps", MOST_ELEMENT_STEPS)]
        return Run.read(self.ask(["run", asked, *chosen, *most], DONE, STUCK, WINDOW, INSIDE), chosen)

    def view(self, word: str, window: Iterable[SupportsIndex], steps: SupportsIndex) -> View:
        """Every layer of that circuit after at most so many element steps: place, module, quadruple, three tapes, and what the
        machine itself does."""
        most = whole(steps, "steps", MOST_ELEMENT_STEPS)
        return View.read(self.ask(["view", f"={letters(word)}", *window_of(window), most]).splitlines())

    def session(self, word: str, window: Iterable[SupportsIndex], script: str | Iterable[str]) -> Session[View]:
        """The answers to a script, its commands as a sequence or as one text: `step E`, `back E`, `go E`, `rev E`,
        `break LABEL state NAME`, `break LABEL element K`, `drop LABEL`, `view`. A faulty command is Refused with its number.
        """
        words = ["session", f"={letters(word)}", *window_of(window)]
        return Session.read(self.ask(words, data=self.with_script(script)), View)

    def compile(self, word: str, window: Iterable[SupportsIndex]) -> Circuit:
        """The machine's circuit at its start."""
        return Circuit(self.ask(["compile", f"={letters(word)}", *window_of(window)]))

    def layout(self, word: str, window: Iterable[SupportsIndex]) -> Layout:
        """What that circuit consists of: modules, columns and lines by name."""
        return Layout(self.ask(["layout", f"={letters(word)}", *window_of(window)]))


class ReversibleMachine(Table):
    """A machine of quadruples, by its table: `state`, what is read on three tapes, what is done there, and `next`, as
    docs/use/formats.md has it.

    Words are one on tape 1, or one on each of the three tapes; each is letters, or Names. A window is (l1, r1, r2, r3): cells
    left and right of position 0 on tape 1, and right of it on tapes 2 and 3. The `status` of a Refused is 3 for a faulty table,
    4 for a machine that is not deterministic, reversible and uniform, 5 for a word with another symbol, and 6 for a word that
    does not fit its window or a circuit of more than 4,194,304 elements.
    """

    HEADS = ("state", "read 1", "read 2", "read 3", "act 1", "act 2", "act 3", "next")
    ENTRY = "quadruple"

    @property
    def rules(self) -> tuple[Quadruple, ...]:
        """The quadruples; an entry of another number of fields is a TypeError."""
        return tuple(Quadruple(*entry) for entry in self.entries)

    def graph(self) -> networkx.MultiDiGraph:
        """The machine as a graph of networkx: states are nodes; quadruples are edges with their number from 1, `rule`, and
        with what they `read` and what they do (`act`), each a tuple of three."""
        with needs("networkx", "graphs"):
            import networkx

        graph = networkx.MultiDiGraph()
        graph.add_nodes_from(self.states)
        for number, rule in enumerate(self.rules, 1):
            graph.add_edge(rule.state, rule.next, rule=number, read=rule[1:4], act=rule[4:7])
        return graph

    def verdicts(self) -> str:
        """Whether the machine is deterministic, and reversible, as the program prints it."""
        return self.ask(["reversible"])

    @property
    def is_reversible(self) -> bool:
        """Whether the machine is deterministic and reversible."""
        return self.verdicts() == "deterministic yes\nreversible yes\n"

    def inverse(self) -> ReversibleMachine:
        """The machine that takes the steps of this one back."""
        return ReversibleMachine(self.ask(["inverse"]))

    def moments(self, *words: str, steps: SupportsIndex = MOST_STEPS) -> Trace:
        """The moments of its run from a word on tape 1, or one on each of the three tapes."""
        if len(words) not in (1, 3):
            raise ValueError(f"a run begins with one word, or three, and not {len(words)}")
        asked = [f"={letters(word, 'a word')}" for word in words]
        return Trace(self.ask(["moments", *asked, whole(steps, "steps", MOST_STEPS)], DONE, STUCK, INSIDE))

    def least_window(self, words: Word | Iterable[Word], steps: SupportsIndex = MOST_STEPS) -> Window:
        """The least window (l1, r1, r2, r3) in which the machine's circuit ends as the machine does, halted or stuck. Where it
        doesn't end in so many steps, it is Refused with status 12; where the head of tape 2 or 3 goes left of its start, so
        that no window has room for the run, with status 11 and the text `none t`."""
        return least(self.ask(["room", *spelled(words), whole(steps, "steps", MOST_STEPS)]))

    def build(self, words: Word | Iterable[Word], window: Iterable[SupportsIndex]) -> Circuit:
        """Its circuit at the start, in a window (l1, r1, r2, r3)."""
        return Circuit(self.ask(["build", *spelled(words), *window_of(window)]))

    def drive(
        self, words: Word | Iterable[Word], window: Iterable[SupportsIndex], steps: SupportsIndex = MOST_DRIVE_STEPS
    ) -> Run:
        """The run of that circuit, to its exit or of at most so many element steps."""
        chosen = window_of(window)
        asked = ["drive", *spelled(words), *chosen, whole(steps, "steps", MOST_DRIVE_STEPS)]
        return Run.read(self.ask(asked, DONE, STUCK, WINDOW, INSIDE), chosen)

    def look(self, words: Word | Iterable[Word], window: Iterable[SupportsIndex], steps: SupportsIndex) -> Look:
        """Every layer of that circuit after at most so many element steps."""
        most = whole(steps, "steps", MOST_ELEMENT_STEPS)
        return Look.read(self.ask(["look", *spelled(words), *window_of(window), most]).splitlines())

    def play(
        self, words: Word | Iterable[Word], window: Iterable[SupportsIndex], script: str | Iterable[str]
    ) -> Session[Look]:
        """The answers to a script that is played on that circuit: its commands as a sequence, or as one text."""
        asked = ["play", *spelled(words), *window_of(window)]
        return Session.read(self.ask(asked, data=self.with_script(script)), Look)


class Erasure(NamedTuple):
    """How an erasing machine runs: `halted`, `stuck` or `running` after `steps` steps; a halted one has what stands on tape 1,
    `work`, and its `output`, a stuck one its `state`."""

    kind: str
    steps: int
    work: str | None = None
    output: str | None = None
    state: str | None = None


class ErasingMachine(ReversibleMachine):
    """The reversible machine that `first.erase(second)` gives."""

    def __init__(self, first: Machine, second: Machine) -> None:
        self.first, self.second = first, second
        super().__init__(first.ask(["erase"], data=first.beside(second.table)))

    def by_itself(self, word: str, steps: SupportsIndex = MOST_STEPS) -> Erasure:
        """Its run from a word, of at most so many steps."""
        asked = ["erase", f"={letters(word)}", whole(steps, "steps", MOST_STEPS)]
        told = self.ask(asked, DONE, STUCK, INSIDE, data=self.first.beside(self.second.table))
        (kind, *words), *rest = (line.split(" ") for line in told.splitlines())
        if kind == "halted":
            return Erasure(kind, int(words[0]), *(line[1].removeprefix("=") for line in rest))
        return Erasure(kind, int(words[-1]), state=words[0] if kind == "stuck" else None)


class Difference(NamedTuple):
    """What tells two states apart: a shortest sequence of input lines, and the output lines with which the first and the second
    machine answer the last of them; None where one has no move."""

    lines: tuple[int, ...]
    first: int | None
    second: int | None


class SequentialMachine(Table):
    """A reversible sequential machine, by its table of moves: `state`, input line, next state, output line, numbers from 1."""

    HEADS = ("state", "input", "next", "output")
    ENTRY = "move"

    @property
    def rules(self) -> tuple[tuple[int, ...], ...]:
        """The moves, each of four numbers."""
        return tuple(tuple(map(int, entry)) for entry in self.entries)

    @property
    def states(self) -> tuple[str, ...]:
        """The numbers of the states, in the order of their first appearance."""
        return tuple(dict.fromkeys(name for entry in self.entries for name in (entry[0], entry[2])))

    @classmethod
    def element(cls, lines: SupportsIndex, number: SupportsIndex) -> SequentialMachine:
        """The reversible element with one bit of memory, from 1 to 10 lines, and this number, counted from 0 (Morita 2017).
        A number that no such element has raises `Refused`."""
        words = [str(whole(lines, "lines", 10, 1)), str(whole(number, "number", MOST_ELEMENT_STEPS))]
        return cls(checked(*answer(["element", *words]), DONE))

    def realise(self, state: SupportsIndex, line: SupportsIndex) -> Circuit:
        """The machine's bank of rotary elements, in a state, with the signal at an input line."""
        return Circuit(self.ask(["realise", whole(state, "state", MOST_STEPS, 1), whole(line, "line", MOST_STEPS, 1)]))

    def difference(
        self, other: SequentialMachine, state: SupportsIndex = 1, other_state: SupportsIndex = 1
    ) -> Difference | None:
        """The least difference between a state of this machine and one of another; None where both answer every sequence of
        input lines alike. A state that a machine doesn't have is Refused."""
        words = ["equal", whole(state, "state", MOST_STEPS, 1), whole(other_state, "other_state", MOST_STEPS, 1)]
        told = self.ask(words, data=self.beside(other.table)).splitlines()
        if told[0] == "equal":
            return None
        first, second = (line.split(" ")[1] for line in told[1:])
        lines = tuple(map(int, told[0].split(" ")[1:]))
        return Difference(lines, *(None if it == "-" else int(it) for it in (first, second)))

    def equals(self, other: SequentialMachine, state: SupportsIndex = 1, other_state: SupportsIndex = 1) -> bool:
        """Whether a state of this machine and one of another answer every sequence of input lines alike."""
        return self.difference(other, state, other_state) is None


def generate(increments: SupportsIndex) -> Run:
    """The run of a machine that adds one so many times, from 1 to 4, in its own window."""
    status, text = answer(["generate", str(whole(increments, "increments", 4, 1))])
    return Run.read(checked(status, text, DONE).partition("\n")[2])


def least(told: str) -> Window:
    """The window of a line of `window` or `room`."""
    left, right, history, output = map(int, told.split(" ")[1:])
    return left, right, history, output
