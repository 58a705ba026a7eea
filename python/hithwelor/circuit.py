"""Circuits of rotary elements by their configuration texts, and what the program makes of them."""
from __future__ import annotations

import os
import re
import time
from collections.abc import Iterable, Iterator, Sequence
from typing import TYPE_CHECKING, Any, NamedTuple, SupportsIndex

from .answers import answer
from .arguments import MOST_ELEMENT_STEPS, text_of, whole
from .optional import needs
from .texts import Session, WalkView, checked, matched

if TYPE_CHECKING:
    import networkx

    from .machine import SequentialMachine

OUTPUTS = ("n", "e", "s", "w")
MOST_STATES = 65_536


class Element(NamedTuple):
    """A rotary element: its number, its bar (`H` along west and east, `V` along north and south), and for each output the
    input, as `3.n`, to which it leads, or None."""

    number: int
    bar: str
    n: str | None
    e: str | None
    s: str | None
    w: str | None


class Wire(NamedTuple):
    """A wire from an output to an input of an element, each as `3.n`, and its track in a plan."""

    source: str
    target: str
    track: int


class Plan(NamedTuple):
    """A floor plan: how many `elements` and `tracks`, the `densest` position, and the `wires` in the order of lesser ends."""

    elements: int
    tracks: int
    densest: int
    wires: tuple[Wire, ...]


class Crossing(NamedTuple):
    """A crossing: in `state`, the signal enters by the port `input`, leaves by the port `output` after so many element `steps`,
    and the circuit is in the state `next`. States are counted from 1; ports are as `3.n`."""

    state: int
    input: str
    next: int
    output: str
    steps: int


class Circuit:
    """A circuit with its signal, by its configuration text (docs/use/formats.md).

    A faulty text is Refused, with status 3, at the first call that asks the program, and a ValueError at the first field. Steps
    are element steps, of which a circuit counts at most 2^62. Two circuits are equal if their texts are; a loop gives elements.
    """

    HEAD = re.compile(
        r"rotary ([12])\nelements (\d+)\nstart (\S+)\nend (\S+)\nsteps (\d+)\n(at|left) (\S+)\n",
    )

    def __init__(self, text: str | bytes | bytearray) -> None:
        self.text = text_of(text, "a circuit")

    @classmethod
    def open(cls, path: str | os.PathLike[str]) -> Circuit:
        """The circuit of a file."""
        with open(path, encoding="utf-8", newline="") as file:
            return cls(file.read())

    def ask(self, words: Iterable[object]) -> str:
        """The program's answer to words and this circuit, as text."""
        return checked(*answer([str(word) for word in words], self.text), 0)

    def _head(self, number: int) -> str:
        return matched(self.HEAD.match(self.text), self.text[:60], "a circuit")[number]

    @property
    def elements(self) -> int:
        """How many elements the circuit has."""
        return int(self._head(2))

    @property
    def start(self) -> str:
        """The external input, as `0.n`."""
        return self._head(3)

    @property
    def end(self) -> str:
        """The external output."""
        return self._head(4)

    @property
    def steps(self) -> int:
        """How many element steps were made."""
        return int(self._head(5))

    @property
    def has_left(self) -> bool:
        """Whether the signal has left the circuit."""
        return self._head(6) == "left"

    @property
    def place(self) -> str:
        """The input that the signal is about to enter, or the output by which it has left."""
        return self._head(7)

    def step(self, steps: SupportsIndex = 1) -> Circuit:
        """The circuit after at most so many element steps."""
        return Circuit(self.ask(["step", whole(steps, "steps", MOST_ELEMENT_STEPS)]))

    def back(self, steps: SupportsIndex = 1) -> Circuit:
        """The circuit before so many element steps, or at its start."""
        return Circuit(self.ask(["back", whole(steps, "steps", MOST_ELEMENT_STEPS)]))

    def walk(self, script: str | Iterable[str]) -> Session[WalkView]:
        """The answers to a script on this circuit, its commands as a sequence or as one text: `step E`, `back E`, `go E`,
        `rev E`, `break LABEL element K`, `break LABEL line E.L`, `drop LABEL`, `view`. A faulty command is Refused, with
        status 3 and its number."""
        lines = script if isinstance(script, str) else "".join(f"{line}\n" for line in script)
        return Session.read(checked(*answer(["walk"], f"{self.text}%\n{lines}"), 0), WalkView)

    def mirror(self) -> Circuit:
        """The inverse circuit: its steps are the steps back of this one."""
        return Circuit(self.ask(["mirror"]))

    def migrate(self) -> Circuit:
        """The same circuit in version 2, in which a column is one entry."""
        return Circuit(self.ask(["migrate"]))

    def plan(self) -> Plan:
        """The wires on as few tracks as can be."""
        lines = self.ask(["plan"]).splitlines()
        elements, _, tracks, densest = (int(line.split(" ")[1]) for line in lines[:4])
        rows = (line.split(" ") for line in lines[4:])
        return Plan(elements, tracks, densest, tuple(Wire(row[1], row[2], int(row[4])) for row in rows))

    def _explore(
        self, command: str, states: SupportsIndex, steps: SupportsIndex, ports: Sequence[Iterable[str] | None]
    ) -> str:
        """What `behaviour` or `crossings` prints for some limits, and for named ports or for all free ones."""
        words = [command, whole(states, "states", MOST_STATES, 1), whole(steps, "steps", MOST_ELEMENT_STEPS, 1)]
        if ports[0] is None and ports[1] is None:
            return self.ask(words)
        if ports[0] is None or ports[1] is None:
            raise ValueError("inputs and outputs are named together, or neither of them")
        return self.ask([*words, *(f":{','.join(names)}" for names in ports if names is not None)])

    def behaviour(
        self,
        inputs: Iterable[str] | None = None,
        outputs: Iterable[str] | None = None,
        *,
        states: SupportsIndex = MOST_STATES,
        steps: SupportsIndex = MOST_ELEMENT_STEPS,
    ) -> SequentialMachine:
        """The reversible sequential machine that the circuit is, its bars as state 1, by its free ports or by those that are
        named, as `["0.n", "1.w"]`. Where it has more `states`, or a crossing takes more element `steps`, it is Refused with
        status 12; where a name is that of no free port, with status 5."""
        from .machine import SequentialMachine

        return SequentialMachine(self._explore("behaviour", states, steps, (inputs, outputs)))

    def crossings(
        self,
        inputs: Iterable[str] | None = None,
        outputs: Iterable[str] | None = None,
        *,
        states: SupportsIndex = MOST_STATES,
        steps: SupportsIndex = MOST_ELEMENT_STEPS,
    ) -> tuple[Crossing, ...]:
        """The crossings of `behaviour`, one for each of its moves, in the same order."""
        rows = (line.split(" ") for line in self._explore("crossings", states, steps, (inputs, outputs)).splitlines())
        return tuple(Crossing(int(it[1]), it[3], int(it[5]), it[7], int(it[9])) for it in rows)

    def chunks(
        self, size: SupportsIndex = 1_000_000, *, timeout: float | None = None, progress: bool = False
    ) -> Iterator[Circuit]:
        """The circuit after each further chunk of `size` element steps, up to where the signal has left.

        `timeout` is in seconds: a chunk that would begin later is a TimeoutError, and the last circuit that was given can be
        gone on with. `progress` shows element steps by tqdm.
        """
        count = whole(size, "size", MOST_ELEMENT_STEPS, 1)
        until = None if timeout is None else time.monotonic() + timeout
        bar: Any = None
        if progress:
            from tqdm.auto import tqdm

            bar = tqdm(unit=" steps", unit_scale=True)
        try:
            circuit = self
            while not circuit.has_left and circuit.steps < MOST_ELEMENT_STEPS:
                if until is not None and time.monotonic() > until:
                    raise TimeoutError(f"{timeout:g} s have passed, after element step {circuit.steps:,}")
                before, circuit = circuit, circuit.step(count)
                if bar is not None:
                    bar.update(circuit.steps - before.steps)
                yield circuit
        finally:
            if bar is not None:
                bar.close()

    def __iter__(self) -> Iterator[Element]:
        """The elements in their order; a column of version 2 as its elements."""
        lines = iter(self.text.splitlines()[6:])
        for line in lines:
            kind, *fields = line.split(" ")
            if kind == "c":
                rows = [next(lines).split(" ")[1:] for _ in range(int(fields[1]))]
                yield from column(int(fields[0]), fields[2], [(wired(x), wired(y)) for x, y in rows])
            else:
                yield Element(int(fields[0]), fields[1], *map(wired, fields[2:]))

    def __len__(self) -> int:
        """How many elements the circuit has."""
        return self.elements

    def graph(self) -> networkx.MultiDiGraph:
        """The circuit as a graph of networkx: elements are nodes, with their `bar`; wires are edges, with the `source` output
        and the `target` input (`n`, `e`, `s`, `w`). The graph has `start`, `end`, `place`, `has_left` and `steps`."""
        with needs("networkx", "graphs"):
            import networkx

        names = ("start", "end", "place", "has_left", "steps")
        graph = networkx.MultiDiGraph(**{name: getattr(self, name) for name in names})
        for element in self:
            graph.add_node(element.number, bar=element.bar)
            for output in OUTPUTS:
                target = getattr(element, output)
                if target is not None:
                    number, _, line = target.partition(".")
                    graph.add_edge(element.number, int(number), source=output, target=line)
        return graph

    def __eq__(self, other: object) -> bool:
        return isinstance(other, Circuit) and self.text == other.text

    def __hash__(self) -> int:
        return hash(self.text)

    def __str__(self) -> str:
        return self.text

    def __repr__(self) -> str:
        if not self.HEAD.match(self.text):
            return f"Circuit({self.text[:40]!r}..)"
        count = f"{self.elements:,} element{'' if self.elements == 1 else 's'}"
        return f"Circuit({count}, {'left' if self.has_left else 'at'} {self.place}, steps {self.steps:,})"


def wired(target: str) -> str | None:
    """The input to which an output leads."""
    return None if target == "-" else target


def column(first: int, bar: str, rows: Sequence[tuple[str | None, str | None]]) -> Iterator[Element]:
    """The elements of a column of version 2, as docs/use/formats.md has them: its rows, and its bottom."""
    bottom = first + len(rows)
    for number, (east, west) in enumerate(rows, first):
        above = f"{bottom}.e" if number == first else f"{number - 1}.s"
        yield Element(number, "V", above, east, f"{number + 1}.n", west)
    yield Element(bottom, bar, f"{bottom - 1}.s", None, f"{bottom}.s", f"{first}.n")


class Farm(NamedTuple):
    """Independent circuits after a schedule, and the schedule that undoes it."""

    circuits: tuple[Circuit, ...]
    undo: tuple[tuple[int, int], ...]


def farm(circuits: Iterable[Circuit], schedule: Iterable[tuple[SupportsIndex, SupportsIndex]]) -> Farm:
    """Several circuits under a schedule: each entry is a circuit's number, from 1, and its element steps, below 0 for back."""
    text = "".join(f"{circuit.text}%\n" for circuit in circuits)
    for number, steps in schedule:
        count = whole(steps, "steps", MOST_ELEMENT_STEPS, -MOST_ELEMENT_STEPS)
        text += f"{'-' if count < 0 else '+'} {whole(number, 'a circuit', 2**62, 1)} {abs(count)}\n"
    *parts, undo = checked(*answer(["farm"], text), 0).split("%\n")
    events = (line.split(" ") for line in undo.splitlines())
    return Farm(tuple(map(Circuit, parts)), tuple((int(it[1]), int(it[0] + it[2])) for it in events))
