"""A user's program, looked at by mypy --strict: each call, and the type of what it returns."""
from __future__ import annotations

from collections.abc import Iterator

import hithwelor
from hithwelor import Circuit, Machine, Moment, Names, Refused, ReversibleMachine, Run, Tape, View


def outputs(machine: Machine, words: list[str]) -> dict[str, str | None]:
    return {word: machine.by_itself(word).output for word in words}


def cells(run: Run) -> list[tuple[int, str]]:
    return [(position, symbol) for tape in run.tapes for position, symbol in zip(tape.positions, tape)]


def heads(machine: Machine) -> list[int | None]:
    moments: Iterator[Moment] = iter(machine.trace("1", 10))
    return [moment.tape.head for moment in moments]


def views(machine: Machine) -> list[View | str]:
    return list(machine.session("1", (0, 5, 11, 5), ["go 10", "view"]))


def chunks(circuit: Circuit) -> list[int]:
    return [it.steps for it in circuit.chunks(100, timeout=1.5)]


def main() -> None:
    machine = Machine.from_rules([("S", "_", "_", "+", "T"), ("T", "_", "_", "0", "F")])
    reversible: ReversibleMachine = machine.reversible()
    tape: Tape = reversible.drive(Names(["1"]), (0, 1, 1, 1)).tapes[0]
    status, text = hithwelor.answer(["check"], machine.table)
    window: hithwelor.Window = (0, 1, 1, 1)
    try:
        circuits, undo = hithwelor.farm([machine.compile("", window)], [(1, 5)])
    except Refused as refused:
        print(refused.status, refused.text.upper())
    else:
        print(circuits[0].plan().wires[0].track, undo[0][1], tape.word, status, text.decode())
    with hithwelor.engine() as engine:
        print(engine.path, hithwelor.__version__, machine.rules[0].next, machine.layout("", window).spot(3).name)


if __name__ == "__main__":
    main()
