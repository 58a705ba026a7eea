"""Hithwelor, a verified workbench for reversible computing, from Python.

`answer` hands words and an input to the program, and returns its status and its text. `Machine`, `ReversibleMachine`, `Circuit`
and what their calls return are small classes over it, with the texts read and a picture in notebooks. Nothing is needed besides
Python 3.9 and an engine: Node.js 18 or later, or the shared library.
"""
from __future__ import annotations

from .answers import NoMemory, Unavailable, answer, close, engine, way
from .arguments import Names, Window
from .circuit import Circuit, Crossing, Element, Farm, Plan, Wire, farm
from .engines import Engine
from .layouts import Layout, Module, Spot
from .machine import (
    Difference,
    Erasure,
    ErasingMachine,
    Machine,
    Quadruple,
    ReversibleMachine,
    Rule,
    SequentialMachine,
    generate,
)
from .tables import read_table
from .texts import Exit, Look, Outcome, Refused, Run, Session, Tape, View, WalkView
from .traces import Moment, Trace

__version__: str

__all__ = [
    "Circuit",
    "Crossing",
    "Difference",
    "Element",
    "Engine",
    "Erasure",
    "ErasingMachine",
    "Exit",
    "Farm",
    "Layout",
    "Look",
    "Machine",
    "Module",
    "Moment",
    "Names",
    "NoMemory",
    "Outcome",
    "Plan",
    "Quadruple",
    "Refused",
    "ReversibleMachine",
    "Rule",
    "Run",
    "SequentialMachine",
    "Session",
    "Spot",
    "Tape",
    "Trace",
    "Unavailable",
    "View",
    "WalkView",
    "Window",
    "Wire",
    "__version__",
    "answer",
    "close",
    "engine",
    "farm",
    "generate",
    "read_table",
    "version",
    "way",
]


def version() -> str:
    """The version: in the repository, and in what tools/install made, the one that is told there; else the package's."""
    import os
    import re
    from importlib import metadata

    from .answers import HERE, TOP, first_that_stands

    told = first_that_stands([os.path.join(TOP, "CHANGELOG.md"), os.path.join(TOP, "version")])
    if told and HERE == os.path.join(TOP, "python", "hithwelor"):
        with open(told, encoding="utf-8") as file:
            found = re.search(r"^(?:This state is |## )?(\d+\.\d+\.\d+(?:\.dev\d+)?)", file.read(), flags=re.M)
        if found:
            return found[1]
    return metadata.version("hithwelor")


def __getattr__(name: str) -> str:
    """`__version__`, which is read when it is asked for."""
    if name == "__version__":
        return version()
    raise AttributeError(f"module {__name__!r} has no attribute {name!r}")
