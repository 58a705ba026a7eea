"""What ./try and ./workbench say on standard error beside the program: `python3 -m hithwelor.cli_explain STATUS ARGUMENTS`.

The arguments had this status, or `help`. Of a refusal the input is on standard input once more; it is asked again for its line.
"""
from __future__ import annotations

import sys

from .cli import told
from .cli_args import use_of
from .cli_engine import Engine
from .cli_errors import explained_exactly
from .cli_help import exact_help
from .cli_usage import fault_of
from .faults import Stop
from .forms import commands, statuses

USAGE, TEXT, SIZE = 2, 3, 6


def explain(status: int, words: list[str]) -> Stop | None:
    """Why arguments have a status; None where nothing is known."""
    if status == USAGE:
        return usage_fault(words)
    if TEXT <= status <= SIZE:
        data = rewound()
        engine = Engine()
        if data is not None:
            found, text = engine(words, data)
            if found == status:
                return explained_exactly(words, status, text, data, engine)
    if status in statuses():
        return Stop(statuses()[status][1], status)
    return None


def usage_fault(words: list[str]) -> Stop:
    """What is wrong with arguments that are no exact form."""
    if not words:
        return Stop("no command is named", usage="")
    if words[0] in commands():
        return Stop(fault_of(words), usage=f"={words[0]}")
    if words[0] in ("sweep", "plot"):
        return Stop(f"{words[0]} is a command of hithwelor alone: ./hithwelor {words[0]}", usage="")
    try:
        use_of(words[0])
    except Stop as stop:
        return stop
    return Stop(f"there is no command {words[0]}", usage="")


def rewound() -> bytes | None:
    """Standard input from its beginning; None where it can't be read again."""
    try:
        sys.stdin.buffer.seek(0)
        return sys.stdin.buffer.read()
    except (AttributeError, OSError):
        return None


def main(words: list[str]) -> int:
    if words[:1] == ["help"]:
        print(exact_help(words[1] if len(words) > 1 else ""), end="")
        return 0
    stop = explain(int(words[0]), words[1:])
    if stop:
        told(stop)
    return 0


if __name__ == "__main__":
    sys.exit(main(sys.argv[1:]))
