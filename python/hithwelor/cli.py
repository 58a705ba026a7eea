"""The command `hithwelor`: arguments that one can guess, or one of the exact forms of the program, which is taken as it is.

An answer is on standard output as the program prints it, with the program's status. All else is on standard error: an error has
its cause, its place and a remedy.
"""
from __future__ import annotations

import importlib
import sys

from . import cli_input, version
from .cli_args import read_arguments, use_of
from .cli_engine import Engine, Progress
from .cli_errors import explained_exactly
from .cli_notes import tell
from .cli_run import REFUSALS, answer, debugged
from .cli_usage import fault_of, forms_shown, looks_exact
from .faults import STOPPED, Stop
from .forms import commands, is_exact, options, uses
from .cli_help import exact_help, help_of, option_help, summary, topic_help, topics

OWN = {"sweep": "hithwelor.sweep.command", "plot": "hithwelor.plot"}
HELPING = ("--help", "-h", "help")
DONE, USAGE, READ_FAULT, WRITE_FAULT = 0, 2, 7, 8


def main(words: list[str]) -> int:
    """Answers the arguments of a command line; gives the status."""
    if words and words[0] in OWN:
        status: int = importlib.import_module(OWN[words[0]]).main(words[1:])
        return status
    try:
        return answered(words)
    except Stop as stop:
        return told(stop)
    except KeyboardInterrupt:
        print("\nhithwelor: stopped", file=sys.stderr)
        return STOPPED


def answered(words: list[str]) -> int:
    """Answers arguments that aren't those of the package's own commands."""
    if not words:
        raise Stop("no command is named", usage="")
    if words == ["--version"]:
        return written(DONE, f"hithwelor {version()}\n".encode())
    if words[0] in HELPING:
        return written(DONE, help_for(words[1:]).encode())
    engine = Engine()
    if is_exact(words):
        return exactly(words, engine)
    if looks_exact(words):
        raise Stop(fault_of(words), usage=f"={words[0]}")
    arguments = read_arguments(words[0], words[1:])
    if "help" in arguments.given:
        return written(DONE, help_of(words[0]).encode())
    if "interactive" in arguments.given:
        return debugged(arguments, engine)
    status, text, question = answer(arguments, engine)
    if "verbose" in arguments.given:
        print(f"note: answered by {engine.name}", file=sys.stderr)
    code = written(status, text)
    if "json" not in arguments.given:
        tell(status, text, arguments, question)
    return code


def help_for(names: list[str]) -> str:
    """The help of a command, of the exact forms, or the list of commands."""
    if not names:
        return summary(version())
    if names[0] == "exact":
        return exact_help()
    if names[0] in topics():
        return topic_help(names[0])
    if names[0] in OWN:
        return f"hithwelor {names[0]} --help prints its options\n"
    if names[0].lstrip("-") in options() and names[0] not in uses():
        return option_help(names[0].lstrip("-"))
    return help_of(use_of(names[0]).command)


def exactly(words: list[str], engine: Engine) -> int:
    """Answers an exact form, byte for byte; what a refusal means is said beside it."""
    data = b""
    if words[0] not in commands("unread"):
        try:
            data = cli_input.read_bytes("-")
        except Stop as stop:
            print(f"error: {stop.cause}", file=sys.stderr)
            return written(READ_FAULT, b"read fault\n")
    with Progress("running"):
        status, text = engine(words, data)
    code = written(status, text)
    if code in REFUSALS and code != WRITE_FAULT:
        told(explained_exactly(words, status, text, data, engine))
    return code


def told(stop: Stop) -> int:
    """Says why there is no answer; gives the status."""
    lines = [f"error: {stop.cause}"]
    if stop.remedy:
        lines.append(f"help: {stop.remedy}")
    if stop.usage is not None:
        lines += usage_of(stop.usage)
    if sys.stderr is not None:
        print("\n".join(lines), file=sys.stderr)
    return stop.status


def usage_of(command: str) -> list[str]:
    """How a command is used, and where its help is. Behind a = its exact forms are shown; without a name all commands are meant."""
    name = command.lstrip("=")
    use = uses().get(name)
    if not use:
        return ["usage: hithwelor COMMAND FILE ..", "more: hithwelor help"]
    shown = forms_shown(name) if command.startswith("=") else use.usage
    return [f"usage: {shown}", f"more: hithwelor help {name}"]


def written(code: int, text: bytes) -> int:
    """Writes a text; gives its status, or the one of a standard output that didn't take it."""
    if sys.stdout is None:
        return WRITE_FAULT
    try:
        sys.stdout.buffer.write(text)
        sys.stdout.buffer.flush()
    except OSError as error:
        print(f"error: the output was not taken whole: {error.strerror}", file=sys.stderr)
        return WRITE_FAULT
    return code
