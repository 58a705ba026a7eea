"""`hithwelor session -i`: a debugger in the terminal, forward and back, over the program's own sessions.

Each command is played by the program, from the start of the circuit to the step at which the debugger is. What was done is kept
as a script, which `save` writes and `session` or `play` runs again.
"""
from __future__ import annotations

import difflib
import sys
from typing import Callable

from .cli_engine import Ask
from .faults import Stop
from .texts import Look, Session, Tape, View

DONE, MOST = 0, 2**62
PROMPT = "(hithwelor) "
HELP = """step [E]  back [E]     E element steps forward, or back; one without E
next [N]  prev [N]     to the next or the previous configuration of the machine, N times
go [E]    rev [E]      forward or back to a breakpoint, to the end or the start, at most E element steps
break [LABEL] state NAME, break [LABEL] element K, drop LABEL      set and remove breakpoints; `breaks` lists them
                       NAME is a state of the table, or one of Bennett's machine
view                   the layers: element, module, state, tapes, machine
tape                   the tapes, the head's cell in brackets
script, save FILE      the script so far, which `session` runs again
help, quit             an empty line repeats the last command
"""

COMMANDS = "step back next prev go rev break drop breaks view tape script save help quit".split()
# What other debuggers call these commands.
ALIASES = {
    **dict.fromkeys(("s", "si", "stepi"), "step"),
    **dict.fromkeys(("rs", "rsi", "reverse-step", "reverse-stepi"), "back"),
    **dict.fromkeys(("n", "nexti"), "next"),
    **dict.fromkeys(("rn", "reverse-next", "previous"), "prev"),
    **dict.fromkeys(("c", "continue", "run", "r"), "go"),
    **dict.fromkeys(("rc", "reverse-continue", "reverse"), "rev"),
    **dict.fromkeys(("b", "breakpoint"), "break"),
    **dict.fromkeys(("d", "delete", "clear"), "drop"),
    **dict.fromkeys(("v", "where", "bt", "info"), "view"),
    **dict.fromkeys(("p", "print", "tapes"), "tape"),
    **dict.fromkeys(("l", "list", "history"), "script"),
}


class Wrong(Exception):
    """What is wrong with a command of the debugger."""


def drawn(tape: Tape) -> str:
    """A tape with the head's cell in brackets."""
    cells = []
    for place, symbol in enumerate(tape.symbols, tape.first):
        cells.append(f"[{symbol}]" if place == tape.head else f" {symbol} ")
    behind = "" if tape.head is not None else "  (the head is between two cells)"
    return f"tape {tape.number} {tape.NAMES[tape.number]:8}from {tape.first:>3}: {''.join(cells)}{behind}"


class Debugger:
    """A circuit at one of its steps, its breakpoints, and the script that led there."""

    def __init__(
        self, ask: Ask, words: list[str], table: bytes, states: Callable[[], list[str]], own: dict[str, str]
    ) -> None:
        self.ask, self.words, self.table, self.states_of, self.own = ask, words, table, states, own
        self.steps = 0
        self.marks: dict[str, str] = {}
        self.script: list[str] = []
        self.states: list[str] | None = None

    def play(self, lines: list[str], marks: dict[str, str] | None = None) -> list[Look | str]:
        """The program's answers to lines of a script, from the step at which the debugger is."""
        before = [f"step {self.steps}", *(f"break {label} {what}" for label, what in (marks or self.marks).items())]
        text = "".join(f"{line}\n" for line in [*before, *lines]).encode(errors="surrogateescape")
        status, answer = self.ask(self.words, self.table + b"%\n" + text)
        told = answer.decode(errors="replace")
        if status != DONE:
            raise Wrong(told.strip())
        kind = View if self.words[0] == "session" else Look
        answers: list[Look | str] = list(Session.read(told, kind).answers)
        return answers[len(before) :]

    def look(self) -> Look:
        """What is shown at this step."""
        (seen,) = self.play(["view"])
        assert isinstance(seen, Look)
        return seen

    # The commands

    def move(self, line: str) -> list[str]:
        """Moves the signal as a line of a script says."""
        place, seen = self.play([line, "view"])
        self.script.append(line)
        return self.came(str(place), seen)

    def came(self, place: str, seen: Look | str) -> list[str]:
        """What is said where the signal came to."""
        assert isinstance(seen, Look)
        self.steps = seen.steps
        told = seen.machine if isinstance(seen, View) else f"state {seen.quadruple}"
        stage = f", {seen.stage}" if isinstance(seen, View) else ""
        return [place, f"{told}{stage}; {seen.lines[1]}", *map(drawn, seen.tapes)]

    def configurations(self, word: str, count: int) -> list[str]:
        """Goes to the next or the previous configuration of the machine so many times: a breakpoint at each of its states."""
        if self.states is None:
            self.states = self.states_of()
        marks = {f"at{number}": f"state {name}" for number, name in enumerate(self.states)}
        answers = self.play([f"{word} {MOST}"] * count + ["view"], marks)
        place, seen = str(answers[-2]).partition(" break ")[0], answers[-1]
        before = self.steps
        told = self.came(place, seen)
        if self.steps != before:
            self.script.append(f"{'step' if self.steps > before else 'back'} {abs(self.steps - before)}")
        return told

    def set_break(self, words: list[str]) -> list[str]:
        """Sets a breakpoint; without a label it is named by a number."""
        if words[:1] in (["state"], ["element"]):
            label = next(f"b{number}" for number in range(1, MOST) if f"b{number}" not in self.marks)
            words = [label, *words]
        if len(words) != 3 or words[1] not in ("state", "element"):
            raise Wrong("break [LABEL] state NAME, or break [LABEL] element K")
        name = self.own.get(words[2], words[2]) if words[1] == "state" else words[2]
        line = f"break {words[0]} {words[1]} {name}"
        self.play([line])
        self.marks[words[0]] = f"{words[1]} {name}"
        self.script.append(line)
        return [line if name == words[2] else f"{line} ({words[2]} of the table, in the compute stage)"]

    def drop(self, words: list[str]) -> list[str]:
        """Takes a breakpoint away."""
        if len(words) != 1 or words[0] not in self.marks:
            raise Wrong(f"no breakpoint has this label; breakpoints: {', '.join(self.marks) or 'none'}")
        del self.marks[words[0]]
        self.script.append(f"drop {words[0]}")
        return [f"drop {words[0]}"]

    def save(self, words: list[str]) -> list[str]:
        """Writes the script to a file."""
        if len(words) != 1:
            raise Wrong("save FILE")
        try:
            with open(words[0], "w", encoding="utf-8", errors="surrogateescape") as file:
                file.writelines(f"{line}\n" for line in self.script)
        except OSError as error:
            raise Wrong(f"{words[0]}: {error.strerror}") from None
        return [f"{len(self.script)} lines written to {words[0]}"]

    def do(self, line: str) -> list[str]:
        """What is said to a command; Wrong where it isn't one."""
        name, *words = line.split()
        name = "breaks" if [name, *words] in (["info", "breakpoints"], ["info", "b"]) else ALIASES.get(name, name)
        if name in ("step", "back", "go", "rev"):
            default = "1" if name in ("step", "back") else str(MOST)
            return self.move(f"{name} {self.number(words, default)}")
        if name in ("next", "prev"):
            return self.configurations("go" if name == "next" else "rev", int(self.number(words, "1")))
        if name == "break":
            return self.set_break(words)
        if name == "drop":
            return self.drop(words)
        if name == "breaks":
            return [f"{label} {what}" for label, what in self.marks.items()] or ["no breakpoint is set"]
        if name == "view":
            self.script.append("view")
            return self.look().lines
        if name == "tape":
            return list(map(drawn, self.look().tapes))
        if name == "script":
            return self.script or ["nothing was done yet"]
        if name == "save":
            return self.save(words)
        close = difflib.get_close_matches(name, COMMANDS, 1)
        raise Wrong(f"there is no command {name}; {f'did you mean {close[0]}? ' if close else ''}help lists them")

    def number(self, words: list[str], default: str) -> str:
        """The number behind a command."""
        word = words[0] if words else default
        if len(words) > 1 or not word.isascii() or not word.isdigit() or not 0 < int(word) <= MOST:
            raise Wrong(f"a number from 1, not {' '.join(words)}")
        return str(int(word))


def states_of(ask: Ask, table: bytes, is_quadruples: bool) -> Callable[[], list[str]]:
    """The states of the machine whose configurations are shown: those of Bennett's machine, or the table's own."""

    def states() -> list[str]:
        text = table if is_quadruples else ask(["bennett"], table)[1]
        rows = [line.split(",") for line in text.decode(errors="surrogateescape").split("\n") if line]
        return list(dict.fromkeys(name.strip('\r"') for row in rows for name in (row[0], row[-1])))

    return states


def own_states(table: bytes) -> dict[str, str]:
    """The states of Bennett's machine in its compute stage by the names of a table of quintuples, in the order in which they
    are first named."""
    rows = [line.split(",") for line in table.decode(errors="surrogateescape").splitlines() if line]
    names = dict.fromkeys(name.strip('"') for row in rows for name in (row[0], row[-1]))
    return {name: f"A{number}" for number, name in enumerate(names, 1)}


def lines_typed() -> Callable[[], str]:
    """A reader of the lines that are typed, with a prompt and a history on a terminal."""
    if sys.stdin.isatty():
        try:
            import readline

            readline.parse_and_bind("tab: complete")
        except ImportError:
            pass
        return lambda: input(PROMPT)

    def read() -> str:
        line = sys.stdin.readline()
        if not line:
            raise EOFError
        return line

    return read


def debug(debugger: Debugger) -> int:
    """Reads commands and does them, to `quit` or the end of the input."""
    if sys.stdin is None:
        raise Stop("standard input is closed", 7)
    read, last = lines_typed(), ""
    print("\n".join([*debugger.came("the start of the run; help lists the commands", debugger.look())]))
    while True:
        try:
            line = read().strip() or last
        except EOFError:
            return DONE
        except KeyboardInterrupt:
            print()
            continue
        if line in ("quit", "exit", "q"):
            return DONE
        last = line
        if not line:
            continue
        if line in ("help", "h", "?"):
            print(HELP, end="")
            continue
        try:
            print("\n".join(debugger.do(line)), flush=True)
        except Wrong as wrong:
            print(f"error: {wrong}", flush=True)
        except KeyboardInterrupt:
            print("stopped; nothing was changed", flush=True)
