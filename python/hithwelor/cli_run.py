"""A command of people, translated into the exact arguments of the program and its input, and asked.

What the program prints is printed as it is. Everything else, as the window that was found, is said on standard error.
"""
from __future__ import annotations

import re
import sys
from dataclasses import dataclass, field

from . import cli_errors, cli_input
from .cli_args import Arguments, whole
from .cli_errors import base
from .cli_engine import Ask, Progress
from .cli_input import Input, Wanted, open_input
from .cli_json import as_json
from .cli_session import Debugger, debug, own_states, states_of
from .cli_window import Found, Refusal, Window, least_window
from .faults import Stop
from .forms import forms_of, options, twins, uses

DONE, MACHINE, INSIDE = 0, 4, 12
REFUSALS = range(2, 10)
MOST_STEPS = {"drive": 2**61, "behaviour": 2**62, "crossings": 2**62}
PARTS = ("SCRIPT", "SCHEDULE")


def say(line: str) -> None:
    """Says something beside the answer, on standard error."""
    if sys.stderr is not None:
        print(f"note: {line}", file=sys.stderr)


@dataclass
class Question:
    """What is asked of the program: the exact arguments and the input; and of what it was made, for explanations."""

    ask: Ask
    words: list[str]
    data: bytes
    inputs: list[Input] = field(default_factory=list)
    given: list[str] = field(default_factory=list)
    found: Found | None = None
    command: str = ""
    is_exact: bool = False


class Translation:
    """Translates the arguments of a command."""

    def __init__(self, arguments: Arguments, ask: Ask) -> None:
        self.arguments, self.ask = arguments, ask
        self.inputs: list[Input] = []
        self.command = arguments.command
        self.values: dict[str, int] = {}
        self.found: Found | None = None
        self.script: bytes | None = None

    def wanted(self) -> Wanted:
        given = self.arguments.given
        return Wanted(given.get("as", ""), given.get("blank", ""), given.get("halt", ""))

    def question(self) -> Question:
        """The exact arguments and the input."""
        self.open_inputs()
        words = self.words()
        self.read_numbers()
        if "l1" in self.letters():
            self.find_window(words)
        exact = self.exact(words)
        return self.asked(exact, self.data())

    def asked(self, words: list[str], data: bytes) -> Question:
        """A question with what it was made of."""
        given = self.arguments.named.get("WORD", [])
        return Question(self.ask, words, data, self.inputs, given, self.found, self.arguments.command)

    # The inputs

    def open_inputs(self) -> None:
        """Reads the files, and brings each to what the command takes."""
        paths = self.arguments.files()
        data = cli_input.read_bytes(paths[0]) if paths else b""
        has_parts = self.arguments.use.kind != "circuit" or self.command == "walk"
        parts = cli_input.split_parts(data) if has_parts else None
        pieces = [(path, None if number else data) for number, path in enumerate(paths)]
        if parts:
            pieces[0] = (paths[0], parts[0])
            if self.command in ("erase", "equal"):
                pieces.insert(1, (paths[0], parts[1]))
            else:
                self.script = parts[1]
        for path, own in pieces:
            it = open_input(path, self.wanted(), own)
            self.inputs.append(it)
            self.to_kind(it)
        for it in self.inputs:
            try:
                if it.kind == "quintuples" and self.needs_standard():
                    to_standard_form(it, self.ask)
            finally:
                if it.notes:
                    say(f"{it.name}: {'; '.join(it.notes)}")

    def to_kind(self, it: Input) -> None:
        """Chooses the command for the kind of machine that was read; a fault where it fits none."""
        kind = self.arguments.use.kind
        if not it.data.strip() and not it.kind:
            it.kind = kind
        if kind == "quintuples" and it.kind == "quadruples" and self.arguments.command in twins():
            self.command = twins()[self.arguments.command]
        elif kind == "quadruples" and it.kind == "quintuples" and self.arguments.command == "inverse":
            pass
        elif kind and it.kind != kind:
            raise cli_errors.wrong_kind(self.arguments.use, it)

    def needs_standard(self) -> bool:
        return self.command not in ("check", "standard")

    def data(self) -> bytes:
        """The program's input."""
        named, first = self.arguments.named, self.inputs[0].data if self.inputs else b""
        if self.command == "inverse" and self.inputs[0].kind == "quintuples":
            status, text = self.ask(["bennett"], first)
            if status != DONE:
                raise Refusal(["bennett"], status, text)
            return text
        if "SCRIPT" in named:
            return ended(first) + b"%\n" + script_of(named["SCRIPT"][0])
        if self.script is not None:
            return ended(first) + b"%\n" + self.script
        if "SCHEDULE" in named:
            boards = b"".join(it.data + b"%\n" for it in self.inputs)
            return boards + script_of(named["SCHEDULE"][0])
        if len(self.inputs) > 1:
            return ended(first) + b"%\n" + self.inputs[1].data
        return first

    # The arguments

    def letters(self) -> set[str]:
        return {letter for form in forms_of(self.command) for letter in form.letters}

    def ports(self) -> list[str]:
        """The ports that are named, as the program reads them."""
        given = [self.arguments.given.get(name) for name in ("inputs", "outputs")]
        if given[0] is None and given[1] is None:
            return []
        if given[0] is None or given[1] is None:
            raise Stop("--inputs and --outputs are named together, or neither of them", usage=self.command)
        return [f":{names}" for names in given]

    def words(self) -> list[str]:
        """The input words as the program reads them."""
        given, takes_names = self.arguments.named.get("WORD", []), ":" in self.marks()
        if given and "=W1" not in self.letters() and len(given) > 1:
            raise Stop(f"{self.arguments.command} takes one word here: `{given[1]}` is surplus", usage=self.command)
        if len(given) == 2:
            raise Stop(
                f"{self.command} takes one word, or one for each of the three tapes: the third is missing; '' is the empty word",
                usage=self.arguments.command,
            )
        if len(given) > 3:
            raise Stop(f"{self.command} takes at most three words: `{given[3]}` is surplus", usage=self.command)
        if "names" not in self.arguments.given:
            return [f"={it}" for it in given]
        if takes_names:
            return [f":{it}" for it in given]
        return [f"={it.replace(',', '')}" for it in given]

    def marks(self) -> str:
        return ":" if any(form.mark == "named" for form in forms_of(self.command)) else ""

    def read_numbers(self) -> None:
        """The numbers of options and arguments, by their letters."""
        arguments = self.arguments
        for letter in ("Q", "R", "I", "k", "n", "E"):
            for word in arguments.named.get(letter, []):
                self.values[letter] = whole(word, letter, arguments.command, letter)
        if "E" in self.letters():
            for name in ("element-steps", "at"):
                number = arguments.number(name, "E")
                if number is not None:
                    self.values["E"] = number
            if "at" in arguments.use.options:
                self.values.setdefault("E", 0)
            if self.command in ("step", "back"):
                self.values.setdefault("E", 1)
            if self.command in MOST_STEPS:
                self.values.setdefault("E", MOST_STEPS[self.command])
        if self.command == "equal":
            self.values = {"Q": 1, "R": 1, **self.values}
        if "states" in arguments.use.options:
            states = arguments.number("states", "n")
            self.values["n"] = int(options()["states"].default) if states is None else states
        steps = arguments.number("steps", "n")
        if "steps" in arguments.use.options:
            self.values["steps"] = int(options()["steps"].default) if steps is None else steps

    def find_window(self, words: list[str]) -> None:
        """The numbers of the window: those that are given, and the least for the others."""
        names, given = {"left": "l1", "right": "r1", "history": "n", "output": "r3"}, self.arguments.given
        chosen = {letter: self.arguments.number(name, letter) for name, letter in names.items()}
        if given.get("window", "auto") != "auto":
            listed = given["window"].replace(" ", ",").split(",")
            if len(listed) != 4:
                raise Stop(
                    f"--window: {len(listed)} numbers, and a window has four: l1,r1,n,r3", usage=self.arguments.command
                )
            for letter, word in zip(names.values(), listed):
                chosen[letter] = whole(word, letter, self.arguments.command, f"--window, {letter}")
        if any(number is None for number in chosen.values()):
            least = self.search(words)
            chosen = {
                letter: least[at] if number is None else number for at, (letter, number) in enumerate(chosen.items())
            }
            say("--window " + ",".join(str(number) for number in chosen.values()))
        self.values.update({letter: number or 0 for letter, number in chosen.items()})

    def search(self, words: list[str]) -> Window:
        """The least window for a run of at most --steps steps."""
        is_quadruples, steps = self.inputs[0].kind == "quadruples", self.values["steps"]
        with Progress("looking for a window"):
            self.found = least_window(self.ask, is_quadruples, self.inputs[0].data, words, steps, say)
        if not self.found.is_over and "steps" not in self.arguments.given:
            raise Stop(
                f"the machine has not halted after {steps:,} steps, so there is no window for its whole run",
                INSIDE,
                "--steps 100 takes the first 100 steps; --window l1,r1,n,r3 names a window, and --element-steps E "
                "stops the circuit there",
            )
        if not self.found.is_over:
            say(f"the machine has not halted after {steps:,} steps; the window is that of these steps")
        return self.found.window

    def exact(self, words: list[str]) -> list[str]:
        """The exact arguments: those of the form that takes the most of what is given."""
        values = dict(self.values)
        if "l1" in values:
            values["r2"] = values["n"]
        elif "steps" in values:
            values["n"] = values["steps"]
        ports = self.ports()
        for form in sorted(forms_of(self.command), key=lambda it: -len(it.letters)):
            places = [it for it in form.letters if it.startswith("=")]
            named = [it for it in form.letters if it.startswith(":")]
            numbers = [it for it in form.letters if it not in (*places, *named)]
            if (len(places), len(named)) == (len(words), len(ports)) and all(it in values for it in numbers):
                return [form.command, *words, *(str(values[it]) for it in numbers), *ports]
        raise Stop(f"{self.arguments.command}: no form takes these arguments", usage=self.arguments.command)


def ended(data: bytes) -> bytes:
    """A table whose last line has an end."""
    return data if not data or data.endswith((b"\n", b"\r")) else data + b"\n"


def script_of(path: str) -> bytes:
    """A script with the program's ends of lines."""
    data = cli_input.read_bytes(path).replace(b"\r\n", b"\n")
    return ended(data)


def to_standard_form(it: Input, ask: Ask) -> None:
    """Brings a machine into standard form where it isn't, by `standard`, and keeps the names of its states."""
    status, text = ask(["check"], it.data)
    if status == DONE:
        return
    if status != MACHINE:
        raise Refusal(["check"], status, text)
    made, table = ask(["standard"], it.data)
    if made != DONE:
        raise Refusal(["standard"], made, table)
    demand = text.decode(errors="replace").strip().removeprefix("machine: ")
    it.notes.append(f"brought into standard form ({demand}) by `standard`: the machine starts on the first letter")
    if not demand.startswith("S2"):
        cause, remedy = base(f"machine: {demand}", "check")
        it.notes.append(f"if it starts on the blank before the word, its fault is this: {cause}; {remedy}")
    it.data = with_names(table.decode(), it).encode()


def with_names(table: str, it: Input) -> str:
    """The table that `standard` prints, with the names of the states that it was made of in place of Q1, Q2, .."""
    names = list(dict.fromkeys(name for _, row in it.rows for name in (row[0], row[-1])))
    shown = {f"Q{number}": name for number, name in enumerate(names, 1)}
    for name in ("I", "O"):
        shown[name] = next(it for it in (name, f"{name}.new", f"{name}.new2") if it not in names)
    rows = (line.split(",") for line in table.splitlines())
    return "".join(f"{','.join([shown[row[0]], *row[1:-1], shown[row[-1]]])}\n" for row in rows)


def question_of(arguments: Arguments, ask: Ask) -> Question:
    """What is asked of the program; Stop where it refuses something on the way."""
    translation = Translation(arguments, ask)
    try:
        return translation.question()
    except Refusal as refusal:
        question = translation.asked(refusal.words, b"")
        raise cli_errors.explained(question.words, refusal.status, refusal.text, question) from None


def debugged(arguments: Arguments, ask: Ask) -> int:
    """Debugs a circuit in the terminal; gives the status."""
    question = question_of(arguments, ask)
    table, is_quadruples = ended(question.data), question.inputs[0].kind == "quadruples"
    status, text = ask(question.words, table + b"%\n")
    if status in REFUSALS:
        raise cli_errors.explained(question.words, status, text, question)
    if "-" in arguments.files():
        # The table was on standard input, so the commands are typed at the terminal itself.
        try:
            sys.stdin = open("/dev/tty", encoding="utf-8")
        except OSError:
            raise Stop("with the machine on standard input, -i needs a terminal: name a file", usage=None) from None
    states = states_of(ask, table, is_quadruples)
    return debug(Debugger(ask, question.words, table, states, {} if is_quadruples else own_states(table)))


def answer(arguments: Arguments, ask: Ask) -> tuple[int, bytes, Question]:
    """The status and the text of a command, and what was asked; Stop where the program refuses."""
    question = question_of(arguments, ask)
    if "verbose" in arguments.given:
        say(f"exactly: {' '.join(question.words)}")
    try:
        with Progress("running"):
            status, text = ask(question.words, question.data)
    except KeyboardInterrupt:
        if question.found:
            say(f"known: the machine's own run is {question.found.outcome}")
        raise
    if status in REFUSALS:
        raise cli_errors.explained(question.words, status, text, question)
    return status, as_json(question.words, status, text) if "json" in arguments.given else text, question
