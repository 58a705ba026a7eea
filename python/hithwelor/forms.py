"""The forms of the arguments, as tools/lib/forms.tsv has them: the exact forms of the program with the limits of their numbers, and
the arguments, options and statuses of the command `hithwelor`. A wheel and an installation have that file too.
"""
from __future__ import annotations

import functools
import os
import re
from collections.abc import Sequence
from dataclasses import dataclass

from .answers import HERE, TOP, first_that_stands

NAME = "forms.tsv"
PATHS = [os.path.join(HERE, NAME), os.path.join(TOP, "tools", "lib", NAME), os.path.join(TOP, NAME)]
# What `machine` and `window` stand for in the options of a command, and the options of every command.
BUNDLES = {
    "machine": ["names", "as", "blank", "halt"],
    "window": ["window", "left", "right", "history", "output", "steps"],
}
ALWAYS = ["as", "json", "verbose", "help"]


@dataclass(frozen=True)
class Form:
    """The arguments of an exact form, what its command does, and its mark, which may be empty."""

    words: str
    what: str
    mark: str = ""

    @property
    def command(self) -> str:
        return self.words.split()[0]

    @property
    def letters(self) -> list[str]:
        """What stands behind the command: `=W`, `:IN`, `auto`, or a letter for a number."""
        return self.words.split()[1:]


@dataclass(frozen=True)
class Use:
    """A command as people write it: the kind of its input, its arguments and options, what it does, and the page to read."""

    command: str
    kind: str
    arguments: str
    listed: str
    what: str
    page: str
    group: str

    @property
    def options(self) -> list[str]:
        """The names of its options."""
        names = [name for it in self.listed.split() for name in BUNDLES.get(it, [it])]
        return list(dict.fromkeys([*names, *ALWAYS]))

    @property
    def usage(self) -> str:
        return f"hithwelor {self.command} {self.arguments}{' [OPTION..]' if self.listed else ''}"


@dataclass(frozen=True)
class Option:
    """An option: its name, a letter for its value (or `-`), its short name (or `-`), what it does, and its default."""

    name: str
    letter: str
    short: str
    what: str
    default: str

    @property
    def takes_value(self) -> bool:
        return self.letter != "-"


@functools.cache
def lines() -> tuple[tuple[str, ...], ...]:
    """The parts of each line of the file."""
    path = first_that_stands(PATHS)
    if not path:
        return ()
    with open(path, encoding="utf-8") as file:
        return tuple(tuple(line.rstrip("\n").split("\t")) for line in file if not line.startswith("#"))


def parts_of(kind: str) -> list[tuple[str, ...]]:
    """The parts behind the first of the lines of a kind."""
    return [tuple(parts) for first, *parts in lines() if first == kind]


@functools.cache
def forms() -> tuple[Form, ...]:
    """The exact forms in their order."""
    return tuple(Form(*parts) for parts in parts_of("form"))


def forms_of(command: str) -> list[Form]:
    """The exact forms of a command."""
    return [it for it in forms() if it.command == command]


def numbers() -> list[tuple[str, int, int]]:
    """Letters of the forms, with a command's name before them where it has its own limits; the least and the greatest number."""
    return [(parts[0], int(parts[1]), int(parts[2])) for parts in parts_of("number")]


def limits_of(command: str, letter: str) -> tuple[int, int]:
    """The least and the greatest number that may stand for a letter of a command's form."""
    found = (0, 0)
    for letters, least, greatest in numbers():
        names = letters.split()
        if names == [command, letter]:
            return least, greatest
        if letter in names and names[0] not in commands():
            found = least, greatest
    return found


@functools.cache
def all_commands(mark: str) -> tuple[str, ...]:
    return tuple(dict.fromkeys(it.command for it in forms() if not mark or it.mark == mark))


def commands(mark: str = "") -> list[str]:
    """The names of the commands that have this mark, or of all, each once."""
    return list(all_commands(mark))


@functools.cache
def uses() -> dict[str, Use]:
    """The commands as people write them, by their names."""
    found, group = {}, ""
    for kind, *parts in lines():
        if kind == "group":
            group = parts[0]
        elif kind == "use":
            found[parts[0]] = Use(parts[0], parts[1], parts[2], parts[3], parts[4], parts[5], group)
    return found


def twins() -> dict[str, str]:
    """The command for quadruples by that for quintuples."""
    return {parts[0]: parts[1] for parts in parts_of("twin")}


@functools.cache
def options() -> dict[str, Option]:
    """The options by their names."""
    return {parts[0]: Option(*parts) for parts in parts_of("option")}


def statuses() -> dict[int, tuple[str, str]]:
    """The name and the meaning of each status."""
    return {int(parts[0]): (parts[1], parts[2]) for parts in parts_of("status")}


def is_number(word: str, command: str, letter: str) -> bool:
    """Whether this is a number in the program's spelling, within the limits of a letter of a command's form."""
    least, greatest = limits_of(command, letter)
    return bool(re.fullmatch(r"0|[1-9][0-9]*", word)) and len(word) < 30 and least <= int(word) <= greatest


def fits(form: Form, words: Sequence[str]) -> bool:
    """Whether these arguments, with the command's name first, are of this form."""
    if not words or words[0] != form.command or len(words) - 1 != len(form.letters):
        return False
    for letter, word in zip(form.letters, words[1:]):
        if letter.startswith("="):
            if not word.startswith(("=", ":") if form.mark == "named" else "="):
                return False
        elif letter.startswith(":"):
            if not word.startswith(":"):
                return False
        elif letter == "auto":
            if word != "auto":
                return False
        elif not is_number(word, form.command, letter):
            return False
    return True


def is_exact(words: Sequence[str]) -> bool:
    """Whether these arguments as a whole are one of the exact forms."""
    return any(fits(form, words) for form in forms())


def quoted(names: list[str]) -> str:
    """A list of names as a sentence has it."""
    names = [f"`{name}`" for name in names]
    return " and ".join([", ".join(names[:-1]), names[-1]] if names[1:] else names)
