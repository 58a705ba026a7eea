"""The arguments of the command `hithwelor` as people write them, by the table of forms: options and what stands for each name."""
from __future__ import annotations

import argparse
import difflib
import os
import re
from dataclasses import dataclass, field
from typing import NoReturn

from .cli_input import exists, read_bytes, split_parts
from .faults import Stop
from .cli_usage import fault_of_number
from .forms import Use, commands, forms_of, is_number, options, parts_of, twins, uses

# What the names of arguments mean, for messages.
MEANINGS = {
    "MACHINE": "the machine's file",
    "CIRCUIT": "the circuit's file",
    "TABLE": "the table's file",
    "SCRIPT": "the script's file",
    "SCHEDULE": "the schedule's file",
    "WORD": "the input word",
    "Q": "the state",
    "R": "the state of the second machine",
    "I": "the line",
    "E": "the number of element steps",
    "k": "how many times",
    "element k": "the number of lines, from 1 to 10",
    "element n": "the element's number, from 0 to (2k)! - 1",
}
FILES = ("MACHINE", "CIRCUIT", "TABLE", "SCRIPT", "SCHEDULE")


@dataclass
class Arguments:
    """The arguments behind a command: what stands for each name, and the values of the options."""

    command: str
    use: Use
    named: dict[str, list[str]] = field(default_factory=dict)
    given: dict[str, str] = field(default_factory=dict)

    def files(self) -> list[str]:
        """The files of tables and circuits, in their order."""
        return [path for name in ("MACHINE", "TABLE", "CIRCUIT") for path in self.named.get(name, [])]

    def number(self, name: str, letter: str) -> int | None:
        """The number of an option; None where it isn't given."""
        return whole(self.given[name], letter, self.command, f"--{name}") if name in self.given else None


class Parser(argparse.ArgumentParser):
    """A parser whose faults are those of the command."""

    def error(self, message: str) -> NoReturn:
        command = self.prog.split()[-1]
        found = re.search(r"unrecognized arguments: (--?[\w-]+)", message)
        if found:
            names = [f"--{it}" for it in uses()[command].options]
            word = found[1].split("=")[0]
            close = difflib.get_close_matches(word, names, 1, 0.5)
            if word == "--element-steps" and "--at" in names:
                close = ["--at"]
            behind = f"; did you mean {close[0]}?" if close else f"; a word that begins with - stands behind --"
            raise Stop(f"{command} has no option {found[1]}{behind}", usage=command)
        message = re.sub(r"argument (--[\w-]+)(/-\w)?: expected one argument", r"\1: its value is missing", message)
        raise Stop(message, usage=command)


def parser_of(use: Use) -> Parser:
    """The parser of a command's options."""
    parser = Parser(prog=f"hithwelor {use.command}", add_help=False, allow_abbrev=False)
    for name in use.options:
        option = options()[name]
        names = [f"--{name}", *([option.short] if option.short != "-" else [])]
        if option.takes_value:
            parser.add_argument(*names, dest=name, metavar=option.letter)
        else:
            parser.add_argument(*names, dest=name, action="store_const", const="yes")
    parser.add_argument("rest", nargs="*")
    return parser


def read_arguments(command: str, words: list[str]) -> Arguments:
    """The arguments behind a command."""
    use = use_of(command)
    before, behind = (words[: words.index("--")], words[words.index("--") + 1 :]) if "--" in words else (words, [])
    read = vars(parser_of(use).parse_intermixed_args(before))
    rest = [*read.pop("rest"), *behind]
    found = Arguments(command, use, given={name: value for name, value in read.items() if value is not None})
    if "help" not in found.given:
        names = [it for it in use.arguments.split() if it != "SCRIPT" or "interactive" not in found.given]
        found.named = matched(use, without_parts(names) if has_parts(use, rest) else names, rest)
    return found


def has_parts(use: Use, rest: list[str]) -> bool:
    """Whether a command of several files is given one that has them all, with lines % between them."""
    if not use.arguments.endswith(("SCRIPT", "SCHEDULE", "[WORD]", "[R]")) or not rest or not os.path.isfile(rest[0]):
        return False
    return split_parts(read_bytes(rest[0])) is not None


def without_parts(names: list[str]) -> list[str]:
    """The names of a command's arguments where the first file has all parts."""
    kept = ("WORD", "[Q]", "[R]")
    return [
        name.rstrip(".") if at == 0 else name
        for at, name in enumerate(names)
        if at == 0 or name.startswith(kept) or "WORD" in name
    ]


def use_of(command: str) -> Use:
    """The command of this name; what should have been written, where there is none."""
    found = uses().get(command)
    if found:
        return found
    if os.path.isdir(command):
        raise Stop(f"{command} is a folder: name a command first, and then a file", usage="")
    if exists(command) and command != "-":
        raise Stop(f"{command} is a file: the command comes first, as in hithwelor run {command} WORD", usage="")
    if command.lower() in uses():
        raise Stop(f"commands are written in small letters: {command.lower()}", usage=command.lower())
    if command.startswith("-"):
        raise Stop(f"{command} is no option here: the command comes first", usage="")
    meant = next((parts[1] for parts in parts_of("meant") if command.lower() in parts[0].split()), "")
    if meant:
        what = f" ({uses()[meant].what})" if meant in uses() else ""
        raise Stop(
            f"there is no command {command}; did you mean {meant}{what}?", usage=meant if meant in uses() else ""
        )
    close = difflib.get_close_matches(command, [*uses(), "sweep", "plot", "help"], 1, 0.6)
    raise Stop(f"there is no command {command}" + (f"; did you mean {close[0]}?" if close else ""), usage="")


def matched(use: Use, names: list[str], given: list[str]) -> dict[str, list[str]]:
    """What stands for each name of a command's arguments: in [] where one may be missing, with .. where it may be repeated."""
    least = sum(not it.startswith("[") for it in names)
    repeated = any(it.endswith("..") for it in names)
    check_order(use, names, given)
    if len(given) < least:
        missing = [it.strip("[].") for it in names if not it.startswith("[")][len(given)]
        raise Stop(
            f"{use.command}: {missing} is missing: {meaning_of(use, missing)}{hint_of(use, missing)}", usage=use.command
        )
    if len(given) > len(names) and not repeated:
        raise Stop(f"{use.command}: `{given[len(names)]}` is surplus", usage=use.command)
    found: dict[str, list[str]] = {}
    surplus, rest = max(0, len(given) - len(names)), list(given)
    optional = len(given) - least if not repeated else 0
    for name in names:
        bare, count = name.strip("[]."), 1 + (surplus if name.endswith("..") else 0)
        if name.startswith("["):
            count, optional = (1, optional - 1) if optional else (0, 0)
        found.setdefault(bare, []).extend(rest[:count])
        del rest[:count]
    return found


def meaning_of(use: Use, name: str) -> str:
    """What stands for this name in the usage of a command."""
    return MEANINGS.get(f"{use.command} {name}") or MEANINGS[name]


def hint_of(use: Use, missing: str) -> str:
    """What helps where an argument is missing."""
    hints = {"WORD": "; '' is the empty word"}
    if "interactive" in use.options:
        hints["SCRIPT"] = "; -i debugs without one"
    return hints.get(missing, "")


def check_order(use: Use, names: list[str], given: list[str]) -> None:
    """A file comes first, where a command reads one."""
    if not given or names[0].strip("[].") not in FILES or exists(given[0]) or names[:1] == names[1:2]:
        return
    for number, word in enumerate(given[1:], 1):
        if exists(word) and word != "-" and not re.fullmatch(r"\d+", word):
            rest = [it for at, it in enumerate(given) if at != number]
            told = " ".join([word, *rest])
            raise Stop(f"{use.command}: the file comes first: hithwelor {use.command} {told}", usage=use.command)


def whole(word: str, letter: str, command: str, name: str) -> int:
    """The number that a word spells, within the limits of a letter of a command's form."""
    owner = next(iter(forms_with(command, letter)), command)
    if is_number(word, owner, letter):
        return int(word)
    raise Stop(f"{command}: {fault_of_number(owner, letter, word, name)}", usage=command)


def forms_with(command: str, letter: str) -> list[str]:
    """The command, and its twin, whose exact forms have this letter."""
    names = [command, *(it for it in [twins().get(command, "")] if it)]
    return [it for it in names if it in commands() and any(letter in form.letters for form in forms_of(it))]
