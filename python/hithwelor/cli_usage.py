"""What is wrong with arguments that are no exact form, in one line: which one is missing, surplus, out of place or no number."""
from __future__ import annotations

import os
import re

from .forms import Form, commands, fits, forms_of, is_number, limits_of


def looks_exact(words: list[str]) -> bool:
    """Whether arguments were meant as an exact form: a word behind =, or numbers alone, and no file among them."""
    if not words or words[0] not in commands() or any(os.path.exists(it) or it == "-" for it in words[1:]):
        return False
    rest = words[1:]
    if any(it.startswith(("=", ":")) for it in rest):
        return not any(re.search(r"[/.]", it) for it in rest if it[:1] not in "=:")
    return bool(rest) and all(re.fullmatch(r"[+-]?\d[\d,.]*|auto", it) for it in rest)


def forms_shown(command: str) -> str:
    """The exact forms of a command, in one line."""
    return " or ".join(form.words for form in forms_of(command))


def fault_of(words: list[str]) -> str:
    """What is wrong with the arguments of a known command."""
    command, rest = words[0], words[1:]
    told = next(filter(None, (fault_of_file(command, word) for word in rest)), "")
    if told:
        return told
    forms = [form for form in forms_of(command) if "auto" not in form.letters or rest[1:] == ["auto"]]
    alike = [form for form in forms if len(form.letters) == len(rest)]
    count = sum(is_word(word) for word in rest)
    for form in alike:
        if places_of(form) == count and not all(is_word(word) for word in rest[:count]):
            listed = [word for word in rest if is_word(word)] + [word for word in rest if not is_word(word)]
            if fits(form, [command, *listed]):
                return f"{command}: the word comes first: {' '.join([command, *listed])}"
    if alike:
        faults = [[fault_of_word(form, *it) for it in zip(form.letters, rest)] for form in alike]
        best = min(faults, key=lambda it: sum(map(bool, it)))
        return f"{command}: {next(filter(None, best), 'these arguments are no form')}"
    return f"{command}: {fault_of_count(forms, rest, count)}"


def is_word(word: str) -> bool:
    return word.startswith(("=", ":"))


def places_of(form: Form) -> int:
    """How many words a form has."""
    return sum(is_word(letter) for letter in form.letters)


def fault_of_count(forms: list[Form], rest: list[str], count: int) -> str:
    """Which arguments are missing or surplus, of the form that is the nearest."""
    if any(places_of(form) == 3 for form in forms) and count == 2:
        return "one word, or one for each of the three tapes: 2 are given"
    if any(":IN" in form.letters for form in forms) and count == 1:
        return "the ports are two arguments, :IN and :OUT, as :0.n,0.s :1.e,1.w"
    form = min(forms, key=lambda it: (abs(places_of(it) - count), abs(len(it.letters) - len(rest))))
    letters = [letter for letter in form.letters if not is_word(letter)]
    numbers = [word for word in rest if not is_word(word)]
    if len(rest) > len(form.letters):
        surplus = numbers[len(letters) :] or rest[len(form.letters) :]
        return f"`{surplus[0]}` is surplus"
    if count < places_of(form):
        return "the word is missing: = and its letters; = alone is the empty word"
    missing = letters[len(numbers) :]
    if "l1" in letters and numbers:
        window = [it for it in letters if it != "E"]
        given = min(len(numbers), len(window))
        if given < len(window):
            missing = window[given:]
            return f"{given} of {len(window)} window numbers given; {listed(missing)} missing"
    return f"{listed(missing)} missing"


def listed(names: list[str]) -> str:
    """Names with the verb that goes with them."""
    if len(names) == 1:
        return f"{names[0]} is"
    return f"{', '.join(names[:-1])} and {names[-1]} are"


def fault_of_word(form: Form, letter: str, word: str) -> str:
    """What is wrong with a word where a form has this letter; nothing where nothing is."""
    if letter.startswith("="):
        if word.startswith("=") or word.startswith(":") and form.mark == "named":
            return ""
        if word.startswith(":"):
            return f"the word is = and its letters here, not {word}"
        return f"the word needs = before it: ={word}"
    if letter.startswith(":"):
        return "" if word.startswith(":") else f"the ports need : before them: :{word}"
    if letter == "auto":
        return "" if word == "auto" else f"auto is the one word that may stand for {word}"
    if is_number(word, form.command, letter):
        return ""
    return fault_of_number(form.command, letter, word)


def fault_of_number(command: str, letter: str, word: str, name: str = "") -> str:
    """What is wrong with a number of a command's form, for which a message has another name where one is given."""
    (least, greatest), letter = limits_of(command, letter), name or letter
    if re.fullmatch(r"[+-]\d+", word):
        return f"a number has no sign: {letter} can't be {word}"
    if re.fullmatch(r"\d{1,3}([,._' ]\d{3})+", word):
        return f"{letter} must be a whole number without separators, not `{word}`: {re.sub(r'[^0-9]', '', word)}"
    if re.fullmatch(r"0\d+", word):
        return f"a number has no zero in front: write {word.lstrip('0') or '0'} for {word}"
    if not re.fullmatch(r"[0-9]+", word):
        return f"{letter} must be a whole number, not {word and f'`{word}`' or 'the empty word'}"
    if len(word) > 40 or int(word) > greatest:
        return f"{letter} is at most {greatest:,}: {word} is too large"
    return f"{letter} is at least {least}, not {word}"


def fault_of_file(command: str, word: str) -> str:
    """What is wrong with an argument that names a file or folder, where a form has none."""
    if is_word(word) or re.fullmatch(r"[+-]?\d+|(\d+\.[nesw],?)+", word):
        return ""
    reads = command not in commands("unread")
    if os.path.isdir(word):
        return (
            f"{word} is a folder: {command} reads a file, by < FILE"
            if reads
            else f"{word} is a folder, and {command} reads none"
        )
    if os.path.exists(word):
        return (
            f"{word} is a file: write < {word}, or hithwelor {command} {word} .."
            if reads
            else f"{word} is a file, and {command} reads none"
        )
    if "/" in word or re.search(r"\.[A-Za-z][A-Za-z0-9]*$", word):
        return (
            f"there is no file {word}" if reads else f"{word} is no argument of {command}, which reads no file either"
        )
    return ""
