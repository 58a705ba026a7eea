"""What is wrong with a line of a configuration text, in words: which field, and what it must be."""
from __future__ import annotations

import re

MOST = {"1": 1_048_576, "2": 4_194_304}
NUMBER = r"(?:0|[1-9]\d*)"
PORT = rf"{NUMBER}\.[nesw]"
SIDES = "n, e, s or w"
HEAD = [
    ("rotary", "`rotary 1` or `rotary 2`"),
    ("elements", "`elements C`, C the number of elements, from 1"),
    ("start", "`start E.L`, an element and a side, as `start 0.n`"),
    ("end", "`end E.L`, an element and a side, as `end 0.s`"),
    ("steps", "`steps T`, T a number, as `steps 0`"),
    ("at", "`at E.L` or `left E.L`, an element and a side, as `at 0.n`"),
]


def syntax(text: str, number: int) -> tuple[str, str]:
    """The cause of a fault `syntax` in line `number`, from 1, and what the line must be."""
    lines = text.split("\n")
    line = lines[number - 1] if number <= len(lines) else ""
    if number == len(lines) and not line:
        return missing(lines, number)
    if line != line.strip() or "  " in line or "\t" in line:
        return "fields are separated by single spaces, with none before or after", ""
    if number == len(lines):
        return "the line has no newline at its end", "end each line with a newline, the last one too"
    if number <= len(HEAD):
        return head(line, number)
    return entry(lines, line)


def missing(lines: list[str], number: int) -> tuple[str, str]:
    """A text that ends before this line."""
    if number <= len(HEAD):
        return "the text ends here", f"line {number} is {HEAD[number - 1][1]}"
    count = re.fullmatch(r"elements (\d+)", lines[1])
    has = number - 1 - len(HEAD)
    if count and has < int(count[1]):
        return (
            f"the text ends after {has} of {count[1]} elements",
            "write a line for each element, or correct `elements`",
        )
    return "the line is empty", "nothing follows the last element"


def head(line: str, number: int) -> tuple[str, str]:
    """One of the first six lines."""
    name, wanted = HEAD[number - 1]
    names = ("at", "left") if name == "at" else (name,)
    first, _, rest = line.partition(" ")
    if first not in names:
        at = [n for n, (other, _) in enumerate(HEAD, 1) if other == ("at" if first == "left" else first)]
        remedy = f"the line `{first}` is line {at[0]} of a circuit" if at else ""
        return f"line {number} must be {wanted}", remedy
    if name in ("start", "end", "at"):
        return port(rest) or f"line {number} must be {wanted}", ""
    if rest == "0" and name == "elements":
        return "a circuit has at least one element", ""
    return f"line {number} must be {wanted}", "numbers have no sign, no separators and no zeros in front"


def port(word: str) -> str:
    """Why a word is no port; nothing where it is one."""
    if re.fullmatch(PORT, word):
        return ""
    found = re.fullmatch(rf"({NUMBER})\.(.*)", word)
    if found:
        return f"`{found[2]}` is no side: a side is {SIDES}"
    return f"`{word}` is no port: a port is an element's number, a point and a side, as 0.n"


def entry(lines: list[str], line: str) -> tuple[str, str]:
    """A line of an element, of a column or of a row."""
    count = re.fullmatch(r"elements (\d+)", lines[1])
    fields = line.split(" ")
    columns = lines[0] == "rotary 2"
    kinds = {"e": 7, "c": 4, "r": 3} if columns else {"e": 7}
    if count and len(lines) - 1 > len(HEAD) + int(count[1]) and lines.index(line) >= len(HEAD) + int(count[1]):
        return f"the text has more lines than `elements {count[1]}` says", "correct `elements`, or remove the line"
    if fields[0] not in kinds:
        if fields[0] in ("c", "r"):
            return f"`{fields[0]}` is an entry of version 2, and line 1 says `{lines[0]}`", "write `rotary 2` in line 1"
        return "an element is `e E S X X X X`", "E is its number, S its bar H or V, each X an input or -"
    if len(fields) != kinds[fields[0]]:
        return length(fields)
    return field(fields)


def length(fields: list[str]) -> tuple[str, str]:
    """An entry with another number of fields."""
    if fields[0] == "e":
        has = len(fields) - 3
        if has < 0:
            return "an element is `e E S X X X X`", "E is its number, S its bar H or V, each X an input or -"
        return (
            f"the element has {has} wire{'s' if has != 1 else ''} where 4 are needed",
            "the inputs to which its outputs n, e, s and w lead, - where there is no wire",
        )
    form = "c E K S" if fields[0] == "c" else "r X Y"
    return f"{len(fields) - 1} fields follow `{fields[0]}` where `{form}` is needed", ""


def field(fields: list[str]) -> tuple[str, str]:
    """The first field of an entry that is not what it must be."""
    kind, rest = fields[0], fields[1:]
    numbers = {"e": 1, "c": 2, "r": 0}[kind]
    for word in rest[:numbers]:
        if not re.fullmatch(NUMBER, word):
            return f"`{word}` is not a number", "numbers have no sign, no separators and no zeros in front"
    if kind == "c" and rest[1] == "0":
        return "a column has at least one row", ""
    rest = rest[numbers:]
    if kind != "r":
        if rest[0] not in ("H", "V"):
            return f"the bar is `{rest[0]}`", "a bar is H, along west and east, or V, along north and south"
        rest = rest[1:]
    for side, word in zip("nesw" if kind == "e" else "ew", rest):
        if word != "-" and port(word):
            return f"the wire of output {side}: {port(word)}", "write - where there is no wire"
    return "the entry does not fit here", "the rows `r X Y` follow their column `c E K S`, and no others"
