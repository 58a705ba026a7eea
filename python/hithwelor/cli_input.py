"""The inputs of the command `hithwelor`: a file's kind, recognised by its content, and its bytes in the program's form.

Nothing is computed: moves R and L become + and -, a header is left out, ends of lines are those of the program. What was
changed is said in a note each.
"""
from __future__ import annotations

import csv
import difflib
import io
import os
import re
import shlex
import sys
from collections import Counter
from dataclasses import dataclass, field

from .faults import Stop, cause
from .foreign import kind_of as foreign_kind_of
from .foreign import read_machine, table_of
from .foreign.line_machines import is_morphett, lines_of
from .foreign.machine_files import new_names
from .faults import Fault

FIELDS = {5: "quintuples", 8: "quadruples", 4: "sequential"}
FOREIGN = {
    "jflap": "a JFLAP machine",
    "yaml": "a turingmachine.io machine",
    "morphett": "a machine of Morphett's simulator",
    "line": "a bbchallenge machine",
}
ALIASES = {"bbchallenge": "line", "moves": "sequential", "turingmachine.io": "yaml"}
KINDS = [*FIELDS.values(), "circuit", "jflap", "yaml", "morphett", "bbchallenge"]
MOVES = {"R": "+", "r": "+", ">": "+", "L": "-", "l": "-", "<": "-", "S": "0", "s": "0", "N": "0", "n": "0"}
HEADS = {"state", "read", "write", "move", "shift", "next", "symbol", "scan", "scanned", "direction", "line", "input"}
NAME = re.compile(r"[A-Za-z0-9'.-]{1,32}")
SYMBOL = r'[^\s/,"]'
READ_FAULT = 7
TEXT = 3
MACHINE = 4


@dataclass
class Wanted:
    """What the options say of an input."""

    kind: str = ""
    blank: str = ""
    halt: str = ""


@dataclass
class Input:
    """An input: its name in messages, its kind, the program's bytes, of a table the line and the fields of each record, and
    what was changed."""

    name: str
    kind: str
    data: bytes
    rows: list[tuple[int, list[str]]] = field(default_factory=list)
    notes: list[str] = field(default_factory=list)

    def place(self, record: int) -> str:
        """Where a record stands, counted from 1."""
        if 1 <= record <= len(self.rows):
            return f"{self.name}, line {self.rows[record - 1][0]}"
        return self.name

    def shown(self, record: int) -> str:
        """A record as it is printed."""
        return f"line {self.rows[record - 1][0]}: {','.join(self.rows[record - 1][1])}"

    @property
    def is_table(self) -> bool:
        return self.kind in FIELDS.values()


def name_of(path: str) -> str:
    """How a message names a file."""
    return "standard input" if path == "-" else path


def read_bytes(path: str) -> bytes:
    """The bytes of a file, or of standard input."""
    if path == "-":
        if sys.stdin is None:
            raise Stop("standard input is closed", READ_FAULT)
        try:
            if sys.stdin.isatty():
                print("hithwelor: reading what is typed, up to Ctrl-D", file=sys.stderr)
            return sys.stdin.buffer.read()
        except OSError as error:
            raise Stop(f"standard input can't be read: {cause(error)}", READ_FAULT) from None
    try:
        with open(path, "rb") as file:
            return file.read()
    except IsADirectoryError:
        raise Stop(f"{path} is a folder: name a file in it") from None
    except FileNotFoundError:
        raise Stop(f"there is no file {path}{similar(path)}") from None
    except OSError as error:
        raise Stop(f"{path} can't be read: {cause(error)}", READ_FAULT) from None


def similar(path: str) -> str:
    """A file of the same folder whose name is like a path's, as a question; nothing where there is none."""
    folder, name = os.path.split(path)
    try:
        close = difflib.get_close_matches(name, os.listdir(folder or "."), 1, 0.7)
    except OSError:
        return f"; there is no folder {folder} either" if folder else ""
    return f"; did you mean {os.path.join(folder, close[0])}?" if close else ""


def text_of(data: bytes) -> str:
    """The bytes as text; bytes that aren't UTF-8 come through as they are."""
    return data.decode("utf-8-sig", errors="surrogateescape")


def bytes_of(text: str) -> bytes:
    return text.encode(errors="surrogateescape")


def records_of(text: str, delimiter: str = ",") -> list[tuple[int, list[str]]]:
    """The records of a table that aren't empty, each with the number of its first line."""
    found: list[tuple[int, list[str]]] = []
    reader, line = csv.reader(io.StringIO(text, newline=""), delimiter=delimiter), 1
    try:
        for row in reader:
            if row:
                found.append((line, row))
            line = reader.line_num + 1
    except csv.Error:
        pass
    return found


def delimiter_of(text: str) -> str:
    """What stands between the fields: a comma, or where no line has one, a semicolon or a tab."""
    lines = [line for line in text.splitlines() if line.strip() and not line.lstrip().startswith("#")]
    for mark in ",;\t":
        counts = Counter(line.count(mark) + 1 for line in lines)
        if counts and counts.most_common(1)[0][0] in FIELDS:
            return mark
    return ","


def kind_of(data: bytes) -> str:
    """The kind of an input by its content; nothing where it isn't recognised."""
    text = text_of(data)
    if re.match(r"\s*rotary\b", text):
        return "circuit"
    foreign = foreign_kind_of(text)
    if foreign == "jflap" and not re.search(r"<(structure|automaton)\b", text):
        return ""
    if foreign:
        return foreign
    rows = [row for _, row in records_of(text, delimiter_of(text)) if not is_comment(row)]
    counts = Counter(len(row) for row in rows if len(row) in FIELDS)
    kind = FIELDS[counts.most_common(1)[0][0]] if counts else ""
    if kind == "sequential" and not any(all(field.strip().isdigit() for field in row) for row in rows):
        return ""
    return kind


def is_comment(row: list[str]) -> bool:
    return row[0].lstrip().startswith("#")


def is_header(row: list[str]) -> bool:
    """Whether a record has the words of a header, as state and read, where a table has symbols."""
    words = [word for it in row for word in re.findall(r"[a-z]+", it.lower())]
    return len(HEADS.intersection(words)) >= 2


def open_input(path: str, wanted: Wanted, data: bytes | None = None) -> Input:
    """An input by its path, with its kind and its bytes in the program's form."""
    data = read_bytes(path) if data is None else data
    name = name_of(path)
    kind = ALIASES.get(wanted.kind, wanted.kind) or kind_of(data)
    if wanted.kind and kind not in [*KINDS, "line"]:
        raise Stop(f"--as {wanted.kind}: the kinds are {', '.join(KINDS)}", usage="")
    if kind in FOREIGN:
        return converted(name, kind, data, wanted)
    if kind == "circuit":
        return tidy_circuit(Input(name, kind, data))
    if kind in FIELDS.values():
        return tidy_table(Input(name, kind, data), wanted)
    return Input(name, kind, data, records_of(text_of(data)))


def converted(name: str, kind: str, data: bytes, wanted: Wanted) -> Input:
    """The table of a machine of another program."""
    try:
        table, names = table_of(read_machine(text_of(data), name, kind), name, wanted.halt or None)
    except Fault as fault:
        raise Stop(str(fault), TEXT, other_format(kind, text_of(data))) from None
    notes = [f"{FOREIGN[kind]}, read as a table of quintuples"]
    notes += renaming(names)
    return Input(name, "quintuples", table.encode(), records_of(table), notes)


def other_format(kind: str, text: str) -> str:
    """A remedy where a file that has keys of turingmachine.io has lines of Morphett's simulator; nothing where it has none."""
    rules = [line for line in lines_of(text) if is_morphett(line)]
    if kind != "yaml" or not rules:
        return ""
    return f"`{rules[0].strip()}` is a line of Morphett's simulator, whose files have no keys: leave out the lines with a colon"


def renaming(names: dict[str, str]) -> list[str]:
    """The note of names that tables don't allow."""
    changed = [f"`{old}` {new}" for old, new in names.items() if old != new]
    return [f"states with other names in the table: {', '.join(changed)}"] if changed else []


def tidy_circuit(it: Input) -> Input:
    """A circuit text whose lines end in byte 10, the last one too."""
    if b"\r" in it.data:
        it.notes.append("lines end in CR LF; converted to LF")
        it.data = it.data.replace(b"\r\n", b"\n").replace(b"\r", b"\n")
    if it.data.startswith(b"\xef\xbb\xbf"):
        it.data = it.data[3:]
    if it.data and not it.data.endswith(b"\n"):
        it.notes.append("the last line has no newline; added")
        it.data += b"\n"
    return it


def tidy_table(it: Input, wanted: Wanted) -> Input:
    """A table as the program reads it. Where nothing had to be changed, its bytes are those of the file."""
    text = text_of(it.data)
    mark = delimiter_of(text)
    rows = records_of(text, mark)
    if mark != ",":
        it.notes.append(f"fields are separated by {'semicolons' if mark == ';' else 'tabs'}; converted")
    kept = [(line, row) for line, row in rows if not is_comment(row)]
    if len(kept) < len(rows):
        it.notes.append("lines that begin with # are left out")
    if kept and is_header(kept[0][1]):
        it.notes.append(f"record 1 looks like a header (line {kept[0][0]}); left out")
        kept = kept[1:]
    trimmed = [(line, [field.strip(" \t") for field in row]) for line, row in kept]
    if trimmed != kept:
        it.notes.append("spaces around fields are left out")
    it.rows = trimmed
    if it.kind != "sequential":
        convert_moves(it)
        convert_names(it)
        convert_blank(it, wanted.blank)
        if wanted.halt:
            put_halting_last(it, wanted.halt)
        elif it.kind == "quintuples":
            choose_halting(it)
    if it.notes:
        it.data = csv_of(it.rows)
    return it


def csv_of(rows: list[tuple[int, list[str]]]) -> bytes:
    """Records as the program reads them."""
    made = io.StringIO()
    csv.writer(made, lineterminator="\n").writerows(row for _, row in rows)
    return bytes_of(made.getvalue())


def moves_of(it: Input) -> list[tuple[int, int]]:
    """The record and the field of each move of a table."""
    found = []
    for number, (_, row) in enumerate(it.rows):
        if it.kind == "quintuples" and len(row) == 5:
            found.append((number, 3))
        elif it.kind == "quadruples" and len(row) == 8:
            found += [(number, 4 + tape) for tape in range(3) if row[1 + tape] == "/"]
    return found


def convert_moves(it: Input) -> None:
    """Writes + - 0 in place of R, L and S or N."""
    places = moves_of(it)
    used = {it.rows[number][1][at] for number, at in places}
    strange = sorted(used - {"+", "-", "0"})
    if any(move in MOVES for move in strange):
        check_moves(it, places)
    if not strange or any(move not in MOVES for move in strange):
        return
    for number, at in places:
        row = it.rows[number][1]
        row[at] = MOVES.get(row[at], row[at])
    it.notes.append(f"moves are + - 0 here; this table uses {' and '.join(strange)}: converted")


def check_moves(it: Input, places: list[tuple[int, int]]) -> None:
    """Refuses the first move that is none, in a table that writes moves as R and L."""
    for number, at in places:
        value = it.rows[number][1][at]
        if value not in MOVES and value not in ("+", "-", "0"):
            raise Stop(
                f"{it.place(number + 1)}: field {at + 1} is `{value}`, and this table's moves are R, L, and S or N for none",
                TEXT,
                "the exact form writes + - 0",
            )


def convert_names(it: Input) -> None:
    """Gives states names that tables allow."""
    names = {row[at]: row[at] for _, row in it.rows if len(row) > 1 for at in (0, -1)}
    if all(NAME.fullmatch(name) for name in names):
        return
    changed = new_names(names)
    for _, row in it.rows:
        if len(row) > 1:
            row[0], row[-1] = changed[row[0]], changed[row[-1]]
    it.notes += renaming(changed)


def symbol_fields(it: Input) -> range:
    """The fields of a table that may have symbols."""
    return range(1, 3) if it.kind == "quintuples" else range(1, 7)


def convert_blank(it: Input, blank: str) -> None:
    """Writes _ in place of the letter that stands for the blank. Where a table has no _, the letter has to be named."""
    fields = symbol_fields(it)
    letters = [row[at] for _, row in it.rows for at in fields if at < len(row)]
    if blank and blank != "_":
        if "_" in letters:
            raise Stop(f"{it.name}: the table has `_`, which is the blank here, besides --blank {blank}", MACHINE)
        if blank not in letters:
            raise Stop(f"{it.name}: no field of the table has the letter `{blank}` of --blank", MACHINE)
        for _, row in it.rows:
            for at in fields:
                row[at] = "_" if at < len(row) and row[at] == blank else row[at]
        it.notes.append(f"`{blank}` is the blank; written `_`")
    elif not blank and it.rows and "_" not in letters:
        used = dict.fromkeys(letter for letter in letters if letter not in "/+-0" or letter == "0")
        likely = next((letter for letter in ("B", "b", "#", "⊔", "□", "~", ".") if letter in used), "LETTER")
        raise Stop(
            f"{it.name}: the blank is `_` here, and the table has none; its letters are {' '.join(used)}",
            MACHINE,
            f"name the letter that stands for the blank: --blank {shlex.quote(likely)}; where the blank isn't used, --blank _",
        )


def choose_halting(it: Input) -> None:
    """Where the last record's next state is left by another record, takes the one state that no record leaves for the halting one."""
    leaving = {row[0] for _, row in it.rows}
    ends = list(dict.fromkeys(row[-1] for _, row in it.rows if row[-1] not in leaving))
    if len(ends) == 1 and it.rows[-1][1][-1] in leaving and all(len(row) == 5 for _, row in it.rows):
        try:
            put_halting_last(it, ends[0])
        except Stop:
            pass


def put_halting_last(it: Input, halt: str) -> None:
    """Puts a record that leads to the halting state last, and leaves the first in its place."""
    if halt not in {row[-1] for _, row in it.rows}:
        raise Stop(f"{it.name}: no record leads to the state `{halt}` of --halt", MACHINE)
    if it.rows[-1][1][-1] == halt:
        return
    at = max(number for number, (_, row) in enumerate(it.rows) if row[-1] == halt)
    if at == 0 and it.rows[0][1][0] != it.rows[1][1][0]:
        raise Stop(f"{it.place(1)}: the first record alone leads to `{halt}`, and it has to be the last", MACHINE)
    it.rows.append(it.rows.pop(at))
    it.notes.append(f"halts in `{halt}`, so a record that leads there is put last")


def split_parts(data: bytes) -> tuple[bytes, bytes] | None:
    """The two parts of an input with a line % between them; None where it has no such line."""
    lines = data.splitlines(keepends=True)
    for number, line in enumerate(lines):
        if line.rstrip(b"\r\n") == b"%":
            return b"".join(lines[:number]), b"".join(lines[number + 1 :])
    return None


def exists(path: str) -> bool:
    return path == "-" or os.path.exists(path)
