"""The record beside a table: which files of machines its rows are made of. `--resume` goes on with the same ones alone,
and `join` joins parts of the same ones alone.

It is the table's name with .machines behind it, and has a line for each file as `sha256sum` writes it: 64 digits, two
spaces, and the name. The machine of generate:K has no file, and so no line.
"""
from __future__ import annotations

import hashlib
import os
import re
import shlex
from collections.abc import Mapping, Sequence

from ..faults import FULL, Fault, cause
from .cases import GENERATED, Plan, Tell

ENDING = ".machines"
LINE = re.compile(r"([0-9a-f]{64}) [ *](.+)")
MODE = "utf-8", "surrogateescape"


def files_of(plan: Plan, first: int, last: int) -> dict[str, str]:
    """The digest of each file, by its name, that the groups from one number up to another are made of."""
    spans = zip(plan.sources, plan.starts, plan.starts[1:])
    found = [it for it, begin, end in spans if max(begin, first) < min(end, last)]
    found += [plan.back] if found and plan.back else []
    return {it.name: hashlib.sha256(it.data).hexdigest() for it in found if not it.name.startswith(GENERATED)}


def read(path: str) -> dict[str, str] | None:
    """The digests that the record of a table has, by name; None where there is no record."""
    try:
        with open(path + ENDING, "rb") as file:
            lines = file.read().decode(*MODE).split("\n")
    except FileNotFoundError:
        return None
    except OSError as error:
        raise Fault(f"{path}{ENDING}: {cause(error)}") from None
    return {found[2]: found[1] for found in map(LINE.fullmatch, lines) if found}


def write(path: str, files: Mapping[str, str]) -> None:
    """Writes the record of a table."""
    text, room = "".join(f"{digest}  {name}\n" for name, digest in files.items()), path + ENDING + ".new"
    try:
        with open(room, "wb") as file:
            file.write(text.encode(*MODE))
        os.replace(room, path + ENDING)
    except OSError as error:
        raise Fault(f"{path}{ENDING}: {cause(error)}; make room, and go on by --resume", FULL) from None


def hold(path: str, files: Mapping[str, str]) -> None:
    """Holds the files, of which rows stand in the table, against its record."""
    record, name_of_record = read(path), shlex.quote(path + ENDING)
    told = record or {}
    if files and record is None:
        raise Fault(
            f"{path}{ENDING} isn't there, which tells what the rows were made of: where no machine has changed "
            f"since, `sha256sum {shlex.join(files)} > {name_of_record}` makes it; else name another table by --out"
        )
    for name, digest in files.items():
        if name not in told:
            raise Fault(
                f"{path}{ENDING} has no line of {name}: where that hasn't changed since its rows were made, "
                f"`sha256sum {shlex.quote(name)} >> {name_of_record}` adds it; else name another table by --out"
            )
        if told[name] != digest:
            raise Fault(
                f"{name} has changed since the rows of {path} were made, which stays as it is: "
                "bring the old one back, or name another table by --out"
            )


def together(paths: Sequence[str], tell: Tell) -> dict[str, str] | None:
    """The files of all these parts of a table; parts of different ones are a fault. Where a part has no record, it is told
    that this wasn't compared, and there is nothing to give."""
    found: dict[str, str] = {}
    first: dict[str, str] = {}
    bare = [path for path in paths if not os.path.exists(path + ENDING)]
    for path in paths:
        for name, digest in (read(path) or {}).items():
            if found.setdefault(name, digest) != digest:
                raise Fault(f"{path} was made of another {name} than {first[name]}: make one of the two again")
            first.setdefault(name, path)
    if bare:
        tell(
            f"parts without a record, as {bare[0]}{ENDING}: {len(bare)} of {len(paths)}; "
            "whether all are of the same machines wasn't compared"
        )
    return None if bare else found
