"""The answers of the program as JSON: its texts read, and nothing computed. docs/use/formats.md has the keys."""
from __future__ import annotations

import dataclasses
import json
import re
from typing import Any

from .forms import statuses
from .texts import Exit, Look, Outcome, Run, Session, Tape, View, WalkView

TABLES = {"standard": "quintuples", "bennett": "quadruples", "inverse": "quadruples", "erase": "quadruples"}
CIRCUITS = ("compile", "build", "step", "back", "mirror", "migrate", "realise")
MOMENT = re.compile(r"(\d+) (\S+) (.*?)(?: rule (\d+))?")
CELLS = re.compile(r"(?:tape (\d) )?from (-?\d+) head (-?\d+) cells \d+:((?: \S+)*?)(?= tape \d from |$)")


def plain(value: Any) -> Any:
    """A value of the package as JSON has it: without what is missing, and without the text it was read from."""
    if isinstance(value, Tape):
        return {"tape": value.number, "first": value.first, "head": value.head, "symbols": list(value.symbols)}
    if dataclasses.is_dataclass(value) and not isinstance(value, type):
        found = {field.name: getattr(value, field.name) for field in dataclasses.fields(value) if field.name != "text"}
        missing: tuple[object, ...] = (None, ()) if isinstance(value, Exit) else (None,)
        return {name: plain(it) for name, it in found.items() if it not in missing}
    if isinstance(value, (list, tuple)):
        return [plain(it) for it in value]
    return value


def outcome(line: str) -> dict[str, Any]:
    """The last line of a run: `halted i`, `stuck STATE LETTER i` or `running n`."""
    kind, *rest = line.split(" ")
    found: dict[str, Any] = {"outcome": kind, "steps": int(rest[-1])}
    if kind == "stuck":
        found["state"] = rest[0]
        if len(rest) == 3:
            found["letter"] = rest[1]
        elif rest[1:-1]:
            found["symbols"] = rest[1:-1]
    return found


def configuration(line: str) -> dict[str, Any]:
    """A line of `trace` or `moments`."""
    found = MOMENT.fullmatch(line)
    assert found
    tapes = [
        {"tape": int(number or 1), "first": int(first), "head": int(head), "symbols": cells.split()}
        for number, first, head, cells in CELLS.findall(found[3])
    ]
    return {"step": int(found[1]), "state": found[2], "tapes": tapes, **({"rule": int(found[4])} if found[4] else {})}


def circuit(text: str) -> dict[str, Any]:
    """A configuration text: its head, and the text itself."""
    lines = dict(line.split(" ", 1) for line in text.split("\n", 6)[:6])
    place = "left" if "left" in lines else "at"
    return {
        "version": int(lines["rotary"]),
        "elements": int(lines["elements"]),
        "start": lines["start"],
        "end": lines["end"],
        "steps": int(lines["steps"]),
        "place": lines[place],
        "has_left": place == "left",
        "text": text,
    }


def run(words: list[str], text: str) -> dict[str, Any]:
    """A run of a circuit."""
    window = [int(it) for it in words[1:] if it.isdigit()][:4]
    found: dict[str, Any] = plain(Run.read(text, (window[0], window[1], window[2], window[3])))
    return found


def moves(lines: list[str]) -> dict[str, Any]:
    """The table of a sequential machine."""
    return {"moves": [list(map(int, line.split(","))) for line in lines]}


def crossings(lines: list[str]) -> dict[str, Any]:
    """Crossings, as `state q in E.L next r out E.L steps T`."""
    rows = (line.split(" ") for line in lines)
    return {
        "crossings": [
            {"state": int(it[1]), "in": it[3], "next": int(it[5]), "out": it[7], "steps": int(it[9])} for it in rows
        ]
    }


def difference(lines: list[str]) -> dict[str, Any]:
    """Whether two sequential machines answer alike, and else what tells them apart."""
    if lines == ["equal"]:
        return {"equal": True}
    first, second = (None if line.endswith("-") else int(line.split(" ")[1]) for line in lines[1:])
    return {"equal": False, "differ": list(map(int, lines[0].split(" ")[1:])), "first": first, "second": second}


def window(lines: list[str]) -> dict[str, Any]:
    """The least window."""
    return {"window": list(map(int, lines[0].split(" ")[1:]))}


STOPPED = ("more", "none", "running")
OF_CIRCUITS = {
    "behaviour": moves,
    "crossings": crossings,
    "equal": difference,
    "window": window,
    "room": window,
}


def parts(words: list[str], text: str) -> dict[str, Any]:
    """What an answer says, by its command."""
    command, lines = words[0], text.splitlines()
    if command in ("run", "drive"):
        return run(words, text)
    if command == "machine":
        return {"outcome" if name == "kind" else name: it for name, it in plain(Outcome.read(text)).items()}
    if command in ("trace", "moments"):
        return {"configurations": [configuration(line) for line in lines[:-1]], **outcome(lines[-1])}
    if command in ("view", "look"):
        kind: type[Look] = View if command == "view" else Look
        seen: dict[str, Any] = plain(kind.read(lines))
        return seen
    if command in ("session", "play"):
        return {"answers": plain(Session.read(text, View if command == "session" else Look).answers)}
    if command == "walk":
        return {"answers": plain(Session.read(text, WalkView).answers)}
    if command == "check":
        numbers = re.findall(r"\d+", text)
        return dict(zip(("states", "symbols", "quintuples"), map(int, numbers)))
    if command == "reversible":
        return {**{line.split()[0]: line.split()[1] == "yes" for line in lines}, "lines": lines}
    if command == "erase" and len(words) > 1:
        named = dict(line.split(" =", 1) for line in lines[1:])
        return {**outcome(lines[0]), **named}
    if command in OF_CIRCUITS and lines[0].split(" ")[0] not in STOPPED:
        return OF_CIRCUITS[command](lines)
    if command in TABLES:
        return {TABLES[command]: [line.split(",") for line in lines]}
    return circuit(text) if command in CIRCUITS else {"lines": lines}


def as_json(words: list[str], status: int, text: bytes) -> bytes:
    """An answer as a line of JSON."""
    told = {"exact": words, "status": status, "meaning": statuses()[status][0]}
    return json.dumps({**told, **parts(words, text.decode(errors="replace"))}).encode() + b"\n"
