"""What `hithwelor` says beside an answer, on standard error: what a run that is stuck or has no room means, whose states a table
has, and how an inverse machine is started.
"""
from __future__ import annotations

import re

from .cli_args import Arguments
from .cli_run import Question, say
from .cli_session import own_states

DONE, STUCK = 0, 10
MOST_NAMES = 12


def tell(status: int, text: bytes, arguments: Arguments, question: Question) -> None:
    """Says what belongs to an answer."""
    if status == DONE and arguments.command == "bennett":
        tell_names(own_states(question.data))
    if status == DONE and arguments.command == "standard":
        names = own_states(question.data)
        tell_names({name: f"Q{number}" for number, name in enumerate(names, 1)})
    if status == DONE and arguments.command == "inverse":
        first = text.decode().partition(",")[0]
        say(
            f"starts in {first} on the tapes that the machine left: hithwelor run FILE WORD1 WORD2 WORD3, '' where one is blank"
        )
    if arguments.command in ("behaviour", "crossings"):
        tell_exploration(status, text.decode(), question)
    if status == DONE and arguments.command == "equal":
        tell_difference(text.decode())
    tell_ending(status, text, arguments)


def tell_difference(text: str) -> None:
    """Says how two sequential machines differ."""
    found = re.fullmatch(r"differ (.*)\nfirst (.*)\nsecond (.*)\n", text)
    if found:
        first, second = (
            f"has no move for {found[1].split(' ')[-1]}" if line == "-" else f"answers by output line {line}"
            for line in (found[2], found[3])
        )
        say(f"after the input lines {found[1]} the first machine {first}, and the second {second}")


def tell_exploration(status: int, text: str, question: Question) -> None:
    """Says why an exploration stopped, and how many crossings leave by ports that have no line."""
    stopped = re.fullmatch(r"(more|running) (\d+) (\d+)\n", text)
    if stopped:
        where = f"the signal that enters in state {stopped[2]} by input line {stopped[3]}"
        if stopped[1] == "more":
            say(f"{where} leads to one more state, or entry, than is allowed; --states allows at most 65,536")
        else:
            say(f"{where} is inside after {question.words[2]} element steps; --element-steps allows more")
    elif status == DONE and len(question.words) == 5:
        rows = [list(map(int, re.findall(r"(?<![.\d])\d+(?![.\d])", line))) for line in text.splitlines()]
        states = max(number for row in rows for number in (row[0], row[2] if len(row) == 4 else row[1]))
        left = states * len(question.words[3].split(",")) - len(rows)
        if left:
            many = "1 crossing leaves" if left == 1 else f"{left} crossings leave"
            say(f"from these states {many} by ports that --outputs does not name; they have no line")


def tell_names(names: dict[str, str]) -> None:
    """Says which states of a printed table are those of the table that was given."""
    shown = [f"{new} is {old}" for old, new in names.items() if new != old]
    more = f", and {len(shown) - MOST_NAMES} more" if len(shown) > MOST_NAMES else ""
    if shown:
        say(f"states: {', '.join(shown[:MOST_NAMES])}{more}")


def tell_ending(status: int, text: bytes, arguments: Arguments) -> None:
    """Says what a run that is stuck, or has no room, means."""
    found = re.search(r"^(?:exit )?stuck (.*)$", text.decode(errors="replace"), flags=re.M)
    if status == STUCK and found and arguments.command in ("run", "machine", "drive"):
        state, *rest = found[1].split(" ")
        letters = rest if found[0].startswith("exit") else rest[:-1]
        told = " ".join(letters)
        given = [f"--{it} {arguments.given[it]}" for it in ("as", "blank", "halt") if it in arguments.given]
        way = " ".join(["trace", *arguments.files(), *(it or "''" for it in arguments.named.get("WORD", [])), *given])
        say(f"stuck: nothing is for state {state} and {told}; hithwelor {way} prints the way there")
    none = re.fullmatch(r"none (\d)\n", text.decode(errors="replace"))
    if none:
        say(
            f"the head of tape {none[1]} goes left of its start, and every window begins there: none has room for this run"
        )
    room = re.search(r"^exit window (\d) (left|right)$", text.decode(errors="replace"), flags=re.M)
    if room:
        option = {"1 left": "--left", "1 right": "--right", "2 right": "--history", "3 right": "--output"}
        more = option.get(f"{room[1]} {room[2]}")
        say(
            f"the head of tape {room[1]} left the window to the {room[2]}"
            + (f"; {more} gives more cells" if more else "")
        )
