"""What a refusal means: its cause with the place in the user's own files, and a remedy that was tried before it is told.

The texts are those of tools/lib/forms.tsv. Where the inputs say more, as which letter or which lines, it is said here.
"""
from __future__ import annotations

import re
from typing import TYPE_CHECKING, Callable

from .cli_circuit import syntax
from .cli_input import (
    FOREIGN,
    MOVES,
    Input,
    csv_of,
    is_header,
    kind_of,
    put_halting_last,
    records_of,
    split_parts,
    text_of,
)
from .faults import Stop
from .foreign import kind_of as foreign_kind_of
from .forms import Use, parts_of, twins, uses

if TYPE_CHECKING:
    from .cli_engine import Ask
    from .cli_run import Question

SHOWN = {
    "quintuples": "a table of quintuples (5 fields)",
    "quadruples": "a table of quadruples (8 fields)",
    "sequential": "a table of a sequential machine (4 fields)",
    "circuit": "a circuit (a configuration text)",
}
SEVERAL = {
    "quintuples": "quintuples",
    "quadruples": "quadruples",
    "sequential": "sequential machines",
    "circuit": "circuits",
}
DONE, NO_MEMORY = 0, 9
# How a record of each kind of table is written.
RECORDS = {
    "quintuples": "a line of the table is state,read,write,move,next, as q0,1,0,R,q1; --as KIND names another kind",
    "quadruples": "a line of the table is state,r1,r2,r3,w1,w2,w3,next, as q0,1,_,_,0,_,_,q1; --as KIND names another kind",
    "sequential": "a line of the table is state,line,next,line, as 1,2,2,1; --as KIND names another kind",
}


def base(refusal: str, command: str) -> tuple[str, str]:
    """The cause and the remedy of a refusal's line, as the table of forms has them."""
    for pattern, cause, remedy, *only in parts_of("explain"):
        found = re.fullmatch(pattern, refusal)
        if found and (not only or command in only[0].split()):
            groups = {str(number): group or "" for number, group in enumerate(found.groups(), 1)}
            return filled(cause, groups, command), filled(remedy, groups, command)
    return refusal, ""


def filled(text: str, groups: dict[str, str], command: str) -> str:
    """A text with the groups of a pattern in their places."""
    return re.sub(r"\{(\d|command)\}", lambda it: command if it[1] == "command" else groups[it[1]], text)


def explained(words: list[str], status: int, text: bytes, question: Question) -> Stop:
    """What a refusal means."""
    if status == NO_MEMORY:
        return Stop("out of memory", status)
    refusal = (text.decode(errors="replace").splitlines() or [""])[0]
    command = question.command or words[0]
    cause, remedy = base(refusal, command)
    for pattern, more in MORE:
        found = re.fullmatch(pattern, refusal)
        if found and question.inputs:
            cause, remedy = more(found, question, cause, remedy)
            break
    return Stop(cause, status, remedy)


def wrong_kind(use: Use, it: Input) -> Stop:
    """An input of another kind than a command takes, and the commands that fit."""
    shown = SHOWN.get(it.kind)
    wanted = SHOWN.get(use.kind, use.kind)
    if not shown:
        what = looks_like(it) or f"not recognised{first_line(it)}"
        remedy = "tables are CSV" if looks_like(it) else RECORDS.get(use.kind, "--as KIND says what it is")
        return Stop(f"{it.name}: {what}; {use.command} takes {wanted}", 3, remedy)
    fitting = [name for name, other in uses().items() if other.kind == it.kind]
    fitting += [name for name in twins() if it.kind == "quadruples"] + (["inverse"] if it.kind == "quintuples" else [])
    circuit = "hithwelor session FILE WORD -i steps a machine forward and back; hithwelor compile FILE WORD prints its circuit"
    twin = {"reversible": "hithwelor bennett FILE | hithwelor reversible -", "step": circuit, "back": circuit}.get(
        use.command, ""
    )
    of_quintuples = next((name for name, other in twins().items() if other == use.command), "")
    if of_quintuples:
        twin = f"hithwelor {of_quintuples} takes quintuples; hithwelor bennett FILE prints the quadruples of its reversible machine"
    remedy = (
        twin
        if it.kind == "quintuples" and twin
        else f"{SEVERAL[it.kind]} are taken by: {', '.join(dict.fromkeys(fitting))}"
    )
    return Stop(f"{it.name} is {shown}; {use.command} takes {wanted}", 3, remedy)


def first_line(it: Input) -> str:
    """The first line of an input, as it is shown; nothing where it has none."""
    lines = [line.strip() for line in text_of(it.data).splitlines() if line.strip()]
    return f" (`{lines[0][:60]}`)" if lines else ""


def looks_like(it: Input) -> str:
    """What an input looks like that is none of the kinds."""
    first = text_of(it.data).lstrip()[:1]
    return {
        "<": "it looks like XML or HTML",
        "{": "it looks like JSON",
        "[": "it looks like JSON",
        "": "it is empty",
    }.get(first, "")


# What the inputs say of a refusal. Each is given what the pattern found, the question, and the table's cause and remedy.


def table_of(found: re.Match[str], question: Question) -> Input:
    """The table that a refusal is about."""
    is_second = "second" in found[0] and len(question.inputs) > 1
    return question.inputs[1 if is_second else 0]


def fields(found: re.Match[str], question: Question, cause: str, remedy: str) -> tuple[str, str]:
    """A record with another number of fields: its kind, or a file of another program."""
    it, record = table_of(found, question), int(found[2])
    foreign = foreign_kind_of(text_of(it.data)) if record == 1 else None
    if foreign:
        return (
            f"{it.name} is {FOREIGN[foreign]}, not a table",
            f"it is read when given as a file: hithwelor {question.command} FILE ..",
        )
    if re.match(r"\s*[<{\[]", text_of(it.data)):
        what = looks_like(it)
        return (
            f"{it.name}: {what}, not a table",
            "tables are CSV; JFLAP's .jff files are read when given as a file",
        )
    if record > len(it.rows):
        return cause, remedy
    row, wanted = it.rows[record - 1][1], uses()[question.command].kind
    cause = f"{it.place(record)}: {len(row)} field{'s' if len(row) != 1 else ''}, where {SHOWN.get(wanted, wanted)} is needed"
    others = {5: "quintuples", 8: "quadruples", 4: "sequential"}
    kind = others.get(len(row), "")
    if row[0].lstrip().startswith("#"):
        return f"{it.place(record)}: a table has no comments", "hithwelor with a file's name leaves them out"
    if kind and kind != wanted:
        fitting = [name for name, other in uses().items() if other.kind == kind]
        return cause, f"it shows {SHOWN[kind]}, taken by: {', '.join(fitting)}"
    return cause, remedy


def shift(found: re.Match[str], question: Question, cause: str, remedy: str) -> tuple[str, str]:
    """A move that is none; R and L are those of textbooks."""
    it, record, at = table_of(found, question), int(found[2]), int(found[3])
    if record > len(it.rows):
        return cause, remedy
    value = it.rows[record - 1][1][at - 1]
    cause = f"{it.place(record)}: field {at} is `{value}`, and moves are + - 0 here"
    if value in MOVES:
        used = sorted({row[at - 1] for _, row in it.rows if len(row) >= at} & set(MOVES))
        return (
            f"{it.place(record)}: moves are + - 0 here; this table uses {' and '.join(used)}",
            f"given as a file it is converted: hithwelor {question.command} FILE ..",
        )
    return cause, remedy


def one_field(found: re.Match[str], question: Question, cause: str, remedy: str) -> tuple[str, str]:
    """A field that is no name or no symbol: a header, spaces, or what it is."""
    it, record, at = table_of(found, question), int(found[2]), int(found[3])
    if record > len(it.rows):
        return cause, remedy
    row = it.rows[record - 1][1]
    if record == 1 and is_header(row):
        return (
            f"{it.place(record)}: record 1 looks like a header, and tables have none",
            f"given as a file it is left out: hithwelor {question.command} FILE ..",
        )
    value = row[at - 1]
    if value != value.strip():
        return (
            f"{it.place(record)}: field {at} has spaces around `{value.strip()}`",
            "write no spaces beside the commas",
        )
    return (
        f"{it.place(record)}: field {at}, `{value}`, {cause.partition(' is ')[2] and 'is ' + cause.partition(' is ')[2]}",
        remedy,
    )


def circuit_line(found: re.Match[str], question: Question, cause: str, remedy: str) -> tuple[str, str]:
    """A line of a configuration text: its ends, or the line as it is."""
    it, number = question.inputs[0], int(found[1])
    lines = text_of(it.data).split("\n")
    if it.kind in SHOWN and it.kind != "circuit":
        return f"{it.name} is {SHOWN[it.kind]}, and {question.command} takes a circuit", (
            "hithwelor compile MACHINE WORD prints the circuit of a machine"
        )
    if b"\r" in it.data:
        return (
            f"{it.name}: lines end in CR LF",
            f"given as a file they are converted: hithwelor {question.command} FILE",
        )
    if not it.data:
        return f"{it.name} is empty", "give a configuration text, as `compile` and `realise` print them"
    shown = f"`{lines[number - 1][:60]}`: " if number <= len(lines) and lines[number - 1] else ""
    if found[2] == "syntax":
        why, remedy = syntax(text_of(it.data), number)
        return f"{it.name}, line {number}: {shown}{why}", remedy
    why = cause.removeprefix(f"line {number} ")
    return f"{it.name}, line {number}: {shown}{why}", remedy


def script_line(found: re.Match[str], question: Question, cause: str, remedy: str) -> tuple[str, str]:
    """A line of a script that is no command: the line as it is."""
    lines = text_of((b"\n" + question.data).partition(b"\n%\n")[2]).split("\n")
    number = int(found[1])
    shown = f", `{lines[number - 1][:60]}`," if number <= len(lines) and lines[number - 1] else ""
    return f"line {number} of the script{shown} is not a command", remedy


def two_entries(found: re.Match[str], question: Question, cause: str, remedy: str) -> tuple[str, str]:
    """Two entries of a table that don't go together, printed with their lines."""
    it = table_of(found, question)
    numbers = [int(group) for group in found.groups() if group and group.isdigit()]
    if max(numbers) > len(it.rows):
        return cause, remedy
    return f"{it.name}: {cause}\n" + "\n".join(f"  {it.shown(number)}" for number in numbers), remedy


def standard(found: re.Match[str], question: Question, cause: str, remedy: str) -> tuple[str, str]:
    """A machine that isn't in standard form: whether `standard` brings it there is tried."""
    it = table_of(found, question)
    has_entries = any(group and group.isdigit() for group in found.groups())
    cause = two_entries(found, question, cause, remedy)[0] if has_entries else f"{it.name}: {cause}"
    if "S1 " in found[0]:
        return cause, remedy
    symbols = {field for _, row in it.rows for field in row[1:3]}
    if "_" not in symbols:
        return (
            cause,
            "the blank is `_`, and the table has none: hithwelor with --blank LETTER names the letter that stands for it",
        )
    status, text = question.ask(["standard"], it.data)
    if status == DONE:
        return cause, "a machine that starts on the first letter is brought into standard form by `standard`"
    other = text.decode(errors="replace").strip()
    ends = re.fullmatch(r"machine: halting (\d+)", other)
    if ends and not has_entries:
        more, remedy = halting(ends, question, base(other, question.command)[0], "")
        return f"{cause}\n{more}", remedy
    return cause, f"`standard` refuses it too: {base(other, question.command)[0]}"


def halting(found: re.Match[str], question: Question, cause: str, remedy: str) -> tuple[str, str]:
    """The last entry's next state isn't where the machine halts: the states that could be are tried."""
    it = question.inputs[0]
    leaving = {row[0] for _, row in it.rows}
    ends = list(dict.fromkeys(row[-1] for _, row in it.rows if row[-1] not in leaving))
    cause, _ = two_entries(found, question, cause, remedy)
    if not ends:
        return cause, "no state of the table is without quintuples: add one in which the machine halts"
    fitting = [end for end in ends if halts_in(question, it, end)]
    if not fitting:
        return cause, f"no quintuple leaves {', '.join(ends)}, and with none of them as the halting state it is taken"
    told = f"no quintuple leaves {', '.join(fitting)}"
    return cause, f"{told}: --halt {fitting[0]} makes it the state in which the machine halts"


def halts_in(question: Question, it: Input, halt: str) -> bool:
    """Whether `standard` takes the machine where it halts in this state."""
    other = Input(it.name, it.kind, it.data, list(it.rows))
    try:
        put_halting_last(other, halt)
    except Stop:
        return False
    return question.ask(["standard"], csv_of(other.rows))[0] == DONE


def letter(found: re.Match[str], question: Question, cause: str, remedy: str) -> tuple[str, str]:
    """A letter that the table doesn't have: which, where, and the letters it has."""
    place, tape = int(found[2] or found[1]), int(found[1]) if found[2] else 1
    word = question.given[tape - 1] if len(question.given) >= tape else ""
    is_named = "," in word
    parts = word.split(",") if is_named else list(word)
    symbol = parts[place - 1] if place <= len(parts) else "?"
    letters = alphabet(question, tape)
    where = f"place {place} of the word" + (f" on tape {tape}" if found[2] else "")
    told = (
        f"letter `{symbol}` ({where}) is the blank, which a word does not have; the letters are"
        if symbol == "_"
        else f"letter `{symbol}` ({where}) is not in the table's alphabet:"
    )
    return f"{told} {' '.join(letters)}", ""


def alphabet(question: Question, tape: int) -> list[str]:
    """The letters of a table, or of one tape of it, without the blank."""
    found: dict[str, None] = {}
    for it in question.inputs:
        for _, row in it.rows:
            if len(row) == 5:
                found.update(dict.fromkeys(row[1:3]))
            elif len(row) == 8 and row[tape] != "/":
                found.update(dict.fromkeys([row[tape], row[tape + 3]]))
    return sorted(it for it in found if it != "_")


def too_large(found: re.Match[str], question: Question, cause: str, remedy: str) -> tuple[str, str]:
    """A circuit with too many elements: what is known of the machine's own run."""
    cause = f"the circuit would have {int(found[1]):,} elements, more than 4,194,304"
    if question.found:
        return cause, (
            f"the machine's own run needs no circuit: {question.found.outcome}; hithwelor machine or trace prints it; "
            "--steps N takes the first N steps"
        )
    return cause, remedy


def port(found: re.Match[str], question: Question, cause: str, remedy: str) -> tuple[str, str]:
    """A name of --inputs or --outputs: no port, one that does not exist, one twice, or one that is not free."""
    option, place = f"--{found[1]}puts", int(found[2])
    names = question.words[3 if found[1] == "in" else 4][1:].split(",")
    name, text = names[place - 1], text_of(question.inputs[0].data)
    spelled = re.fullmatch(r"(0|[1-9]\d*)\.[nesw]", name)
    count = re.search(r"^elements (\d+)$", text, flags=re.M)
    if not spelled:
        return (
            f"{option}: `{name}` is no port",
            "a port is an element's number and a side, as 0.n, with commas between two",
        )
    if name in names[: place - 1]:
        return f"{option}: {name} is named twice", ""
    if count and int(spelled[1]) >= int(count[1]):
        return f"{option}: {name} does not exist: the elements are 0 to {int(count[1]) - 1}", ""
    why = "a wire leads to it" if found[1] == "in" else "a wire leads away from it"
    return f"{option}: {name} is not free: {why}", remedy


def missing(found: re.Match[str], question: Question, cause: str, remedy: str) -> tuple[str, str]:
    """A state or an input line that a sequential machine does not have."""
    it = table_of(found, question)
    column = (0, 2) if found[2] == "state" else (1,)
    most = max((int(row[at]) for _, row in it.rows for at in column), default=0)
    asked = question.words[1 if found[2] == "state" and not found[1] else 2]
    what = "state" if found[2] == "state" else "input line"
    return f"{it.name} has no {what} {asked}", f"its {what}s are 1 to {most}" if most > 1 else f"it has {what} 1 alone"


def short(found: re.Match[str], question: Question, cause: str, remedy: str) -> tuple[str, str]:
    """A word that is longer than its tape's right side."""
    option = {"1": "--right", "2": "--history", "3": "--output"}[found[1] or "1"]
    if question.command == "erase" or "auto" in question.words:
        return f"the word has {int(found[2]):,} letters", "a word has at most 1,048,576 letters"
    if question.is_exact:
        return cause, f"r{found[1] or 1} must be {found[2]} or more"
    return cause, f"{option} {found[2]} or more"


More = Callable[["re.Match[str]", "Question", str, str], "tuple[str, str]"]
MORE: list[tuple[str, More]] = [
    (r"text: (second )?record (\d+) fields", fields),
    (r"text: (second )?record (\d+) field (\d+) shift", shift),
    (r"text: (second )?record (\d+) field (\d+) (name|symbol|number)", one_field),
    (r"text: line (\d+) (.*)", circuit_line),
    (r"text: script line (\d+) form", script_line),
    (r"machine: (second )?S[1-5](?: (\d+))?(?: (\d+))?", standard),
    (r"machine: halting (\d+)", halting),
    (r"machine: (?:second )?(?:domain|range|reads|writes|silent|initial|final) (\d+)(?: (\d+))?", two_entries),
    (r"word: (\d+)(?: (\d+))?", letter),
    (r"word: (in|out) (\d+)", port),
    (r"word: (second )?(state|line)", missing),
    (r"size: elements (\d+)", too_large),
    (r"size: word (?:(\d+) )?needs (\d+)", short),
]


def explained_exactly(words: list[str], status: int, text: bytes, data: bytes, ask: Ask) -> Stop:
    """What the refusal of an exact form means, whose input came by standard input."""
    from .cli_run import Question

    inputs = []
    for part in split_parts(data) or (data,):
        inputs.append(Input("standard input", kind_of(part), part, records_of(text_of(part))))
    given = [word[1:] for word in words[1:] if word.startswith(("=", ":"))]
    return explained(words, status, text, Question(ask, words, data, inputs, given, None, words[0], True))
