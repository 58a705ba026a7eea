"""The help of the command `hithwelor` and of the exact forms, generated from tools/lib/forms.tsv."""
from __future__ import annotations

import textwrap

from .cli_args import meaning_of
from .forms import Use, commands, forms, forms_of, options, parts_of, quoted, statuses, twins, uses

WIDTH, WIDEST = 11, 100
OWN = {
    "sweep": "write a table of many machines, words and windows; `sweep --help` has its options",
    "plot": "draw a picture of such a table; `plot --help` has its options",
}
KINDS = {
    "quintuples": "a table of quintuples, or a machine of JFLAP, turingmachine.io, Morphett's simulator or bbchallenge",
    "quadruples": "a table of quadruples",
    "sequential": "the table of a reversible sequential machine",
    "circuit": "a configuration text, as `compile` prints it",
}


def wrapped(text: str, indent: int) -> str:
    """A text in lines that aren't too wide, behind so many spaces but for the first."""
    return textwrap.fill(text, WIDEST, subsequent_indent=" " * indent, break_long_words=False, break_on_hyphens=False)


def summary(version: str) -> str:
    """What `hithwelor help` prints: the commands by group."""
    lines = [
        f"hithwelor {version}: Turing machines made reversible, and their circuits of rotary elements",
        "",
        "usage: hithwelor COMMAND FILE [WORD] [OPTION..]",
    ]
    group = ""
    for use in uses().values():
        if use.group != group:
            group = use.group
            lines += ["", group]
        lines.append(wrapped(f"  {use.command:{WIDTH}}{use.what}", WIDTH + 2))
    lines += ["", "Many runs"]
    lines += [f"  {name:{WIDTH}}{what}" for name, what in OWN.items()]
    lines += [
        "",
        "FILE is - for standard input; its kind is recognised by its content.",
        "",
        "  hithwelor help COMMAND   the usage, options, examples and exit statuses of a command",
        f"  hithwelor help TOPIC     how files are written: {', '.join(topics())}",
        "  hithwelor help exact     the exact forms, which scripts use",
        "  hithwelor --version      the version",
        "",
    ]
    return "\n".join(lines)


def files_of(use: Use) -> str:
    """What a command reads."""
    shown = KINDS.get(use.kind, "")
    if use.command in twins() or use.command == "inverse":
        shown = f"{KINDS['quintuples']}; or a table of quadruples"
    return shown


def arguments_of(use: Use) -> list[str]:
    """A line for each argument of a command."""
    lines = []
    for name in dict.fromkeys(it.strip("[].") for it in use.arguments.split()):
        meaning = meaning_of(use, name)
        if name in ("MACHINE", "CIRCUIT", "TABLE"):
            meaning = f"{meaning}, or - for standard input: {files_of(use)}"
        elif name == "WORD":
            meaning += "; '' is the empty word"
            if ".." in use.arguments and use.command != "layout":
                meaning += "; of quadruples one word, or one for each of the three tapes"
        lines.append(wrapped(f"  {name:{WIDTH}}{meaning}", WIDTH + 2))
    return lines


def options_of(use: Use) -> list[str]:
    """A line for each option of a command, with its default."""
    lines = []
    for name in use.options:
        option = options()[name]
        shown = f"--{name}" + (f" {option.letter}" if option.takes_value else "")
        if option.short != "-":
            shown = f"{option.short}, {shown}"
        default = f" (default: {option.default})" if option.default != "no" else ""
        lines.append(wrapped(f"  {shown:20}{option.what}{default}", 22))
    return lines


def statuses_of(command: str) -> list[str]:
    """The exit statuses that a command may have."""
    return [
        f"  {number:<4}{meaning}"
        for number, (_, meaning) in statuses().items()
        if command in endings(number) or not endings(number)
    ]


def endings(number: int) -> list[str]:
    """The commands that may end with a status; none where all may."""
    return next((parts[3].split() for parts in parts_of("status") if int(parts[0]) == number and len(parts) > 3), [])


def examples_of(command: str) -> list[str]:
    """The examples of a command, with what they print."""
    lines = []
    for name, shown, printed in parts_of("example"):
        if name == command:
            lines += [f"  $ {shown}", *(f"  {line}" for line in printed.split("\\n"))]
    return lines


def help_of(command: str) -> str:
    """What `hithwelor help COMMAND` prints."""
    use = uses()[command]
    twin = twins().get(command)
    lines = [f"usage: {use.usage}", "", wrapped(f"{use.what[:1].upper()}{use.what[1:]}.", 0)]
    if twin:
        lines.append(f"Given quadruples it does what `{twin}` does.")
    lines += ["", "Arguments:", *arguments_of(use), "", "Options:", *options_of(use)]
    printed = [text for name, text in parts_of("prints") if name == command]
    if printed:
        lines += ["", "Prints:", *(wrapped(f"  {text}", 4) for text in printed)]
    examples = examples_of(command)
    if examples:
        lines += ["", "Examples:", *examples]
    lines += ["", "Exit statuses:", *statuses_of(command)]
    exact = [form.words for name in [command, *([twin] if twin else [])] for form in forms_of(name)]
    lines += ["", "Exact forms, with the input on standard input:", *(f"  {it}" for it in exact)]
    lines += ["", f"More: docs/{use.page}", ""]
    return "\n".join(lines)


def exact_help(command: str = "") -> str:
    """The exact forms, or those of one command."""
    chosen = forms_of(command) or forms()
    lines = ["The exact forms:"] + [f"  {it.words:33} {it.what}" for it in chosen]
    lines += [
        f"All but {quoted(commands('unread'))} read standard input. `=W` is `=` and the letters of the word;",
        f"of {quoted(commands('named'))} also `:` and the names of its symbols with commas between.",
        "docs/use/formats.md has what each reads and prints, to the byte.",
        "",
    ]
    return "\n".join(lines)


def topics() -> list[str]:
    """The forms of files that the help explains."""
    return list(dict.fromkeys(name for name, _ in parts_of("topic")))


def topic_help(name: str) -> str:
    """How a file of one form is written."""
    return "".join(wrapped(text[:1].upper() + text[1:], 2) + "\n" for topic, text in parts_of("topic") if topic == name)


def option_help(name: str) -> str:
    """An option, and the commands that take it."""
    takers = [use.command for use in uses().values() if name in use.options]
    option = options()[name]
    shown = f"--{name}" + (f" {option.letter}" if option.takes_value else "")
    lines = [
        shown,
        wrapped(f"  {option.what} (default: {option.default})", 2),
        wrapped(f"  taken by: {', '.join(takers)}", 2),
    ]
    return "\n".join([*lines, ""])
