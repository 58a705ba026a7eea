"""The forms of the words are told alike wherever they are told.

The program's own table is `words_of` in crates/bn_words/specs/Requests.antt, with the limits of `IsAllowed` there; contracts
cite both. With it is compared tools/lib/forms.tsv, the one place beside it where the forms are written by hand: the forms, the
limits of their numbers, the commands that read nothing and those that take names. With that file are compared what is made of
it, and what ./workbench and ./try say to words that have no form, the names that are completed, and the list of commands of
the man page.
"""
import os
import re
import subprocess

import places
import pytest
from hithwelor.cli_explain import usage_fault
from hithwelor.forms import commands, forms, numbers, options, parts_of, twins, uses
from people import called
from places import TOP, text_of

TABLE = "crates/bn_words/specs/Requests.antt"
# The files with the limits of one command alone.
OWN_LIMITS = {
    "MOST_INCREMENTS": "crates/bn_gen/src/machine.rt",
    "MOST_LINES": "crates/bn_rlem/src/element.rt",
    "MOST_STATES": "crates/bn_behaviour/src/bounds.rt",
}
MAN_PAGE = "docs/use/workbench.1"
# The kind of word that stands for each letter of a form.
KINDS = {
    **dict.fromkeys(["=W", "=W1", "=W2", "=W3"], "Letters"),
    "auto": "Auto",
    "E": "Count greatest",
    "drive E": "Count MOST_DRIVE_STEPS",
    "Q": "Ordinal MOST_COUNT",
    "R": "Ordinal MOST_COUNT",
    "I": "Ordinal MOST_COUNT",
    **dict.fromkeys([":IN", ":OUT"], "Ports"),
    **dict.fromkeys(["behaviour n", "crossings n"], "Ordinal MOST_STATES"),
    **dict.fromkeys(["behaviour E", "crossings E"], "Ordinal greatest"),
    "k": "Ordinal MOST_INCREMENTS",
    "element k": "Ordinal MOST_LINES",
    "element n": "Count greatest",
    **dict.fromkeys(["l1", "r1", "n", "r2", "r3"], "Count MOST_COUNT"),
}
# Words that have no form, and what is said to them in one line.
FAULTS = [
    ([], "no command is named"),
    (
        ["check", "examples/least.csv"],
        "examples/least.csv is a file: write < examples/least.csv, or hithwelor check examples/least.csv ..",
    ),
    (
        ["examples/least.csv"],
        "examples/least.csv is a file: the command comes first, as in hithwelor run examples/least.csv WORD",
    ),
    (["generate", "examples/least.csv"], "examples/least.csv is a file, and generate reads none"),
    (["generate", "examples"], "examples is a folder, and generate reads none"),
    (["check", "."], ". is a folder: check reads a file, by < FILE"),
    (["examples"], "examples is a folder: name a command first, and then a file"),
    (["check", "nofile.csv"], "there is no file nofile.csv"),
    (["generate", "nofile.csv"], "nofile.csv is no argument of generate, which reads no file either"),
    (["Check"], "commands are written in small letters: check"),
    (["chek"], "there is no command chek; did you mean check?"),
    (["hceck"], "there is no command hceck; did you mean check?"),
    (["cheeck"], "there is no command cheeck; did you mean check?"),
    (["chuck"], "there is no command chuck; did you mean check?"),
    (["zigzag"], "there is no command zigzag"),
    (["behaviour", "9", "9", ":0.n"], "behaviour: the ports are two arguments, :IN and :OUT, as :0.n,0.s :1.e,1.w"),
    (["behaviour", "0", "9"], "behaviour: n is at least 1, not 0"),
    (["crossings", "9"], "crossings: E is missing"),
    (["crossings", "9", "9", "0.n", ":"], "crossings: the ports need : before them: :0.n"),
    (["equal", "1"], "equal: R is missing"),
    (["walk", "1"], "walk: `1` is surplus"),
    (["window", "=1"], "window: n is missing"),
    (["machine", "1011", "20"], "machine: the word needs = before it: =1011"),
    (["machine", "=1011", "020"], "machine: a number has no zero in front: write 20 for 020"),
    (["machine", "=1011", "+20"], "machine: a number has no sign: n can't be +20"),
    (["machine", "=1011", "x"], "machine: n must be a whole number, not `x`"),
    (["machine", "=1011", ""], "machine: n must be a whole number, not the empty word"),
    (["machine", "=1011", "1048577"], "machine: n is at most 1,048,576: 1048577 is too large"),
    (["step", "4611686018427387905"], "step: E is at most 4,611,686,018,427,387,904: 4611686018427387905 is too large"),
    (
        ["step", "99999999999999999999"],
        "step: E is at most 4,611,686,018,427,387,904: 99999999999999999999 is too large",
    ),
    (["run", "=1", "0", "2", "1"], "run: 3 of 4 window numbers given; r3 is missing"),
    (["run", "=1011", "0"], "run: 1 of 4 window numbers given; r1, n and r3 are missing"),
    (["realise", "0", "1"], "realise: Q is at least 1, not 0"),
    (["generate", "5"], "generate: k is at most 4: 5 is too large"),
    (["moments", "=1", "=", "1", "5"], "moments: the word needs = before it: =1"),
    (["build", "1", "0", "2", "1", "0"], "build: the word needs = before it: =1"),
    (["build", ":1,x", "0", "2", "1", "x"], "build: r3 must be a whole number, not `x`"),
    (["compile", ":1", "0", "2", "1", "1"], "compile: the word is = and its letters here, not :1"),
    (["build", "=1", "=", "0", "2", "1", "0"], "build: one word, or one for each of the three tapes: 2 are given"),
    (
        ["drive", "=", ":", "=", "0", "2", "1", "0", "2305843009213693953"],
        "drive: E is at most 2,305,843,009,213,693,952: 2305843009213693953 is too large",
    ),
    (
        ["look", "=", "0", "2", "1", "0", "4611686018427387905"],
        "look: E is at most 4,611,686,018,427,387,904: 4611686018427387905 is too large",
    ),
    (["play", "=1", "2", "1", "0", "1", "0"], "play: `0` is surplus"),
    (["room", "=1", "=", "5"], "room: one word, or one for each of the three tapes: 2 are given"),
    (["room", "=1", "1048577"], "room: n is at most 1,048,576: 1048577 is too large"),
    (["moments", "=1", "=", "5"], "moments: one word, or one for each of the three tapes: 2 are given"),
    (["machine", "=1011"], "machine: n is missing"),
    (["erase", "=1"], "erase: n is missing"),
    (["run", "0", "5", "11", "5", "=1011"], "run: the word comes first: run =1011 0 5 11 5"),
    (["run", "=1011", "0", "5", "11", "5", "6", "7"], "run: `7` is surplus"),
    (["machine", "=1", "1,000"], "machine: n must be a whole number without separators, not `1,000`: 1000"),
    (["run", "0", "5", "11", "5"], "run: the word is missing: = and its letters; = alone is the empty word"),
]
GREATEST = {"greatest": 2**62, "MOST_DRIVE_STEPS": 2**61, "MOST_COUNT": 2**20}


def kind_of(number, allowed):
    """The kind of a number's word, by the limits of what is allowed."""
    for limit, kind in [
        (rf"\bIsOrdinal {number}\b", "Ordinal MOST_COUNT"),
        (rf"\bIsRoundCount {number}\b", "Ordinal MOST_INCREMENTS"),
        (rf"\bIsLineCount {number}\b", "Ordinal MOST_LINES"),
    ]:
        if re.search(limit, allowed):
            return kind
    from_one = re.search(rf"\bIsFromOneTo (\w+) {number}\b", allowed)
    if from_one:
        return f"Ordinal {from_one[1]}"
    return "Count " + re.search(rf"\b{number} ≤ (\w+)", allowed)[1]


def cases():
    """The cases of the program's table: each with its command's name, the words behind it, and what is allowed."""
    text = text_of(TABLE)
    allowed = dict(re.findall(r"^IsAllowed \(?(\w+)\b.*? = (.*)$", text, flags=re.M))
    for case, name, words in re.findall(r'^words_of \(?(\w+).*? =\s+codes "(\w+)" ∷ (.*)$', text, flags=re.M):
        yield case, name, words, allowed.get(case, "")


def rows():
    """The forms of the program's table: each a name and the kinds of the words behind it."""
    limits = " ∷ ".join(f"decimal l.{it}" for it in ("left", "right", "steps", "output"))
    found = []
    for _, name, words, allowed in cases():
        if "AreSmall l" in allowed:
            allowed += "".join(f" × (l.{it} ≤ MOST_COUNT)" for it in ("left", "right", "steps", "output"))
        words = re.sub(r"window_words word l \(?(.*?)\)?$", rf"(61 ∷ word) ∷ {limits} ∷ \1", words)
        words = re.sub(r"tape_arguments words \((decimal n .*?)\)$", r"tape_arguments ∷ \1", words)
        words = re.sub(
            r"tape_arguments words \(limit_words l \(?(.*?)\)?\)$", rf"tape_arguments ∷ {limits} ∷ \1", words
        )
        given = re.sub(r"steps_words given$", "decimal e ∷ []", words)
        given = given.replace("port_arguments names", "(58 ∷ inputs) ∷ (58 ∷ outputs) ∷ []")
        one = words.replace("tape_arguments", "(61 ∷ word)")
        three = given.replace("tape_arguments", " ∷ ".join(["(61 ∷ word)"] * 3))
        for form in dict.fromkeys([re.sub(r"\(?steps_words given$", "[]", one), three]):
            kinds = []
            for mark, number in re.findall(r'(\((?:61|58) ∷ \w+\)|codes "auto"|decimal ([\w.]+))', form):
                other = {"(61": "Letters", "(58": "Ports"}.get(mark[:3], "Auto")
                kinds.append(kind_of(re.escape(number), allowed) if number else other)
            found.append((name, *kinds))
    return found


def form_of(words):
    """The form that a line of words tells."""
    name, *letters = words.split()
    return (name, *(KINDS.get(f"{name} {it}", KINDS.get(it, it)) for it in letters))


def unquoted(macro, rest):
    """The text of a man page's macro line: the alternating ones join their words."""
    words = [it.strip('"') for it in re.findall(r'"[^"]*"|\S+', rest)]
    text = ("" if macro in ("BI", "BR", "IB", "IR", "RB", "RI") else " ").join(words)
    return re.sub(r"\\f.", "", text)


def described(page):
    """The names of the commands that the man page describes."""
    part = re.search(r"^\.SH DESCRIPTION\n(.*?)^\.SH", page, flags=re.M | re.S)[1]
    heads = re.findall(r"^\.TP\n\.(B\w?) (.*)$", part, flags=re.M)
    return {word for macro, rest in heads for word in re.findall(r"[a-z]{2,}", unquoted(macro, rest.split(" =")[0]))}


NAMES = {row[0] for row in rows()}
LIMITS = {tuple(it.split()): (least, greatest) for it, least, greatest in numbers()}


def test_the_forms_are_the_programs():
    assert sorted(form_of(it.words) for it in forms()) == sorted(rows())


def limit_of(letter):
    """The greatest number of this letter, by the program's own limits."""
    name = KINDS[letter].split()[1]
    if name in OWN_LIMITS:
        return int(re.search(rf"^pub const {name}: u32 = ([\d_]+);$", text_of(OWN_LIMITS[name]), flags=re.M)[1])
    return GREATEST[name]


def told_limits(letter):
    """The limits of this letter, with a command's name before it where it has its own."""
    if letter.split()[0] in NAMES:
        return LIMITS[tuple(letter.split())]
    return next(it for letters, it in LIMITS.items() if letter in letters and letters[0] not in NAMES)


@pytest.mark.parametrize("letter", [it for it, kind in KINDS.items() if kind.split()[0] in ("Count", "Ordinal")])
def test_the_limits_of_the_numbers_are_the_programs(letter):
    assert told_limits(letter) == (1 if KINDS[letter].startswith("Ordinal") else 0, limit_of(letter))


def test_the_commands_that_read_nothing_are_the_programs():
    names = {case: name for case, name, _, _ in cases()}
    inputless = [
        names[it] for it in re.findall(r"^reads_input \((\w+)(?: \w+)+\) = false$", text_of(TABLE), flags=re.M)
    ]
    assert commands("unread") == inputless


def test_the_commands_that_take_names_are_the_programs():
    assert commands("named") == [name for _, name, words, _ in cases() if words.startswith("tape_arguments")]


PAGES = places.tool("build/pages")


@pytest.mark.parametrize("path", PAGES.made_of_forms())
def test_what_is_made_of_the_forms_is_made_of_those_that_stand(path):
    assert PAGES.is_there(path, PAGES.made_of_forms()[path]), f"tools/build/pages --write makes {path} anew"


def test_each_row_of_the_formats_says_what_is_read_and_answered():
    table = text_of(PAGES.FORMATS).split("\n## Commands\n")[1]
    told = re.findall(r"^\| `([^`]+)` \| \S.* \| \S.* \|$", table, flags=re.M)
    assert told == [it.words for it in forms()]


def said_by_bash(script, *words):
    """What a line of bash prints, from the top."""
    ran = subprocess.run(
        ["bash", "-c", script, "-", *words], cwd=TOP, stdout=subprocess.PIPE, stderr=subprocess.STDOUT, text=True
    )
    return ran.stdout.rstrip("\n")


@pytest.mark.parametrize("words, wanted", FAULTS, ids=[" ".join(words) or "no words" for words, _ in FAULTS])
def test_words_that_have_no_form_are_told_what_is_wrong(monkeypatch, words, wanted):
    monkeypatch.chdir(TOP)
    assert usage_fault(words).cause == wanted


@pytest.mark.parametrize("words", [it for it, _ in FAULTS if it != ["check", "examples/least.csv"]], ids=" ".join)
def test_a_usage_error_has_at_most_three_lines(monkeypatch, words):
    monkeypatch.chdir(TOP)
    status, text, err = called(*words)
    assert (status, text) == (2, b"") and err.count("\n") <= 3 and err.startswith("error: ")


@pytest.mark.parametrize("script", ["./workbench", "./try"])
def test_words_that_ask_for_help_are_told_the_forms(script):
    ran = subprocess.run([script, "--help"], cwd=TOP, stdin=subprocess.DEVNULL, capture_output=True, text=True)
    assert ran.returncode == 0 and all(f"  {it.words} " in ran.stdout for it in forms())


@pytest.mark.parametrize("begin", ["", "re", "s", "x"])
@pytest.mark.parametrize("script, own", [("./workbench", []), ("/usr/bin/hithwelor", ["sweep", "plot"])])
def test_the_names_are_completed(script, own, begin):
    """Behind `hithwelor` the words of the Python package too."""
    complete = 'source tools/completion.bash; COMP_WORDS=("$1" "$2") COMP_CWORD=1; _hithwelor; echo "${COMPREPLY[*]}"'
    wanted = sorted(it for it in [*NAMES, "help", *own] if it.startswith(begin))
    assert sorted(said_by_bash(complete, script, begin).split()) == wanted


def test_the_man_page_describes_each_command():
    assert described(text_of(MAN_PAGE)) == NAMES


@pytest.mark.slow
@pytest.mark.parametrize("command, shown, printed", parts_of("example"), ids=[it[1] for it in parts_of("example")])
def test_the_examples_of_the_help_print_what_is_shown(answering, command, shown, printed):
    path = os.pathsep.join([TOP, os.environ["PATH"]])
    ran = places.run(["bash", "-c", shown], path=path, env={**os.environ, "PATH": path})
    assert ran.stdout == printed.replace("\\n", "\n") + "\n", ran.stderr


def test_each_command_has_its_help_and_two_examples():
    listed = [command for command, _, _ in parts_of("example")]
    for command in uses():
        status, text, _ = called("help", command)
        assert status == 0 and called(command, "--help")[1] == text and listed.count(command) == 2
        told = text.decode()
        assert told.startswith(f"usage: hithwelor {command} ") and all(
            f"--{it}" in told for it in uses()[command].options
        )
        page = re.search(r"^More: (\S+)$", told, flags=re.M)[1].partition("#")
        assert os.path.isfile(os.path.join(TOP, page[0]))
        heads = [
            re.sub(r"[^a-z0-9 -]", "", it.lower()).replace(" ", "-")
            for it in re.findall(r"^#+ (.*)$", text_of(page[0]), flags=re.M)
        ]
        assert not page[2] or page[2] in heads, page[2]


def test_the_table_says_what_each_command_takes():
    assert set(uses()) == set(commands()) and set(twins().values()) <= set(commands())
    for it in uses().values():
        assert set(it.options) <= set(options())
