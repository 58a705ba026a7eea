"""Files of four other programs: what tools/import and the page make of them, which is the same byte for byte; and that
the program reads it and runs it as that program would.

The files of tests/machines were written in the form of those programs (tests/make_machines.py); none was downloaded.
"""
import json
import os
import random
import re
import subprocess
import sys

import places
import pytest
from make_machines import all_files

FOLDER = os.path.join(places.TOP, "tests", "machines")
FILES = [f"{kind}/{name}" for kind, files in all_files().items() for name in files]
ADD = {"1011": "1100", "111": "1000", "0": "1"}
FLIP = {"1011": "0100", "0": "1"}
FLIP_AB = {"abb": "baa", "a": "b"}
COUNT = {"11": "111", "": "1"}
# What machines give, by what they were written for: the output for each word.
GIVE = {
    **{
        f"turingmachine.io/{name}": ADD
        for name in ("increment.yaml", "download.yaml", "download-stripped.yaml", "download-kept.yaml", "windows.yaml")
    },
    **{
        f"turingmachine.io/{name}": FLIP
        for name in (
            "complement.yaml",
            "download-folded.yaml",
            "download-quoted.yaml",
            "download-indented.yaml",
            "download-begins.yaml",
            "begins.yaml",
            "two-lines.yaml",
            "quotes.yaml",
            "spaces.yaml",
            "empty-state.yaml",
        )
    },
    "turingmachine.io/next-line.yaml": {"1011": "0100"},
    "turingmachine.io/keys.yaml": {"1011": "1011"},
    "turingmachine.io/synonyms.yaml": {"ab": "ab"},
    "turingmachine.io/table-first.yaml": {"101": "101"},
    "turingmachine.io/flow.yaml": {"101": "000"},
    "turingmachine.io/names.yaml": {"111": "111"},
    **{
        f"jflap/{name}": FLIP_AB
        for name in (
            "flip-7.jff",
            "flip-7-returns.jff",
            "flip-4.jff",
            "flip-8.jff",
            "empty-blank-8.jff",
            "square-blank.jff",
            "no-head.jff",
            "windows.jff",
            "names.jff",
            "no-names.jff",
            "single-quotes.jff",
            "tag.jff",
            "one-tape-7.jff",
            "cdata.jff",
        )
    },
    **{
        f"jflap/{name}": COUNT
        for name in (
            "count-7.jff",
            "count-4.jff",
            "count-8.jff",
            "count-8-tm.jff",
            "one-tape-8.jff",
            "same-names.jff",
            "same-names-8.jff",
            "same-names-again.jff",
        )
    },
    **{
        f"morphett/{name}": ADD
        for name in (
            "add.txt",
            "comments.txt",
            "breakpoints.txt",
            "windows.txt",
            "tabs.txt",
            "capitals.txt",
            "wide.txt",
            "last-without-end.txt",
            "after-halt.txt",
        )
    },
    **{
        f"morphett/{name}": FLIP
        for name in (
            "flip.txt",
            "halts.txt",
            "halts-capital.txt",
            "any-symbol.txt",
            "same-state.txt",
            "stays.txt",
            "named.txt",
        )
    },
    "morphett/any-state.txt": {"111": "111"},
    "morphett/names.txt": {"10": "01"},
}
# How many steps machines of bbchallenge make on the blank tape.
STEPS = {"line-01.txt": 6, "line-02.txt": 21, "line-04.txt": 107, "line-06.txt": 38}
# The halting state, where it has to be named.
HALT = {
    "morphett/palindrome.txt": "halt-accept",
    "morphett/two-halts.txt": "halt",
    "turingmachine.io/verdicts.yaml": "accept",
}
WORDS = {"morphett/palindrome.txt": ["1001", "10"], "turingmachine.io/verdicts.yaml": ["11", "1"]}


def words_for(path):
    return {"halt": HALT.get(path), "words": WORDS.get(path) or list(GIVE.get(path, {"": ""}))}


@pytest.fixture(scope="module")
def by_page(any_node):
    """What the page's readers make of every file, and what the program answers."""
    return told_by(any_node, "read_machines.mjs", {path: words_for(path) for path in FILES})


def told_by(node, script, given):
    """What a script of this folder says to what it is given, by node."""
    ran = subprocess.run(
        [node, os.path.join(places.TOP, "tests", script)], input=json.dumps(given), capture_output=True, text=True
    )
    assert ran.returncode == 0, ran.stderr[-2000:]
    return json.loads(ran.stdout)


@pytest.fixture(scope="module")
def reader():
    """The readers of the tools."""
    sys.path.insert(0, os.path.join(places.TOP, "tools", "lib"))
    from hithwelor.foreign import machine_files
    from workbench_text import Fault

    return machine_files, Fault


def by_tools(reader, text, halt=None):
    """What the tools' readers make of a text."""
    machine_files, fault = reader
    try:
        table, names = machine_files.table_of(machine_files.read_machine(text, "it"), "it", halt)
    except fault as it:
        return {"fault": str(it)}
    return {"table": table, "names": names}


def test_the_files_are_those_that_are_written():
    for kind, files in all_files().items():
        assert sorted(os.listdir(os.path.join(FOLDER, kind))) == sorted(files)
        for name, text in files.items():
            with open(os.path.join(FOLDER, kind, name), encoding="utf-8", newline="") as file:
                assert file.read() == text, name


def test_there_are_twenty_of_each_that_are_read(by_page):
    for kind in all_files():
        count = sum(1 for path, it in by_page.items() if path.startswith(f"{kind}/") and "table" in it)
        assert count >= 20 or kind == "none" and count == 0, kind


def text_of(path):
    with open(os.path.join(FOLDER, path), encoding="utf-8", newline="") as file:
        return file.read()


@pytest.mark.parametrize("path", FILES)
def test_page_and_tools_read_alike(by_page, reader, path):
    told = by_page[path]
    told = {key: told[key] for key in ("table", "names", "fault") if key in told}
    assert told == by_tools(reader, text_of(path), HALT.get(path))


# What is put into a file at random.
PIECES = [
    *"[]{}:,'\"#|>-? \n\t&*~;!<>/_01ab\\%@`=\r",
    "---",
    "? ",
    "<read>",
    "</read>",
    '<state id="0"/>',
    "&amp;",
    "source code: |\n",
    "\u25a1",
    "table:",
    "  ",
    "halt",
    "<![CDATA[",
    "]]>",
    "<!--",
    "-->",
    "null",
    "{R: a}",
    "[a, b]",
    "* * * r 0",
    "\xe9",
    "\U0001f600",
]


def changed(draw, texts):
    """A file with some places changed at random: cut, put in, or gone on with a part of another."""
    text = draw.choice(texts)
    for _ in range(draw.randint(1, 4)):
        at, other = draw.randrange(len(text) + 1), draw.choice(texts)
        begin, behind = draw.randrange(len(other) + 1), at + draw.choice([0, 0, draw.randint(1, 6)])
        put = draw.choice([draw.choice(PIECES), "", other[begin : begin + draw.randint(1, 40)]])
        text = text[:at] + put + text[behind:]
    return text


def test_files_that_are_changed_at_random_are_read_alike(reader, any_node):
    """Tables and faults; and no reader ends in a fault of its own."""
    draw, texts = random.Random(61), [text_of(path) for path in FILES]
    drawn = [changed(draw, texts) for _ in range(3000)]
    for text, told in zip(drawn, told_by(any_node, "read_texts.mjs", drawn)):
        assert by_tools(reader, text) == told, repr(text)


def test_the_program_reads_every_table(by_page):
    assert not [path for path, it in by_page.items() if "table" in it and it["standard"] != 0]


@pytest.mark.parametrize("path", sorted(GIVE))
def test_a_machine_does_what_it_was_written_for(by_page, path):
    for word, output in GIVE[path].items():
        ran = by_page[path]["runs"][word]
        assert ran["status"] == 0 and ran["text"].splitlines()[1:] == [f"output ={output}"], f"{word}: {ran}"


def test_a_verdict_is_the_state_in_which_the_machine_comes_to_rest(by_page):
    for path, (yes, no) in WORDS.items():
        assert by_page[path]["runs"][yes]["status"] == 0 and by_page[path]["runs"][no]["status"] == 10, path


def champion(line):
    """The steps of a machine of bbchallenge on the blank tape, and how many letters of its tape end at its head: by the
    line alone."""
    groups, tape, at, state, steps = line.split("_"), {}, 0, 0, 0
    while 0 <= state < len(groups):
        rule = groups[state][3 * tape.get(at, 0) :][:3]
        tape[at], at, state, steps = int(rule[0]), at + (1 if rule[1] == "R" else -1), ord(rule[2]) - 65, steps + 1
    letters = 0
    while tape.get(at - letters, 0):
        letters += 1
    return steps, letters


@pytest.mark.parametrize("name", sorted(STEPS))
def test_a_line_of_bbchallenge_makes_as_many_steps(by_page, name):
    with open(os.path.join(FOLDER, "bbchallenge", name), encoding="utf-8") as file:
        steps, letters = champion(file.read().strip())
    assert steps == STEPS[name]
    ran = by_page[f"bbchallenge/{name}"]["runs"][""]
    # In standard form it makes one step more before, one behind, and one for each letter that ends at its head.
    assert (ran["status"], ran["text"].splitlines()[0]) == (0, f"halted {steps + 2 + letters}")


@pytest.mark.parametrize("path", [f"none/{it}" for it in all_files()["none"]] + ["turingmachine.io/top-list.yaml"])
def test_what_is_none_of_the_four_says_so_and_names_them(by_page, path):
    for name in (
        "turingmachine.io",
        "JFLAP 4 to 8",
        "Morphett's simulator",
        "one line of bbchallenge",
        "none of the four",
    ):
        assert name in by_page[path]["fault"]


def test_a_machine_of_two_tapes_is_refused_plainly(by_page):
    for path in [it for it in FILES if "two-tapes" in it]:
        assert by_page[path]["fault"] == "it: the machine has 2 tapes, and only one-tape machines are read"
        assert "the machine has 2 tapes" in by_page[path]["opened"]["fault"]


def test_states_of_one_name_are_told_apart(by_page):
    for path, names in (
        ("jflap/same-names.jff", ["q", "q.1", "q.2"]),
        ("jflap/same-names-8.jff", ["q", "q.1", "q.2"]),
        ("jflap/same-names-again.jff", ["q", "q.2", "q.2.2"]),
    ):
        assert sorted(by_page[path]["names"]) == names
        assert len(set(by_page[path]["table"].replace("\n", ",").split(",")) & {*names}) == 3
        rows = [line.split(",") for line in by_page[path]["opened"]["table"].splitlines()]
        assert len({it for row in rows for it in (row[0], row[4])}) == 3


def test_an_unknown_move_is_refused(by_page):
    assert "moves 'U', and R, L and S are the moves" in by_page["jflap/move.jff"]["opened"]["fault"]


def test_the_page_opens_what_is_read(by_page):
    """With the states' own names, where a table's line can have them; a table is opened as it is."""
    opened = by_page["turingmachine.io/names.yaml"]["opened"]
    assert opened["letter"] and opened["names"]["q-0"] == "q_0" and opened["table"].startswith("q_0,")
    assert by_page["jflap/flip-7.jff"]["opened"]["accept"] == ["q1"]
    verdicts = by_page["turingmachine.io/verdicts.yaml"]["opened"]
    assert (verdicts["accept"], verdicts["reject"]) == (["accept"], ["reject"])
    assert "It halts in accept; in reject it is stuck." in verdicts["about"]
    assert by_page["none/table.csv"]["opened"]["table"] == "S,_,_,+,T\nT,_,_,0,F\n"
    assert not [path for path, it in by_page.items() if "table" in it and "fault" in it["opened"]]


def imported(path, *words):
    tool = os.path.join(places.TOP, "tools", "import")
    return subprocess.run([tool, *words, os.path.join(FOLDER, path)], capture_output=True, text=True)


@pytest.mark.parametrize(
    "path",
    [
        "jflap/tag.jff",
        "jflap/two-tapes.jff",
        "turingmachine.io/download.yaml",
        "turingmachine.io/two-lines.yaml",
        "none/table.csv",
        "none/machine.json",
        "jflap/flip-8.jff",
        "morphett/add.txt",
        "bbchallenge/line-05.txt",
    ],
)
def test_the_tool_gives_a_table_or_one_line(path):
    ran = imported(path)
    assert ran.returncode in (0, 2) and "Traceback" not in ran.stderr
    if ran.returncode:
        assert (ran.stdout, ran.stderr.count("\n")) == ("", 1)
        assert re.match(r"import: \S+: ", ran.stderr)
    else:
        assert len(ran.stdout.splitlines()[0].split(",")) == 5


def test_the_tool_names_the_states_that_halt():
    ran = imported("morphett/palindrome.txt")
    assert ran.returncode == 2 and "halt-accept, halt-reject" in ran.stderr and "--halt names it" in ran.stderr
    assert imported("morphett/palindrome.txt", "--halt", "halt-accept").returncode == 0
