"""What `hithwelor` says where something is wrong: the cause, the place and a remedy, with the user's own values. Nothing is on
standard output, and the status is the program's. Each hint that names a call is tried.
"""
import os
import re

import pytest
from people import called, example
from places import TOP

pytestmark = pytest.mark.usefixtures("answering")
CIRCUIT = b"rotary 1\r\nelements 1\r\nstart 0.n\r\nend 0.w\r\nsteps 0\r\nat 0.n\r\ne 0 H - - - -\r\n"
LEAST = b"S,_,_,+,T\nT,_,_,0,F\n"
ELEMENT = b"rotary 1\nelements 1\nstart 0.n\nend 0.s\nsteps 0\nat 0.n\ne 0 V - - - -\n"
MOVES = b"S,_,_,R,T\nT,1,1,L,T\nT,_,_,N,F\n"
HEADER = b"state,read,write,move,next\n" + LEAST
TWICE = b"S,_,_,+,A\n\nA,0,0,+,A\nA,_,_,0,H\nA,0,1,+,A\n"
LOOP = b"S,_,_,+,A\nA,0,0,-,B\nB,_,_,+,A\nA,_,_,0,F\n"
BLANK = b"A,B,B,+,A\nA,1,B,0,H\n"
LAST = b"A,1,1,+,H\nH,_,_,-,A\nH,1,1,0,X\nA,_,_,0,A\n"
TWO_LAST = b"A,1,1,+,H\nH,_,_,-,A\nH,1,1,0,X\nH,0,1,0,Y\nA,_,_,0,A\n"


@pytest.fixture
def put(tmp_path):
    """Writes a file, and gives its path."""

    def write(data, name="table.csv"):
        path = tmp_path / name
        path.write_bytes(data)
        return str(path)

    return write


def refused(*words, status, data=b"", told):
    """Holds that a call is refused so; what is said."""
    found, out, err = called(*words, data=data)
    assert (found, out) == (status, b""), err
    for part in told:
        assert part in err, err
    return err


def answered(*words, data=b"", note):
    status, out, err = called(*words, data=data)
    assert status == 0 and out and note in err, err
    return out


def by_the_exact_form(*words, status, text, data, told):
    """The refusal of an exact form is printed as it is, and explained."""
    found, out, err = called(*words, data=data)
    assert (found, out) == (status, text), err
    for part in told:
        assert part in err, err


def read(name):
    with open(example(name), "rb") as file:
        return file.read()


def test_a_foreign_letter():
    told = ["letter `2` (place 3 of the word) is not in the table's alphabet: 0 1"]
    refused("run", example("increment.csv"), "1021", status=5, told=told)
    by_the_exact_form("machine", "=1021", "9", status=5, text=b"word: 3\n", data=read("increment.csv"), told=told)
    told = ["letter `2` (place 2 of the word on tape 2) is not in the table's alphabet: 0 1"]
    refused("run", example("adder.csv"), "11", "12", "", status=5, told=told)
    refused("run", example("increment.csv"), "1_1", status=5, told=["letter `_` (place 2 of the word) is the blank"])


def test_moves_of_textbooks(put):
    note = "moves are + - 0 here; this table uses L and N and R: converted"
    assert answered("check", put(MOVES), note=note) == called("check", data=b"S,_,_,+,T\nT,1,1,-,T\nT,_,_,0,F\n")[1]
    by_the_exact_form(
        "check",
        status=3,
        text=b"text: record 1 field 4 shift\n",
        data=MOVES,
        told=["line 1: moves are + - 0 here; this table uses L and N and R", "hithwelor check FILE"],
    )


def test_a_header(put):
    out = answered("check", put(HEADER), note="record 1 looks like a header (line 1); left out")
    assert out == called("check", data=LEAST)[1]
    told = ["record 1 looks like a header", "hithwelor check FILE"]
    by_the_exact_form("check", status=3, text=b"text: record 1 field 2 symbol\n", data=HEADER, told=told)


def test_another_kind_of_table():
    adder, increment = example("adder.csv"), example("increment.csv")
    told = ["a table of quadruples (8 fields)", "check takes a table of quintuples (5 fields)", "reversible"]
    refused("check", adder, status=3, told=told)
    told = ["a table of quintuples (5 fields)", "hithwelor bennett FILE | hithwelor reversible -"]
    refused("reversible", increment, status=3, told=told)
    text, told = b"text: record 1 fields\n", ["8 fields", "a table of quadruples (8 fields), taken by:", "reversible"]
    by_the_exact_form("check", status=3, text=text, data=read("adder.csv"), told=told)
    told = ["5 fields", "a table of quintuples (5 fields), taken by: run"]
    by_the_exact_form("reversible", status=3, text=text, data=read("increment.csv"), told=told)
    told = ["is a table of quintuples", "takes a circuit", "hithwelor compile MACHINE WORD"]
    by_the_exact_form("step", "1", status=3, text=b"text: line 1 syntax\n", data=read("increment.csv"), told=told)


def test_the_pipe_that_a_hint_names_answers():
    made = called("bennett", example("increment.csv"))[1]
    assert called("reversible", "-", data=made)[:2] == (0, b"deterministic yes\nreversible yes\n")


@pytest.mark.parametrize("name, what", [("swap.jff", "a JFLAP machine"), ("parity.yaml", "a turingmachine.io machine")])
def test_a_machine_of_another_program_by_a_pipe(name, what):
    data = read(name)
    status, out, err = called("check", data=data)
    assert (status, out[:5]) == (3, b"text:") and f"standard input is {what}" in err and "hithwelor check FILE" in err
    assert called("run", example(name), "")[0] in (0, 10) and called("run", "-", "", data=data)[0] in (0, 10)


@pytest.mark.parametrize("data, what", [(b"<html></html>", "XML or HTML"), (b'{"a": 1}', "JSON"), (b"", "empty")])
def test_an_input_that_is_none_of_the_kinds(put, data, what):
    refused("check", put(data), status=3, told=[what])


def test_ends_of_lines_in_a_circuit(put):
    out = answered("step", put(CIRCUIT), note="lines end in CR LF; converted to LF")
    assert out == called("step", "1", data=CIRCUIT.replace(b"\r", b""))[1]
    told = ["lines end in CR LF", "hithwelor step FILE"]
    by_the_exact_form("step", "1", status=3, text=b"text: line 1 syntax\n", data=CIRCUIT, told=told)


def test_a_machine_of_two_tapes():
    path = os.path.join(TOP, "tests", "machines", "jflap", "two-tapes.jff")
    refused(
        "run", path, "1", status=3, told=["two-tapes.jff: the machine has 2 tapes, and only one-tape machines are read"]
    )


USAGE = [
    (["run", "1011", "INCREMENT"], "run: the file comes first: hithwelor run INCREMENT 1011"),
    (["run", "INCREMENT"], "run: WORD is missing: the input word; '' is the empty word"),
    (["run"], "run: MACHINE is missing: the machine's file"),
    (["run", "INCREMENT", "1", "0"], "run takes one word here: `0` is surplus"),
    (["machine", "INCREMENT", "1", "0"], "machine: `0` is surplus"),
    (["run", "ADDER", "1", "0"], "the third is missing; '' is the empty word"),
    (["session", "INCREMENT", "1011"], "session: SCRIPT is missing: the script's file"),
    (["run", "0", "5", "11", "5", "=1011"], "run: the word comes first: run =1011 0 5 11 5"),
    (["run", "=1011", "0", "5", "11"], "run: 3 of 4 window numbers given; r3 is missing"),
    (["run", "INCREMENT", "1", "--window", "0,5,11"], "--window: 3 numbers, and a window has four: l1,r1,n,r3"),
    (["rn", "INCREMENT", "1"], "there is no command rn; did you mean run?"),
    (["Run", "INCREMENT", "1"], "commands are written in small letters: run"),
    (["INCREMENT"], "INCREMENT is a file: the command comes first"),
    (["run", "INCREMENT", "1", "--step", "3"], "run has no option --step; did you mean --steps?"),
    (["run", "INCREMENT", "1", "--steps"], "--steps: its value is missing"),
    (["trace", "INCREMENT", "1", "--steps", "-3"], "--steps can't be -3"),
    (["trace", "INCREMENT", "1", "--steps", "1,000"], "without separators, not `1,000`: 1000"),
    (["trace", "INCREMENT", "1", "--steps", "99999999"], "--steps is at most 1,048,576: 99999999 is too large"),
    (["trace", "INCREMENT", "1", "--steps", "ten"], "--steps must be a whole number, not `ten`"),
    (["generate", "9"], "k is at most 4: 9 is too large"),
    ([], "no command is named"),
]


@pytest.mark.parametrize("words, told", USAGE, ids=[" ".join(words) for words, _ in USAGE])
def test_arguments_that_are_wrong(words, told):
    files = {"INCREMENT": example("increment.csv"), "ADDER": example("adder.csv")}
    for name, path in files.items():
        told = told.replace(name, path)
    err = refused(*(files.get(word, word) for word in words), status=2, told=[told])
    lines = err.splitlines()
    assert len(lines) <= 3 and lines[1].startswith("usage: ") and lines[2].startswith("more: hithwelor help")


def test_files_that_are_absent():
    refused("run", "nofile.csv", "1", status=2, told=["there is no file nofile.csv"])
    refused("run", os.path.dirname(example("x")), "1", status=2, told=["is a folder: name a file in it"])
    refused("run", example("incremnt.csv"), "1", status=2, told=[f"did you mean {example('increment.csv')}?"])
    refused("run", "nowhere/x.csv", "1", status=2, told=["there is no folder nowhere either"])


def test_a_window_that_is_too_small():
    path = example("increment.csv")
    told = ["the word needs 4 cells right of the start", "--right 4 or more"]
    refused("run", path, "1011", "--right", "3", status=6, told=told)
    status, out, err = called("run", path, "1011", "--right", "5")
    assert status == 0 and b"exit end" in out
    told = ["the word needs 4 cells right of the start", "r1 must be 4 or more"]
    exact = ["run", "=1011", "0", "3", "11", "5"]
    by_the_exact_form(*exact, status=6, text=b"size: word needs 4\n", data=read("increment.csv"), told=told)


def test_a_script_that_is_missing():
    told = ["no script is given", "hithwelor session MACHINE WORD SCRIPT"]
    by_the_exact_form("session", "=", "0", "2", "2", "1", status=3, text=b"text: no script\n", data=LEAST, told=told)


def test_two_quintuples_for_one_state_and_symbol(put):
    told = ["table.csv: the machine is not deterministic", "  line 3: A,0,0,+,A\n", "  line 5: A,0,1,+,A\n"]
    err = refused("check", put(TWICE), status=4, told=told)
    assert "standard" not in err
    for command in (["run"], ["bennett"]):
        refused(*command, put(TWICE), *([""] if command == ["run"] else []), status=4, told=told)
    by_the_exact_form("check", status=4, text=b"machine: S1 2 4\n", data=TWICE, told=told[1:])


def test_a_run_that_never_halts(put):
    path = put(LOOP)
    told = ["has not halted after 1,048,576 steps", "--steps 100", "--element-steps"]
    refused("run", path, "0", status=12, told=told)
    status, out, err = called("run", path, "0", "--steps", "20")
    assert status == 11 and b"exit window 2 right" in out and "--window 0,1,20,0" in err
    status, out, err = called("run", path, "0", "--window", "0,1,20,0", "--element-steps", "5000")
    assert status == 12 and b"inside" in out


def test_a_blank_that_is_another_letter(put):
    told = ["the blank is `_` here, and the table has none; its letters are B 1", "--blank B"]
    for command in (["check"], ["standard"], ["run", "1"]):
        refused(command[0], put(BLANK), *command[1:], status=4, told=told)
    status, out, err = called("run", put(BLANK), "1", "--blank", "B")
    assert status == 0 and "`B` is the blank; written `_`" in err
    told = ["the table has none", "--blank LETTER"]
    by_the_exact_form("check", status=4, text=b"machine: S2\n", data=BLANK, told=told)


def test_a_state_that_halts_and_is_left(put):
    err = refused("check", put(TWO_LAST), status=4, told=["line 1: A,1,1,+,H", "no quintuple leaves X, Y: --halt X"])
    halt = re.search(r"--halt (\S+)", err)[1]
    assert called("standard", put(TWO_LAST), "--halt", halt)[0] == 0
    assert "halts in `X`" in called("standard", put(LAST))[2]


MEANT = [("circuit", "compile"), ("debug", "session"), ("reverse", "inverse"), ("undo", "back"), ("simulate", "run")]


@pytest.mark.parametrize("word, command", MEANT)
def test_what_someone_might_type_leads_to_a_command(word, command):
    err = refused(word, example("increment.csv"), "1", status=2, told=[f"did you mean {command}"])
    assert f"more: hithwelor help {command}" in err


def test_how_a_run_ended_is_told(put):
    path = example("stuck.csv")
    status, _, err = called("run", path, "1")
    assert status == 10 and f"nothing is for state Go and 1; hithwelor trace {path} 1 prints the way there" in err
    status, _, err = called("run", example("increment.csv"), "1011", "--history", "9")
    assert status == 11 and "the head of tape 2 left the window to the right; --history gives more cells" in err
    status, out, err = called("room", put(b"S,_,/,/,_,-,0,F\n"), "")
    assert (status, out) == (11, b"none 2\n") and "the head of tape 2 goes left of its start" in err


def test_standard_is_named_where_it_takes_the_machine():
    status, out, err = called("check", data=read("complement.csv"))
    assert (status, out) == (4, b"machine: S2\n") and "brought into standard form by `standard`" in err
    assert called("standard", data=read("complement.csv"))[0] == 0


def test_fields_that_are_wrong(put):
    told = ["standard input, line 2: field 4 is `x`, and moves are + - 0 here"]
    by_the_exact_form(
        "check", status=3, text=b"text: record 2 field 4 shift\n", data=LEAST.replace(b",0,F", b",x,F"), told=told
    )
    told = ["field 1, `q_0`, is not a state's name"]
    by_the_exact_form("check", status=3, text=b"text: record 1 field 1 name\n", data=b"q_0,_,_,+,T\n", told=told)
    assert "q-0" in called("check", put(b"q_0,_,_,+,q_1\nq_1,_,_,0,q_2\n"))[2]
    told = ["field 2 has spaces around `_`"]
    by_the_exact_form("check", status=3, text=b"text: record 1 field 2 symbol\n", data=b"S, _,_,+,T\n", told=told)
    assert called("check", put(b"S, _, _, +, T\n# a comment\nT; _; _; 0; F\n".replace(b";", b",")))[0] == 0
    assert called("check", put(LEAST.replace(b",", b";")))[:2] == called("check", data=LEAST)[:2]


EXPLAINED = [
    (["step", "1"], b"rotary 1\nelements 1\nstart 0.n\nend 0.w\nsteps 0\nat 0.n\ne 1 H - - - -\n", "numbered from 0"),
    (
        ["step", "1"],
        b"rotary 1\nelements 1\nstart 0.n\nend 0.w\nsteps 0\nat 0.n\ne 0 H - - - -",
        "no newline at its end",
    ),
    (["step", "1"], b"", "is empty"),
    (["check"], b"\n\n", "blank lines alone"),
    (["session", "=", "0", "2", "2", "1"], LEAST + b"%\ngo\n", "line 1 of the script, `go`, is not a command"),
    (["session", "=", "0", "2", "2", "1"], LEAST + b"%\nbreak a state S\n", "a state that the machine does not have"),
    (["session", "=", "0", "2", "2", "1"], LEAST + b"%\ndrop b\n", "a label that is not set"),
    (["erase"], LEAST, "no second table is given"),
    (["walk"], ELEMENT, "hithwelor walk CIRCUIT SCRIPT"),
    (["walk"], ELEMENT + b"%\nbreak a state S\n", "break LABEL line E.L"),
    (["walk"], ELEMENT.replace(b"steps 0", b"steps 00") + b"%\n", "line 5: `steps 00`"),
    (["erase"], LEAST + b"%\nS,_,_,+\n", "4 fields"),
    (["farm"], b"", "no schedule is given"),
    (["realise", "9", "1"], b"1,1,1,1\n", "has no state 9"),
    (["realise", "1", "7"], b"1,1,1,1\n1,2,2,2\n", "its input lines are 1 to 2"),
    (["realise", "1", "1"], b"1,1,1,1\n1,1,2,2\n", "entries 1 and 2 have the same state and input line"),
    (
        ["equal", "1", "1"],
        b"1,1,1,1\n%\n1,1,1,1\n2,1,1,1\n",
        "entries 1 and 2 have the same next state and output line",
    ),
    (["equal", "1", "2"], b"1,1,1,1\n%\n1,1,1,1\n", "it has state 1 alone"),
    (["equal", "1", "1"], b"1,1,1,1\n%\n1,1,1,x\n", "line 1: field 4, `x`, is not a number from 1"),
    (["moments", "=", "5"], b"S,_,/,/,_,0,0,F\nS,_,/,/,_,0,0,F\n", "not deterministic"),
    (
        ["build", "=", "0", "2", "1", "0"],
        b"S,_,/,/,_,0,0,M\nM,/,/,/,0,0,0,N\nN,/,/,/,+,0,0,F\n",
        "neither reads a tape",
    ),
    (["compile", "=", "0", "1048576", "9", "9"], LEAST, "elements, more than 4,194,304"),
]


# Faults of a configuration text: the line, counted from 1, what it becomes, and what is said of it.
CIRCUIT_FAULTS = [
    (7, "e 0 X - - - -", "the bar is `X`"),
    (7, "e 0 H - - -", "the element has 3 wires where 4 are needed"),
    (7, "e 0 H - 1.q - -", "the wire of output e: `q` is no side: a side is n, e, s or w"),
    (7, "e zero H - - - -", "`zero` is not a number"),
    (7, "f 0 H - - - -", "an element is `e E S X X X X`"),
    (7, "e 0 H  - - - -", "single spaces"),
    (7, "c 0 1 H", "`c` is an entry of version 2"),
    (7, None, "the text ends after 0 of 1 elements"),
    (5, None, "line 5 must be `steps T`"),
    (5, "steps 01", "no zeros in front"),
    (3, "start 0.q", "`q` is no side"),
    (3, "start n", "`n` is no port"),
    (2, "elements 0", "at least one element"),
    (1, "rotary 3", "`rotary 1` or `rotary 2`"),
    (7, "e 0 H - - - -\ne 1 H - - - -", "the text has more lines than `elements 1` says"),
]


def test_a_column_that_is_not_one_entry():
    told = [
        "spelled-out.txt, line 10: `e 3 V 5.e - 4.n -`: begins a column of elements, which version 2 writes as one entry",
        "write `c E K S` and a line `r X Y` for each row; or write the whole circuit in version 1",
    ]
    for command in ("step", "migrate"):
        refused(command, example("refused/spelled-out.txt"), status=3, told=told)
    told = ["line 10: `e 3 V 5.e - 4.n -`: begins a column"]
    by_the_exact_form(
        "migrate", status=3, text=b"text: line 10 spelling\n", data=read("refused/spelled-out.txt"), told=told
    )


@pytest.mark.parametrize("number, line, told", CIRCUIT_FAULTS, ids=[told for _, _, told in CIRCUIT_FAULTS])
def test_a_fault_of_a_circuit_says_which_field(put, number, line, told):
    lines = CIRCUIT.decode().replace("\r", "").splitlines()
    lines[number - 1 : number] = [] if line is None else [line]
    path = put("".join(f"{it}\n" for it in lines).encode(), "circuit.txt")
    err = refused("step", path, status=3, told=[told])
    assert f"circuit.txt, line {number + (line or '').count(chr(10))}" in err, err


def test_a_difference_of_two_machines_is_put_into_words():
    told = (
        "after the input lines 1 1 the first machine answers by output line 2, and the second answers by output line 1"
    )
    toggle, reflector = (f"examples/circuits/{it}.csv" for it in ("toggle", "reflector"))
    assert answered("equal", os.path.join(TOP, toggle), os.path.join(TOP, reflector), note=told).startswith(
        b"differ 1 1\n"
    )


@pytest.mark.parametrize("words, data, told", EXPLAINED, ids=[told for _, _, told in EXPLAINED])
def test_every_refusal_of_an_exact_form_is_explained(words, data, told):
    status, out, err = called(*words, data=data)
    assert status in (3, 4, 5, 6) and out.count(b"\n") == 1 and told in err, err


def test_each_refusal_of_the_formats_has_an_explanation():
    """Every pattern of the table fits a line that the program may print, and none of the lines shown in help.md is without one."""
    from hithwelor.cli_errors import base
    from places import text_of

    shown = re.findall(r"^((?:text|machine|word|size): .*)$", text_of("docs/use/help.md"), flags=re.M)
    assert shown
    for line in shown:
        assert base(line, "check") != (line, ""), line
