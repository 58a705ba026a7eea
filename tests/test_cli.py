"""The command for people: each friendly form with the exact one that it is translated into, on drawn machines and words; exact
forms taken as they are; windows that are the least.

`--drawn N` draws so many machines, and `--seed S` others.
"""
import json
import random

import inputs
import pytest
from people import called, example, window_told

NUMBER = 60
STANDARD = "examples/increment.csv"


@pytest.fixture(scope="module")
def ask(answering):
    from hithwelor import answers

    return answers.answer


def draws(config):
    return random.Random(config.getoption("--seed")), config.getoption("--drawn") or NUMBER


def written(folder, data, name="machine.csv"):
    path = folder / name
    path.write_bytes(data)
    return str(path)


def test_exact_arguments_are_those_that_the_program_takes(ask, pytestconfig):
    """Whether arguments are an exact form is decided here as the program decides."""
    from hithwelor.forms import commands, is_exact

    draw, number = draws(pytestconfig)
    for _ in range(20 * number):
        words = inputs.drawn_words(draw, draw.choice(commands()))
        if words and draw.random() < 0.2:
            words[draw.randrange(len(words))] = draw.choice(
                ["", "=", "auto", "00", "1048577", str(2**62), "-1", ":a"]
            )
        assert is_exact(words) == (ask(words, b"")[0] != 2), words


def test_an_exact_form_is_answered_byte_for_byte(ask, pytestconfig):
    draw, number = draws(pytestconfig)
    for _ in range(number):
        words, data = inputs.drawn_case(draw)[:2]
        status, text = ask(words, data)
        if status != 2:
            assert called(*words, data=data)[:2] == (status, text), (words, data)


@pytest.mark.parametrize(
    "friendly, exact",
    [
        (["run"], ["run", "W"]),
        (["view", "--at", "1000"], ["view", "W", "1000"]),
        (["compile"], ["compile", "W"]),
        (["layout"], ["layout", "W"]),
        (["run", "--element-steps", "900"], ["run", "W", "900"]),
    ],
    ids=lambda it: " ".join(it),
)
def test_a_circuit_of_quintuples_in_the_window_that_is_told(ask, pytestconfig, tmp_path, friendly, exact):
    """Same facts and status as the exact form with the window that was found; and it is the least in which the run ends."""
    draw, number = draws(pytestconfig)
    for _ in range(number):
        table = inputs.drawn_table(draw)
        word = "".join(draw.choice("01") for _ in range(draw.randrange(4)))
        path = written(tmp_path, table)
        status, text, err = called(*friendly[:1], path, word, *friendly[1:])
        own, known = ask(["check"], table), ask(["machine", f"={word}", "1048576"], table)
        if own[0] or known[0] not in (0, 10):
            assert text == b"" and err.startswith("error: ") == (status not in (0, 10))
            continue
        numbers = window_told(err)
        words = [exact[0], f"={word}", *numbers, *exact[2:]]
        assert (status, text) == ask(words, table), (words, table)


def test_a_window_is_the_least(ask, pytestconfig, tmp_path):
    draw, number = draws(pytestconfig)
    for _ in range(number):
        table = inputs.drawn_table(draw)
        word = "".join(draw.choice("01") for _ in range(draw.randrange(4)))
        status, text, err = called("run", written(tmp_path, table), word)
        if status not in (0, 10) or ask(["check"], table)[0]:
            continue
        numbers = [int(it) for it in window_told(err)]
        assert text.split(b"\n")[1].split()[1] in (b"end", b"stuck")
        for at in range(4):
            less = [number - (number and place == at) for place, number in enumerate(numbers)]
            told = ask(["run", f"={word}", *map(str, less)], table)
            assert less == numbers or told[0] in (6, 11), (numbers, less, table)


def test_a_machine_by_itself_and_its_configurations(ask, pytestconfig, tmp_path):
    draw, number = draws(pytestconfig)
    for _ in range(number):
        table, word, steps = inputs.drawn_table(draw), draw.choice(["", "0", "10"]), draw.choice([0, 3, 40])
        path = written(tmp_path, table)
        if ask(["check"], table)[0] == 0:
            for command in ("machine", "trace"):
                exact = ask([command, f"={word}", str(steps)], table)
                found = called(command, path, word, "--steps", steps)
                assert found[:2] == (exact if exact[0] in (0, 10, 12) else (exact[0], b""))
        for command in ("check", "standard"):
            exact = ask([command], table)
            assert called(command, path)[:2] == (exact if exact[0] == 0 else (exact[0], b""))


QUADRUPLES = [("adder.csv", ["11", "110", ""]), ("counter.csv", ["110"]), ("controlled-not.csv", ["11"])]


@pytest.mark.parametrize("name, words", QUADRUPLES, ids=[name for name, _ in QUADRUPLES])
def test_quadruples_are_taken_by_the_command_for_quintuples(ask, name, words):
    with open(example(name), "rb") as file:
        table = file.read()
    exact = [f"={it}" for it in words]
    status, text, err = called("run", example(name), *words)
    window = window_told(err)
    assert (status, text) == ask(["drive", *exact, *window, str(2**61)], table)
    assert called("view", example(name), *words, "--at", 99)[:2] == ask(["look", *exact, *window, "99"], table)
    assert called("compile", example(name), *words)[:2] == ask(["build", *exact, *window], table)
    assert called("trace", example(name), *words, "--steps", 7)[:2] == ask(["moments", *exact, "7"], table)
    for at in range(4):
        less = [str(int(it) - (it != "0" and place == at)) for place, it in enumerate(window)]
        assert less == window or ask(["drive", *exact, *less, str(2**61)], table)[0] in (6, 11)


def test_the_rest_of_the_window_is_found(ask):
    with open(example("increment.csv"), "rb") as file:
        table = file.read()
    status, text, err = called("run", example("increment.csv"), "1011", "--right", "9")
    assert (status, text) == ask(["run", "=1011", "0", "9", "11", "5"], table) and window_told(err) == [
        "0",
        "9",
        "11",
        "5",
    ]
    assert called("run", example("increment.csv"), "1011", "--window", "auto") == called(
        "run", example("increment.csv"), "1011"
    )
    status, text, err = called("run", example("increment.csv"), "1011", "--window", "1,8,16,8")
    assert (status, text) == ask(["run", "=1011", "1", "8", "16", "8"], table) and err == ""


def test_words_of_names_have_a_window_too(ask, tmp_path):
    table = b"S,_,/,/,_,0,0,M\nM,/,/,/,+,0,0,A\nA,one,/,/,one,0,0,B\nB,/,/,/,+,0,0,C\nC,_,/,/,_,0,0,F\n"
    path = written(tmp_path, table, "names.csv")
    status, text, err = called("run", path, "one", "--names")
    window = window_told(err)
    assert status == 0 and (status, text) == ask(["drive", ":one", *window, str(2**61)], table)
    assert window == ["0", "2", "0", "0"]
    assert called("run", path, "two", "--names")[0] == 5


CIRCUITS = ["two-elements.txt", "two-columns.txt", "across.txt"]


@pytest.mark.parametrize("name", CIRCUITS)
def test_circuits_are_stepped(ask, name):
    with open(example(name), "rb") as file:
        text = file.read()
    for words, exact in (([], ["1"]), (["3"], ["3"])):
        for command in ("step", "back"):
            assert called(command, example(name), *words)[:2] == ask([command, *exact], text)
            assert called(command, "-", *words, data=text)[:2] == ask([command, *exact], text)
    for command in ("mirror", "migrate", "plan"):
        assert called(command, example(name))[:2] == ask([command], text)


def test_inputs_of_two_parts_are_files(ask, tmp_path):
    with open(example("increment.csv"), "rb") as file:
        table = file.read()
    script = written(tmp_path, b"step 5\r\nview", "script.txt")
    exact = ask(["session", "=1", "0", "2", "8", "3"], table + b"%\nstep 5\nview\n")
    assert called("session", example("increment.csv"), "1", script, "--window", "0,2,8,3")[:2] == exact
    path = written(tmp_path, table + b"%\n" + table)
    exact = ask(["erase"], table + b"%\n" + table)
    assert called("erase", example("increment.csv"), example("increment.csv"))[:2] == exact
    assert called("erase", example("increment.csv"), example("increment.csv"), "1", "--steps", 5)[:2] == ask(
        ["erase", "=1", "5"], table + b"%\n" + table
    )
    with open(example("two-elements.txt"), "rb") as file:
        circuit = file.read()
    script = written(tmp_path, b"go 9\r\nview", "walk.txt")
    assert called("walk", example("two-elements.txt"), script)[:2] == ask(["walk"], circuit + b"%\ngo 9\nview\n")
    schedule = written(tmp_path, b"+ 1 2\n- 2 1\n", "schedule.txt")
    exact = ask(["farm"], circuit + b"%\n" + circuit + b"%\n+ 1 2\n- 2 1\n")
    assert called("farm", example("two-elements.txt"), example("two-elements.txt"), schedule)[:2] == exact


def test_the_inverse_of_quintuples_is_that_of_bennetts_machine(ask):
    with open(example("increment.csv"), "rb") as file:
        made = ask(["bennett"], file.read())[1]
    assert called("inverse", example("increment.csv"))[:2] == ask(["inverse"], made)


def test_states_keep_the_names_that_the_user_gave(tmp_path):
    path = written(tmp_path, b"go,0,0,+,go\ngo,1,1,+,rej.1\ngo,_,_,0,done\n")
    status, text, err = called("machine", path, "01")
    assert (status, text) == (10, b"stuck rej.1 _ 3\n") and "brought into standard form" in err
    status, text, _ = called("run", path, "01")
    assert status == 10 and b"exit stuck rej.1 _\n" in text


@pytest.mark.parametrize("name, word, output", [("swap.jff", "ab", b"=ba"), ("parity.yaml", "101", b"=1010")])
def test_machines_of_other_programs_are_read(name, word, output):
    status, text, err = called("run", example(name), word)
    assert status == 0 and text.endswith(b"output " + output + b"\n") and "read as a table of quintuples" in err


def debugged(lines, *words):
    """What the debugger says to lines that are typed, without what it says at first."""
    status, text, err = called("session", *words, "-i", data="".join(f"{line}\n" for line in lines).encode())
    assert status == 0, err
    return text.decode().splitlines()


def places(lines):
    return [line for line in lines if line.startswith(("at ", "left "))]


def test_the_debugger_goes_forward_and_back():
    path = example("increment.csv")
    lines = debugged(["next", "next 3", "prev 3", "", "back", "go", "rev"], path, "1011")
    found = places(lines)
    assert found[0] == "at 4872.w steps 9292" and found[2] == found[0] and found[3] == "at 0.w steps 0"
    assert found[4] == found[3] and found[5].startswith("left ") and found[6] == found[3]
    assert "tape 1 work    from   0: [_] 1  0  1  1  _ " in lines


def test_what_was_done_is_a_script_that_session_plays(tmp_path):
    """The place after each command is that of the script, whatever went on between."""
    path, script = example("increment.csv"), str(tmp_path / "script.txt")
    typed = [
        "step 5000",
        "break b state A3",
        "go",
        "next 2",
        "prev",
        "break element 0",
        "drop b",
        "rev",
        f"save {script}",
    ]
    found = places(debugged(typed, path, "1011"))
    status, text, _ = called("session", path, "1011", script)
    assert status == 0 and places(text.decode().splitlines()) == found


def test_the_debugger_says_what_is_wrong_and_goes_on():
    typed = ["nonsense", "step x", "break b state Nowhere", "drop c", "break x", "step 1"]
    lines = debugged(typed, example("increment.csv"), "1")
    told = [line for line in lines if line.startswith("error: ")]
    assert len(told) == 5 and "no state" in told[2] and places(lines)[-1].endswith("steps 1")


def test_the_debugger_takes_quadruples():
    lines = debugged(["break state L1", "go", "breaks", "view"], example("adder.csv"), "11", "110", "")
    assert "b1 state L1" in lines and "quadruple L1" in lines


JSON = [
    (["run", "increment.csv", "1011"], {"output": "1100", "elements": 14136, "window": [0, 5, 11, 5], "status": 0}),
    (["machine", "stuck.csv", "1"], {"outcome": "stuck", "state": "Go", "letter": "1", "steps": 1, "status": 10}),
    (["trace", "stuck.csv", "1"], {"outcome": "stuck", "letter": "1", "meaning": "stuck"}),
    (["drive", "adder.csv", "11", "110", ""], {"quadruple_steps": 16, "exit": {"kind": "end"}}),
    (["view", "increment.csv", "1", "--at", "999"], {"stage": "compute", "has_left": False}),
    (["check", "least.csv"], {"states": 3, "symbols": 1, "quintuples": 2}),
    (["reversible", "adder.csv"], {"deterministic": True, "reversible": True}),
    (["step", "across.txt"], {"version": 1, "steps": 1, "place": "0.w", "has_left": True}),
    (["moments", "counter.csv", "110"], {"outcome": "halted", "steps": 13}),
    (["erase", "least.csv", "least.csv", ""], {"outcome": "halted", "output": "", "work": ""}),
]


@pytest.mark.parametrize("words, told", JSON, ids=[" ".join(words) for words, _ in JSON])
def test_answers_as_json(words, told):
    words = [example(word) if "." in word else word for word in words]
    status, text, _ = called(*words, "--json")
    found = json.loads(text)
    assert {name: found[name] for name in told} == told and found["status"] == status


def test_json_is_read_of_every_drawn_answer(ask, pytestconfig, tmp_path):
    """Nothing that the program prints is without a reading."""
    draw, number = draws(pytestconfig)
    for _ in range(number):
        path = written(tmp_path, inputs.drawn_table(draw))
        for words in (["machine", "10"], ["bennett"], ["compile", "1"], ["layout", "1"]):
            status, text, _ = called(words[0], path, *words[1:], "--json")
            assert text == b"" or json.loads(text)["status"] == status
        for command in ("run", "trace"):
            status, text, _ = called(command, path, "10", "--steps", "30", "--json")
            assert text == b"" or json.loads(text)["status"] == status


WHOLE = [
    ("session", "least-session.txt", ["", "--window", "0,2,2,1"]),
    ("erase", "not-twice.txt", []),
    ("farm", "two-boards.txt", []),
    ("walk", "two-elements-walk.txt", []),
]


@pytest.mark.parametrize("command, name, words", WHOLE, ids=[command for command, _, _ in WHOLE])
def test_a_file_with_its_parts_is_taken_whole(ask, command, name, words):
    with open(example(name), "rb") as file:
        exact = ask([command, *(["=", "0", "2", "2", "1"] if words else [])], file.read())
    assert exact[0] == 0 and called(command, example(name), *words)[:2] == exact
