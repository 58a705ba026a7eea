"""The machines of examples/machines, each through `machine`, `trace`, and `run =W auto` where a circuit has room.

Held against them are an interpreter that isn't the program's, what each machine is to do on many words, the known
figures of the busy beavers, machines.json, and the rows of the folder's page. A table that starts on the first letter
goes through `standard`: its own figures are those of the interpreter on the table as it stands, and the trace of the
table that `standard` makes has the same moments, one later, with other names of states.
"""
import glob
import itertools
import os

import pytest
from hithwelor import answers

import places
from known_machines import FOLDER, Interpreter, encoded, machines, moments_of, rows_of, table_of, tagged

MACHINES = machines()
PAGE = os.path.join(FOLDER, "README.md")
CASES = [
    pytest.param(name, case, id=f"{name} ={case['word']}") for name, it in MACHINES.items() for case in it["cases"]
]
# The busy beavers' known figures: steps and marks.
FIGURES = {
    "busy-beaver-2": (6, 4),
    "busy-beaver-3-steps": (21, 5),
    "busy-beaver-3-marks": (14, 6),
    "busy-beaver-4": (107, 13),
}
STATUSES = {"halted": 0, "stuck": 10, "running": 12}
PATIENCE = 200000


def asked(words, table, status=0):
    given, text = answers.answer([str(word) for word in words], table.encode())
    assert given == status, f"{words}: {text.decode()[:200]}"
    return text.decode()


def in_standard_form(name):
    """The table of a machine in standard form: as it stands, or as `standard` prints it."""
    return table_of(name) if MACHINES[name]["standard"] else asked(["standard"], table_of(name))


def interpreted(name, word, most=PATIENCE):
    """The run of a table as it stands, by the interpreter."""
    run = Interpreter(rows_of(table_of(name)), word, 0 if MACHINES[name]["standard"] else 1)
    run.run(most)
    return run


def steps_of(name, run):
    """The steps of the machine in standard form: those of the table, and by `standard` one onto the word, one back over
    each letter that ends at the head, and the last."""
    return run.steps if MACHINES[name]["standard"] else run.steps + 2 + run.letters_at_head()


def test_every_table_is_told_and_no_other():
    names = {os.path.basename(path)[:-4] for path in glob.glob(os.path.join(places.TOP, FOLDER, "*.csv"))}
    assert names == set(MACHINES) and len(names) >= 25


@pytest.mark.parametrize("name, case", CASES)
def test_the_interpreter_meets_what_is_told(name, case):
    most = case["steps"] if case["outcome"] == "running" else PATIENCE
    run = interpreted(name, case["word"], most)
    assert (run.outcome(), run.steps) == (case["outcome"], case["steps"])
    if "marks" in case:
        assert run.marks() == case["marks"]
    if run.outcome() == "stuck":
        assert (run.state, run.scanned()) == (case["state"], case["letter"])
    if run.outcome() == "halted":
        assert steps_of(name, run) == case.get("standard steps", case["steps"])


@pytest.mark.parametrize("name", FIGURES)
def test_the_known_figures_of_the_busy_beavers_are_met(name):
    run = interpreted(name, "")
    assert (run.outcome(), run.steps, run.marks()) == ("halted", *FIGURES[name])


@pytest.mark.slow
def test_the_known_figures_of_the_busy_beaver_of_five_states():
    run, known = interpreted("busy-beaver-5", "", 50_000_000), MACHINES["busy-beaver-5"]["cases"][0]["known"]
    assert (run.outcome(), run.steps, run.marks()) == ("halted", 47_176_870, 4_098)
    assert known == {"steps": run.steps, "marks": run.marks()}


@pytest.mark.engine
@pytest.mark.parametrize("name", MACHINES)
def test_a_table_has_the_form_that_is_told(name, answering):
    status, text = answers.answer(["check"], table_of(name).encode())
    assert (status == 0) == MACHINES[name]["standard"]
    assert text.startswith(b"standard " if status == 0 else b"machine: S")
    assert asked(["check"], in_standard_form(name)).startswith("standard ")


@pytest.mark.engine
@pytest.mark.parametrize("name, case", CASES)
def test_machine_answers_as_told(name, case, answering):
    most = case["steps"] if case["outcome"] == "running" else PATIENCE
    text = asked(["machine", f"={case['word']}", most], in_standard_form(name), STATUSES[case["outcome"]])
    steps = case.get("standard steps", case["steps"])
    wanted = {
        "halted": f"halted {steps}\noutput ={case.get('output')}\n",
        "running": f"running {most}\n",
        "stuck": f"stuck {case.get('state')} {case.get('letter')} {steps}\n",
    }
    assert text == wanted[case["outcome"]]


@pytest.mark.engine
@pytest.mark.parametrize("name, case", CASES)
def test_a_trace_has_the_moments_of_the_table_as_it_stands(name, case, answering):
    most, is_own = min(case["steps"], 40000), MACHINES[name]["standard"]
    later = 0 if is_own else 1
    status = STATUSES[case["outcome"] if is_own else "running"]
    told = asked(["trace", f"={case['word']}", most + later], in_standard_form(name), status)
    lines, run, names = told.splitlines()[:-1], interpreted(name, case["word"], 0), {}
    for number, (steps, state, shown, rule) in enumerate(moments_of(lines[later:])):
        assert (steps, shown) == (run.steps + later, run.shown())
        assert names.setdefault(run.state, state) == state and (state == run.state or not is_own)
        if run.outcome() != "halted":
            assert rule == (run.next_rule() and run.next_rule() + later)
            if run.next_rule():
                run.step()
    assert number == case["steps"] and len(set(names.values())) == len(names)


@pytest.mark.engine
@pytest.mark.parametrize("name, case", [it for it in CASES if "window" in it.values[1]])
def test_its_circuit_answers_in_the_window_that_is_found(name, case, answering):
    status = STATUSES[case["outcome"]]
    lines = asked(["run", f"={case['word']}", "auto"], in_standard_form(name), status).splitlines()
    told = [f"window {' '.join(map(str, case['window']))}", f"elements {case['elements']}"]
    if status == 0:
        quadruples = 4 * case.get("standard steps", case["steps"]) + 4 * len(case["output"]) + 5
        told += ["exit end", f"steps {case['element steps']}", f"quadruple steps {quadruples}"]
        assert quadruples == case["quadruple steps"] and lines[-1] == f"output ={case['output']}"
    else:
        told += [f"exit stuck {case['state']} {case['letter']}", f"steps {case['element steps']}"]
    assert lines[: len(told)] == told


@pytest.mark.engine
def test_one_that_runs_on_leaves_its_history(answering):
    text = asked(["run", "=", 8, 16, 1, 1], table_of("counter"), 11)
    assert "exit window 2 right\n" in text


def words_over(letters, longest):
    for length in range(longest + 1):
        yield from map("".join, itertools.product(letters, repeat=length))


def pairs(between, most, form):
    """Words of two numbers with a letter between them, each with the two."""
    return [(form(one) + between + form(other), one, other) for one in range(most + 1) for other in range(most + 1)]


def unary(number):
    return "1" * number


def balanced(word):
    depth = 0
    for letter in word:
        depth += 1 if letter == "(" else -1
        if depth < 0:
            return "n"
    return "n" if depth else "y"


def collatz(number):
    return number // 2 if number % 2 == 0 else 3 * number + 1


def gray(word):
    number = int(word, 2)
    return f"{number ^ number >> 1:0{len(word)}b}"


def ungray(word):
    return next(it for it in words_over("01", len(word)) if len(it) == len(word) and gray(it) == word)


def is_abc(word):
    third = len(word) // 3
    return "y" if word == "a" * third + "b" * third + "c" * third else "n"


BINARY, NUMBERS = [it for it in words_over("01", 5) if it], range(1, 40)
# What each machine is to do: words with their outputs.
MEANINGS = {
    "add-unary": [(word, unary(one + other)) for word, one, other in pairs("+", 4, unary)],
    "add-binary": [(word, f"{one + other:b}") for word, one, other in pairs("+", 9, "{:b}".format)],
    "subtract": [(word, unary(max(0, one - other))) for word, one, other in pairs("-", 4, unary)],
    "double": [(unary(number), unary(2 * number)) for number in range(8)],
    "compare": [(word, "=<>"[(one < other) + 2 * (one > other)]) for word, one, other in pairs(":", 4, unary)],
    "multiply": [(word, unary(one * other)) for word, one, other in pairs("x", 4, unary)],
    "halve": [(unary(number), unary(number // 2)) for number in range(10)],
    "third": [(word, f"{int(word, 2) // 3:0{len(word)}b}") for word in BINARY],
    "parity": [(word, str(word.count("1") % 2)) for word in words_over("01", 5)],
    "brackets": [(word, balanced(word)) for word in words_over("()", 6)],
    "palindrome": [(word, "y" if word == word[::-1] else "n") for word in words_over("ab", 5)],
    "abc": [(word, is_abc(word)) for word in [*words_over("abc", 4), "aabbcc", "aaabbbccc", "aabbbc", "abcabc"]],
    "copy": [(word, f"{word}:{word}") for word in words_over("01", 4)],
    "reverse": [(word, word[::-1]) for word in words_over("01", 5)],
    "sort": [(word, "".join(sorted(word))) for word in words_over("01", 6)],
    "collatz": [(f"{number:b}", f"{collatz(number):b}") for number in NUMBERS],
    "hailstone": [(f"{number:b}", "1") for number in NUMBERS if number != 27],
    "count": [("a" * number, f"{number:b}") for number in range(1, 18)],
    "decrement": [(f"{number:b}", f"{number - 1:b}") for number in NUMBERS],
    "gray": [(word, gray(word)) for word in BINARY],
    "ungray": [(word, ungray(word)) for word in BINARY],
    "stuck": [("", ""), ("0101", "0101"), ("10", "10")],
    "tag": [("a" * number, "a") for number in range(1, 5)] + [("bc", "a"), ("cb", "a"), ("b", "b"), ("", "")],
}
TAG_SYSTEMS = [
    ([[2, 3], [1], [1, 1, 1]], [1, 1, 1, 1]),
    ([[1]], [1, 1, 1]),
    ([[], [1]], [2, 2, 1, 1]),
    ([[], []], [1, 2]),
    ([[2], [3, 1], [3]], [2, 1, 3, 2, 1]),
    ([[2, 3], [1], [1, 1, 1]], [1]),
]


def test_each_machine_has_a_meaning():
    assert set(MACHINES) == {*MEANINGS, *FIGURES, "busy-beaver-5", "counter", "universal"}


@pytest.mark.engine
@pytest.mark.parametrize("name", MEANINGS)
def test_it_does_what_it_is_to_do(name, answering):
    table = in_standard_form(name)
    for word, output in MEANINGS[name]:
        run = interpreted(name, word)
        told = asked(["machine", f"={word}", PATIENCE], table)
        assert told == f"halted {steps_of(name, run)}\noutput ={output}\n", word


@pytest.mark.engine
@pytest.mark.parametrize("rules, word", TAG_SYSTEMS)
def test_the_universal_machine_does_what_a_tag_system_does(rules, word, answering):
    program = "".join(";" + encoded(rule) for rule in rules) + ":" + encoded(word)
    told = asked(["machine", f"={program}", PATIENCE], table_of("universal"))
    assert told.splitlines()[1] == "output =" + encoded(tagged(rules, word))


UNDOING = [
    ("decrement", "100", "11"),
    ("gray", "10110", "11101"),
    ("ungray", "111", "101"),
    ("reverse", "1101", "1011"),
]
UNDONE_BY = {"decrement": "../increment", "gray": "ungray", "ungray": "gray", "reverse": "reverse"}


@pytest.mark.engine
@pytest.mark.parametrize("name, word, output", UNDOING)
def test_machines_that_undo_one_another_leave_the_output_alone(name, word, output, answering):
    other = UNDONE_BY[name]
    second = places.text_of("examples", "increment.csv") if other.startswith(".") else in_standard_form(other)
    told = asked(["erase", f"={word}", 1000], in_standard_form(name) + "%\n" + second)
    assert told.splitlines()[1:] == ["work =", f"output ={output}"]


@pytest.mark.engine
@pytest.mark.parametrize(
    "name, first, second", [("gray-ungray", "gray", "ungray"), ("increment-decrement", "../increment", "decrement")]
)
def test_the_files_of_pairs_are_their_tables(name, first, second, answering):
    before = places.text_of("examples", "increment.csv") if first.startswith(".") else in_standard_form(first)
    assert places.text_of(FOLDER, f"{name}.txt") == before + "%\n" + in_standard_form(second)


def overlapping(rows):
    """The pairs of quintuples that lead to one configuration: one state, and one letter there, or two moves."""
    return [
        (number, other)
        for number, row in enumerate(rows, 1)
        for other, before in enumerate(rows[: number - 1], 1)
        if row[4] == before[4] and (row[3] != before[3] or row[2] == before[2])
    ]


@pytest.mark.parametrize("name", MACHINES)
def test_each_machine_forgets(name):
    """None is reversible as it stands, and the three that lecture 1 names have one pair each."""
    pairs = overlapping(rows_of(table_of(name)))
    assert pairs and (len(pairs) == 1) == (name in ("busy-beaver-2", "add-unary", "gray"))


def row_of(it):
    """A machine's row of the page."""
    case = it["cases"][0]
    stuck = f"stuck in {case.get('state')} at {case.get('letter')}"
    answer = {"halted": f"`{case.get('output')}`", "running": "runs on", "stuck": stuck}
    marks = f", {case['marks']} marks" if "marks" in case else ""
    steps = f"{case['steps']}" + (f", {case['standard steps']}" if "standard steps" in case else "")
    steps = "" if case["outcome"] == "running" else steps
    elements = f"{case['elements']:,}" if "elements" in case else ""
    return (
        f"| [{it['name']}]({it['name']}.csv) | {it['what']} | {it['whence']} | {it['seen']} | `={case['word']}` "
        f"| {answer[case['outcome']]}{marks} | {steps} | {elements} |"
    )


@pytest.mark.parametrize("name", MACHINES)
def test_the_page_has_its_row(name):
    row = row_of(MACHINES[name])
    assert row in places.text_of(PAGE).splitlines(), f"{PAGE} lacks: {row}"
