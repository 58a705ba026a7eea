"""Every command on inputs that a reader would try, on every front of a text and of a table, and on inputs that are changed at
random, each answer held against what any answer must be: inputs.py says what that is, and how inputs are drawn.

The proved static library answers, linked anew, where it stands and there is a C compiler; else the proved program, a process
an answer; else the module under node, but to inputs that are drawn. `--drawn N` draws another number of inputs, `--seed S`
others.
"""
import json
import os
import subprocess
import sys

import inputs
import places
import pytest
from hithwelor import answers

BY_LIBRARY, BY_PROCESSES = 20_000, 1_000
SHARES = 4
SEED = 40
# The commands to which inputs are drawn; of so many inputs each has some.
COMMANDS = {*inputs.TEXT_COMMANDS, *inputs.TABLE_COMMANDS, "session", "play", "erase", "farm"}
MANY = 2_000
pytestmark = pytest.mark.engine


def asked_for(request, name):
    """What a fixture gives, or None where it skips."""
    try:
        return request.getfixturevalue(name)
    except pytest.skip.Exception:
        return None


@pytest.fixture(scope="module")
def ask(request):
    """What answers words and bytes."""
    library, program = asked_for(request, "shared_library"), asked_for(request, "proved_program")
    if library or program:
        yield inputs.by_way(answers.Library(library)) if library else inputs.by_program(program)
        return
    way = answers.Node(request.getfixturevalue("any_node"), request.getfixturevalue("module"))
    yield inputs.by_way(way)
    way.close()


@pytest.mark.parametrize("line, data, status, text", inputs.HOSTILE)
def test_an_input_that_a_reader_would_try(ask, line, data, status, text):
    assert ask(line.split(), data) == (status, text + "\n")


@pytest.mark.slow
@pytest.mark.parametrize("line, name", inputs.CUT)
def test_the_fronts_of_an_input(ask, line, name, comparisons):
    """Each has the form that any answer has; a front of a configuration text is refused at one of its text lines."""
    words, whole, faults = line.split(), inputs.EXAMPLES[name], []
    for size in range(len(whole)):
        status, fault = inputs.judged(ask, words, whole[:size])
        if not fault and words[0] in inputs.TEXT_COMMANDS and status != 3:
            fault = f"status {status} for a front of a text"
        if fault:
            faults.append(f"{whole[:size]!r}: {fault}")
    assert not faults, "\n".join(faults[:20])
    comparisons(len(whole))


@pytest.fixture(scope="module")
def shares(request):
    """What the processes print that draw inputs, side by side: for each its lines and its status."""
    library = asked_for(request, "shared_library")
    told = ["--library", library] if library else [request.getfixturevalue("proved_program")]
    drawn = request.config.getoption("--drawn") or (BY_LIBRARY if library else BY_PROCESSES)
    seed = SEED + request.config.getoption("--seed") - 1
    calls = [
        [sys.executable, "-B", inputs.__file__, str(seed), str(first), str(SHARES), str(drawn), *told]
        for first in range(SHARES)
    ]
    environment = {**os.environ, "PYTHONPATH": os.path.join(places.TOP, "tests")}
    ran = [subprocess.Popen(call, cwd=places.TOP, stdout=subprocess.PIPE, text=True, env=environment) for call in calls]
    return [(it.communicate()[0].splitlines(), it.returncode) for it in ran]


@pytest.mark.slow
@pytest.mark.parametrize("share", range(SHARES))
def test_inputs_that_are_drawn(shares, share, comparisons):
    lines, status = shares[share]
    batches = [json.loads(line) for line in lines if line.startswith("{")]
    assert status == 0, f"in {lines[-1:]} an answer took more than {inputs.SECONDS} s or ended its process: {status}"
    faults = [f"{' '.join(words)} on {data}:\n  {fault}" for it in batches for words, data, fault in it["faults"]]
    assert not faults, "\n".join(faults[:20])
    number, reached = sum(it["number"] for it in batches), {name for it in batches for name, _, _ in it["reached"]}
    assert number < MANY or COMMANDS <= reached, "a command has no input"
    comparisons(number)


@pytest.mark.parametrize(
    "words, status, text",
    [
        (["check"], 0, "standard states 4 symbols 3\n"),
        (["check"], 7, "read fault\n"),
        (["step", "1"], 3, "text: line 0x syntax\n"),
        (["machine", "=1", "4"], 12, "halted 3\n"),
    ],
)
def test_an_answer_of_another_form_is_seen(words, status, text):
    assert inputs.form_fault(words, status, text)
