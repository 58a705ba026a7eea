"""What is said on standard error to words and inputs that are wrong, and what is completed."""
import json
import os
import re

import places
import pytest
from hithwelor.cli_errors import base
from places import run


@pytest.fixture
def any_python():
    """The path of the first Python that is found."""
    found = places.pythons()
    if not found:
        pytest.skip("Python 3.9 or later isn't installed")
    return next(iter(found.values()))


@pytest.fixture
def tried(clone, machine, any_node, any_python):
    path = machine(node=any_node, python=any_python)

    def call(*words, **more):
        return run([os.path.join(clone, "try"), *words], path=path, cwd=os.path.join(clone, "examples"), **more)

    return call


@pytest.mark.parametrize(
    "words, hint",
    [
        (["check", "."], ". is a folder: check reads a file, by < FILE"),
        (["check", "nofile.csv"], "there is no file nofile.csv"),
        (["check", "no/file"], "there is no file no/file"),
        (["refused"], "refused is a folder: name a command first"),
        (["check", "least.csv"], "least.csv is a file: write < least.csv"),
        (["generate", "nofile.csv"], "nofile.csv is no argument of generate, which reads no file either"),
    ],
)
def test_a_word_that_names_a_folder_or_no_file_is_told(tried, words, hint):
    ran = tried(*words)
    assert (ran.returncode, ran.stdout) == (2, "usage\n")
    assert f"error: {hint}" in ran.stderr


def test_a_folder_as_input_is_told(tried, clone):
    folder = os.open(os.path.join(clone, "examples"), os.O_RDONLY)
    try:
        ran = tried("check", stdin=folder)
    finally:
        os.close(folder)
    assert (ran.returncode, ran.stdout) == (7, "read fault\n")
    assert "try: status 7: the input can't be read: it is a folder" in ran.stderr


def test_a_full_device_as_output_is_told(clone, machine, any_node):
    ran = run(["bash", "-c", "./try generate 1 > /dev/full"], path=machine(node=any_node), cwd=clone)
    assert ran.returncode == 8 and "error: the output was not taken whole" in ran.stderr


def test_without_python_a_refusal_is_told_in_short(clone, machine, any_node):
    ran = run([os.path.join(clone, "try"), "check"], path=machine(node=any_node), input="S,_,_,R,T\n")
    assert (ran.returncode, ran.stdout) == (3, "text: record 1 field 4 shift\n")
    assert ran.stderr.splitlines()[-2] == "error: field 4 of record 1 is not a move"


def test_node_and_python_explain_alike(any_node):
    """The command of Node.js alone, and the package without its inputs, say the same of every refusal that help.md shows."""
    shown = re.findall(r"^((?:text|machine|word|size): .*)$", places.text_of("docs/use/help.md"), flags=re.M)
    script = "import {explained} from './js/explain.mjs'; for (const it of JSON.parse(process.argv[1])) console.log(explained('check', 3, it));"
    ran = run([any_node, "--input-type=module", "-e", script, json.dumps(shown)])
    assert ran.stdout.split("\n\n")[: len(shown)] == ["error: {}\nhelp: {}".format(*base(it, "check")) for it in shown]


def test_what_comes_by_a_pipe_or_a_file_is_explained_alike(tried, tmp_path):
    told = "error: standard input, line 2: moves are + - 0 here; this table uses L and R"
    table = tmp_path / "table.csv"
    table.write_text("S,_,_,+,T\nT,_,_,R,T\nT,1,_,L,F\n", encoding="utf-8")
    with open(table, encoding="utf-8") as file:
        for ran in (tried("check", stdin=file), tried("check", input=table.read_text(encoding="utf-8"))):
            assert (ran.returncode, ran.stdout) == (3, "text: record 2 field 4 shift\n") and told in ran.stderr


PIECES = ["./hithwelor run examples/increment.csv 1011", "./hithwelor run =1011 0 5 11 5 < examples/increment.csv"]


@pytest.mark.parametrize("command", PIECES)
def test_the_command_of_a_clone_answers_with_each_python(clone, machine, any_node, python, command):
    ran = run(["bash", "-c", command], path=machine(node=any_node, python=python), cwd=clone)
    assert (ran.returncode, ran.stdout) == (0, places.RUN_ANSWER), ran.stderr


def test_without_python_the_command_takes_exact_forms_and_tells_what_the_rest_needs(clone, machine, any_node):
    path = machine(node=any_node)
    ran = run(["bash", "-c", PIECES[1]], path=path, cwd=clone)
    assert (ran.returncode, ran.stdout, ran.stderr) == (0, places.RUN_ANSWER, "")
    ran = run(["bash", "-c", PIECES[0]], path=path, cwd=clone)
    assert (ran.returncode, ran.stdout) == (2, "") and "Python 3.9 or later" in ran.stderr
    ran = run(["bash", "-c", PIECES[0]], path=machine(), cwd=clone)
    assert (ran.returncode, ran.stdout) == (1, "") and "node isn't on the path" in ran.stderr


def test_without_node_the_command_tells_what_is_missing(clone, machine, any_python):
    ran = run(["bash", "-c", PIECES[0]], path=machine(python=any_python), cwd=clone)
    assert (ran.returncode, ran.stdout) == (1, "") and "node" in ran.stderr.lower() and "Traceback" not in ran.stderr


def test_help_is_completed_in_bash():
    script = 'source tools/completion.bash; COMP_WORDS=(./try he) COMP_CWORD=1; _hithwelor; echo "${COMPREPLY[*]}"'
    assert run(["bash", "-c", script], cwd=places.TOP).stdout == "help\n"


ASKING = [
    "./hithwelor run examples/increment.csv 1011",
    "./try check < examples/least.csv",
    "tools/draw < examples/two-elements.txt",
    "tools/import --standard examples/swap.jff",
    "tools/layers =1011 0 5 11 5 2000 < examples/increment.csv",
]


@pytest.mark.parametrize("command", ASKING)
def test_nothing_starts_a_proof(clone, machine, any_node, any_python, tmp_path, command):
    """By the module where the proved program isn't built, with the toolchain at hand or not; without Node.js a line says so."""
    called = tmp_path / "called"
    path = machine(node=any_node, python=any_python, rt=f"#!/bin/sh\necho >{called}\nexit 1\n")
    ran = run(["bash", "-c", command], path=path, cwd=clone)
    assert ran.returncode == 0 and ran.stdout and not called.exists(), ran.stderr
    ran = run(["bash", "-c", command], path=machine(python=any_python), cwd=clone)
    assert ran.returncode in (1, 2) and ran.stdout == "" and "node" in ran.stderr.splitlines()[-1].lower()
    assert "Traceback" not in ran.stderr
