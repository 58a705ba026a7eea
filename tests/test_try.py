"""./try: which way answers, on machines that have this and lack that; and what it says where none can."""
import os

import places
import pytest
from places import BY_MODULE, BY_PROGRAM, RUN, RUN_ANSWER, Spent, run

OLD_NODE = """#!/bin/sh
[ "$1" = --version ] && echo v16.20.2 && exit
exec {node} -r {room}/old.js "$@"
"""
OLD_JS = 'Object.defineProperty(process, "versions", {value: {...process.versions, node: "16.20.2"}});\n'
RT = '#!/bin/sh\necho "run=ended status=0" >&2\necho "by the toolchain"\n'


def tried(folder, path, words=RUN, table="increment.csv", **more):
    """./try with a table of the examples, from another folder."""
    with open(os.path.join(folder, "examples", table), encoding="utf-8") as file:
        return run([os.path.join(folder, "try"), *words], path=path, cwd="/", stdin=file, **more)


def test_each_node_answers_by_the_module(clone, machine, node):
    path = machine(node=node)
    with Spent() as spent:
        ran = tried(clone, path)
    assert (ran.returncode, ran.stdout) == (0, RUN_ANSWER)
    assert BY_MODULE in ran.stderr and "the proved code" in ran.stderr and ran.stderr.count("\n") == 1
    assert spent.seconds < 2


def test_the_toolchain_isnt_asked_where_node_answers(clone, machine, any_node):
    ran = tried(clone, machine(node=any_node, rt=RT))
    assert ran.stdout == RUN_ANSWER and BY_MODULE in ran.stderr


@pytest.mark.parametrize(
    "name",
    [
        "page/src/app.js~",
        "page/src/.app.js.swp",
        "page/src/#app.js#",
        "page/src/app.js.orig",
        "crates/bn_io/src/lib.rt~",
        "crates/bn_io/src/.lib.rt.swp",
    ],
)
def test_a_backup_file_among_the_sources_disturbs_nothing(own_clone, machine, any_node, name):
    places.write(os.path.join(own_clone, name), "what an editor leaves\n")
    ran = tried(own_clone, machine(node=any_node))
    assert ran.stdout == RUN_ANSWER and BY_MODULE in ran.stderr


def test_node_without_python_answers(clone, machine, any_node):
    path = machine(node=any_node)
    assert run(["sh", "-c", "command -v python3"], path=path).returncode != 0
    ran = tried(clone, path, ["check"], "least.csv")
    assert ran.stdout == "standard states 3 symbols 1 quintuples 2\n" and BY_MODULE in ran.stderr


def test_where_nothing_answers_the_message_names_what_is_there(clone, machine, any_node, tmp_path):
    places.write(str(tmp_path / "old.js"), OLD_JS)
    old = OLD_NODE.format(node=any_node, room=tmp_path)
    for path, named in (
        (machine(), "node isn't on the path"),
        (machine(node=old), "node is v16.20.2, and the module needs 18 or later"),
    ):
        ran = tried(clone, path)
        assert (ran.returncode, ran.stdout, ran.stderr.count("\n")) == (1, "", 1)
        for told in ("the proved program isn't built", named, "command rt isn't on the path"):
            assert told in ran.stderr


def test_a_source_that_isnt_the_modules_is_named(own_clone, machine, any_node):
    with open(os.path.join(own_clone, "page", "src", "app.js"), "a", encoding="utf-8") as file:
        file.write("// changed\n")
    ran = tried(own_clone, machine(node=any_node))
    assert ran.returncode == 1 and "page/src/app.js isn't as it was when bin/hithwelor was built" in ran.stderr
    ran = tried(own_clone, machine(node=any_node, rt=RT))
    assert ran.stdout == "by the toolchain\n"
    assert "not by the module: page/src/app.js" in ran.stderr and "nothing is proved" in ran.stderr


def test_the_toolchain_answers_where_nothing_else_can(clone, machine):
    ran = tried(clone, machine(rt=RT))
    assert (ran.returncode, ran.stdout) == (0, "by the toolchain\n")
    assert "not by the module: node isn't on the path" in ran.stderr


def test_the_toolchain_without_python_is_told_so(clone, machine):
    """The toolchain's command is a program of Python: no limit of it is blamed where that is lacking."""
    ran = tried(clone, machine(rt="#!/usr/bin/env python3\n"))
    assert (ran.returncode, ran.stdout) == (1, "")
    assert ran.stderr.splitlines()[-1] == (
        "try: no answer: the command rt needs Python 3.9 or later, and python3 isn't " "on the path"
    )
    assert "ten minutes" not in ran.stderr


def test_the_toolchain_that_gives_no_answer_is_told_so(clone, machine, python):
    ran = tried(clone, machine(rt="#!/bin/sh\nexit 1\n", python=python))
    assert ran.returncode == 1 and "runs for at most ten minutes" in ran.stderr.splitlines()[-1]


def test_the_program_answers_where_it_stands(own_clone, machine, any_node):
    places.stand_in(own_clone)
    ran = tried(own_clone, machine(node=any_node))
    assert ran.stdout == RUN_ANSWER and BY_PROGRAM in ran.stderr and "the stand-in of the program" in ran.stderr


def test_the_proved_program_answers(clone, own_clone, machine, proved_program):
    places.copy_proved(places.TOP, own_clone)
    ran = tried(own_clone, machine())
    assert ran.stdout == RUN_ANSWER and BY_PROGRAM in ran.stderr


def test_a_clone_with_windows_line_ends_runs(tmp_path, machine, any_node, needs):
    needs("git")
    folder = places.clone_to(str(tmp_path / "autocrlf"), "-c", "core.autocrlf=true")
    ran = tried(folder, machine(node=any_node))
    assert ran.stdout == RUN_ANSWER and BY_MODULE in ran.stderr
