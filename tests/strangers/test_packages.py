"""The packages' pages where strangers stand: in a clean clone with Python alone, with Node.js alone and with both, and in a folder
elsewhere; with each Python and each Node.js that is found. (tests/test_release.py installs what a release has.)
"""
import os

import places
import pytest
from places import run

pytestmark = pytest.mark.slow
ASK = "import hithwelor; print(hithwelor.Machine.open('examples/increment.csv').by_itself('1011').output)"
# The first examples of js/README.md, by the file that a clone has.
FIRST = """import {load} from "./js/node.mjs";
import {readFileSync} from "node:fs";
const {Machine, answer} = await load();
console.log(answer(["nonsense"]).text + new Machine(readFileSync("examples/increment.csv", "utf8")).byItself("1011").output);
"""


def there(path, clone, **more):
    """The environment of a reader who put the package's folder on the path."""
    return places.environment(path, PYTHONPATH=os.path.join(clone, "python"), PYTHONDONTWRITEBYTECODE="1", **more)


def test_python_alone_says_what_to_install(clone, machine, python):
    env = there(machine(python=python), clone)
    asked = run(["python3", "-c", ASK], cwd=clone, env=env)
    swept = run(["python3", "-m", "hithwelor", "sweep", "examples/increment.csv", "--up-to", "1"], cwd=clone, env=env)
    for ran in (asked, swept):
        assert ran.returncode == 1 and "no engine is here: install Node.js 18 or later" in ran.stderr
    assert swept.stdout == "" and swept.stderr.count("\n") == 1


def test_python_with_node_runs_the_examples_of_its_page(clone, machine, python, any_node, tmp_path):
    page, outside, rest = places.text_of("python", "README.md").partition("## With other packages")
    assert outside and rest
    places.write(str(tmp_path / "page.txt"), page)
    env = there(machine(python=python, node=any_node), clone)
    ran = run(["python3", "-m", "doctest", str(tmp_path / "page.txt")], cwd=clone, env=env)
    assert (ran.returncode, ran.stdout, ran.stderr) == (0, "", "")


def test_python_with_node_answers_from_another_folder(clone, machine, python, any_node, tmp_path):
    env = there(machine(python=python, node=any_node), clone)
    script = ASK.replace("'examples/", f"'{clone.replace(chr(39), chr(92) + chr(39))}/examples/")
    ran = run(["python3", "-c", script], cwd=str(tmp_path), env=env)
    assert (ran.returncode, ran.stdout) == (0, "1100\n"), ran.stderr


def test_an_old_node_is_named_by_its_version(clone, machine, python):
    old = '#!/bin/sh\n[ "$1" = --version ] && echo v16.20.2 && exit\nexit 86\n'
    ran = run(["python3", "-c", ASK], cwd=clone, env=there(machine(python=python, node=old), clone))
    assert ran.returncode == 1 and ran.stderr.rstrip().endswith("is Node.js v16.20.2, and 18 or later is needed")


def test_node_alone_runs_the_first_examples_of_its_page(clone, machine, node):
    ran = run(["node", "--input-type=module", "-e", FIRST], cwd=clone, path=machine(node=node))
    assert (ran.returncode, ran.stdout) == (0, "usage\n1100\n"), ran.stderr
