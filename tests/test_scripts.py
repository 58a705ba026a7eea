"""The other scripts, on machines that lack what they want: one plain sentence and a status, and no traceback."""
import glob
import os
import re
import shutil
import sys

import places
import pytest
from places import run


def test_prove_without_the_toolchain(clone, machine):
    ran = run([os.path.join(clone, "tools", "prove")], path=machine(lacks=["rt", "node"]))
    assert (ran.returncode, ran.stdout, ran.stderr.count("\n")) == (1, "", 1)
    assert "the toolchain's command rt isn't on the path" in ran.stderr and "./try" in ran.stderr


def test_prove_notes_what_it_built(own_clone):
    """Where the build is done and the sources are as they were, what stands counts as that of these sources."""
    script = (
        "import importlib.machinery, importlib.util, sys\n"
        "loader = importlib.machinery.SourceFileLoader('prove', sys.argv[1])\n"
        "module = importlib.util.module_from_spec(importlib.util.spec_from_loader('prove', loader))\n"
        "loader.exec_module(module)\n"
        "before = module.digests()\n"
        "if len(sys.argv) > 2: open(sys.argv[2], 'a').write('\\n')\n"
        "module.noted('bn_main', before)\n"
    )
    places.write(os.path.join(own_clone, places.PROGRAM), "#!/bin/sh\n", is_run=True)
    tool = os.path.join(own_clone, "tools", "prove")
    assert run(["python3", "-B", "-c", script, tool]).returncode == 0
    assert run([os.path.join(own_clone, "tools", "program")]).returncode == 0
    ran = run(["python3", "-B", "-c", script, tool, os.path.join(own_clone, "crates", "bn_io", "src", "lib.rt")])
    assert "a source has changed since this began" in ran.stderr
    assert run([os.path.join(own_clone, "tools", "program")]).returncode == 1


def test_the_gate_without_the_toolchain_ends_at_once(clone, machine):
    ran = run(["bash", os.path.join(clone, ".ci", "run")], path=machine(lacks=["rt"]), seconds=20)
    assert ran.returncode != 0 and ran.stdout == "" and ran.stderr.count("\n") == 1
    assert "the command rt isn't on the path" in ran.stderr


def test_the_gate_names_a_first_look_where_it_can_run(clone, machine, any_node, python):
    gate = ["bash", os.path.join(clone, ".ci", "run")]
    ran = run(gate, path=machine(node=any_node, python=python), seconds=20)
    assert ran.stderr.rstrip().endswith("check/quick needs no rt, and can run here")
    for path in (machine(python=python), machine(node=any_node)):
        ran = run(gate, path=path, seconds=20)
        assert ran.stderr.rstrip().endswith("check/quick needs no rt, but Python 3.9 or later and node 18 or later")


def test_the_first_look_shows_its_help():
    ran = run([sys.executable, os.path.join(places.TOP, "check", "quick"), "--help"], seconds=20)
    assert (ran.returncode, ran.stderr) == (0, "") and ran.stdout.startswith("usage: check/quick")


def test_the_gate_runs_everything_proved_and_every_test():
    lines = places.text_of(".ci", "run").splitlines()
    tests = next(number for number, line in enumerate(lines) if '-m pytest -q -m "" --closing-line' in line)
    assert "rt ci" in lines and lines.index("rt ci") < lines.index("tools/setup") < tests


CLOSED = [("<&-", 7, "read fault\n", "error: standard input is closed\n"), (">&-", 8, "", "")]


@pytest.mark.parametrize("closed, status, output, said", CLOSED)
def test_the_package_with_a_closed_input_or_output(clone, machine, any_node, python, closed, status, output, said):
    path = machine(node=any_node, python=python)
    ran = run(
        ["bash", "-c", f"python3 -B -m hithwelor check {closed}"],
        path=path,
        cwd=os.path.join(clone, "python"),
        **({} if "<" in closed else {"input": "S,_,_,+,T\nT,_,_,0,F\n"}),
    )
    assert (ran.returncode, ran.stdout, ran.stderr) == (status, output, said)


def test_building_the_page_tells_how_far_it_is(own_clone, machine):
    """The toolchain's stand-in proves nothing: what is said before it fails is what matters."""
    path = machine(lacks=["rt", "node"], rt='#!/bin/sh\necho "$0"\n')
    ran = run([os.path.join(own_clone, "embed", "build")], path=path)
    said = ran.stderr.splitlines()
    assert ran.returncode != 0 and "embed/build: proving bn_embed and what it stands on" in said[0]
    assert [line for line in said if line.startswith("workbench: ")], "what tools/prove tells isn't shown"
    assert "Traceback" not in ran.stderr


def test_quick_with_node_alone_runs_the_documents_by_the_module(own_clone, machine, any_node):
    """With one page of documents in place of all."""
    for folder in (
        own_clone,
        *glob.glob(os.path.join(own_clone, "docs", "*", "")),
        os.path.join(own_clone, "examples"),
    ):
        for name in os.listdir(folder):
            if name.endswith(".md") and name != "help.md":
                os.remove(os.path.join(folder, name))
    ran = run([os.path.join(own_clone, "check", "quick")], path=machine(lacks=["rt"], node=any_node))
    last = ran.stdout.splitlines()[-1]
    assert ran.returncode == 0 and ran.stdout.startswith("by bin/hithwelor\n"), ran.stdout[-500:]
    assert re.fullmatch(r"\d{2,} passed, 0 failed, 2 skipped", last)


def test_quick_with_nothing_says_what_is_lacking(clone, machine):
    ran = run([os.path.join(clone, "check", "quick")], path=machine(lacks=["rt", "node"]))
    assert ran.returncode == 1 and ran.stderr.count("\n") == 1 and "node isn't on the path" in ran.stderr


def block_of_the_shell():
    blocks = re.findall(r"```bash\n(.*?)```", places.text_of("docs", "use", "many.md"), flags=re.S)
    return next(it for it in blocks if "compare.sh" in it)


def test_the_loop_of_the_shell_in_many_runs(own_clone, machine, any_node):
    """The lines of the page as they stand there, with words of up to two letters."""
    block = block_of_the_shell()
    assert "1 2 3 4 5 6" in block
    ran = run(["bash", "-c", block.replace("1 2 3 4 5 6", "1 2")], path=machine(node=any_node), cwd=own_clone)
    assert (ran.returncode, ran.stdout.splitlines()[-1:]) == (0, ["7 of 7 agree"]), ran.stderr
    assert os.access(os.path.join(own_clone, "compare.sh"), os.X_OK)


def test_the_loop_of_the_shell_without_a_program_reads_as_no_success(own_clone, machine):
    block = block_of_the_shell()
    ran = run(["bash", "-c", block.replace("1 2 3 4 5 6", "1 2")], path=machine(), cwd=own_clone)
    assert ran.stdout.splitlines()[-1:] == ["0 of 7 agree"]


def scripts_of_the_shell(folder):
    """The tracked files that a shell runs or sources."""
    for name in places.git("ls-files", "-z", cwd=folder).split("\0"):
        path = os.path.join(folder, name)
        if name.endswith((".sh", ".bash")):
            yield name
        elif name and "." not in os.path.basename(name) and os.path.isfile(path):
            with open(path, "rb") as file:
                if re.match(rb"#!.*\b(ba)?sh\b", file.readline()):
                    yield name


def test_the_scripts_of_the_shell(clone, needs):
    needs("shellcheck")
    names = sorted(scripts_of_the_shell(clone))
    assert {"try", "workbench", ".ci/run", "tools/setup", "tools/lib/front.sh"} <= set(names)
    ran = run(["shellcheck", "-x", "-e", "SC1090,SC1091", *names], cwd=clone)
    assert ran.returncode == 0, ran.stdout


@pytest.mark.parametrize("planted, told", [("cat $1\n", "SC2086"), ("local it=3\n", "SC2168")])
def test_a_fault_planted_in_a_script_is_seen(own_clone, needs, planted, told):
    """A word without quotes, and a variable of a function outside of one."""
    needs("shellcheck")
    with open(os.path.join(own_clone, "tools", "setup"), encoding="utf-8") as file:
        text = file.read()
    places.write(os.path.join(own_clone, "tools", "setup"), text.replace("set -u\n", f"set -u\n{planted}", 1))
    ran = run(["shellcheck", "-x", "-e", "SC1090,SC1091", "tools/setup"], cwd=own_clone)
    assert ran.returncode == 1 and told in ran.stdout


# A stand-in of the toolchain, which proves nothing and ends with the status that it finds in a file.
TOOLCHAIN = '#!/bin/sh\n[ "$1" = ci ] && echo "rt: stand-in" && exit "$(cat "$STATUS")"\nexit 1\n'
# The tests of a clone in which the gate is tried: none of them runs pytest.
OF_THE_GATE = """import pytest


@pytest.mark.parametrize("number", range(3))
def test_one(number, comparisons):
    comparisons(10)


@pytest.mark.slow
def test_two():
    pytest.skip("a browser isn't installed: tools/setup")
"""


def gate_of(own_clone, machine, status, more=""):
    """What the gate of a clone gives whose tests are those above, on a machine whose toolchain ends with this status."""
    for folder in ("tests", "python/tests"):
        for name in os.listdir(os.path.join(own_clone, folder)):
            if name.startswith("test_"):
                os.remove(os.path.join(own_clone, folder, name))
    for folder in ("tests/strangers", "tests/tools", "tests/page"):
        shutil.rmtree(os.path.join(own_clone, folder))
    places.write(os.path.join(own_clone, "tests", "test_gate.py"), OF_THE_GATE + more)
    places.write(os.path.join(own_clone, "tools", "setup"), "#!/bin/sh\necho 'the setup of tools'\n", is_run=True)
    places.write(os.path.join(own_clone, "status"), str(status))
    path = machine(lacks=["rt", "node"], rt=TOOLCHAIN, python=sys.executable)
    env = places.environment(path, STATUS=os.path.join(own_clone, "status"))
    ran = run(["bash", os.path.join(own_clone, ".ci", "run")], env=env)
    return ran.returncode, ran.stdout.splitlines()


@pytest.mark.slow
@pytest.mark.parametrize(
    "proved, more, status, counts",
    [
        (0, "", 0, "3 passed, 0 failed, 1 skipped"),
        (0, "\n\ndef test_three():\n    assert 1 == 2\n", 1, "3 passed, 1 failed, 1 skipped"),
        (3, "", 3, "3 passed, 0 failed, 1 skipped"),
    ],
)
def test_the_gate_ends_in_what_was_skipped_and_one_line(own_clone, machine, proved, more, status, counts):
    given, lines = gate_of(own_clone, machine, proved, more)
    assert lines[:2] == ["rt: stand-in", "the setup of tools"] and given == status, lines
    assert "30 comparisons in 3 tests that hold many" in lines
    assert lines[-2:] == ["skipped 1: a browser isn't installed: tools/setup", counts]
