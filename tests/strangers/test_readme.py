"""README's commands as they stand there, where strangers stand: a clean clone, a copy, an unpacked archive, an
installed prefix; with each node and with none, with the toolchain and without, with Python and without.

The answer is compared byte for byte, and so is which of the ways answered; where node or the program is there, it comes
within five seconds of a processor.
"""
import os
import re
import shutil
import subprocess

import places
import pytest
from places import BY_MODULE, BY_PROGRAM, BY_RT, Spent, run

SECONDS = 5
pytestmark = pytest.mark.slow


def shown(page):
    """The commands that a page shows in its plain blocks, each with what it prints."""
    found = []
    for block in re.findall(r"^```\n(.*?)^```", places.text_of(page), flags=re.M | re.S):
        for command, output in re.findall(r"^\$ (.*)\n((?:(?!\$ ).*\n)*)", block, flags=re.M):
            found.append((command, output))
    return found


TRIED = [it for it in shown("README.md") if it[0].startswith("./try")]
TYPED = [it for it in shown("README.md") if it[0].startswith("./hithwelor")]
PLACES = ["clean clone", "cp -r", "git archive", "tar xm"]


@pytest.fixture(scope="session", params=PLACES)
def place(request, clone, tmp_path_factory):
    """A folder as a stranger has it."""
    room = str(tmp_path_factory.mktemp("place"))
    to = os.path.join(room, "hithwelor")
    if request.param == "clean clone":
        return clone
    if request.param == "cp -r":
        subprocess.run(["cp", "-r", clone, to], check=True)
        return to
    os.makedirs(to)
    pack = ["git", "archive", "HEAD"] if request.param == "git archive" else ["tar", "c", "--exclude=.git", "."]
    packed = subprocess.run(pack, cwd=clone, stdout=subprocess.PIPE, check=True).stdout
    subprocess.run(["tar", "xm"], cwd=to, input=packed, check=True)
    return to


def holds(folder, path, way, commands=TRIED, seconds=SECONDS, limit=60):
    """Runs commands of a page in a folder, by bash, and compares what they print, and which way answered."""
    assert commands
    for command, output in commands:
        with Spent() as spent:
            ran = run(["bash", "-c", command], path=path, cwd=folder, seconds=limit)
        assert (ran.returncode, ran.stdout) == (0, output), f"{command}: {ran.stderr}"
        assert way in ran.stderr, command
        assert spent.seconds < seconds, f"{command}: {spent.seconds:.1f} s"


def test_try_it_with_node_alone(place, machine, node):
    holds(place, machine(node=node), BY_MODULE)


def test_try_it_with_node_and_python(place, machine, node, python):
    holds(place, machine(node=node, python=python), "", TYPED)


def test_try_it_on_the_path_that_is_here(place):
    """As it stands: whatever this machine has."""
    holds(place, os.environ["PATH"], BY_MODULE if places.nodes() else "")


def test_try_it_with_the_proved_program_alone(place, machine, proved_program, tmp_path):
    own = shutil.copytree(place, str(tmp_path / "own"), symlinks=True)
    places.copy_proved(places.TOP, own)
    holds(own, machine(), BY_PROGRAM)


def test_have_it_proved_and_its_table_with_the_proved_program(place, machine, proved_program, tmp_path):
    own = shutil.copytree(place, str(tmp_path / "own"), symlinks=True)
    places.copy_proved(places.TOP, own)
    holds(own, machine(), "", [it for it in shown("README.md") if it[0].startswith("./workbench")])
    rows = re.findall(
        r"^\| .*? \| `(.*?)` \| (.*?) \| .*? \|$", places.text_of("docs", "trust", "what-is-proved.md"), flags=re.M
    )
    assert rows
    for command, told in rows:
        ran = run(["bash", "-c", command.replace("\\|", "|")], path=machine(), cwd=own)
        lines = iter(ran.stdout.splitlines())
        assert all(line in lines for line in re.findall(r"`([^`]*)`", told)), command


def test_with_python_alone_it_is_said_what_is_lacking(clone, machine, python):
    for command, _ in TRIED:
        ran = run(["bash", "-o", "pipefail", "-c", command], path=machine(python=python), cwd=clone)
        assert (ran.returncode, ran.stdout) == (1, "")
        assert "node isn't on the path" in ran.stderr and "command rt isn't on the path" in ran.stderr


def test_with_the_toolchain_alone(clone, machine):
    """The slow way: a minute or two."""
    rt = shutil.which("rt")
    if not rt:
        pytest.skip("the command rt isn't here")
    holds(clone, machine(lacks=["rt", "node"], rt=os.path.realpath(rt)), BY_RT, seconds=600, limit=600)


def test_an_installed_prefix(place, machine, node, tmp_path):
    prefix = str(tmp_path / "prefix")
    ran = run(["make", "install", f"PREFIX={prefix}"], path=machine(lacks=["rt"], node=node), cwd=place)
    assert ran.returncode == 0, ran.stderr
    installed = f"{prefix}/bin/hithwelor"
    command = [(re.sub(r"\./(try|hithwelor)", installed, it), output) for it, output in [*TYPED, *TRIED]]
    holds(os.path.join(prefix, "share", "doc", "hithwelor"), machine(lacks=["rt"], node=node), "", command)
    ran = run(["make", "uninstall", f"PREFIX={prefix}"], path=machine(lacks=["rt"], node=node), cwd=place)
    assert ran.returncode == 0 and not os.path.exists(prefix)


def test_the_command_of_node_alone(place, machine, node):
    for command, output in TRIED:
        ran = run(["bash", "-c", command.replace("./try", "bin/hithwelor")], path=machine(node=node), cwd=place)
        assert (ran.returncode, ran.stdout, ran.stderr) == (0, output, "")
