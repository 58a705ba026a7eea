"""What the tests share: clean clones, machines that have this and lack that, and the proved program where it stands.

What isn't there is skipped by its name, with what would bring it.
"""
import os
import shutil
import subprocess
import sys

import pytest

sys.dont_write_bytecode = True
sys.path.insert(0, os.path.dirname(os.path.abspath(__file__)))

import places
import shared

pytest_plugins = ["closing"]
LACKING = "{} isn't installed: tools/setup"


def pytest_generate_tests(metafunc):
    """A test that wants `node` is run with each node, and one that wants `python` with each Python from 3.9 on."""
    for name, found, told in (("node", places.nodes(), "node {}"), ("python", places.pythons(), "Python {}")):
        if name in metafunc.fixturenames:
            names = [told.format(".".join(map(str, it)) if isinstance(it, tuple) else it) for it in found]
            kinds = [pytest.param(path, id=one) for one, path in zip(names, found.values())]
            none = pytest.param(None, marks=pytest.mark.skip(reason=LACKING.format(name)), id=f"no {name}")
            metafunc.parametrize(name, kinds or [none])


@pytest.fixture(scope="session")
def clone(tmp_path_factory):
    """A clean clone of the repository, as a stranger has it; it is read and not changed."""
    wanted("git")
    return places.clone_to(str(tmp_path_factory.mktemp("clone") / "it's a clone"))


@pytest.fixture(scope="session")
def restored_clone(clone, tmp_path_factory):
    """Gives a clone that tests change one after another: what a test changed is taken back by git before the next one has
    it, since copying some thousand files for each takes far longer. Where a test took .git away it is copied anew."""
    folder = str(tmp_path_factory.mktemp("own") / "own clone")
    commit = places.git("rev-parse", "HEAD", cwd=clone).strip()

    def restored():
        if os.path.isdir(os.path.join(folder, ".git")):
            places.git("reset", "-q", "--hard", commit, cwd=folder)
            places.git("clean", "-ffdxq", cwd=folder)
        else:
            shutil.rmtree(folder, ignore_errors=True)
            subprocess.run(["cp", "-a", clone, folder], check=True)
        return folder

    return restored


@pytest.fixture
def own_clone(restored_clone):
    """A clean clone of the repository that a test may change."""
    return restored_clone()


@pytest.fixture(scope="session")
def any_node():
    """The path of the first node that is found."""
    found = places.nodes()
    if not found:
        pytest.skip(LACKING.format("node"))
    return next(iter(found.values()))


@pytest.fixture(scope="session")
def system(tmp_path_factory):
    """`system("rt", "node")` is a PATH of the system's commands without those."""
    made = {}

    def path(*lacks):
        if lacks not in made:
            made[lacks] = places.commands_without(str(tmp_path_factory.mktemp("system") / "bin"), *lacks)
        return made[lacks]

    return path


@pytest.fixture
def machine(system, tmp_path):
    """Makes the PATH of a machine: `machine(lacks=["rt"], node=PATH, python=PATH, rt=SCRIPT)`. What is named by a path
    or as a script stands first on it."""
    count = [0]

    def made(lacks=("rt", "node", "python"), **programs):
        path = system(*lacks)
        if not programs:
            return path
        count[0] += 1
        room = str(tmp_path / f"machine{count[0]}")
        for name, what in programs.items():
            name = "python3" if name == "python" else name
            script = what if what.startswith("#!") else f'#!/bin/sh\nexec "{what}" "$@"\n'
            places.write(os.path.join(room, name), script, is_run=True)
        return os.pathsep.join([room, path])

    return made


def pytest_addoption(parser):
    parser.addoption("--drawn", metavar="N", type=int, help="how many runs are drawn where a test draws them")
    parser.addoption("--seed", metavar="S", type=int, default=1, help="other runs are drawn")
    parser.addoption(
        "--program", metavar="PATH", help="a program in place of the proved one, as one that was proved elsewhere"
    )
    parser.addoption("--places", metavar="N", type=int, help="how many places of the page are drawn")
    parser.addoption(
        "--pictures", metavar="FOLDER", type=os.path.abspath, help="photographs of the page are kept there"
    )
    parser.addoption(
        "--every", action="store_true", help="refuse every allocation, of larger inputs too: some ten minutes"
    )


@pytest.hookimpl(tryfirst=True)
def pytest_cmdline_main(config):
    """Where pytest-xdist is here and nothing else is asked of it, several files are run on all cores, a file by one process,
    since what is made once for a file is shared there. -n 0 and -p no:xdist keep to one process."""
    options, of_one = config.option, ("usepdb", "collectonly", "looponfail")
    if hasattr(config, "workerinput") or not config.pluginmanager.hasplugin("xdist"):
        return
    if options.numprocesses is not None or options.dist != "no" or options.tx or options.capture == "no":
        return
    files = {it.partition("::")[0] for it in config.args}
    if any(getattr(options, it, False) for it in of_one) or len(files) == 1 and not os.path.isdir(min(files)):
        return
    options.numprocesses, options.dist = "auto", "loadfile"
    if not any(map(os.path.isdir, files)):
        options.maxprocesses = len(files)


def pytest_configure(config):
    """The tools' own tests ask the program that is named, or the proved one: a module answers them too, and takes minutes
    to, since the tools call once a step."""
    found = config.getoption("--program") or places.told_program()
    if found:
        os.environ["WORKBENCH_PROGRAM"] = os.path.abspath(found)


@pytest.fixture(scope="session")
def proved_program(pytestconfig):
    """The path of the program that is named by --program; else of the proved one, where it is that of these sources."""
    found = pytestconfig.getoption("--program") or places.told_program()
    if not found:
        pytest.skip("the proved program isn't built: ./workbench, or tools/prove")
    return os.path.abspath(found)


@pytest.fixture(scope="session")
def laid_before(tmp_path_factory):
    """Makes a library of C that is laid before the system's (LD_PRELOAD), and gives its path; skips where no compiler is."""

    def made(name, text):
        compiler = shutil.which(os.environ.get("CC", "cc"))
        if not compiler:
            pytest.skip("a C compiler isn't installed: tools/setup")
        work = str(tmp_path_factory.mktemp(name))
        source, library = os.path.join(work, f"{name}.c"), os.path.join(work, f"{name}.so")
        places.write(source, text)
        subprocess.run([compiler, "-O1", "-fno-builtin", "-shared", "-fPIC", "-o", library, source, "-ldl"], check=True)
        return library

    return made


@pytest.fixture(scope="session")
def module():
    """The path of bin/hithwelor, the same code under node, where it is built of the sources that stand."""
    found = places.told_program("--module")
    if not found:
        pytest.skip("the module can't answer: node 18 or later, and embed/build for the sources that stand")
    return found


@pytest.fixture(scope="session")
def linkable():
    """Skips the test where the shared library can't be linked of the proved static one."""
    if not shared.compiler():
        pytest.skip("a C compiler isn't installed: tools/setup")
    if not shared.toolchain():
        pytest.skip("the command rt isn't here, whose toolchain links the shared library")
    if not shared.is_current():
        pytest.skip("the static library isn't that of the sources that stand: tools/prove --crate bn_embed")


@pytest.fixture(scope="session")
def shared_library(linkable, tmp_path_factory):
    """The path of the shared library, linked anew of the static one that stands."""
    path = str(tmp_path_factory.mktemp("library") / "libhithwelor.so")
    fault = shared.link(shared.toolchain(), path)
    assert not fault, f"the shared library isn't linked: {fault[-400:]}"
    return path


@pytest.fixture(scope="session")
def program(pytestconfig):
    """The path of what answers: the proved program, else the same code under node."""
    found = pytestconfig.getoption("--program") or places.told_program() or places.told_program("--module")
    if not found:
        pytest.skip("neither the proved program nor the module under node can answer: ./workbench, or node 18 or later")
    return os.path.abspath(found)


@pytest.fixture(scope="session")
def answering():
    """What answers the package of Python: the shared library, or one process of node."""
    from hithwelor import answers

    try:
        return answers.way()
    except answers.Unavailable as fault:
        pytest.skip(str(fault))


@pytest.fixture(scope="session")
def asks(pytestconfig, request):
    """`asks(words, data)` gives a status and a text, both as they come: of the program that is named by --program, else of what
    answers the package of Python."""
    named = pytestconfig.getoption("--program")
    if not named:
        request.getfixturevalue("answering")
        from hithwelor import answers

        return lambda words, data: answers.answer([str(it) for it in words], data)

    def ask(words, data):
        words = [os.path.abspath(named), *map(str, words)]
        quiet = {**os.environ, "HITHWELOR_QUIET": "1"}
        ran = subprocess.run(words, input=data, stdout=subprocess.PIPE, stderr=subprocess.PIPE, env=quiet)
        assert ran.stderr == b"", ran.stderr
        return ran.returncode, ran.stdout

    return ask


def wanted(*commands):
    """Skips the test where a command isn't here."""
    for it in commands:
        if not shutil.which(it):
            pytest.skip(LACKING.format(it))


@pytest.fixture(scope="session")
def needs():
    """`needs("zsh")` skips the test where that command isn't here."""
    return wanted
