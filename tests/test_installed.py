"""What is installed, by its answers: the command, its words, its pages and its completions, on a machine without the
toolchain; with the Python package; taken away again. The version and its date are told alike."""
import os
import re

import places
import pytest
from places import RUN, RUN_ANSWER, run
from version import version

INSTALL = os.path.join(places.TOP, "tools", "install")
COMPLETIONS = ("share/zsh/site-functions/_hithwelor", "share/fish/vendor_completions.d/hithwelor.fish")


def test_the_version_and_its_date_are_told_alike():
    """A release has a date, and a state between two releases has none."""
    citation, changes = places.text_of("CITATION.cff"), places.text_of("CHANGELOG.md")
    assert re.search(r"^version: (\S+)", citation, flags=re.M)[1] == version()
    date = re.search(rf"^## {re.escape(version())} \((\S+)\)", changes, flags=re.M)
    assert re.findall(r"^date-released: (\S+)", citation, flags=re.M) == ([date[1]] if date else [])


@pytest.fixture(scope="module")
def path(system):
    """A PATH without the toolchain."""
    return system("rt")


def installed(room, path, *words):
    prefix = str(room / "prefix")
    ran = run([INSTALL, "--prefix", prefix, *words], path=path, cwd="/")
    if "isn't built" in ran.stderr or "nothing to install" in ran.stderr:
        pytest.skip(ran.stderr.strip())
    assert ran.returncode == 0, ran.stderr
    return prefix


@pytest.fixture(scope="module")
def prefix(tmp_path_factory, path):
    return installed(tmp_path_factory.mktemp("installed"), path)


def text_in(prefix, name):
    with open(os.path.join(prefix, name), encoding="utf-8") as file:
        return file.read()


def called(prefix, path, *words, data=""):
    return run([os.path.join(prefix, "bin", "hithwelor"), *words], path=path, cwd="/", input=data)


def test_it_answers(prefix, path):
    ran = called(prefix, path, *RUN, data=text_in(prefix, "share/doc/hithwelor/examples/increment.csv"))
    assert (ran.returncode, ran.stdout) == (0, RUN_ANSWER)


def test_words_without_a_form(prefix, path):
    ran = called(prefix, path, "step")
    assert (ran.returncode, ran.stdout) == (2, "") and ran.stderr.startswith("error: step: CIRCUIT is missing")


def test_it_tells_its_version_and_its_forms(prefix, path):
    assert called(prefix, path, "--version").stdout == f"hithwelor {version()}\n"
    ran = called(prefix, path, "--help")
    assert ran.returncode == 0 and "  run " in ran.stdout
    ran = called(prefix, path, "help", "run")
    assert ran.returncode == 0 and "  run =W auto" in ran.stdout


def test_it_finds_the_window_and_reads_files(prefix, path):
    table = os.path.join(prefix, "share", "doc", "hithwelor", "examples", "increment.csv")
    ran = called(prefix, path, "run", table, "1011")
    assert (ran.returncode, ran.stdout) == (0, RUN_ANSWER)


def test_the_man_page_is_there(prefix):
    assert "./workbench" not in text_in(prefix, "share/man/man1/hithwelor.1")


def completed(prefix, path, begin):
    """What the installed completion of bash makes of a beginning."""
    script = (
        f". {prefix}/share/bash-completion/completions/hithwelor; COMP_WORDS=(hithwelor {begin}) COMP_CWORD=1; "
        "_hithwelor; echo ${COMPREPLY[@]}"
    )
    return run(["bash", "-c", script], path=path).stdout.strip()


@pytest.mark.parametrize("begin, wanted", [("mig", "migrate"), ("sw", "sweep"), ("pl", "plan play plot")])
def test_bash_completes_commands(prefix, path, begin, wanted):
    assert completed(prefix, path, begin) == wanted


def test_bash_completes_options(prefix, path):
    script = (
        f". {prefix}/share/bash-completion/completions/hithwelor; COMP_WORDS=(hithwelor run m.csv --el) COMP_CWORD=3; "
        "_hithwelor; echo ${COMPREPLY[@]}"
    )
    assert run(["bash", "-c", script], path=path).stdout.strip() == "--element-steps"


@pytest.mark.parametrize("name", COMPLETIONS)
def test_commands_and_options_are_completed(prefix, name):
    told = text_in(prefix, name)
    assert "migrate" in told and "sweep" in told and "element-steps" in told


def test_taken_away_it_leaves_nothing(tmp_path, path):
    prefix = installed(tmp_path, path)
    assert run([INSTALL, "--prefix", prefix, "--uninstall"], path=path, cwd="/").returncode == 0
    assert not os.path.exists(prefix)


def test_a_prefix_that_cant_be_written(path):
    ran = run([INSTALL, "--prefix", "/proc/none"], path=path, cwd="/")
    assert ran.returncode == 1 and ran.stderr.count("\n") == 1
