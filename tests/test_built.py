"""Whether what stands counts as built of the sources that stand: by digests, and by no times of files."""
import os
import shutil
import subprocess

import places
import pytest
from places import run


def counts(folder):
    """Whether tools/program prints the program of this folder; what an earlier look may have noted is taken away."""
    noted = os.path.join(folder, os.path.dirname(places.PROGRAM), "last-look")
    if os.path.exists(noted):
        os.remove(noted)
    ran = run([os.path.join(folder, "tools", "program")], cwd="/")
    return (ran.returncode, ran.stdout.strip()) == (0, os.path.join(os.path.realpath(folder), places.PROGRAM))


@pytest.fixture
def built(own_clone):
    """A clone with a program that counts as built of its sources."""
    places.stand_in(own_clone)
    assert counts(own_clone)
    return own_clone


def copied(folder, to, way):
    os.makedirs(to)
    if way == "cp -r":
        subprocess.run(["cp", "-r", f"{folder}/.", to], check=True)
    else:
        packed = subprocess.run(["tar", "c", "."], cwd=folder, stdout=subprocess.PIPE, check=True).stdout
        subprocess.run(["tar", "xm"], cwd=to, input=packed, check=True)
    return to


@pytest.mark.parametrize("way", ["cp -r", "tar xm"])
@pytest.mark.parametrize("has_git", [True, False], ids=["with .git", "without .git"])
def test_a_copied_tree_is_as_well_proved(built, tmp_path, way, has_git):
    if not has_git:
        shutil.rmtree(os.path.join(built, ".git"))
    assert counts(copied(built, str(tmp_path / "copy"), way))


def test_times_of_files_say_nothing(built):
    os.utime(os.path.join(built, "crates", "bn_io", "src", "lib.rt"))
    os.utime(os.path.join(built, "crates.txt"))
    assert counts(built)
    with open(os.path.join(built, "crates", "bn_io", "src", "lib.rt"), "a", encoding="utf-8") as file:
        file.write("\n")
    os.utime(os.path.join(built, "crates", "bn_io", "src", "lib.rt"), (0, 0))
    assert not counts(built)


@pytest.mark.parametrize(
    "name", ["crates/bn_io/src/lib.rt~", "crates/bn_main/specs/.Lib.antt.swp", "crates/bn_io/src/notes.txt"]
)
def test_an_untracked_file_beside_the_sources_disturbs_nothing(built, name):
    places.write(os.path.join(built, name), "what an editor leaves\n")
    assert counts(built)


@pytest.mark.parametrize("name", ["crates/bn_io/src/lib.rt", "crates/bn_io/specs/Lib.antt", "crates.txt", "HANDLES"])
def test_a_changed_source_counts(built, name):
    path = os.path.join(built, name)
    with open(path, encoding="utf-8") as file:
        before = file.read()
    places.write(path, before + "\n")
    assert not counts(built)
    places.write(path, before)
    assert counts(built)


def test_a_source_that_is_gone_counts(built):
    os.remove(os.path.join(built, "crates", "bn_io", "src", "lib.rt"))
    assert not counts(built)


def test_another_program_in_its_place_counts_for_nothing(built):
    places.write(os.path.join(built, places.PROGRAM), "#!/bin/sh\n", is_run=True)
    assert not counts(built)


def test_a_program_whose_sources_changed_while_it_was_built_is_noted_for_nothing(built):
    tool, digests = os.path.join(built, "tools", "program"), os.path.join(built, "before")
    places.write(digests, run([tool, "--sources"]).stdout)
    with open(os.path.join(built, "crates", "bn_io", "src", "lib.rt"), "a", encoding="utf-8") as file:
        file.write("\n")
    assert run([tool, "--built", digests]).returncode == 1
    assert not counts(built)


def test_the_workbench_without_the_toolchain_names_what_answers(clone, machine, any_node):
    ran = run([os.path.join(clone, "workbench"), "check"], path=machine(node=any_node), cwd="/")
    assert (ran.returncode, ran.stdout) == (1, "")
    for told in ("./try check < FILE", "bin/hithwelor check < FILE", "the proved program isn't built"):
        assert told in ran.stderr
    ran = run([os.path.join(clone, "workbench"), "generate", "1"], path=machine(node=any_node), cwd="/")
    assert ran.stderr.rstrip().endswith("./try generate 1, or bin/hithwelor generate 1")


def test_the_workbench_that_builds_names_what_answers_before(own_clone, machine):
    """The toolchain's stand-in builds nothing: what is said before it fails is what matters."""
    ran = run(
        [os.path.join(own_clone, "workbench"), "step", "1"],
        path=machine(lacks=["rt", "node"], rt="#!/bin/sh\nexit 1\n"),
    )
    assert ran.returncode == 1 and "an answer before that, in a minute or two: ./try step 1 < FILE\n" in ran.stderr


def test_the_workbench_runs_what_stands(built, machine, any_node):
    with open(os.path.join(built, "examples", "least.csv"), encoding="utf-8") as table:
        ran = run([os.path.join(built, "workbench"), "check"], path=machine(node=any_node), cwd="/", stdin=table)
    assert (ran.returncode, ran.stdout) == (0, "standard states 3 symbols 1 quintuples 2\n")
    assert "the stand-in of the program" in ran.stderr


def test_the_proved_program_counts_in_a_copy(own_clone, tmp_path, proved_program):
    places.copy_proved(places.TOP, own_clone)
    assert counts(copied(own_clone, str(tmp_path / "copy"), "cp -r"))
