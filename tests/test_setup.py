"""The two commands that set up and test: tools/setup without root and without Debian's packages, and tools/check, which finds a
Python with pytest by itself. pip takes wheels of a folder here, since the tests have no network."""
import os
import sys
import zipfile

import places
import pytest
from places import run

SETUP, CHECK = (os.path.join(places.TOP, "tools", name) for name in ("setup", "check"))
# A Python without pytest, and a user that isn't root.
BARE = f'#!/bin/sh\ncase "$*" in *"import pytest"*) exit 1 ;; esac\nexec {os.path.realpath(sys.executable)} "$@"\n'
USER = "#!/bin/sh\necho 1000\n"
STAND_IN = "import sys\nif __name__ == '__main__':\n    print('the stand-in of pytest', *sys.argv[1:])\n"


@pytest.fixture
def bare(machine, tmp_path):
    """The environment of a user without root, whose only Python has no pytest; with words for pip."""
    path = machine(lacks=["python", "rt"], python=BARE, id=USER)

    def made(**more):
        return places.environment(
            path, XDG_CACHE_HOME=str(tmp_path / "cache"), HITHWELOR_PYTHON="/nonexistent", PIP_NO_INDEX="1", **more
        )

    return made


def wheel(folder, name, module, text):
    """A wheel of one module."""
    about = f"{name.replace('-', '_')}-9.9.dist-info"
    with zipfile.ZipFile(folder / f"{name.replace('-', '_')}-9.9-py3-none-any.whl", "w") as file:
        file.writestr(f"{module}.py", text)
        file.writestr(f"{about}/METADATA", f"Metadata-Version: 2.1\nName: {name}\nVersion: 9.9\n")
        file.writestr(f"{about}/WHEEL", "Wheel-Version: 1.0\nRoot-Is-Purelib: true\nTag: py3-none-any\n")
        file.writestr(f"{about}/RECORD", "")


def test_check_without_pytest_names_setup(bare):
    ran = run([CHECK], env=bare())
    assert (ran.returncode, ran.stdout) == (1, "") and "run tools/setup first" in ran.stderr


def test_check_finds_a_python_with_pytest(machine):
    """Where another Python comes first on the path."""
    env = places.environment(machine(lacks=["python", "rt"], python=BARE), HITHWELOR_PYTHON=sys.executable)
    ran = run([CHECK, "-n", "0", "tests/test_scripts.py", "-k", "first_look_shows"], env=env)
    if "unrecognized arguments: -n" in ran.stderr:
        ran = run([CHECK, "tests/test_scripts.py", "-k", "first_look_shows"], env=env)
    assert ran.returncode == 0 and "1 passed" in ran.stdout, ran.stdout + ran.stderr
    assert ran.stderr.splitlines()[-1].endswith("bash .ci/run")


@pytest.mark.slow
def test_setup_makes_an_environment_of_its_own_which_check_takes(bare, tmp_path):
    wheel(tmp_path, "pytest", "pytest", STAND_IN)
    wheel(tmp_path, "pytest-xdist", "xdist", "")
    ran = run([SETUP], env=bare(PIP_FIND_LINKS=str(tmp_path)))
    assert ran.returncode == 0 and "making a virtual environment" in ran.stdout
    assert "missing   python3-pytest:" not in ran.stdout and "missing   python3-hatchling:" in ran.stdout
    ran = run([CHECK, "-k", "NAME"], env=bare())
    assert ran.stdout == "the stand-in of pytest -q -m not slow and not browser -n auto --dist loadfile -k NAME\n"
    assert "making" not in run([SETUP], env=bare()).stdout


@pytest.mark.slow
def test_setup_without_a_network_says_so_and_leaves_nothing(bare, tmp_path):
    ran = run([SETUP], env=bare())
    assert ran.returncode == 0 and "pip installs no pytest into it: is PyPI reachable?" in ran.stdout
    assert "missing   python3-pytest:" in ran.stdout and not (tmp_path / "cache" / "hithwelor" / "python").exists()
