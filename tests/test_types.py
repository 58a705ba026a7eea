"""The types of the Python package by mypy in its strict way, and of the tools and measures by mypy as it is; and that a planted
fault is seen."""
import glob
import os
import re
import shutil
import subprocess

import places
import pytest
from places import TOP

# The folders of modules that the tools import.
MODULES = ["tools/lib", "embed", "python", "tests", "tests/page", "bench"]
PLAIN = ["--config-file", os.devnull, "--python-version", "3.9", "--ignore-missing-imports", "--scripts-are-modules"]


def programs_of(folder):
    """The modules of a folder, and its programs in Python."""
    for path in sorted(glob.glob(os.path.join(TOP, folder, "*"))):
        if os.path.isfile(path):
            with open(path, "rb") as file:
                if path.endswith(".py") or re.match(rb"#!.*python", file.readline()):
                    yield os.path.relpath(path, TOP)


@pytest.fixture(scope="module")
def cache(tmp_path_factory):
    """What mypy keeps from one call to the next."""
    return str(tmp_path_factory.mktemp("mypy"))


def checked(top, cache, *words):
    """What mypy says in a folder."""
    if not shutil.which("mypy"):
        pytest.skip("mypy isn't installed: tools/setup")
    return subprocess.run(
        ["mypy", "--cache-dir", cache, *words],
        cwd=top,
        stdout=subprocess.PIPE,
        stderr=subprocess.STDOUT,
        text=True,
        env={**os.environ, "MYPYPATH": ":".join(MODULES)},
    )


def test_the_package_has_types(cache):
    ran = checked(TOP, cache)
    assert ran.returncode == 0, ran.stdout


def test_a_users_program_has_types(cache):
    user = os.path.join("python", "tests", "user_program.py")
    ran = checked(TOP, cache, "--strict", "--follow-imports", "silent", "--python-version", "3.10", user)
    assert ran.returncode == 0, ran.stdout


@pytest.mark.parametrize(
    "folders", [["tools", "tools/build", "tools/lib", "embed", "check"], ["bench"], ["docs/pictures"]], ids=" ".join
)
def test_tools_and_measures_agree_with_their_types(cache, folders):
    programs = [path for folder in folders for path in programs_of(folder)]
    assert programs
    ran = checked(TOP, cache, *PLAIN, *programs)
    assert ran.returncode == 0, ran.stdout


@pytest.mark.slow
@pytest.mark.parametrize(
    "path, right, wrong, told",
    [
        ("texts.py", "int(words[0]), output=output", "words[0], output=output", "arg-type"),
        ("sweep/rows.py", "return code, counts, found or window", "return counts, code, found", "return-value"),
    ],
)
def test_a_planted_fault_is_seen(tmp_path, path, right, wrong, told):
    shutil.copytree(os.path.join(TOP, "python", "hithwelor"), tmp_path / "python" / "hithwelor")
    shutil.copy(os.path.join(TOP, "pyproject.toml"), tmp_path)
    module = tmp_path / "python" / "hithwelor" / path
    text = module.read_text(encoding="utf-8")
    assert text.count(right) == 1
    module.write_text(text.replace(right, wrong), encoding="utf-8")
    ran = checked(tmp_path, os.devnull)
    assert ran.returncode == 1 and path in ran.stdout and told in ran.stdout, ran.stdout


def test_the_least_python_is_told_alike():
    """What pip asks for, what mypy looks at, and what the pages say; the tests run each Python from that one on."""
    with open(os.path.join(TOP, "pyproject.toml"), encoding="utf-8") as file:
        told = re.findall(r'^(?:requires-python = ">=|python_version = ")(3\.\d+)"$', file.read(), flags=re.M)
    for page in ("README.md", "python/README.md", "tests/README.md"):
        with open(os.path.join(TOP, page), encoding="utf-8") as file:
            told += re.findall(r"Python (3\.\d+) or later", file.read())
    assert len(told) >= 5 and set(told) == {"3.9"}
    assert all(version >= (3, 9) for version in places.pythons())
