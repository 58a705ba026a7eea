"""All Python has the form that black gives: tools/build/format brings it into that form."""
import os
import subprocess

import places
import pytest

format_tool = places.tool("build/format")


def black(needs, *words):
    needs("black")
    return subprocess.run(
        ["black", *words], cwd=places.TOP, stdout=subprocess.PIPE, stderr=subprocess.STDOUT, text=True
    )


def test_all_python_is_found():
    found = format_tool.files()
    assert {
        "tools/draw",
        "tools/lib/picture.py",
        "embed/build",
        "check/quick",
        "docs/pictures/draw",
        "tests/conftest.py",
    } <= set(found)
    assert not [it for it in found if it.startswith("crates")]


@pytest.mark.parametrize("folder", sorted({it.split(os.sep)[0] for it in format_tool.files()}))
def test_all_python_has_one_form(folder, needs):
    ran = black(needs, "--check", *(it for it in format_tool.files() if it.split(os.sep)[0] == folder))
    assert ran.returncode == 0, f"tools/build/format brings it into form:\n{ran.stdout}"


def test_another_form_is_seen(tmp_path, needs):
    (tmp_path / "one.py").write_text("number = {'a' : 1}\n")
    assert black(needs, "--check", str(tmp_path / "one.py")).returncode == 1
