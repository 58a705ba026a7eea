"""The page's modules: no circle of imports, their picture, and that a planted fault of each kind is seen; and how page and
command are bundled in a copy of the repository as git has it."""
import os
import shutil
import subprocess

import pytest

TOP = os.path.dirname(os.path.dirname(os.path.abspath(__file__)))
PARTS = ("bin/", "embed/", "examples/", "js/", "page/", "tools/build/modules", "crates.txt")
MADE = ["page/hithwelor.html", "bin/hithwelor", "page/sources.sha256"]


def run(*words, cwd=TOP, **more):
    return subprocess.run(words, cwd=cwd, stdout=subprocess.PIPE, stderr=subprocess.STDOUT, text=True, **more)


def needs(*programs):
    for name in programs:
        if not shutil.which(name):
            pytest.skip(f"{name} isn't installed")


@pytest.fixture
def copy(tmp_path):
    """The tracked files that the page is made of, and those that are new and not ignored, in a folder of their own."""
    for path in run("git", "ls-files", "-co", "--exclude-standard").stdout.splitlines():
        if path.startswith(PARTS) and os.path.isfile(os.path.join(TOP, path)):
            (tmp_path / path).parent.mkdir(parents=True, exist_ok=True)
            shutil.copy(os.path.join(TOP, path), tmp_path / path)
    return tmp_path


def plant(copy, path, right, wrong):
    text = (copy / path).read_text(encoding="utf-8")
    assert text.count(right) == 1, f"{path} has {right!r} {text.count(right)} times"
    (copy / path).write_text(text.replace(right, wrong), encoding="utf-8")


def test_the_picture_is_that_of_the_modules():
    needs("esbuild")
    made = run("tools/build/modules")
    assert made.returncode == 0, made.stdout
    with open(os.path.join(TOP, "page", "README.md"), encoding="utf-8") as file:
        assert made.stdout in file.read(), "tools/build/modules --write puts the picture into page/README.md"


def test_a_planted_circle_is_seen(copy):
    needs("esbuild")
    plant(copy, "page/src/state.js", "export const LAYERS", 'import "./view.js";\nexport const LAYERS')
    made = run("tools/build/modules", cwd=copy)
    assert made.returncode == 1 and made.stdout.count("\n") == 1 and "state.js" in made.stdout, made.stdout


def test_a_planted_type_fault_and_a_planted_null_are_seen(copy):
    needs("tsc")
    plant(copy, "page/src/texts.js", "readPlace = word => 4 * parseInt(word)", "readPlace = word => 4 + word")
    begin = "export function zoomBy(factor) {\n"
    plant(copy, "page/src/bank.js", f"{begin}  if (!seen.view) return;\n", begin)
    made = run("tsc", "-p", "page/tsconfig.json", cwd=copy)
    assert made.returncode and "texts.js" in made.stdout and "bank.js" in made.stdout, made.stdout


# Slow: two more runs of tsc, of about nine seconds; the types themselves are held by test_page.py, which runs by itself.
@pytest.mark.slow
def test_a_planted_parameter_without_a_type_is_seen(copy):
    """In the modules of page/tsconfig.typed.json every parameter has a type; the others know at least what may be null."""
    needs("tsc")
    plant(
        copy,
        "page/src/texts.js",
        "/** @type {(place: number) => string} */\nexport const placeName",
        "export const placeName",
    )
    made = [run("tsc", "-p", f"page/{name}", cwd=copy) for name in ("tsconfig.json", "tsconfig.typed.json")]
    assert not made[0].returncode and made[1].returncode and "texts.js" in made[1].stdout, [it.stdout for it in made]


@pytest.mark.parametrize(
    "path, right, wrong, test",
    [
        ("page/src/texts.js", "word => 4 * parseInt(word)", "word => 5 * parseInt(word)", "texts"),
        ("page/src/run.js", "now.bars[it.places[k] >> 2] = it.places[k] & 1", "now.bars[it.places[k] >> 2] = 1", "run"),
    ],
)
def test_a_planted_wrong_digit_is_seen(copy, path, right, wrong, test):
    needs("node")
    assert run("node", "--test", f"page/test/{test}.test.js", cwd=copy).returncode == 0
    plant(copy, path, right, wrong)
    made = run("node", "--test", f"page/test/{test}.test.js", cwd=copy)
    assert made.returncode == 1, made.stdout[-2000:]


def test_pages_are_bundled_in_a_copy_without_the_toolchain(copy):
    needs("esbuild")
    before = [(copy / path).read_bytes() for path in MADE]
    for path in MADE[:2]:
        (copy / path).unlink()
    # The system's programs alone: no toolchain is on the path.
    made = run("/usr/bin/python3", "embed/build", "--pages", cwd=copy, env={"PATH": "/usr/bin:/bin"})
    assert made.returncode == 0, made.stdout
    assert [(copy / path).read_bytes() for path in MADE] == before


@pytest.mark.parametrize(
    "script, words",
    [
        ("echo 0.99.9", "esbuild 0.99.9 would give other bytes"),
        (None, "esbuild isn't installed"),
    ],
)
def test_another_esbuild_is_refused_in_a_line(copy, tmp_path_factory, script, words):
    folder = tmp_path_factory.mktemp("programs")
    if script:
        (folder / "esbuild").write_text(f"#!/bin/sh\n{script}\n")
        (folder / "esbuild").chmod(0o755)
    made = run("/usr/bin/python3", "embed/build", "--pages", cwd=copy, env={"PATH": str(folder)})
    assert made.returncode == 1 and made.stdout.count("\n") == 1 and words in made.stdout, made.stdout
