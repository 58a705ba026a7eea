"""A release of the tree as it stands: the same bytes twice, and each of its files used where nothing else of the repository is.

What a release has depends on what stands here: the proved program and the shared library are tried where they do. Each
Python from 3.9 on that is found gets the wheels, and each node the package of JavaScript. Nothing comes from a network.
"""
import os
import re
import shutil
import subprocess
import sys
import tarfile
import zipfile

import places
import pytest
from version import version

pytestmark = pytest.mark.slow
TOP = os.path.dirname(os.path.dirname(os.path.abspath(__file__)))
RELEASE = os.path.join(TOP, "tools", "release")
TABLE = os.path.join(TOP, "examples", "increment.csv")
# What an installed package is asked.
USE = r"""
import hithwelor, sys
table = open(sys.argv[1]).read()
machine = hithwelor.Machine.open(sys.argv[1])
assert hithwelor.answer(["check"], table) == (0, b"standard states 5 symbols 3 quintuples 10\n")
assert machine.by_itself("1011").output == "1100"
run = machine.run("1011", (0, 5, 11, 5))
assert (run.steps, run.output, run.tapes[0].word) == (2507884, "1100", "1011")
assert machine.view("1011", run.window, 1000).steps == 1000
assert len(machine.session("1011", run.window, ["go 10", "view", "rev 10"])) == 3
try:
    machine.run("x")
except hithwelor.Refused as refused:
    assert refused.status == 5
assert hithwelor.__version__ == hithwelor.version()
print(hithwelor.version(), type(hithwelor.way()).__name__)
"""
ASK = """import {load} from "hithwelor";
const {Machine} = await load();
console.log(new Machine("S,_,_,+,T\\nT,_,_,0,F\\n").check());
"""
LEAST_SAID = "standard states 3 symbols 1 quintuples 2\n"


def run(words, path=None, **more):
    """A command's output and errors together; with `path` in an environment that has nothing but that path."""
    if path:
        more["env"] = {"PATH": path, "HOME": "/nonexistent", "LC_ALL": "C.UTF-8"}
    return subprocess.run(words, stdout=subprocess.PIPE, stderr=subprocess.STDOUT, text=True, errors="replace", **more)


# What a release of the tree as it stands leaves out, line by line.
LEFT_OUT = []


@pytest.fixture(scope="module")
def released(tmp_path_factory):
    """The folder of a release of the tree as it stands."""
    folder = tmp_path_factory.mktemp("released")
    made = run([RELEASE, "dev", "--to", str(folder)])
    assert made.returncode == 0, made.stdout
    LEFT_OUT[:] = re.findall(r"left out: (.*)", made.stdout)
    return folder


def only(folder, pattern):
    """The one file of this pattern, or a skip that says what the release left out."""
    found = sorted(folder.glob(pattern))
    if not found:
        why = [it for it in LEFT_OUT if "shared library" in it] if "linux" in pattern else LEFT_OUT
        pytest.skip(f"this release has no {pattern}: {'; '.join(why)}")
    assert len(found) == 1
    return found[0]


def test_the_same_bytes_twice(released, tmp_path):
    words = f"umask 077; TZ=Asia/Tokyo LC_ALL=C {RELEASE} dev --to {tmp_path}"
    assert run(["bash", "-c", words]).returncode == 0
    names = sorted(it.name for it in released.iterdir())
    assert names == sorted(it.name for it in tmp_path.iterdir())
    for name in names:
        assert (released / name).read_bytes() == (tmp_path / name).read_bytes(), name


def test_sums_and_names(released):
    checked = run(["sha256sum", "--check", "--strict", "SHA256SUMS"], cwd=released)
    assert checked.returncode == 0, checked.stdout
    names = {it.name for it in released.iterdir()}
    assert len([name for name in names if name.endswith(".tar.gz")]) == 2, names
    assert {line.split()[1] for line in (released / "SHA256SUMS").read_text().splitlines()} == names - {"SHA256SUMS"}


@pytest.mark.parametrize("place", ["/proc/none", "afile"])
def test_a_place_that_cant_be_written(tmp_path, place):
    (tmp_path / "afile").write_text("")
    made = run([RELEASE, "dev", "--to", os.path.join(tmp_path, place)])
    assert made.returncode == 1
    assert made.stdout.count("\n") == 1 and "can't be written" in made.stdout and "--to" in made.stdout


def test_a_version_that_isnt_told():
    made = run([RELEASE, "99.0.0"])
    assert made.returncode == 1 and made.stdout.count("\n") == 1


def first_commands():
    """README's commands that `./try` and `./hithwelor` answer, each with its output."""
    with open(os.path.join(TOP, "README.md"), encoding="utf-8") as file:
        blocks = re.findall(r"^```\n\$ (.*)\n((?:.*\n)*?)```", file.read(), flags=re.M)
    return [(command, output) for command, output in blocks if command.startswith(("./try", "./hithwelor"))]


def test_the_archive_by_its_own_readme(released, tmp_path):
    with tarfile.open(only(released, "hithwelor-dev-linux-x86_64.tar.gz")) as file:
        file.extractall(tmp_path)
    top = tmp_path / "hithwelor-dev"
    assert {command.split()[0] for command, _ in first_commands()} == {"./try", "./hithwelor"}
    has_program = (top / "crates" / "bn_main" / "out" / "bn_main").exists()
    if not has_program and not shutil.which("node", path="/usr/bin:/bin"):
        pytest.skip("neither the proved program nor a node of the system stands here")
    for command, output in first_commands():
        ran = subprocess.run(
            ["bash", "-c", command],
            cwd=top,
            capture_output=True,
            text=True,
            timeout=60,
            env={"PATH": "/usr/bin:/bin", "HOME": "/nonexistent", "LC_ALL": "C.UTF-8"},
        )
        assert (ran.returncode, ran.stdout) == (0, output), ran.stderr
        way = "answered by the proved program" if has_program else "answered by the module"
        assert way in ran.stderr or command.startswith("./hithwelor")


# ---- the Python package


def wheels(released):
    return sorted(released.glob("*.whl"))


def test_all_modules_are_in_the_wheels(released):
    package = os.path.join(TOP, "python", "hithwelor")
    known = {
        os.path.relpath(os.path.join(at, name), os.path.dirname(package))
        for at, _, names in os.walk(package)
        for name in names
        if "__pycache__" not in at
    }
    assert wheels(released)
    for path in wheels(released):
        with zipfile.ZipFile(path) as file:
            names = {name for name in file.namelist() if name.startswith("hithwelor/")}
        answers = "hithwelor.cjs" if path.name.endswith("any.whl") else "libhithwelor.so"
        beside = {"hithwelor/forms.tsv", f"hithwelor/{answers}"}
        assert known <= names and names - known == beside, path.name


def test_the_archive_of_sources_makes_the_same_wheel(released, tmp_path):
    with tarfile.open(only(released, f"hithwelor-{version()}{'' if '.dev' in version() else '+dev'}.tar.gz")) as file:
        file.extractall(tmp_path)
    (source,) = tmp_path.iterdir()
    builders = [
        it for it in [sys.executable, "/usr/bin/python3"] if run([it, "-c", "import build, hatchling"]).returncode == 0
    ]
    moment = subprocess.run(
        ["git", "log", "-1", "--format=%ct"], cwd=TOP, stdout=subprocess.PIPE, text=True
    ).stdout.strip()
    words = [
        builders[0],
        "-m",
        "build",
        "--no-isolation",
        "--skip-dependency-check",
        "--wheel",
        "--outdir",
        tmp_path,
        source,
    ]
    made = run(words, env={**os.environ, "SOURCE_DATE_EPOCH": moment})
    assert made.returncode == 0, made.stdout
    wheel = only(tmp_path, "*.whl")
    assert wheel.stat().st_mode & 0o777 == 0o644
    assert wheel.read_bytes() == (released / wheel.name).read_bytes()


@pytest.mark.parametrize(
    "pattern", ["*-any.whl", "*-manylinux_*.whl"], ids=["with the module", "with the shared library"]
)
def test_a_wheel_is_installed_and_answers(released, tmp_path, python, pattern):
    use_wheel(only(released, pattern), python, tmp_path)


def install_wheel(wheel, python, where, **here):
    """The package in an environment of its own, by the pip that this Python has, which is given the environment; else by
    one that the environment has, which takes longer."""
    words = ["install", "-q", "--no-index", "--disable-pip-version-check", wheel]
    run([python, "-m", "venv", "--without-pip", where], **here)
    ran = run([python, "-m", "pip", "--python", where / "bin" / "python", *words], **here)
    if ran.returncode:
        if run([python, "-m", "venv", "--clear", where], **here).returncode:
            pytest.skip(f"{python} makes no environment with pip: python3-venv")
        ran = run([where / "bin" / "python", "-m", "pip", *words], **here)
    assert ran.returncode == 0, ran.stdout


def use_wheel(wheel, python, room):
    """The package installed by pip: its calls, its command, `sweep`, and `plot` where it is."""
    bare = {name: what for name, what in os.environ.items() if name not in ("PYTHONPATH", "HITHWELOR_LIBRARY")}
    here = {"env": bare, "cwd": room}
    install_wheel(wheel, python, room / "environment", **here)
    programs = room / "environment" / "bin"
    version, way = wheel.name.split("-")[1], "Node" if wheel.name.endswith("any.whl") else "Library"
    ran = run([programs / "python", "-c", USE, TABLE], **here)
    assert ran.stdout == f"{version} {way}\n"
    for command in ([programs / "hithwelor"], [programs / "python", "-m", "hithwelor"]):
        with open(TABLE, encoding="utf-8") as file:
            ran = run([*command, "run", "=1011", "auto"], stdin=file, **here)
        assert ran.stdout.endswith("output =1100\n"), command
        assert run([*command, "--version"], **here).stdout == f"hithwelor {version}\n"
        ran = run([*command, "--help"], **here)
        assert ran.returncode == 0 and "  run " in ran.stdout and "  sweep " in ran.stdout, command
        ran = run([*command, "run", TABLE, "1011"], **here)
        assert ran.returncode == 0 and ran.stdout.endswith("output =1100\n"), command
    out, picture = room / "table.csv", room / "table.png"
    ran = run([programs / "hithwelor", "sweep", TABLE, "--up-to", "2", "--check", "--jobs", "1", "--out", out], **here)
    assert ran.stdout == "7 agree, 0 differ\n"
    ran = run([programs / "hithwelor", "plot", out, "--out", picture], **here)
    assert ran.returncode == 0 or "plot needs matplotlib" in ran.stdout
    for path in room.glob("table.*"):
        path.unlink()


def test_plot_draws_from_the_wheel(released, tmp_path):
    found = [*places.pythons().values(), "/usr/bin/python3"]
    drawing = [path for path in found if run([path, "-c", "import matplotlib"]).returncode == 0]
    if not drawing:
        pytest.skip("no Python here has matplotlib")
    package = tmp_path / "package"
    with zipfile.ZipFile(only(released, "*-any.whl")) as file:
        file.extractall(package)
    bare = {**os.environ, "PYTHONPATH": str(package), "MPLCONFIGDIR": str(tmp_path)}
    for words in (["sweep", TABLE, "--up-to", "2", "--out", "table.csv"], ["plot", "table.csv", "--out", "table.svg"]):
        ran = run([drawing[0], "-m", "hithwelor", *words], env=bare, cwd=tmp_path)
        assert ran.returncode == 0, ran.stdout
    assert (tmp_path / "table.svg").read_text(encoding="utf-8").startswith("<?xml")


# ---- the package of JavaScript


def test_the_tarball_is_installed_and_answers(released, tmp_path, node, needs):
    needs("npm")
    (tmp_path / "package.json").write_text('{"private": true}\n')
    (tmp_path / "ask.mjs").write_text(ASK)
    home = {
        **os.environ,
        "HOME": str(tmp_path),
        "npm_config_cache": str(tmp_path / "cache"),
        "npm_config_offline": "true",
        "npm_config_update_notifier": "false",
        "npm_config_audit": "false",
        "npm_config_fund": "false",
    }
    ran = run(["npm", "install", only(released, "hithwelor-js-*.tgz")], cwd=tmp_path, env=home)
    assert ran.returncode == 0, ran.stdout
    assert run([node, "ask.mjs"], cwd=tmp_path).stdout == LEAST_SAID
    command = tmp_path / "node_modules" / ".bin" / "hithwelor"
    ran = run([node, command, "check"], cwd=tmp_path, input="S,_,_,+,T\nT,_,_,0,F\n")
    assert ran.stdout == LEAST_SAID
