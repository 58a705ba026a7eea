"""Places in which the repository is tried: clones and copies, and PATHs of machines that have this and lack that."""
import functools
import glob
import importlib.machinery
import importlib.util
import os
import re
import resource
import shutil
import subprocess
import sys

TOP = os.path.dirname(os.path.dirname(os.path.abspath(__file__)))
sys.path.insert(0, os.path.join(TOP, "tools", "lib"))
from repository import crates, rooms, text_of

CACHE = os.path.join(os.environ.get("XDG_CACHE_HOME") or os.path.expanduser("~/.cache"), "hithwelor")
# The folders of a machine's own commands, as every user has them on the path.
SYSTEM = ["/usr/local/bin", "/usr/bin", "/bin", "/usr/sbin", "/sbin"]
# What a machine may lack, by the names that its commands begin with.
TOOLS = {
    "rt": r"rt(-.*)?|rattle(-.*)?",
    "node": r"node|nodejs|npm|npx",
    "python": r"python.*|pip.*|pydoc.*|pytest.*|py\.test.*|idle.*",
}
PROGRAM = os.path.join("crates", "bn_main", "out", "bn_main")
LIST = os.path.join("crates", "bn_main", "out", "sources.sha256")
# README's first command, and its answer.
RUN = ["run", "=1011", "0", "5", "11", "5"]
RUN_ANSWER = """elements 14136
exit end
steps 2507884
quadruple steps 65
tape 1 from 0 head 0: _ 1 0 1 1 _
tape 2 from 0 head 0: _ _ _ _ _ _ _ _ _ _ _ _
tape 3 from 0 head 0: _ 1 1 0 0 _
output =1100
"""
# What ./try says of what answered.
BY_PROGRAM, BY_MODULE = "answered by the proved program", "answered by the module, under node"
BY_RT = "nothing is proved of this answer"


def told_program(*words):
    """The path that tools/program prints, or None."""
    ran = subprocess.run([os.path.join(TOP, "tools", "program"), *words], capture_output=True, text=True)
    return ran.stdout.strip() if ran.returncode == 0 else None


def tool(name):
    """A program of tools/ as a module."""
    path = os.path.join(TOP, "tools", name)
    loader = importlib.machinery.SourceFileLoader(f"tool_{os.path.basename(name)}", path)
    module = importlib.util.module_from_spec(importlib.util.spec_from_loader(loader.name, loader))
    loader.exec_module(module)
    return module


def write(path, text, is_run=False):
    os.makedirs(os.path.dirname(path), exist_ok=True)
    with open(path, "w", encoding="utf-8") as file:
        file.write(text)
    if is_run:
        os.chmod(path, 0o755)


def commands_without(folder, *lacking):
    """A folder with the system's commands but those of these tools, as a PATH."""
    pattern = re.compile("|".join(TOOLS[it] for it in lacking) or r"(?!)")
    os.makedirs(folder)
    for system in SYSTEM:
        for path in glob.glob(f"{system}/*"):
            name, to = os.path.basename(path), os.path.join(folder, os.path.basename(path))
            if not pattern.fullmatch(name) and not os.path.lexists(to):
                os.symlink(path, to)
    return folder


def environment(path, **more):
    """A bare environment with this PATH: none of the variables of who runs the tests."""
    return {"PATH": path, "HOME": "/nonexistent", "LC_ALL": "C.UTF-8", "TERM": "dumb", **more}


def run(words, path=os.defpath, cwd=TOP, seconds=120, env=None, **more):
    """What a command gives and says, as text, on a machine with this PATH and nothing else; without input, unless
    one is given."""
    if "input" not in more and "stdin" not in more:
        more["stdin"] = subprocess.DEVNULL
    return subprocess.run(
        words, cwd=cwd, env=env or environment(path), capture_output=True, text=True, timeout=seconds, **more
    )


class Spent:
    """How many seconds of processor time the commands within a `with` took: a clock's tell of a busy machine too."""

    def __enter__(self):
        self.begin = self.now()
        return self

    def __exit__(self, *_):
        self.seconds = self.now() - self.begin

    def now(self):
        told = resource.getrusage(resource.RUSAGE_CHILDREN)
        return told.ru_utime + told.ru_stime


def git(*words, cwd):
    who = ["-c", "safe.directory=*", "-c", "user.name=test", "-c", "user.email=test@localhost"]
    return subprocess.run(["git", *who, *words], cwd=cwd, capture_output=True, text=True, check=True).stdout


def clone_to(folder, *words):
    """A clean clone of the repository as it stands: what isn't committed yet is committed in the clone."""
    git(*words, "clone", "-q", TOP, folder, cwd="/")
    for line in git("status", "--porcelain", "-z", "--no-renames", "--untracked-files=all", cwd=TOP).split("\0"):
        source, to = os.path.join(TOP, line[3:]), os.path.join(folder, line[3:])
        if line and os.path.isfile(source):
            os.makedirs(os.path.dirname(to), exist_ok=True)
            shutil.copy2(source, to)
        elif line and os.path.exists(to):
            os.remove(to)
    if git("status", "--porcelain", cwd=folder):
        git("add", "-A", cwd=folder)
        git("commit", "-qm", "as it stands", cwd=folder)
    return folder


def copy_proved(source, to):
    """Brings the proved program of a repository into a clone or copy of it, with the list that tells its sources."""
    os.makedirs(os.path.join(to, os.path.dirname(PROGRAM)), exist_ok=True)
    for name in (PROGRAM, LIST):
        shutil.copy2(os.path.join(source, name), os.path.join(to, name))


def stand_in(folder):
    """A program in a clone that is as good as proved there: a script that answers by bin/hithwelor and says that it
    did, built of the sources that stand. For what scripts decide, and not for what the program answers."""
    program, digests = os.path.join(folder, PROGRAM), os.path.join(folder, os.path.dirname(PROGRAM), "digests")
    said = 'echo "the stand-in of the program" >&2'
    write(program, f'#!/bin/sh\n{said}\nexec node "{folder}/bin/hithwelor" "$@"\n', is_run=True)
    tool = os.path.join(folder, "tools", "program")
    write(digests, run([tool, "--sources"], path=os.environ["PATH"], cwd=folder).stdout)
    run([tool, "--built", digests], path=os.environ["PATH"], cwd=folder)
    return program


def version_of(command):
    """The version that a command tells, as numbers; None where it doesn't run."""
    try:
        said = subprocess.run([command, "--version"], capture_output=True, text=True, timeout=20).stdout
    except (OSError, subprocess.TimeoutExpired):
        return None
    found = re.search(r"(\d+)\.(\d+)\.(\d+)", said)
    return tuple(int(it) for it in found.groups()) if found else None


@functools.cache
def nodes():
    """Every node that is found, a path for each main version: on the path, and where tools/setup unpacks Debian's."""
    found = {}
    for path in [shutil.which("node"), *sorted(glob.glob(os.path.join(CACHE, "node-*", "bin", "node")))]:
        version = path and version_of(path)
        if version:
            found.setdefault(version[0], path)
    return found


@functools.cache
def pythons(least=(3, 9)):
    """Every Python from this version on that is found, a path for each: on the path, of the system, and of pyenv."""
    pyenv = os.environ.get("PYENV_ROOT") or os.path.expanduser("~/.pyenv")
    found = {}
    for path in [
        *(f"/usr/bin/python3.{it}" for it in range(9, 20)),
        *sorted(glob.glob(f"{pyenv}/versions/3.*/bin/python3")),
        *(shutil.which(f"python3.{it}") for it in range(9, 20)),
        shutil.which("python3"),
    ]:
        version = path and os.path.exists(path) and version_of(path)
        if version and version >= least:
            found.setdefault(version[:2], path)
    return dict(sorted(found.items()))
