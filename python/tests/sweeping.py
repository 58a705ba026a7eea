"""What the tests of the sweep share: calls of the package's commands in a folder of their own, and what may be missing."""
import contextlib
import functools
import importlib.util
import os
import pty
import shutil
import signal
import subprocess
import sys
import tempfile
import time
import unittest

import pytest

PACKAGES = os.path.dirname(os.path.dirname(os.path.abspath(__file__)))
TOP = os.path.dirname(PACKAGES)
sys.path.insert(0, PACKAGES)

from hithwelor import answers
from hithwelor.sweep import cases, rows, table

INCREMENT = os.path.join(TOP, "examples", "increment.csv")
LEAST = os.path.join(TOP, "examples", "least.csv")
# It goes to and fro on the empty word, and halts on a word that begins with 0.
ENDLESS = "S,_,_,+,T\nT,_,_,+,U\nU,_,_,-,T\nT,0,_,0,V\nV,_,_,0,F\n"
PATIENCE = 240
# What a shell starts behind & has Ctrl-C ignored, and so would all sweeps that are started here.
signal.signal(signal.SIGINT, signal.default_int_handler)


def answering():
    """Whether anything here answers."""
    try:
        answers.way()
    except answers.Unavailable:
        return False
    return True


@functools.cache
def python_with(module):
    """A Python of this machine that has a module: this one, where it has it, else another on the path, or the system's
    own, to which the packages of the system belong. None where there is none."""
    if importlib.util.find_spec(module):
        return sys.executable
    find = f"import importlib.util as it, sys; sys.exit(sys.version_info < (3, 9) or it.find_spec({module!r}) is None)"
    folders = [*os.environ.get("PATH", "").split(os.pathsep), "/usr/local/bin", "/usr/bin"]
    for path in dict.fromkeys(os.path.join(folder, "python3") for folder in folders):
        if os.access(path, os.X_OK) and subprocess.run([path, "-c", find], stderr=subprocess.DEVNULL).returncode == 0:
            return path
    return None


def needs(module):
    """Skips a test where no Python here has a module."""
    return unittest.skipUnless(python_with(module), f"no Python here has {module}")


def environment(blocked, folder):
    """The environment of a call, in which these modules can't be imported."""
    for name in blocked:
        with open(os.path.join(folder, f"{name}.py"), "w", encoding="utf-8") as file:
            file.write("raise ImportError\n")
    return {**os.environ, "PYTHONPATH": os.pathsep.join([folder, PACKAGES]), "PYTHONDONTWRITEBYTECODE": "1"}


def without_seconds(data):
    """A table without its last column."""
    return [line.rpartition(b",")[0] for line in data.splitlines()]


@functools.cache
def whole(length):
    """The table of `machine` and `run` on all words of the increment up to a length, made without workers."""
    (machine,) = cases.tables_of([INCREMENT], print)
    words = cases.AllWords(machine.letters, 0, length)
    plan = cases.Plan((machine,), (words,), cases.kinds_of(["machine", "run"], [cases.AUTO], cases.MOST_STEPS))
    return table.HEAD + rows.work(plan.batch(0, plan.groups)).text.encode()


class Sweeps(unittest.TestCase):
    pytestmark = [pytest.mark.slow, pytest.mark.engine]

    def setUp(self):
        if not answering():
            self.skipTest("neither the shared library nor node is here")
        self.folder = tempfile.mkdtemp()
        self.addCleanup(shutil.rmtree, self.folder)
        self.blocks = tempfile.mkdtemp()
        self.addCleanup(shutil.rmtree, self.blocks)
        self.table = os.path.join(self.folder, "table.csv")

    def file(self, name, text=""):
        """A file of the test's folder."""
        path = os.path.join(self.folder, name)
        with open(path, "w", encoding="utf-8") as file:
            file.write(text)
        return path

    def start(self, *words, blocked=(), python=sys.executable, **more):
        """A command of the package, started."""
        return subprocess.Popen(
            [python, "-m", "hithwelor", *map(str, words)],
            cwd=self.folder,
            env=environment(blocked, self.blocks),
            **more,
        )

    def call(self, *words, blocked=(), python=sys.executable):
        """The status, the output and what was said."""
        ran = self.start(*words, blocked=blocked, python=python, stdout=subprocess.PIPE, stderr=subprocess.PIPE)
        out, said = ran.communicate(timeout=PATIENCE)
        return ran.returncode, out.decode(), said.decode()

    def sweep(self, *words):
        """The rows of a sweep that has nothing to say, without the head and the seconds."""
        status, out, said = self.call("sweep", *words, "--jobs", 1)
        self.assertEqual((status, said), (0, ""))
        return [line.rpartition(",")[0] for line in out.splitlines()[1:]]

    def content(self, path=None):
        with open(path or self.table, "rb") as file:
            return file.read()

    def wait_for_rows(self, count, running):
        """Waits until the table has so many rows."""
        until = time.monotonic() + PATIENCE
        while not os.path.exists(self.table) or self.content().count(b"\n") <= count:
            self.assertLess(time.monotonic(), until, "the rows didn't come")
            self.assertIn(running.poll(), (None, 0), "the sweep ended before")
            time.sleep(0.01)

    def assert_line(self, said, *parts):
        """One line is said, with these parts."""
        self.assertEqual(said.count("\n"), 1, said)
        for part in parts:
            self.assertIn(part, said)

    def said_on_a_terminal(self, *words, blocked=(), python=sys.executable):
        """What a command says where standard error is a terminal."""
        master, slave = pty.openpty()
        ran = self.start(*words, blocked=blocked, python=python, stdout=subprocess.DEVNULL, stderr=slave)
        os.close(slave)
        said = b""
        with contextlib.suppress(OSError):
            while part := os.read(master, 4096):
                said += part
        os.close(master)
        self.assertEqual(ran.wait(PATIENCE), 0)
        return said.decode()
