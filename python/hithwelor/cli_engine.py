"""What answers the command `hithwelor`: the proved program where it is built of the sources that are here, else the package's own
way to an answer, which is the shared library or the WebAssembly module under Node.js. No proof is ever started.
"""
from __future__ import annotations

import os
import subprocess
import sys
import threading
import time
from typing import Any, Callable

from . import answers
from .faults import Stop

NO_ENGINE, READ_FAULT, NO_MEMORY = 1, 7, 9
BUILT = os.path.join(answers.TOP, "crates", "bn_main", "out", "bn_main")
# The proved program of an installation stands beside the file with its version.
INSTALLED = [os.path.join(answers.TOP, name) for name in ("version", "hithwelor")]
TOOL = os.path.join(answers.TOP, "tools", "program")
# How many seconds pass before a count of them is shown on a terminal.
PATIENCE = 1.5

Answer = tuple[int, bytes]
Ask = Callable[[list[str], bytes], Answer]


def proved_program() -> str:
    """The path of the proved program, where it is current; else nothing."""
    if os.environ.get(answers.VARIABLE):
        return ""
    if os.access(BUILT, os.X_OK) and os.path.exists(TOOL):
        ran = subprocess.run([TOOL], stdout=subprocess.PIPE, stderr=subprocess.DEVNULL, text=True)
        return ran.stdout.strip()
    return INSTALLED[1] if all(map(os.path.isfile, INSTALLED)) else ""


class Engine:
    """What answers, chosen at the first question."""

    def __init__(self) -> None:
        self.program: str | None = None

    @property
    def name(self) -> str:
        """What answers, in words."""
        if self.program is None:
            self.program = proved_program()
        if self.program:
            return f"the proved program, {self.program}"
        way = answers.way()
        if isinstance(way, answers.Library):
            return f"the proved code as a shared library, {way.path}"
        return f"the proved code as a WebAssembly module under Node.js, {way.path}"

    def __call__(self, words: list[str], data: bytes) -> Answer:
        """The status and the text of the program's answer."""
        if self.program is None:
            self.program = proved_program()
        given = [word.encode(errors="surrogateescape") for word in words]
        try:
            if self.program:
                ran = subprocess.run([self.program.encode(), *given], input=data, stdout=subprocess.PIPE)
                return ran.returncode, ran.stdout
            return answers.answer(given, data)
        except answers.NoMemory:
            return NO_MEMORY, b""
        except answers.Unavailable as fault:
            raise Stop(str(fault), NO_ENGINE) from None


def bar_of(what: str) -> Any:
    """tqdm's bar for work of unknown length; None where tqdm isn't installed."""
    try:
        from tqdm import tqdm
    except ImportError:
        return None
    return tqdm(desc=what, bar_format="{desc} .. {elapsed}", leave=False)


class Progress:
    """On a terminal, what is being done and for how many seconds; elsewhere nothing. `with Progress("running"): ..`"""

    def __init__(self, what: str) -> None:
        self.what, self.over = what, threading.Event()
        self.thread = threading.Thread(target=self.show, daemon=True)
        self.is_shown = sys.stderr is not None and sys.stderr.isatty()

    def show(self) -> None:
        began = time.monotonic()
        if self.over.wait(PATIENCE):
            return
        bar = bar_of(self.what)
        while not self.over.wait(0.5):
            if bar:
                bar.refresh()
            else:
                print(f"\r{self.what} .. {time.monotonic() - began:.0f} s ", end="", file=sys.stderr, flush=True)
        if bar:
            bar.close()
        else:
            print("\r\033[K", end="", file=sys.stderr, flush=True)

    def __enter__(self) -> Progress:
        if self.is_shown:
            self.thread.start()
        return self

    def __exit__(self, *_: object) -> None:
        self.over.set()
        if self.is_shown:
            self.thread.join()
