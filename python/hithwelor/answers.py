"""Words and an input go to the program; its status and its text come back.

The engine is the shared library if one is here: the file that the variable HITHWELOR_LIBRARY names, else libhithwelor.so beside
these modules, as an installed package has it, else embed/out/libhithwelor.so of the repository, which embed/build makes.
Otherwise a child process of Node.js answers, by hithwelor.cjs beside these modules or by bin/hithwelor, and is kept.
"""
from __future__ import annotations

import os
import shutil
import threading
from collections.abc import Sequence
from typing import Union

from .engines import LEAST_NODE, Engine, Library, Node, Unavailable

__all__ = [
    "Bytes",
    "Engine",
    "HERE",
    "Library",
    "Node",
    "NoMemory",
    "TOP",
    "Unavailable",
    "VARIABLE",
    "answer",
    "close",
    "engine",
    "way",
]

HERE = os.path.dirname(os.path.abspath(__file__))
TOP = os.path.dirname(os.path.dirname(HERE))
SHARED = [os.path.join(HERE, "libhithwelor.so"), os.path.join(TOP, "embed", "out", "libhithwelor.so")]
COMMANDS = [os.path.join(HERE, "hithwelor.cjs"), os.path.join(TOP, "bin", "hithwelor")]
VARIABLE = "HITHWELOR_LIBRARY"
NO_MEMORY = 9

# What words and inputs may be: a str is taken in UTF-8.
Bytes = Union[str, bytes, bytearray, memoryview]


class NoMemory(MemoryError):
    """The program ran out of memory (status 9)."""


_kept: list[Engine] = []
_lock = threading.RLock()


def _begin_anew() -> None:
    """In a forked process: another thread of the parent may have had the lock."""
    global _lock
    _lock = threading.RLock()


if hasattr(os, "register_at_fork"):
    os.register_at_fork(after_in_child=_begin_anew)


def library_path() -> str | None:
    """The path of the shared library, where one stands, else None."""
    named = os.environ.get(VARIABLE)
    if named and not os.path.exists(named):
        raise Unavailable(f"{VARIABLE} names {named}, which isn't there")
    return named or first_that_stands(SHARED)


def first_that_stands(paths: Sequence[str]) -> str | None:
    """The first of these paths at which a file is, else None."""
    return next((path for path in paths if os.path.exists(path)), None)


def places() -> tuple[str, ...]:
    """The path of the shared library; else those of Node.js and of its command. Unavailable if there is neither."""
    path, node, command = library_path(), shutil.which("node"), first_that_stands(COMMANDS)
    if path:
        return (path,)
    if node and command:
        return node, command
    raise Unavailable(
        f"no engine is here: install Node.js {LEAST_NODE} or later; or name the shared library, which embed/build of a clone "
        f"makes, by {VARIABLE}"
    )


def way() -> Engine:
    """The engine, a Library or a Node, which is kept for all answers. Unavailable if there is neither."""
    with _lock:
        if _kept and _kept[0].is_closed:
            _kept.clear()
        if not _kept:
            path, *command = places()
            _kept.append(Node(path, *command) if command else Library(path))
        return _kept[0]


def engine() -> Engine:
    """The engine that answers, for a `with` statement that closes it at its end: with hithwelor.engine(): .."""
    return way()


def close() -> None:
    """Ends the engine, if one runs; the next call starts another one."""
    with _lock:
        while _kept:
            _kept.pop().close()


def bytes_of(data: Bytes, what: str) -> bytes:
    if isinstance(data, str):
        return data.encode()
    if isinstance(data, (bytes, bytearray, memoryview)):
        return bytes(data)
    raise TypeError(f"{what} is a str or bytes, and not {type(data).__name__}")


def answer(words: Sequence[Bytes], input: Bytes = b"") -> tuple[int, bytes]:
    """The status and the text, as bytes, of the program's answer to words and an input.

    The words are a sequence of str or bytes, as behind ./workbench; the input is str or bytes. A str is taken in UTF-8. The
    statuses are those of docs/use/formats.md. A word with a byte 0 is a ValueError; running out of memory is NoMemory.
    """
    if isinstance(words, (str, bytes)):
        raise TypeError("words is a sequence of words, and not one text")
    listed = [bytes_of(word, "a word") for word in words]
    if any(b"\0" in word for word in listed):
        raise ValueError("a word has no byte 0")
    code, text = way().answer(b"\0".join(listed), bytes_of(input, "the input"))
    if code == NO_MEMORY:
        raise NoMemory("the program ran out of memory")
    return code, text
