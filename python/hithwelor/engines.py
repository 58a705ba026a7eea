"""The two engines that run the program: the shared library, and a child process of Node.js.

Both have one call, `answer(words, data)`: the words joined by bytes 0 and the input go in, the status and the text come out.
An exception that interrupts a call, from Ctrl-C, a signal handler or a timeout, never changes the answer of a later call.
"""
from __future__ import annotations

import atexit
import contextlib
import ctypes
import os
import struct
import subprocess
import threading
import weakref
from types import TracebackType
from typing import IO, TypeVar

LEAST_NODE, TOO_OLD = 18, 86
# What the child of Node.js runs: the command as a module, which answers one request after another. Ctrl-C is Python's.
SERVE = (
    f"if (parseInt(process.versions.node) < {LEAST_NODE}) process.exit({TOO_OLD}); "
    "process.on('SIGINT', () => {}); require(process.argv[1]).serve()"
)
FULL = 8
ROOM, MOST_KEPT = 1 << 16, 1 << 24
# The head of a request: its number and the lengths of the words and of the input; and of an answer: the number of its
# request, the status and the length of the text.
HEAD = struct.Struct("<III")
MOST_NUMBER = 0xFFFFFFFF

Kind = TypeVar("Kind", bound="Engine")


class Unavailable(RuntimeError):
    """No engine is here, the engine is closed, or its process has ended."""


class Engine:
    """What runs the program. `with` closes it at the end of its block."""

    path: str

    def answer(self, words: bytes, data: bytes) -> tuple[int, bytes]:
        """The status and the text of one request."""
        raise NotImplementedError

    def close(self) -> None:
        """Ends the engine; a later request is Unavailable."""
        raise NotImplementedError

    @property
    def is_closed(self) -> bool:
        """Whether the engine is closed."""
        raise NotImplementedError

    def __enter__(self: Kind) -> Kind:
        return self

    def __exit__(
        self, kind: type[BaseException] | None, fault: BaseException | None, trace: TracebackType | None
    ) -> None:
        self.close()


class Library(Engine):
    """The program as a shared library."""

    def __init__(self, path: str) -> None:
        self.path, self.kept, self.closed = path, threading.local(), False
        try:
            self.call = ctypes.CDLL(path).hithwelor_answer
        except (OSError, AttributeError) as fault:
            raise Unavailable(f"{path} is not the program's shared library: {fault}") from fault
        self.call.restype = ctypes.c_uint32
        self.call.argtypes = [
            ctypes.c_char_p,
            ctypes.c_size_t,
            ctypes.c_char_p,
            ctypes.c_size_t,
            ctypes.c_void_p,
            ctypes.c_size_t,
            ctypes.POINTER(ctypes.c_uint64),
        ]

    def answer_into(self, words: bytes, data: bytes, output: ctypes.Array[ctypes.c_char]) -> tuple[int, int]:
        """One call with this output: the code, and the length of the whole text."""
        taken = ctypes.c_uint64()
        code: int = self.call(words, len(words), data, len(data), output, len(output), ctypes.byref(taken))
        return code, taken.value

    def answer(self, words: bytes, data: bytes) -> tuple[int, bytes]:
        """The code and the text. Each thread keeps an output that was enough, unless it is too large. During a call nobody
        else has that output: a signal handler that calls meanwhile takes one of its own."""
        if self.closed:
            raise Unavailable(f"the engine is closed: {self.path}")
        output: ctypes.Array[ctypes.c_char] | None = self.kept.__dict__.pop("output", None)
        if output is None:
            output = ctypes.create_string_buffer(ROOM)
        code, taken = self.answer_into(words, data, output)
        if code == FULL and taken > len(output):
            output = ctypes.create_string_buffer(taken)
            code, taken = self.answer_into(words, data, output)
        text = ctypes.string_at(output, taken)
        if len(output) <= MOST_KEPT:
            self.kept.output = output
        return code, text

    def close(self) -> None:
        """Lets go of the kept outputs; the library itself stays loaded."""
        self.kept, self.closed = threading.local(), True

    @property
    def is_closed(self) -> bool:
        return self.closed


class Node(Engine):
    """The program in a child process of Node.js, which answers one request after another.

    Requests and answers are numbered. A call that doesn't read its whole answer, whatever the reason, ends the child, and the
    next call starts another one: no answer is left for a later request.
    """

    started: weakref.WeakSet[Node] = weakref.WeakSet()

    def __init__(self, node: str, command: str) -> None:
        self.path = f"{node} {command}"
        self.words = [node, "-e", SERVE, os.path.abspath(command)]
        self.lock, self.number, self.closed = threading.RLock(), 0, False
        self.is_asked, self.is_in_step = False, False
        self.child = self.start()
        self.started.add(self)
        atexit.register(self.close)

    def start(self) -> subprocess.Popen[bytes]:
        """A new child, which has no answer to give yet."""
        self.child = subprocess.Popen(self.words, bufsize=0, stdin=subprocess.PIPE, stdout=subprocess.PIPE)
        self.is_in_step = True
        return self.child

    def answer(self, words: bytes, data: bytes) -> tuple[int, bytes]:
        with self.lock:
            if self.closed:
                raise Unavailable(f"the engine is closed: {self.path}")
            if self.is_asked:
                # A signal handler asks during another request of this thread: a child of its own answers.
                with Node(self.words[0], self.words[-1]) as apart:
                    return apart.answer(words, data)
            try:
                self.is_asked = True
                if not self.is_in_step or self.child.poll() is not None:
                    self.end()
                    self.start()
                return self.exchange(words, data)
            except BaseException as fault:
                self.end()
                if isinstance(fault, (OSError, EOFError)):
                    raise Unavailable(self.cause()) from fault
                raise
            finally:
                self.is_asked = False

    def exchange(self, words: bytes, data: bytes) -> tuple[int, bytes]:
        """Sends one request and reads its answer."""
        self.is_in_step = False
        number = self.number = self.number + 1 & MOST_NUMBER
        sink, source = piped(self.child.stdin), piped(self.child.stdout)
        write_all(sink, HEAD.pack(number, len(words), len(data)) + words + data)
        answered, code, length = HEAD.unpack(read_all(source, HEAD.size))
        if answered != number:
            raise EOFError(f"request {number} has the answer of request {answered}")
        text = read_all(source, length)
        self.is_in_step = True
        return code, text

    def end(self) -> None:
        """Kills the child, unless it waits for a request and ends by itself."""
        if not self.is_in_step and self.child.poll() is None:
            self.child.kill()
        for pipe in (self.child.stdin, self.child.stdout):
            with contextlib.suppress(OSError, ValueError):
                piped(pipe).close()
        self.child.wait()

    def cause(self) -> str:
        """Why the child has ended, if its status tells it."""
        if self.child.returncode != TOO_OLD:
            return f"the process of Node.js has ended: {self.path}"
        told = subprocess.run([self.words[0], "--version"], stdout=subprocess.PIPE, text=True).stdout.strip()
        return f"{self.words[0]} is Node.js {told}, and {LEAST_NODE} or later is needed"

    def close(self) -> None:
        self.closed = True
        self.end()
        atexit.unregister(self.close)

    @property
    def is_closed(self) -> bool:
        return self.closed

    def forget(self) -> None:
        """In a forked process: leaves the child to the parent, and gives this process its own at its first request."""
        self.lock, self.is_asked, self.is_in_step = threading.RLock(), False, True
        with open(os.devnull, "r+b") as nothing:
            for pipe in (self.child.stdin, self.child.stdout):
                if pipe and not pipe.closed:
                    os.dup2(nothing.fileno(), pipe.fileno(), inheritable=False)
        self.child.returncode = self.child.poll() or 0


def piped(pipe: IO[bytes] | None) -> IO[bytes]:
    """The pipe that a process was given."""
    assert pipe is not None
    return pipe


def write_all(pipe: IO[bytes], data: bytes) -> None:
    """Writes all bytes to a pipe without a buffer."""
    left = memoryview(data)
    while left:
        left = left[pipe.write(left) :]


def read_all(pipe: IO[bytes], count: int) -> bytes:
    """So many bytes of a pipe without a buffer; EOFError if it ends before."""
    data, at = bytearray(count), 0
    while at < count:
        read: int = pipe.readinto(memoryview(data)[at:])  # type: ignore[attr-defined]
        if not read:
            raise EOFError
        at += read
    return bytes(data)


def forget_children() -> None:
    """What a forked process does first."""
    for node in list(Node.started):
        node.forget()


if hasattr(os, "register_at_fork"):
    os.register_at_fork(after_in_child=forget_children)
