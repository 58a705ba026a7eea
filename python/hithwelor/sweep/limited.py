"""Answers with a limit of time. A call of the library can't be stopped, so each is made in a process of its own that is
kept for the next ones and killed where a case takes too long."""
from __future__ import annotations

import contextlib
import os
import select
import signal
import subprocess
import sys
import threading
import time
from typing import IO, NoReturn

from .. import answers
from ..engines import HEAD, MOST_NUMBER, piped, write_all

LOOK = 0.3
PACKAGES = os.path.dirname(answers.HERE)


class TimeUp(Exception):
    """A case took longer than it may."""


class Ended(Exception):
    """The process that answered a case has ended, as where the system kills it for want of memory."""


class Direct:
    """Answers without a limit, in this process."""

    def __init__(self) -> None:
        self.ask = answers.way().answer

    def begin(self) -> None:
        """A new case begins."""


class Limited:
    """Answers with a limit of seconds a case."""

    keeper = threading.local()

    def __init__(self) -> None:
        self.child: subprocess.Popen[bytes] | None = None
        self.seconds, self.until, self.number = 0.0, 0.0, 0

    @classmethod
    def kept(cls, seconds: float) -> Limited:
        """The one of this thread, with this limit."""
        if not hasattr(cls.keeper, "it"):
            cls.keeper.it = cls()
        kept: Limited = cls.keeper.it
        kept.seconds = seconds
        return kept

    def begin(self) -> None:
        """A new case begins; where there is no process yet, it is started before its time counts."""
        if self.child is None or self.child.poll() is not None:
            path = os.pathsep.join([PACKAGES, *filter(None, [os.environ.get("PYTHONPATH")])])
            self.child = subprocess.Popen(
                [sys.executable, "-m", __name__, str(os.getpid())],
                bufsize=0,
                start_new_session=True,
                stdin=subprocess.PIPE,
                stdout=subprocess.PIPE,
                env={**os.environ, "PYTHONPATH": path},
            )
            self.until = time.monotonic() + 60
            self.read(1)
        self.until = time.monotonic() + self.seconds

    def ask(self, words: bytes, data: bytes) -> tuple[int, bytes]:
        """The answer, in the time that is left of this case."""
        try:
            self.number = self.number + 1 & MOST_NUMBER
            _, pipe, _ = self.pipes()
            write_all(pipe, HEAD.pack(self.number, len(words), len(data)) + words + data)
            answered, code, length = HEAD.unpack(self.read(HEAD.size))
            if answered != self.number:
                raise EOFError(f"request {self.number} has the answer of request {answered}")
            return code, self.read(length)
        except BaseException as fault:
            if self.child:
                self.stop()
            if isinstance(fault, (OSError, EOFError)):
                raise Ended from fault
            raise

    def pipes(self) -> tuple[subprocess.Popen[bytes], IO[bytes], IO[bytes]]:
        """The process, and the two pipes to it and from it."""
        assert self.child is not None
        return self.child, piped(self.child.stdin), piped(self.child.stdout)

    def read(self, count: int) -> bytes:
        """So many bytes from the process, or TimeUp, where it is killed."""
        _, _, pipe = self.pipes()
        parts: list[bytes] = []
        while count:
            ready, _, _ = select.select([pipe], [], [], max(0.0, self.until - time.monotonic()))
            if not ready:
                self.stop()
                raise TimeUp
            part = pipe.read(min(count, 1 << 20))
            if not part:
                raise EOFError
            parts.append(part)
            count -= len(part)
        return b"".join(parts)

    def stop(self) -> None:
        """Kills the process, with what it started."""
        child, into, out = self.pipes()
        kill_group(child.pid)
        child.wait()
        into.close()
        out.close()
        self.child = None


def kill_group(leader: int) -> None:
    """Kills a process that leads a group, with its group: where node answers, it is in the group."""
    with contextlib.suppress(ProcessLookupError):
        os.killpg(leader, signal.SIGKILL)


def end_with(parent: int) -> None:
    """Lets this process lead a group, which Ctrl-C doesn't reach, and end with it where its parent has ended. The parent is
    told by its number: it may have ended before this process came to ask."""
    if os.getpgrp() != os.getpid():
        os.setsid()

    def watch() -> None:
        while os.getppid() == parent:
            time.sleep(LOOK)
        kill_group(os.getpid())

    threading.Thread(target=watch, daemon=True).start()


def exactly(pipe: IO[bytes], count: int) -> bytes:
    """So many bytes, or the end of the process where there are no more."""
    data = pipe.read(count)
    if len(data) < count:
        sys.exit(0)
    return data


def serve(parent: int) -> NoReturn:
    """Answers one call after another, framed as `serve` of js/command.mjs has them; a first byte says that it is ready."""
    end_with(parent)
    source, sink, way = sys.stdin.buffer, sys.stdout.buffer, answers.way()
    sink.write(b".")
    sink.flush()
    while True:
        number, words, data = HEAD.unpack(exactly(source, HEAD.size))
        code, text = way.answer(exactly(source, words), exactly(source, data))
        sink.write(HEAD.pack(number, code, len(text)) + text)
        sink.flush()


if __name__ == "__main__":
    serve(int(sys.argv[1]))
