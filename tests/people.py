"""The command `hithwelor` called in this process: its status, its standard output and what it says beside it."""
import contextlib
import io
import os
import sys
from unittest import mock

from places import TOP

from hithwelor import cli

EXAMPLES = os.path.join(TOP, "examples")


def called(*words, data=b""):
    """The status, the bytes on standard output and the text on standard error."""
    out, err = io.TextIOWrapper(io.BytesIO(), encoding="utf-8"), io.StringIO()
    given = io.TextIOWrapper(io.BytesIO(data), encoding="utf-8")
    with contextlib.redirect_stdout(out), contextlib.redirect_stderr(err), mock.patch.object(sys, "stdin", given):
        status = cli.main([str(it) for it in words])
    out.flush()
    return status, out.buffer.getvalue(), err.getvalue()


def example(name):
    return os.path.join(EXAMPLES, name)


def window_told(err):
    """The numbers of the window that is told on standard error."""
    (line,) = [line for line in err.splitlines() if line.startswith("note: --window ")]
    return line.removeprefix("note: --window ").split(",")
