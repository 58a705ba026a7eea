"""What the package's own commands say where something is wrong: a few lines, and a status."""
from __future__ import annotations

WRONG, FULL, STOPPED = 2, 8, 130


class Fault(Exception):
    """What is wrong and what to do about it, as one line, with the status with which the command ends."""

    def __init__(self, line: str, status: int = WRONG) -> None:
        self.status = status
        super().__init__(line)


class Stop(Fault):
    """What the command `hithwelor` prints in place of an answer: the cause with its place, a remedy, and the status. A usage
    error has the command whose usage is printed, which is empty where none is named."""

    def __init__(self, cause: str, status: int = WRONG, remedy: str = "", usage: str | None = None) -> None:
        self.cause, self.remedy, self.usage = cause, remedy, usage
        super().__init__(cause, status)


def cause(error: OSError) -> str:
    """The cause of an error of the system, in few words."""
    return error.strerror or str(error)
