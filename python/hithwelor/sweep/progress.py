"""The line that tells how far a sweep is: rows, rate, and the time that is left. Where standard error is no terminal, none."""
from __future__ import annotations

import sys
import time
from typing import Any

EVERY = 0.5


def spelled(time_left: float) -> str:
    """So many seconds in words."""
    minutes, seconds = divmod(round(time_left), 60)
    hours, minutes = divmod(minutes, 60)
    return f"{hours} h {minutes} min" if hours else f"{minutes} min {seconds} s" if minutes else f"{seconds} s"


class Plain:
    """A plain line, written over itself."""

    def __init__(self, total: int, done: int) -> None:
        self.total, self.done, self.first, self.began, self.told = total, done, done, time.monotonic(), 0.0

    def update(self, rows: int) -> None:
        self.done += rows
        now = time.monotonic()
        if now - self.told >= EVERY or self.done == self.total:
            self.told = now
            rate = (self.done - self.first) / max(now - self.began, 1e-6)
            left = spelled((self.total - self.done) / rate) if rate else "?"
            sys.stderr.write(f"\r{self.done:,} of {self.total:,} rows, {rate:,.0f} a second, {left} left\033[K")
            sys.stderr.flush()

    def close(self) -> None:
        sys.stderr.write("\n")
        sys.stderr.flush()


class Silent:
    """No line."""

    def update(self, rows: int) -> None:
        """Nothing is told."""

    def close(self) -> None:
        """Nothing is told."""


def progress(total: int, done: int) -> Any:
    """The line for so many rows, of which so many are done: by tqdm where it is installed."""
    if not sys.stderr.isatty():
        return Silent()
    try:
        from tqdm import tqdm
    except ImportError:
        return Plain(total, done)
    return tqdm(total=total, initial=done, unit=" rows", file=sys.stderr, dynamic_ncols=True)
