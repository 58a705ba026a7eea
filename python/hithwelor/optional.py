"""Packages that some calls need, and that need not be there."""
from __future__ import annotations

from collections.abc import Iterator
from contextlib import contextmanager


@contextmanager
def needs(package: str, extra: str) -> Iterator[None]:
    """Says how a package is installed, where an import of it inside fails."""
    try:
        yield
    except ModuleNotFoundError as missing:
        told = f"this call needs {package}: install it, or hithwelor[{extra}]"
        raise ModuleNotFoundError(told, name=missing.name) from None
