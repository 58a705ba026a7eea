"""The command `hithwelor`, or python3 -m hithwelor: see cli."""
from __future__ import annotations

import sys

from .cli import main


def command() -> None:
    """The command `hithwelor` of an installed package."""
    sys.exit(main(sys.argv[1:]))


if __name__ == "__main__":
    command()
