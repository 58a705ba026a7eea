"""The repository as its files tell it: texts by their paths from the top, and the rooms and crates of crates.txt."""
import os
import re

TOP = os.path.dirname(os.path.dirname(os.path.dirname(os.path.abspath(__file__))))


def text_of(*path):
    """The text of a file, by its path from the top."""
    with open(os.path.join(TOP, *path), encoding="utf-8") as file:
        return file.read()


def rooms():
    """The rooms of crates.txt in their order: (name, what it has, [crate, ..])."""
    found = []
    for line in text_of("crates.txt").splitlines():
        head = re.fullmatch(r"# (\w+): (.*)", line)
        crate = re.match(r"(\w+)(?: [\w=]+)*:", line)
        if head:
            found.append((head[1], head[2], []))
        elif crate and not found:
            found.append(("", "", [crate[1]]))
        elif crate:
            found[-1][2].append(crate[1])
    return found


def crates():
    """The crates of crates.txt in their order."""
    return [crate for _, _, names in rooms() for crate in names]
