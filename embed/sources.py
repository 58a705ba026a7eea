"""What the page and the command were built from, as digests: page/sources.sha256."""
import hashlib
import os
import re

TOP = os.path.dirname(os.path.dirname(os.path.abspath(__file__)))
CRATE = "bn_embed"
RECORD = "page/sources.sha256"
# What the page and the command are made of besides the crates and the toolchain.
PARTS = [
    "embed/build",
    "embed/bundle.py",
    "embed/heap.c",
    "embed/narrow.py",
    "embed/single.mjs",
    "js/command.mjs",
    "js/core.mjs",
    "js/explain.mjs",
    "js/explanations.mjs",
    "page/src",
]
MADE = ["page/hithwelor.html", "bin/hithwelor", "js/hithwelor.wasm"]
# How the name of a source ends. What an editor leaves beside it is none.
ENDINGS = (".rt", ".antt", ".js", ".mjs", ".css", ".html", ".svg")
HEAD = """\
# What page/hithwelor.html and bin/hithwelor were built from, and what was built, by SHA-256: a line a file, in the form of
# sha256sum. embed/build writes this list; tests/page compares it with the files, and ./try before the module answers.
"""


def uses():
    """What each crate names in crates.txt."""
    found = {}
    with open(os.path.join(TOP, "crates.txt"), encoding="utf-8") as file:
        for line in file:
            crate = re.match(r"(\w+)(?: [\w=]+)*:(.*)", line.partition("#")[0])
            if crate:
                found[crate[1]] = crate[2].split()
    return found


def crates_below():
    """The crates on which the library stands, in the order of crates.txt."""
    all_uses, found = uses(), set()

    def visit(crate):
        for it in all_uses[crate]:
            if it in all_uses and it not in found:
                found.add(it)
                visit(it)

    visit(CRATE)
    return [it for it in all_uses if it in found]


def files_of(path):
    """The path of a file, or those of a folder's sources. A source that is new counts from when it stands here: one that
    is listed has to name it, and so has changed."""
    if os.path.isfile(os.path.join(TOP, path)):
        return [path]
    found = []
    for folder, _, names in os.walk(os.path.join(TOP, path)):
        found += [
            os.path.relpath(os.path.join(folder, name), TOP)
            for name in names
            if name.endswith(ENDINGS) and not name.startswith((".", "#"))
        ]
    return sorted(found)


def digest(path):
    """The digest of a file; None where there is none."""
    try:
        with open(os.path.join(TOP, path), "rb") as file:
            return hashlib.sha256(file.read()).hexdigest()
    except OSError:
        return None


def lines_of(paths):
    """A line a file."""
    return [f"{digest(file)}  {file}" for path in paths for file in files_of(path)]


def digest_of(module):
    return hashlib.sha256(module).hexdigest()


def record(toolchain, versions, module):
    """The text of the list, for a toolchain's line, those of what bundles, and the bytes of the module."""
    lines = [f"toolchain {toolchain}", *versions, f"{digest_of(module)}  the module"]
    lines += lines_of(sources() + MADE)
    return HEAD + "".join(f"{line}\n" for line in lines)


def listed_lines():
    """The lines of the list."""
    with open(os.path.join(TOP, RECORD), encoding="utf-8") as file:
        return [line.rstrip("\n") for line in file if not line.startswith("#")]


def names_module(module):
    """Whether the list names this module."""
    return f"{digest_of(module)}  the module" in listed_lines()


def record_again():
    """The text of the list for pages of the module that it names already: what that module was built from stays as it is
    told, whatever stands in the crates by now."""
    kept = [line for line in listed_lines() if not any(is_of(line.partition("  ")[2], part) for part in PARTS + MADE)]
    return HEAD + "".join(f"{line}\n" for line in kept + lines_of(PARTS + MADE))


def is_of(path, part):
    """Whether this is the path of a part, or below it."""
    return path == part or path.startswith(f"{part}/")


def sources():
    """The paths of all that the page and the command are built from."""
    return [f"crates/{it}/src" for it in [*crates_below(), CRATE]] + PARTS


def changed():
    """The paths that the list has otherwise than the files, and those of crates and parts that it lacks."""
    listed = dict(line.split("  ")[::-1] for line in listed_lines() if "  " in line)
    listed.pop("the module", None)
    lacking = [part for part in sources() + MADE if not any(is_of(path, part) for path in listed)]
    return sorted([path for path in listed if listed[path] != digest(path)] + lacking)
