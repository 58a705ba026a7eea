"""Every public name of the package has a documented example: in the examples of python/README.md, which tests/test_library.py
runs with each engine. A user's program that calls them has the types that mypy wants."""
import inspect
import os
import re
import unittest

from sweeping import PACKAGES
import hithwelor

# What a reader doesn't call: what reads a text, and what a table has for its own calls.
INNER = {"begins", "read", "beside", "with_script"}
# The engines' own calls, and what their page names in words.
WORDS = {"read_table", "version"}


def names():
    """The public names of the package, and those of its classes."""
    found = set(hithwelor.__all__)
    for kind in (getattr(hithwelor, name) for name in hithwelor.__all__):
        if inspect.isclass(kind) and kind.__module__.startswith("hithwelor"):
            own = [it for it in kind.__mro__ if it.__module__.startswith("hithwelor")]
            found |= {name for it in own for name in [*vars(it), *getattr(it, "__annotations__", {})] if name[0] != "_"}
    return {name for name in found if not name.isupper()} - INNER


class Names(unittest.TestCase):
    def test_each_has_an_example(self):
        with open(os.path.join(PACKAGES, "README.md"), encoding="utf-8") as file:
            page = file.read()
        lines = re.findall(r"^(?:>>>|\.\.\.) (.*)", page, flags=re.M)
        used = set(re.findall(r"[A-Za-z_]\w*", "\n".join(lines)))
        shown = set(re.findall(r"(\w+)=|`(\w+)|\b([A-Z]\w+)\(", page))
        shown = {name for found in shown for name in found}
        self.assertEqual(sorted(name for name in names() - used if name not in shown | WORDS), [])

    def test_each_has_a_sentence(self):
        lacking = []
        for name in hithwelor.__all__:
            kind = getattr(hithwelor, name)
            if (inspect.isclass(kind) or inspect.isfunction(kind)) and not kind.__doc__:
                lacking.append(name)
            if inspect.isclass(kind) and kind.__module__.startswith("hithwelor"):
                calls = [(it, what) for it, what in vars(kind).items() if it[0] != "_" and it not in INNER]
                lacking += [
                    f"{name}.{it}"
                    for it, what in calls
                    if inspect.isfunction(getattr(what, "fget", what)) and not inspect.getdoc(getattr(kind, it))
                ]
        self.assertEqual(lacking, [])


if __name__ == "__main__":
    unittest.main()
