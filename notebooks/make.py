#!/usr/bin/env python3
"""Makes the notebooks of the lab sheets from their texts, lesson.py, counting.py and own.py, and runs them.

    notebooks/make.py [--to DIR] [NAME..]

A text has its cells behind lines `# %%`, those with words behind `# %% [markdown]`. No network is needed. The packages
nbclient and ipykernel are: Debian's python3-nbclient and python3-ipykernel, or `pip install nbclient ipykernel`.
"""
import argparse
import importlib.util
import os
import re
import sys

HERE = os.path.dirname(os.path.abspath(__file__))
NAMES = ["lesson", "counting", "own"]
KERNEL = {"name": "python3", "display_name": "Python 3", "language": "python"}


def cells_of(name):
    """The cells of a sheet's text, in order: whether it has words, and its text."""
    with open(os.path.join(HERE, f"{name}.py"), encoding="utf-8") as file:
        for kind, body in re.findall(r"^# %%( \[markdown\])?\n(.*?)(?=^# %%|\Z)", file.read(), flags=re.M | re.S):
            yield bool(kind), re.sub(r"^# ?", "", body, flags=re.M).strip("\n") if kind else body.strip("\n")


def made(name):
    """A sheet's notebook, run. Cells are numbered and no times are kept: the same sheet gives the same bytes."""
    import nbformat
    from nbclient import NotebookClient

    new = nbformat.v4
    cells = [new.new_markdown_cell(body) if is_words else new.new_code_cell(body) for is_words, body in cells_of(name)]
    book = new.new_notebook(cells=cells, metadata={"kernelspec": KERNEL})
    where = {"metadata": {"path": HERE}}
    NotebookClient(book, kernel_name="python3", timeout=None, startup_timeout=3600, resources=where).execute()
    for number, cell in enumerate(book.cells):
        cell["id"] = f"{name}-{number}"
        cell.metadata.clear()
    book.metadata = {"kernelspec": KERNEL, "language_info": {"name": "python"}}
    return book


def lacking():
    """What to install, or nothing."""
    names = [it for it in ("nbformat", "nbclient", "ipykernel") if not importlib.util.find_spec(it)]
    return (
        names
        and f"{sys.executable} lacks {', '.join(names)}: apt install python3-nbclient python3-ipykernel, or pip install nbclient ipykernel"
    )


def main():
    parser = argparse.ArgumentParser(description=__doc__, formatter_class=argparse.RawDescriptionHelpFormatter)
    parser.add_argument("names", nargs="*", metavar="NAME", default=NAMES)
    parser.add_argument("--to", default=HERE, metavar="DIR")
    options = parser.parse_args()
    if lacking():
        sys.exit(f"notebooks/make.py: {lacking()}")
    import nbformat

    for name in options.names:
        path = os.path.join(options.to, f"{name}.ipynb")
        nbformat.write(made(name), path)
        print(f"{path}: {os.path.getsize(path)} bytes")


if __name__ == "__main__":
    sys.exit(main())
