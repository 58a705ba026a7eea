"""The lab sheets of notebooks/, executed without a network: their cells are those of their texts, and what each cell
prints and draws is what the notebook holds.

Each is run twice: its code cells in order by a fresh Python that can open no socket, and by nbclient, as Jupyter does.
"""
import json
import os
import shutil
import subprocess
import sys

import places
import pytest

FOLDER = os.path.join(places.TOP, "notebooks")
sys.path.insert(0, FOLDER)

import make

# Runs the code cells of a notebook in order: for each what it printed, and what its last expression shows.
PLAIN = r"""
import ast, contextlib, io, json, socket, sys
def closed(*_, **__):
    raise OSError("the sheets need no network")
socket.socket.connect = socket.create_connection = closed
sys.path.insert(0, "")
room, told = {"__name__": "__main__"}, []
for source in json.load(sys.stdin):
    tree, shown, said = ast.parse(source), None, io.StringIO()
    last = tree.body.pop() if tree.body and isinstance(tree.body[-1], ast.Expr) else None
    with contextlib.redirect_stdout(said):
        exec(compile(tree, "cell", "exec"), room)
        if last is not None:
            shown = eval(compile(ast.Expression(last.value), "cell", "eval"), room)
    kinds = {"text/plain": repr, "image/svg+xml": lambda it: it._repr_svg_(), "text/html": lambda it: it._repr_html_()}
    has = {"text/plain": True, "image/svg+xml": hasattr(shown, "_repr_svg_"),
           "text/html": hasattr(shown, "_repr_html_")}
    data = {} if shown is None else {kind: show(shown) for kind, show in kinds.items() if has[kind]}
    told.append({"said": said.getvalue(), "data": data})
json.dump(told, sys.stdout)
"""


def book_of(name):
    with open(os.path.join(FOLDER, f"{name}.ipynb"), encoding="utf-8") as file:
        return json.load(file)


def joined(text):
    return text if isinstance(text, str) else "".join(text)


def shown_by(cells):
    """What code cells of a notebook hold: what was printed, and what was shown."""
    found = []
    for cell in cells:
        outputs = cell["outputs"]
        assert all(it["output_type"] in ("stream", "execute_result", "display_data") for it in outputs), outputs
        said = "".join(joined(it["text"]) for it in outputs if it["output_type"] == "stream")
        data = [it["data"] for it in outputs if it["output_type"] != "stream"]
        found.append({"said": said, "data": {kind: joined(text) for it in data for kind, text in it.items()}})
    return found


def code_of(book):
    return [cell for cell in book["cells"] if cell["cell_type"] == "code"]


@pytest.mark.parametrize("name", make.NAMES)
def test_a_notebook_has_the_cells_of_its_text(name):
    cells = [(cell["cell_type"] == "markdown", joined(cell["source"])) for cell in book_of(name)["cells"]]
    assert cells == list(make.cells_of(name))


@pytest.mark.parametrize("name", make.NAMES)
def test_a_notebook_has_pictures_and_its_turns_have_answers(name):
    book = book_of(name)
    assert sum("image/svg+xml" in it["data"] for it in shown_by(code_of(book))) >= 2
    turns = sum(joined(cell["source"]).count("**Your turn ") for cell in book["cells"])
    part = places.text_of("notebooks", "ANSWERS.md").split("\n## ")[1 + make.NAMES.index(name)]
    assert turns >= 4 and all(f"**{number}.** " in part for number in range(1, turns + 1))


@pytest.mark.engine
@pytest.mark.parametrize("name", make.NAMES)
def test_its_cells_run_in_a_fresh_python_without_a_network(name, answering):
    cells = code_of(book_of(name))
    env = {name: what for name, what in os.environ.items() if name != "PYTHONPATH"}
    sources = json.dumps([joined(cell["source"]) for cell in cells])
    ran = subprocess.run(
        [sys.executable, "-B", "-c", PLAIN], input=sources, cwd=FOLDER, env=env, capture_output=True, text=True
    )
    assert ran.returncode == 0, ran.stderr
    assert json.loads(ran.stdout) == shown_by(cells)


def test_what_is_missing_is_named(tmp_path):
    """Where neither the package nor Jupyter's packages are here."""
    shutil.copy(os.path.join(FOLDER, "pictures.py"), tmp_path)
    told = lambda *words, **more: subprocess.run(
        [sys.executable, "-I", "-B", *words], capture_output=True, text=True, **more
    ).stderr
    alone = "import sys; sys.path.insert(0, sys.argv[1]); import pictures"
    assert "ImportError: the package hithwelor is missing: install its wheel" in told("-c", alone, tmp_path)
    bare = f"import importlib.util as it, runpy, sys; it.find_spec = lambda *_: None; sys.argv = ['make.py']; runpy.run_path({os.path.join(FOLDER, 'make.py')!r}, run_name='__main__')"
    assert "pip install nbclient ipykernel" in told("-c", bare)


@pytest.mark.engine
@pytest.mark.parametrize("name", make.NAMES)
def test_it_runs_as_jupyter_runs_it(name, answering, monkeypatch):
    pytest.importorskip("nbclient", reason="python3-nbclient isn't installed: tools/setup")
    pytest.importorskip("ipykernel", reason="python3-ipykernel isn't installed: tools/setup")
    monkeypatch.delenv("PYTHONPATH", raising=False)
    monkeypatch.setenv("PYTHONDONTWRITEBYTECODE", "1")
    assert shown_by(code_of(make.made(name))) == shown_by(code_of(book_of(name)))
