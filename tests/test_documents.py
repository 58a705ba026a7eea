"""Every output that the pages, the man page and the examples show is what the program gives: a case an output.

Each way to the proved code gives it: the proved program, the module under node, the shared library. The first of them that
is here runs by itself, the others with the slow tests. What of a page is an output, documents.py says.
"""
import sys

import documents
import places
import pytest

BLOCKS = documents.blocks()
EXAMPLES = [it for block in BLOCKS for it in block]
WAYS = ["program", "module", "library"]
pytestmark = pytest.mark.engine


def pytest_generate_tests(metafunc):
    """A case for each way and each output; but for the first way that is here they are slow."""
    if "way" in metafunc.fixturenames:
        has_program = metafunc.config.getoption("--program") or places.told_program()
        first = "program" if has_program else "module"
        ways = [pytest.param(it, id=it, marks=[] if it == first else pytest.mark.slow) for it in WAYS]
        metafunc.parametrize("way", ways, scope="module")
        metafunc.parametrize("number", range(len(EXAMPLES)), ids=[it.place for it in EXAMPLES])


@pytest.fixture(scope="session")
def through_the_package(shared_library, tmp_path_factory):
    """A script that answers by the package of Python through the shared library."""
    script = str(tmp_path_factory.mktemp("package") / "through-the-package")
    variables = f"PYTHONDONTWRITEBYTECODE=1 HITHWELOR_LIBRARY='{shared_library}' PYTHONPATH='{places.TOP}/python'"
    # The arguments are taken as they are: the command of the package would guess what a refused form means.
    code = (
        "import sys; from hithwelor import answers; "
        "status, text = answers.answer(sys.argv[1:], sys.stdin.buffer.read()); "
        "sys.stdout.buffer.write(text); sys.exit(status)"
    )
    places.write(script, f"#!/bin/sh\n{variables} exec {sys.executable} -c '{code}' \"$@\"\n", is_run=True)
    return script


@pytest.fixture(scope="module")
def ran(request, way):
    """The examples of one way, by their numbers, each with what was given: those that this session chose are run side by
    side, with the examples before them in their blocks."""
    by = {"program": "proved_program", "module": "module", "library": "through_the_package"}[way]
    path = request.getfixturevalue(by)
    if path == places.told_program():
        # The proved program of this repository is run as the pages say: by ./workbench and by ./try.
        path = None
    wanted = {it.callspec.params["number"] for it in request.session.items if is_of(it, request.path, way)}
    fresh = documents.blocks()
    numbered = [it for block in fresh for it in block]
    chosen = [block for block in fresh if any(numbered.index(it) in wanted for it in block)]
    documents.run_all([it for block in chosen for it in block], documents.answers_by(path))
    return numbered


def is_of(item, path, way):
    """Whether a test of this session is a case of this file and this way."""
    return item.path == path and hasattr(item, "callspec") and item.callspec.params.get("way") == way


def test_an_output_is_what_is_given(ran, way, number):
    assert ran[number].holds(), ran[number].told()


def test_outputs_are_found_on_the_pages():
    """README's, the tutorial's, the man page's with its exit statuses, and rows of tables."""
    pages = {it.place.rpartition(":")[0] for it in EXAMPLES}
    assert {
        "README.md",
        "docs/learn/tutorial.md",
        "docs/use/help.md",
        documents.MAN_PAGE,
        "examples/README.md",
    } <= pages
    assert any(it.wanted_status is not None for it in EXAMPLES) and any(it.is_part for it in EXAMPLES)
    assert any(it.command == documents.STATUS for it in EXAMPLES) and 300 < len(EXAMPLES)


@pytest.mark.parametrize("right, wrong", [(b"elements 14136\n", b"elements 14137\n"), (b"steps 1\n", b"steps 1")])
def test_another_output_is_seen(right, wrong):
    it = documents.Example("a page", 1, "./try run")
    it.show(right.decode().rstrip("\n"))
    it.text = right
    assert it.holds()
    it.text = wrong
    assert not it.holds() and wrong.decode().rstrip("\n") in it.told()
