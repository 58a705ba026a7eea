"""The shared library, the package of Python and the command of node, by what the proved program answers: the header, drawn
words and inputs, outputs with every kind of room, bytes 0 and bytes that aren't UTF-8, each allocation failing in turn, the
example in C, the examples of the package's page. (The documents' outputs by each of them are test_documents.py's.)

It proves and builds nothing: the library is linked anew of the static one that stands.
"""
import ctypes
import doctest
import importlib.util
import os
import random
import re
import subprocess
from concurrent.futures import ThreadPoolExecutor

import places
import pytest
from hithwelor import answers
from places import TOP, text_of
from shared import EXPORT, compiler, link, toolchain

DRAWN = 500
FULL, NO_MEMORY = 8, 9
PACKAGE_PAGE = os.path.join(TOP, "python", "README.md")
# What C has for the types of the call's parameters; an allocator isn't passed.
IN_C = {
    "Global": [],
    "&[u8]": ["const uint8_t *{0}", "size_t {0}_length"],
    "&mut [u8]": ["uint8_t *{0}", "size_t {0}_length"],
    "&mut u64": ["uint64_t *{0}"],
    "u32": ["uint32_t"],
}
# A heap that refuses what is asked of it from one time on.
FAILING = """#include <stddef.h>
void *__real_malloc(size_t);
void *__real_realloc(void *, size_t);
static long left = -1;
void fail_after(long count) { left = count; }
static int fails(void) { return left >= 0 && left-- == 0 ? (left = 0, 1) : 0; }
void *__wrap_malloc(size_t n) { return fails() ? 0 : __real_malloc(n); }
void *__wrap_realloc(void *p, size_t n) { return fails() ? 0 : __real_realloc(p, n); }
"""
MOST_FAILURES = 300


def read(*path):
    with open(os.path.join(TOP, *path), "rb") as file:
        return file.read()


def test_the_header_declares_the_call_of_the_crate():
    code = text_of("crates", "bn_embed", "src", "answer.rt")
    found = re.search(rf'pub extern "C" fn {EXPORT}\(\n(.*?)\n\) -> (\w+)', code, flags=re.S)
    parameters = [it.strip().rstrip(",").split(": ") for it in found[1].splitlines()]
    words = [part.format(name) for name, kind in parameters for part in IN_C.get(kind, [f"? {kind}"])]
    declared = f"{IN_C[found[2]][0]} {EXPORT}({', '.join(words)});"
    header = re.sub(r"/\*.*?\*/", "", text_of("embed", "hithwelor.h"), flags=re.S)
    assert declared in " ".join(header.split())


# ---- words and inputs


def examples():
    """The examples' files that are inputs, by their names."""
    folder = os.path.join(TOP, "examples")
    return {name: read("examples", name) for name in sorted(os.listdir(folder)) if name.endswith((".csv", ".txt"))}


def drawn():
    """Words and inputs, the same ones in each run: commands and words that are none, inputs as they are, cut or changed."""
    draw, files = random.Random(46), examples()
    texts, names = list(files.values()), [
        "step",
        "back",
        "check",
        "machine",
        "standard",
        "bennett",
        "reversible",
        "realise",
        "compile",
        "run",
        "view",
        "session",
        "plan",
        "migrate",
        "generate",
        "element",
        "erase",
        "trace",
        "moments",
        "inverse",
        "layout",
        "build",
        "drive",
        "look",
        "play",
        "room",
        "walk",
    ]
    numbers = lambda k: [str(draw.choice([0, 1, 2, 3, 5, 8, 13, 40])) for _ in range(k)]
    word = lambda: "=" + "".join(draw.choice("01") for _ in range(draw.randrange(6)))
    tape_word = lambda: draw.choice([word(), ":" + ",".join(draw.choice("01") for _ in range(draw.randrange(4)))])
    forms = {
        "machine": lambda: [word(), str(draw.randrange(200))],
        "step": lambda: numbers(1),
        "back": lambda: numbers(1),
        "realise": lambda: numbers(2),
        "compile": lambda: [word(), *numbers(4)],
        "generate": lambda: ["1"],
        "element": lambda: numbers(2),
        "run": lambda: draw.choice([[word(), *numbers(4)], [word(), *numbers(5)]]),
        "view": lambda: [word(), *numbers(5)],
        "session": lambda: [word(), *numbers(4)],
        "erase": lambda: draw.choice([[], [word(), str(draw.randrange(400))]]),
        "trace": lambda: [word(), str(draw.randrange(200))],
        "moments": lambda: [*(word() for _ in range(draw.choice([1, 3]))), str(draw.randrange(200))],
        "layout": lambda: [word(), *numbers(4)],
        "build": lambda: [*(tape_word() for _ in range(draw.choice([1, 3]))), *numbers(4)],
        "drive": lambda: [
            *(tape_word() for _ in range(draw.choice([1, 3]))),
            *numbers(4),
            str(draw.randrange(100_000)),
        ],
        "look": lambda: [
            *(tape_word() for _ in range(draw.choice([1, 3]))),
            *numbers(4),
            str(draw.randrange(100_000)),
        ],
        "room": lambda: [*(tape_word() for _ in range(draw.choice([1, 3]))), str(draw.randrange(200))],
        "play": lambda: [*(tape_word() for _ in range(draw.choice([1, 3]))), *numbers(4)],
    }
    found = []
    for _ in range(DRAWN):
        name = draw.choice(names)
        words, data = [name, *forms.get(name, lambda: [])()], draw.choice(texts)
        if draw.random() < 0.15:
            words = draw.choice(
                [[], [""], [name, ""], ["nonsense"], [name + " 1"], words + ["0"], words[:-1], [b"=\xff", *words]]
            )
        if draw.random() < 0.4 and data:
            at = draw.randrange(len(data))
            data = draw.choice(
                [data[:at], data[:at] + bytes([draw.randrange(256)]) + data[at + 1 :], data[:at] + b"\0" + data[at:]]
            )
        found.append(([it if isinstance(it, bytes) else it.encode() for it in words], data))
    return found


@pytest.fixture(scope="module")
def cases(proved_program):
    """The drawn words and inputs, each with what the program answers."""

    def run(case):
        words, data = case
        ran = subprocess.run(
            [proved_program.encode(), *words], input=data, stdout=subprocess.PIPE, stderr=subprocess.DEVNULL
        )
        return ran.returncode, ran.stdout

    found = drawn()
    with ThreadPoolExecutor(len(os.sched_getaffinity(0))) as pool:
        return list(zip(found, pool.map(run, found)))


@pytest.fixture(scope="module")
def library(shared_library):
    return answers.Library(shared_library)


@pytest.fixture(scope="module")
def command(any_node, module):
    """One process of node, which is kept for all answers."""
    way = answers.Node(any_node, module)
    yield way
    way.close()


@pytest.mark.slow
@pytest.mark.engine
@pytest.mark.parametrize("kind", ["library", "command"])
def test_drawn_words_and_inputs(request, kind, cases, comparisons):
    way, faults = request.getfixturevalue(kind), []
    for (words, data), right in cases:
        given = way.answer(b"\0".join(words), data)
        if given != right:
            said = f"{given[0]} {given[1][:80]!r}, and not {right[0]} {right[1][:80]!r}"
            faults.append(f"{b' '.join(words)[:80]!r} on {data[:60]!r}: {said}")
    assert not faults, "\n".join(faults[:20])
    comparisons(len(cases))


# ---- the shared library

WALKING = b"S,_,_,+,R\nR,1,1,+,R\nR,_,_,0,F\n"


@pytest.mark.engine
def test_a_trace_of_the_widest_tape(library, comparisons):
    """A tape of 2,097,152 cells: a word of so many letters can't be given to a process, and can to a library."""
    cells = 2_097_152
    code, text = library.answer(b"trace\0=" + b"1" * (cells - 1) + b"\0" + b"2", WALKING)
    assert code == 12
    fronts = [
        b"0 S from 0 head 0 cells %d: _" % cells,
        *(b"%d R from 1 head %d cells %d:" % (i, i, cells - 1) for i in (1, 2)),
    ]
    rules, lines = [b" rule 1", b" rule 2", b" rule 2"], text.splitlines()
    for front, rule, line in zip(fronts, rules, lines):
        assert line == front + b" 1" * (cells - 1) + rule
        comparisons(1)
    assert lines[3:] == [b"running 2"]


IN_ROOMS = [
    (b"check", "increment.csv"),
    (b"check", None),
    (b"", None),
    (b"run\0=\0" b"0\0" b"2\0" b"2\0" b"1", "least.csv"),
    (b"bennett", "increment.csv"),
]


@pytest.mark.engine
@pytest.mark.parametrize("words, name", IN_ROOMS)
def test_an_output_with_less_just_enough_and_more_room(library, words, name, comparisons):
    """What stands in it before and behind."""
    data = read("examples", name) if name else b""
    code, text = library.answer(words, data)
    rooms = sorted({0, 1, len(text) // 2, len(text) - 1, len(text), len(text) + 1, len(text) + 9})
    for room in rooms:
        output = ctypes.create_string_buffer(b"\xaa" * (room + 8), room + 8)
        taken = ctypes.c_uint64(77)
        given = library.call(words, len(words), data, len(data), output, room, ctypes.byref(taken))
        assert (given, taken.value) == (code if len(text) <= room else FULL, len(text)), f"in {room} bytes"
        assert output.raw == text[:room] + b"\xaa" * (room + 8 - len(text[:room])), f"in {room} bytes"
    comparisons(len(rooms))


@pytest.mark.engine
@pytest.mark.parametrize(
    "words", [b"step\0" b"1\0", b"step\0\0" b"1", b"\0step\0" b"1", b"step 1", b"step\0" b"1\xff", b"\xff", b"", b"\0"]
)
def test_words_with_bytes_0_and_that_are_not_utf_8(library, words):
    assert library.answer(words, read("examples", "across.txt")) == (2, b"usage\n")


@pytest.mark.engine
def test_an_input_with_a_byte_0(library):
    text = read("examples", "across.txt")
    assert library.answer(b"step\0" b"1", text)[0] == 0
    assert library.answer(b"step\0" b"1", text + b"\0")[0] == 3
    assert library.answer(b"step\0" b"1", text[:-1] + b"\0\n")[0] == 3


@pytest.fixture(scope="module")
def failing(linkable, tmp_path_factory):
    """The path of the library with a heap that can be told to fail."""
    work = str(tmp_path_factory.mktemp("failing"))
    source, path = os.path.join(work, "failing.c"), os.path.join(work, "libfailing.so")
    places.write(source, FAILING)
    fault = link(toolchain(), path, "-Wl,--wrap=malloc", "-Wl,--wrap=realloc", source, exports=(EXPORT, "fail_after"))
    assert not fault, fault[-400:]
    return path


@pytest.mark.engine
@pytest.mark.parametrize(
    "words, name", [(b"check", "increment.csv"), (b"step\0" b"1", "across.txt"), (b"run\0=\0auto", "least.csv")]
)
def test_each_allocation_failing_and_all_behind_it(failing, words, name, comparisons):
    """Code 9, and an output as it was; with none of them failing, the answer."""
    library, heap, data = answers.Library(failing), ctypes.CDLL(failing), read("examples", name)
    right = library.answer(words, data)
    room, number, code = len(right[1]) + 4, 0, NO_MEMORY
    while code == NO_MEMORY and number < MOST_FAILURES:
        output, taken = ctypes.create_string_buffer(b"\xaa" * room, room), ctypes.c_uint64(77)
        heap.fail_after(ctypes.c_long(number))
        code = library.call(words, len(words), data, len(data), output, room, ctypes.byref(taken))
        heap.fail_after(ctypes.c_long(-1))
        if code == NO_MEMORY:
            assert taken.value == 0 and output.raw == b"\xaa" * room, f"allocation {number} failing"
            number += 1
    assert 0 < number, "no allocation of it failed"
    assert number == MOST_FAILURES or (code, output.raw[: taken.value]) == right, f"after {number} failures"
    comparisons(number + 2)


@pytest.mark.engine
def test_the_example_in_c(shared_library, tmp_path):
    program = str(tmp_path / "example")
    words = ["-Wall", "-Werror", f"-I{TOP}/embed", os.path.join(TOP, "embed", "example.c"), shared_library]
    ran = subprocess.run(
        [compiler(), *words, f"-Wl,-rpath,{os.path.dirname(shared_library)}", "-o", program],
        stdout=subprocess.PIPE,
        stderr=subprocess.STDOUT,
        text=True,
    )
    assert ran.returncode == 0, ran.stdout
    wanted = b"rotary 1\nelements 1\nstart 0.n\nend 0.w\nsteps 1\nleft 0.w\ne 0 V - - - -\n"
    assert subprocess.run([program], stdout=subprocess.PIPE).stdout == wanted


# ---- the package


@pytest.mark.engine
@pytest.mark.parametrize("kind", ["library", "node"])
def test_the_examples_of_the_packages_page(request, kind, monkeypatch, comparisons):
    monkeypatch.chdir(TOP)
    monkeypatch.setattr(answers, "_kept", [])
    if kind == "library":
        monkeypatch.setenv(answers.VARIABLE, request.getfixturevalue("shared_library"))
    else:
        request.getfixturevalue("module")
        monkeypatch.delenv(answers.VARIABLE, raising=False)
        monkeypatch.setattr(answers, "SHARED", [])
    page = text_of("python", "README.md")
    if not importlib.util.find_spec("networkx"):
        page = page.partition("## With other packages")[0]
    runner = doctest.DocTestRunner()
    runner.run(doctest.DocTestParser().get_doctest(page, {"__name__": "__main__"}, "README.md", PACKAGE_PAGE, 0))
    answers.close()
    assert runner.tries > 80 and not runner.failures
    comparisons(runner.tries)
