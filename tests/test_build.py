"""Holds what `build` prints against the rules alone, and its circuits against `moments` and `compile`.

Of drawn tables of quadruples each refusal is compared with the five demands as they are said: which fails first, and its least
numbers. Of those that are uniform, and of machines that are made to be so, the circuit's text is stepped until its signal has
left, and its cells are read: they show the tapes that `moments` tells where the machine halts in the window; as many steps back
lead to the text that was built. And of the tables that `bennett` prints of drawn machines, the circuit is `compile`'s, byte for
byte.

With a word on each tape, by letters, by names or both, what is refused is compared with quadruple_rules.py, and so is where the
words stand; a circuit that is started with three words ends as `moments` does.

The answers are those of the program that --program names, else the library's, or those of node by bin/hithwelor. `--drawn N`
draws so many, and `--seed S` others.
"""
import random
import re

import pytest

import quadruple_rules as rules
from test_moments import applies, places, rows_of, told
from test_traces import drawn_quadruples, drawn_run, table_of

# How many tables and machines are drawn by themselves.
NUMBER = 80
WINDOW = (3, 5, 3, 3)
# No circuit of a test makes more steps: those that would are left.
MOST_STEPS = 2_000_000

COUNTER = """\
S,_,/,/,_,0,0,M
M,/,/,/,+,0,0,C
C,1,/,/,0,0,0,M
C,0,/,/,1,0,0,D
C,_,/,/,_,0,0,D
D,/,/,/,-,0,0,L
L,0,/,/,0,0,0,D
L,_,/,/,_,0,0,F
"""
# Writes each letter of its word to tape 3 as well, and comes back.
COPIER = """\
S,_,/,_,_,0,_,M
M,/,/,/,+,0,+,C
C,0,/,_,0,0,0,M
C,1,/,_,1,0,1,M
C,_,/,_,_,0,_,D
D,/,/,/,-,0,-,L
L,0,/,0,0,0,0,D
L,1,/,1,1,0,1,D
L,_,/,_,_,0,_,F
"""


# ---- the demands, as they are said


def mask(row):
    return [read != "/" for read in row[1:4]]


def first_pair(rows, is_at_fault):
    return next(
        (
            (i, j)
            for i in range(1, len(rows) + 1)
            for j in range(i + 1, len(rows) + 1)
            if is_at_fault(rows[i - 1], rows[j - 1])
        ),
        None,
    )


def first_row(rows, is_at_fault):
    return next((i for i, row in enumerate(rows, 1) if is_at_fault(row)), None)


def meets(row, other, fields):
    """Whether two quadruples can start from one tape, or come to one, tape by tape."""
    return all(
        one[0] == "/" or two[0] == "/" or one[fields] == two[fields]
        for one, two in zip(zip(row[1:4], row[4:7]), zip(other[1:4], other[4:7]))
    )


def refusal(rows):
    """The line that refuses the machine, or none where it is uniform."""
    pairs = [
        ("domain", lambda a, b: a[0] == b[0] and meets(a, b, 0)),
        ("range", lambda a, b: a[7] == b[7] and meets(a, b, 1)),
        ("reads", lambda a, b: a[0] == b[0] and mask(a) != mask(b)),
        ("writes", lambda a, b: a[7] == b[7] and mask(a) != mask(b)),
    ]
    for name, is_at_fault in pairs:
        if pair := first_pair(rows, is_at_fault):
            return f"machine: {name} {pair[0]} {pair[1]}\n"
    singles = [
        ("silent", lambda row: row[1:4] == ["/"] * 3 and row[4:7] == ["0"] * 3),
        ("initial", lambda row: row[7] == rows[0][0]),
        ("final", lambda row: row[0] == rows[-1][7]),
    ]
    for name, is_at_fault in singles:
        if number := first_row(rows, is_at_fault):
            return f"machine: {name} {number}\n"
    return None


# ---- a circuit's cells


def marked_columns(text):
    """The elements that are the bottoms of marked columns: each column is an entry, with its first element and its rows."""
    return {int(first) + int(rows) for first, rows, bar in re.findall(r"^c (\d+) (\d+) (\S)", text, re.M) if bar == "H"}


def shown_tapes(rows, window, text):
    """What the cells show: of each tape the place of its head, or none, and the symbols but for the blank by their places."""
    symbols = [rules.symbols_of(rows, tape) for tape in (1, 2, 3)]
    lines = 1 + sum(len(it) + 3 for it in symbols)
    end = int(re.search(r"^end (\d+)\.e$", text, re.M)[1])
    first = end + lines + 1
    marked = marked_columns(text)
    left, *rights = window
    tapes = {}
    for tape, (names, low, high) in enumerate(zip(symbols, (-left, 0, 0), rights), 1):
        head, cells = None, {}
        lines = 2 * len(names) + 8
        for place in range(low, high + 1):
            column = next((it for it in range(2 * len(names)) if first + it * (lines + 1) + lines in marked), None)
            if column is not None:
                head = place if column >= len(names) else head
                if column % len(names):
                    cells[place] = names[column % len(names)]
            first += 2 * len(names) * (lines + 1)
        tapes[str(tape)] = (head, cells)
    return tapes


# ---- the cases


def uniform_case(draw):
    """A uniform machine and a word of its letters."""
    while True:
        rows = drawn_quadruples(draw)
        if refusal(rows) is None:
            letters = [it for it in rules.symbols_of(rows, 1)[1:] if len(it) == 1]
            return rows, "".join(draw.choice(letters) for _ in range(draw.randrange(4) if letters else 0))


def made_case(draw):
    """A machine that is made to be uniform, or its inverse, and a word."""
    table = draw.choice([COUNTER, COPIER])
    word = "".join(draw.choice("01") for _ in range(draw.randrange(4)))
    return rows_of(table.encode()), word


def renamed(draw, rows):
    """The rows with longer names for some symbols of each tape."""
    for tape in (1, 2, 3):
        names = {it: f"{it}{it}" for it in rules.symbols_of(rows, tape)[1:] if draw.random() < 0.3}
        for field in (tape, tape + 3):
            rows = [
                [names.get(it, it) if row[tape] != "/" and at == field else it for at, it in enumerate(row)]
                for row in rows
            ]
    return rows


def spelled(draw, symbols, wrong):
    """A word of these symbols in one of the two ways, in which now and then something is wrong."""
    names = [draw.choice(symbols) for _ in range(draw.randrange(4) if symbols else 0)]
    if names and draw.random() < wrong:
        names[draw.randrange(len(names))] = draw.choice(["_", "z", "", "ab"])
    if draw.random() < 0.5 and all(len(it) == 1 for it in names):
        return "=" + "".join(names)
    return ":" + ",".join(names)


def worded_case(draw, wrong=0.15):
    """A uniform machine, a word on tape 1 or on each tape, and a window."""
    rows = renamed(draw, uniform_case(draw)[0] if draw.random() < 0.5 else made_case(draw)[0])
    arguments = [spelled(draw, rules.symbols_of(rows, tape)[1:], wrong) for tape in (1, 2, 3)]
    window = [draw.randrange(3), *(draw.randrange(2 if draw.random() < wrong else 4, 6) for _ in range(3))]
    if draw.random() < wrong / 3:
        window[draw.randrange(4)] = 1_048_576
    return rows, arguments[: draw.choice([1, 3, 3])], tuple(window)


def pytest_generate_tests(metafunc):
    draw = random.Random(metafunc.config.getoption("--seed"))
    for name, drawn in (
        ("quadruples", drawn_quadruples),
        ("uniform", uniform_case),
        ("made", made_case),
        ("worded", worded_case),
        ("run", drawn_run),
    ):
        if name in metafunc.fixturenames:
            cases = [drawn(draw) for _ in range(metafunc.config.getoption("--drawn") or NUMBER)]
            metafunc.parametrize(name, cases, ids=[f"{number}" for number in range(1, len(cases) + 1)])


@pytest.fixture(scope="session")
def ask(asks):
    """The text of an answer that has this status."""

    def answer(words, data, status=0):
        found, text = asks(words, data if isinstance(data, bytes) else data.encode())
        assert found == status, (words, text[:200])
        return text.decode()

    return answer


def hold_circuit(ask, rows, arguments):
    """The circuit's run is the machine's, where that halts or is stuck soon; and it is taken back."""
    built = ask(["build", *arguments, *WINDOW], table_of(rows))
    stepped = ask(["step", MOST_STEPS], built)
    status, lines = told(rows, [names for names, _ in rules.words_of(arguments, rows)], 60)
    if not re.search(r"^left ", stepped, re.M):
        assert status == 12 or ask(["step", MOST_STEPS], stepped) != stepped
        return
    assert ask(["back", MOST_STEPS], stepped) == built
    if status == 0 and all(within(line) for line in lines[:-1]):
        assert re.search(r"^left (\S+)$", stepped, re.M)[1] == re.search(r"^end (\S+)$", stepped, re.M)[1]
        assert shown_tapes(rows, WINDOW, stepped) == places(lines[-2])


def within(line):
    """Whether the heads of a moment are in the window."""
    left, *rights = WINDOW
    heads = [head for head, _ in places(line).values()]
    return all(low <= head <= high for head, low, high in zip(heads, (-left, 0, 0), rights))


@pytest.mark.engine
def test_a_machine_is_refused_at_its_first_fault(quadruples, asks):
    wanted = refusal(quadruples)
    status, text = asks(["build", "=", "0", "1", "1", "1"], table_of(quadruples).encode())
    if wanted is None:
        assert status == 0 and text.startswith(b"rotary 2\n")
    else:
        assert (status, text.decode()) == (4, wanted)


@pytest.mark.engine
def test_a_drawn_circuit_does_what_its_machine_does(uniform, ask):
    rows, word = uniform
    hold_circuit(ask, rows, [f"={word}"])


@pytest.mark.engine
def test_a_made_circuit_does_what_its_machine_does(made, ask):
    rows, word = made
    hold_circuit(ask, rows, [f"={word}"])


@pytest.mark.engine
def test_the_inverse_leads_back(made, ask):
    """What the circuit left is a start of the inverse's circuit, which leaves the word."""
    rows, word = made
    status, lines = told(rows, [word, "", ""], 60)
    assert status == 0
    (head, left), *others = places(lines[-2]).values()
    if head or any(cells for _, cells in others):
        pytest.skip("only words on tape 1 can be started with")
    behind = "".join(left[place] for place in sorted(left))
    inverse = ask(["inverse"], table_of(rows))
    stepped = ask(["step", MOST_STEPS], ask(["build", f"={behind}", *WINDOW], inverse))
    assert shown_tapes(rows_of(inverse.encode()), WINDOW, stepped)["1"] == (0, dict(enumerate(word, 1)))


@pytest.mark.engine
def test_bennetts_table_is_built_as_its_machine_is_compiled(run, ask):
    rows, word, _ = run
    table = table_of(rows)
    window = (1, max(1, len(word)), 3, 3)
    compiled = ask(["compile", f"={word}", *window], table)
    assert ask(["build", f"={word}", *window], ask(["bennett"], table)) == compiled


@pytest.mark.engine
def test_a_tape_has_4001_symbols_and_no_more(asks):
    """The blank and 4,000 others stand there; one more is refused with its tape."""

    def table(others):
        return "".join(f"A{k},/,s{k},/,0,s{k},0,A{k + 1}\n" for k in range(others))

    status, text = asks(["build", "=", "0", "0", "0", "0"], table(4001).encode())
    assert (status, text) == (6, b"size: symbols 2 4002\n")
    status, text = asks(["build", "=", "0", "0", "0", "0"], table(4000).encode())
    assert status == 6 and text.startswith(b"size: elements ")


@pytest.mark.slow
@pytest.mark.engine
def test_a_table_of_20000_quadruples(asks):
    """The largest table is judged, and built."""
    table = "".join(f"A{k},/,/,/,+,0,0,A{k + 1}\n" for k in range(20_000))
    status, text = asks(["build", "=", "0", "0", "0", "0"], table.encode())
    assert status == 0 and text.startswith(b"rotary 2\nelements 280094\n")


@pytest.mark.engine
def test_words_are_refused_or_stand_on_their_tapes(worded, asks):
    rows, arguments, window = worded
    status, text = asks(["build", *arguments, *window], table_of(rows).encode())
    refused = rules.refusal(arguments, window, rows)
    if refused:
        assert (status, text.decode()) == refused
        return
    built = text.decode()
    assert status == 0 and built.startswith(f"rotary 2\nelements {rules.count_of(rows, window)}\n")
    words = [names for names, _ in rules.words_of(arguments, rows)]
    shown = shown_tapes(rows, window, built)
    assert shown == {str(tape): (0, dict(enumerate(names, 1))) for tape, names in enumerate(words, 1)}
    again = [":" + ",".join(names) for names in words]
    assert asks(["build", *again, *window], table_of(rows).encode()) == (0, text)


@pytest.mark.engine
def test_a_circuit_with_three_words_does_what_its_machine_does(request, ask, comparisons):
    draw, held = random.Random(request.config.getoption("--seed")), 0
    for _ in range(request.config.getoption("--drawn") or NUMBER):
        rows, arguments, _ = worded_case(draw, 0)
        hold_circuit(ask, rows, arguments)
        held += 1
    comparisons(held)


@pytest.mark.engine
def test_the_first_refusal_is_told(asks):
    """The letters of all words before any length, the lengths before the elements, tape 1 first."""
    table = COPIER.encode()
    for words, status, line in [
        (["=2", "=", "=0", 0, 0, 0, 0], 5, "word: 1 1"),
        (["=0", "=1", "=2", 0, 0, 0, 0], 5, "word: 2 1"),
        (["=0", "=", "=02", 0, 0, 0, 0], 5, "word: 3 2"),
        (["=00", "=", "=0", 0, 1, 0, 0], 6, "size: word 1 needs 2"),
        (["=0", "=", "=000", 1048576, 1, 0, 2], 6, "size: word 3 needs 3"),
        (["=02", 0, 0, 0, 0], 5, "word: 2"),
        ([":0,0", 0, 1, 0, 0], 6, "size: word needs 2"),
        ([":0,", 0, 2, 0, 0], 5, "word: 2"),
        ([":,0", 0, 2, 0, 0], 5, "word: 1"),
        ([":00", 0, 2, 0, 0], 5, "word: 1"),
        ([":0,_", 0, 2, 0, 0], 5, "word: 2"),
    ]:
        assert asks(["build", *words], table) == (status, f"{line}\n".encode())
        assert asks(["drive", *words, 5], table) == (status, f"{line}\n".encode())
