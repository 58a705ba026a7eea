"""Holds what `walk` prints against the rules of docs/use/formats.md, which walk_rules.py has once more, on drawn circuits, and
against `step` and `back`: each place of the signal, the bars that are turned, hits of breakpoints and refusals. The answers are
those of the program that --program names, else the library's, or those of Node.js by bin/hithwelor."""
import random
from pathlib import Path

import pytest
import walk_rules
from test_circuits import drawn_circuit

pytestmark = pytest.mark.engine
EXAMPLES = Path(__file__).resolve().parents[1] / "examples"
TWO = (EXAMPLES / "two-elements.txt").read_text()


@pytest.fixture
def ask(asks):
    """The status and the text of an answer."""
    return lambda words, text: (lambda it: (it[0], it[1].decode()))(asks([str(word) for word in words], text.encode()))


def drawn_script(draw, count):
    """A script of up to twelve lines; one of six has a line with a fault."""
    labels, lines = [], []
    port = lambda: f"{draw.randrange(count + 1)}.{draw.choice('nesw')}"
    for number in range(draw.randrange(13)):
        kind = draw.choice(["step", "back", "go", "rev", "go", "rev", "break", "break", "drop", "view"])
        if kind == "break":
            label = draw.choice([f"b{number}", f"{draw.choice(['go', 'view', 'line', '0'])}{number}"])
            labels.append(label)
            what = draw.choice([f"element {draw.randrange(count + 1)}", f"line {port()}"])
            lines.append(f"break {label} {what}")
        elif kind == "drop" and labels:
            lines.append(f"drop {labels.pop(draw.randrange(len(labels)))}")
        elif kind in ("step", "back", "go", "rev"):
            lines.append(f"{kind} {draw.choice([1, 1, 2, 5, 40])}")
        else:
            lines.append("view")
    if draw.random() < 0.17:
        fault = draw.choice(
            ["go", "go 0", "step 01", "rev  1", "view ", "", "break a", "break a state S", "break a line 0", "drop z",
             "break a line 0.x", "break a element 01", "break _ element 1", f"break {'a' * 17} element 1",
             f"step {2**62 + 1}", f"break b0 element {2**62 + 1}", "break b0 element 1\nbreak b0 line 0.n", "Step 1"]
        )  # fmt: skip
        lines.insert(draw.randrange(len(lines) + 1), fault)
    text = "".join(f"{line}\n" for line in lines)
    return text[:-1] if text and draw.random() < 0.05 else text


@pytest.mark.parametrize("seed", range(60))
def test_walks_on_drawn_circuits(ask, seed):
    draw = random.Random(seed)
    count = draw.choice([1, 2, 3, 5])
    text = drawn_circuit(draw, count)
    if draw.random() < 0.5:
        text = ask(["step", draw.choice([1, 3])], text)[1]
    if draw.random() < 0.3:
        text = ask(["migrate"], text)[1]
    for _ in range(4):
        data = f"{text}%\n{drawn_script(draw, count)}"
        assert ask(["walk"], data) == walk_rules.walk(data, lambda it: ask(["step", 0], it)), data


def bars_of(text):
    """The bars of a circuit, by its text in version 1 or 2."""
    return walk_rules.circuit_rules.Circuit(text).bars


def test_a_view_is_what_step_makes(ask):
    """The place, the steps and the turned bars of a bank, at each step there and back."""
    text = ask(["realise", 1, 1], (EXAMPLES / "two-moves.csv").read_text())[1]
    last = int(ask(["step", 2**62], text)[1].split("\n")[4].split()[1])
    told = ask(["walk"], f"{text}%\n" + "view\nstep 1\n" * (last + 1) + "rev 9999\nview\n")[1].splitlines()
    for step in range(last + 1):
        there = ask(["step", step], text)[1]
        turned = [number for number, bar in enumerate(bars_of(there)) if bar != bars_of(text)[number]]
        lines = told[4 * step : 4 * step + 3]
        assert lines == [*reversed(there.split("\n")[4:6]), " ".join(["turned", *map(str, turned)])]
    assert told[-4:] == ["at 0.w steps 0", "at 0.w", "steps 0", "turned"]


def test_a_walk_begins_where_the_text_is(ask):
    """`turned` is told of the text's bars, and `rev` goes back beyond the text, to step 0."""
    text = ask(["step", 2], TWO)[1]
    told = ask(["walk"], f"{text}%\nview\nrev 100\nview\n")[1].splitlines()
    changed = [number for number, bar in enumerate(bars_of(TWO)) if bar != bars_of(text)[number]]
    assert told[:3] == [*reversed(text.split("\n")[4:6]), "turned"] and told[3] == "at 0.n steps 0"
    assert told[4:] == ["at 0.n", "steps 0", " ".join(["turned", *map(str, changed)])]


@pytest.mark.parametrize(
    "data, answer",
    [
        (TWO, (3, "text: no script\n")),
        (f"{TWO}% \n", (3, "text: no script\n")),
        ("%\n", (3, "text: line 1 syntax\n")),
        (f"{TWO}%\n", (0, "")),
        (f"{TWO}\n%\nview\n", (3, "text: line 9 syntax\n")),
        (f"{TWO[:-1]}x\n%\nvieww\n", (3, "text: line 8 syntax\n")),
        (f"{TWO}%\nview", (3, "text: script line 1 form\n")),
        (f"{TWO}%\nview\n%\n", (3, "text: script line 2 form\n")),
        (f"{TWO}%\nbreak a state A1\n", (3, "text: script line 1 form\n")),
        (f"{TWO}%\nbreak a element 7\nbreak a line 9.n\n", (3, "text: script line 2 same break\n")),
        (f"{TWO}%\ndrop a\n", (3, "text: script line 1 no break\n")),
        (
            f"{TWO}%\nbreak back line 0.e\ngo 100\ndrop back\n",
            (0, "break back\nat 0.e steps 2 break back\ndrop back\n"),
        ),
        (f"{TWO}%\nbreak a element 0\ngo 1\n", (0, "break a\nat 1.n steps 1\n")),
        (f"{TWO}%\nbreak a line 1.n\ngo {2**62}\n", (0, "break a\nat 1.n steps 1 break a\n")),
    ],
)
def test_walks_and_refusals(ask, data, answer):
    assert ask(["walk"], data) == answer


def test_a_walk_has_no_arguments(ask):
    assert ask(["walk", 1], TWO) == (2, "usage\n")
