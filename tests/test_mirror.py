"""What the tutorial says of `mirror`: after the same number of steps back of a circuit and of steps of its inverse circuit,
both have the same bars, and the signal is on the same wire, which the inverse circuit follows in the opposite direction."""
import re
from pathlib import Path

import pytest
from samples import BANK, BANK_OF_COLUMNS

pytestmark = pytest.mark.engine
EXAMPLES = Path(__file__).resolve().parents[1] / "examples"
TEXTS = {it: (EXAMPLES / f"{it}.txt").read_text() for it in ("two-elements", "eight-rows", "two-columns", "across")}
TEXTS |= {"bank": BANK, "bank-of-columns": BANK_OF_COLUMNS}


def bars(text):
    """The entries of elements without what their outputs lead to: the number and the bar, or the column and its bottom."""
    entries = [line.split() for line in text.splitlines() if line[:2] in ("e ", "c ")]
    return [entry[: 4 if entry[0] == "c" else 3] for entry in entries]


def place(text):
    """`at` or `left`, and the port."""
    return re.search(r"^(at|left) (\d+)\.([nesw])$", text, re.M).groups()


@pytest.mark.parametrize("name", TEXTS)
def test_steps_back_are_steps_of_the_inverse_circuit(asks, name):
    """At each step of a run: the circuit taken back k steps, and its inverse circuit after k steps."""

    def answer(words, text):
        return asks(words.split(), text.encode())[1].decode()

    after = answer("step 1000", TEXTS[name])
    inverse = answer("mirror", after)
    made = int(re.search(r"^steps (\d+)$", after, re.M)[1]) - int(re.search(r"^steps (\d+)$", TEXTS[name], re.M)[1])
    for k in range(min(made, 12) + 1):
        back = answer(f"back {k}", after)
        forward = answer(f"step {k}", inverse)
        assert bars(back) == bars(forward), (name, k)
        turned = answer("mirror", back)
        assert place(turned) == place(forward), (name, k)
