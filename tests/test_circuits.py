"""Circuits as sequential machines: `behaviour`, `crossings`, `equal` and `window` against the rules of
docs/use/formats.md, which circuit_rules.py has once more, on drawn circuits and machines; and the circuits of
examples/circuits, each against its table."""
import random
import re
from pathlib import Path

import circuit_rules
import pytest
from people import called

pytestmark = pytest.mark.engine
EXAMPLES = Path(__file__).resolve().parents[1] / "examples"
CIRCUITS = EXAMPLES / "circuits"
ROW = re.compile(r"^\| `([a-z0-9-]+)` \| (\S+) \| (\S+) \|", re.M)
STANDARD = ["increment", "least", "stuck", "homing", "sum"]


@pytest.fixture
def ask(asks):
    """The status and the text of an answer."""
    return lambda words, text: (lambda it: (it[0], it[1].decode()))(asks([str(word) for word in words], text.encode()))


@pytest.mark.parametrize("name, inputs, outputs", ROW.findall((CIRCUITS / "README.md").read_text()))
def test_each_circuit_is_its_table(ask, name, inputs, outputs):
    text, table = (CIRCUITS / f"{name}.txt").read_text(), (CIRCUITS / f"{name}.csv").read_text()
    status, found = ask(["behaviour", 65536, 2**62, f":{inputs}", f":{outputs}"], text)
    assert status == 0
    assert ask(["equal", 1, 1], f"{found}%\n{table}") == (0, "equal\n")
    for other in ("toggle", "read-and-flip", "column-of-two-rows"):
        if other != name:
            wanted = circuit_rules.equal(found, 1, (CIRCUITS / f"{other}.csv").read_text(), 1)
            assert ask(["equal", 1, 1], f"{found}%\n{(CIRCUITS / f'{other}.csv').read_text()}") == (0, wanted)


def test_there_are_enough_circuits():
    names = {path.stem for path in CIRCUITS.glob("*.txt")}
    assert len(names) >= 10 and names == {name for name, _, _ in ROW.findall((CIRCUITS / "README.md").read_text())}


def drawn_circuit(draw, count):
    """A configuration text of so many elements: some outputs lead to some inputs."""
    ports = [f"{number}.{side}" for number in range(count) for side in "nesw"]
    wires = draw.randrange(len(ports))
    targets = dict(zip(draw.sample(ports, wires), draw.sample(ports, wires)))
    start = next(port for port in draw.sample(ports, len(ports)) if port not in targets.values())
    end = next(port for port in draw.sample(ports, len(ports)) if port not in targets)
    lines = ["rotary 1", f"elements {count}", f"start {start}", f"end {end}", "steps 0", f"at {draw.choice(ports)}"]
    for number in range(count):
        lines.append(
            " ".join([f"e {number} {draw.choice('HV')}", *(targets.get(f"{number}.{it}", "-") for it in "nesw")])
        )
    return "".join(f"{line}\n" for line in lines)


@pytest.mark.parametrize("seed", range(40))
def test_behaviours_and_crossings_of_drawn_circuits(ask, seed):
    draw = random.Random(seed)
    text = drawn_circuit(draw, draw.choice([1, 2, 3, 5]))
    circuit = circuit_rules.Circuit(text)
    free, left = circuit.free_inputs(), circuit.free_outputs()
    for _ in range(4):
        most_states, most_steps = draw.choice([1, 3, 20, 65536]), draw.choice([1, 2, 9, 2**62])
        ports = []
        if draw.random() < 0.7:
            inputs = draw.sample(free, draw.randrange(len(free) + 1))
            outputs = draw.sample(left, draw.randrange(len(left) + 1))
            if draw.random() < 0.2:
                inputs.insert(
                    draw.randrange(len(inputs) + 1), draw.choice([*circuit.ports(), "0.x", "", "00.n", "9.n"])
                )
            if draw.random() < 0.2:
                outputs.insert(draw.randrange(len(outputs) + 1), draw.choice([*circuit.ports(), "0n", "-1.n"]))
            ports = [f":{','.join(inputs)}", f":{','.join(outputs)}"]
        for command in ("behaviour", "crossings"):
            words = [command, most_states, min(most_steps, 10**6), *ports]
            assert ask(words, text) == circuit_rules.behaviour([str(word) for word in words], text), (words, text)


def drawn_machine(draw, states, lines):
    """The table of a reversible sequential machine: some pairs of state and line go to as many others."""
    pairs = [(q, i) for q in range(1, states + 1) for i in range(1, lines + 1)]
    count = draw.randrange(1, len(pairs) + 1)
    moves = list(zip(draw.sample(pairs, count), draw.sample(pairs, count)))
    return "".join(f"{q},{i},{r},{o}\n" for (q, i), (r, o) in moves)


def states_in(table):
    return max(int(row.split(",")[at]) for row in table.split() for at in (0, 2))


@pytest.mark.parametrize("seed", range(60))
def test_drawn_machines_are_compared(ask, seed):
    draw = random.Random(seed)
    first = drawn_machine(draw, draw.choice([1, 2, 4]), draw.choice([1, 2, 3]))
    second = first if draw.random() < 0.4 else drawn_machine(draw, draw.choice([1, 2, 4]), draw.choice([1, 2, 3]))
    for state in range(1, states_in(first) + 1):
        for other in range(1, states_in(second) + 1):
            wanted = circuit_rules.equal(first, state, second, other)
            assert ask(["equal", state, other], f"{first}%\n{second}") == (0, wanted), (first, second, state, other)
    assert ask(["equal", states_in(first) + 1, 10**6], f"{first}%\n{second}") == (5, "word: state\n")
    assert ask(["equal", 1, states_in(second) + 1], f"{first}%\n{second}") == (5, "word: second state\n")


def test_long_rings_are_compared_at_once(ask):
    """Two rings of states that differ in the last one: the word is long, and no pair is met twice."""
    count = 30000
    ring = "".join(f"{q},1,{q % count + 1},1\n" for q in range(1, count + 1))
    other = ring.replace(f"{count},1,1,1\n", f"{count},1,1,2\n")
    assert ask(["equal", 1, 1], f"{ring}%\n{ring}") == (0, "equal\n")
    assert ask(["equal", 1, 2], f"{ring}%\n{ring}") == (0, "equal\n")
    told = f"differ {' '.join(['1'] * count)}\nfirst 1\nsecond 2\n"
    assert ask(["equal", 1, 1], f"{ring}%\n{other}") == (0, told)


@pytest.mark.parametrize(
    "text, status, line",
    [
        ("1,1,1,1\n", 3, "text: no second\n"),
        ("1,1,1\n%\n1,1,1\n", 3, "text: record 1 fields\n"),
        ("1,1,1,1\n%\n1,0,1,1\n", 3, "text: second record 1 field 2 number\n"),
        ("1,1,1,1\n1,1,2,2\n%\n", 3, "text: second empty\n"),
        ("1,1,1,1\n1,1,2,2\n%\n1,1,1,1\n2,1,1,1\n", 4, "machine: domain 1 2\n"),
        ("1,1,1,1\n%\n1,1,1,1\n2,1,1,1\n", 4, "machine: second range 1 2\n"),
    ],
)
def test_equal_refuses(ask, text, status, line):
    assert ask(["equal", 9, 9], text) == (status, line)


@pytest.mark.parametrize("name", STANDARD)
@pytest.mark.parametrize("word", ["", "1", "10", "1011", "0110"])
def test_windows_are_the_least(ask, name, word):
    table = (EXAMPLES / f"{name}.csv").read_text()
    status, told = ask(["window", f"={word}", 400], table)
    if status in (4, 5):
        assert told == ask(["machine", f"={word}", 400], table)[1]
        return
    assert (status, told) == circuit_rules.window(table, word, 400)
    if status == 12:
        return
    window = list(map(int, told.split()[1:]))
    ends = ("exit end", "exit stuck")
    assert ask(["run", f"={word}", *window], table)[1].splitlines()[1].startswith(ends)
    for place, number in enumerate(window):
        if number:
            smaller = [*window[:place], number - 1, *window[place + 1 :]]
            status, text = ask(["run", f"={word}", *smaller], table)
            assert status == 6 or text.splitlines()[1].startswith("exit window"), (window, smaller, text)


@pytest.mark.parametrize(
    "options, told",
    [
        ("--inputs 0.n --outputs 0.s", "error: --inputs: 0.n is not free: a wire leads to it"),
        ("--inputs 0w --outputs 0.s", "error: --inputs: `0w` is no port"),
        ("--inputs 7.w --outputs 0.s", "error: --inputs: 7.w does not exist: the elements are 0 to 1"),
        ("--inputs 0.w --outputs 0.s,0.s", "error: --outputs: 0.s is named twice"),
        (
            "--inputs 0.w --outputs 0.s",
            "note: from these states 1 crossing leaves by ports that --outputs does not name",
        ),
        (
            "--inputs 0.w --outputs 0.s,1.n,1.w --states 3",
            "note: the signal that enters in state 3 by input line 1 leads",
        ),
        ("--inputs 0.w", "error: --inputs and --outputs are named together"),
    ],
)
def test_the_command_says_what_is_wrong_with_ports(answering, options, told):
    path = str(CIRCUITS / "two-bit-counter.txt")
    assert any(line.startswith(told) for line in called("behaviour", path, *options.split())[2].splitlines())


def test_a_file_that_is_missing_is_named(answering):
    assert called("equal", "nofile.csv", str(CIRCUITS / "toggle.csv"))[2].startswith(
        "error: there is no file nofile.csv"
    )
