"""Examinations that `tools/exam` draws: the same bytes for the same seed, answers by other means than the tool's, LaTeX.

The tool asks the program; here each answer is computed anew from the definitions, with small interpreters of quintuples,
of quadruples and of rotary elements, or by a search. `--drawn N` takes N seeds, the slow test takes 1,000.
"""
import functools
import itertools
import os
import re
import subprocess
import sys

import places
import pytest
from exam_problems import KINDS, LEVELS, element_of, pebble_moves, problems
from hithwelor import Circuit, SequentialMachine
from quadruple_rules import SHIFTS

BLANK, TURNS = "_", {"-": "+", "0": "0", "+": "-"}
RIGHT = {"n": "w", "e": "n", "s": "e", "w": "s"}
OPPOSITE = {"n": "s", "e": "w", "s": "n", "w": "e"}
pytestmark = pytest.mark.engine


def steps_of(rules, state, cells, head):
    """The configurations of a run of quintuples: the number of the quintuple, and the state, the head and the cells after."""
    cells = dict(cells)
    while True:
        number, rule = next(
            ((n, it) for n, it in enumerate(rules, 1) if it[:2] == (state, cells.get(head, BLANK))), (None, None)
        )
        if rule is None:
            return
        cells[head], head, state = rule.write, head + SHIFTS[rule.move], rule.next
        yield number, state, head, {place: it for place, it in cells.items() if it != BLANK}


def run_of(data):
    return list(steps_of(data["machine"].rules, "S", dict(enumerate(data["word"], 1)), 0))


def output_of(data):
    _, state, head, cells = run_of(data)[-1]
    assert state == "F"
    return "".join(itertools.takewhile(bool, (cells.get(head + place, "") for place in range(1, 100))))


def check_run(data, answer):
    assert len(run_of(data)) == data["steps"] and output_of(data) == data["output"]
    assert answer == f"It halts after {data['steps']} steps. The output is `{data['output']}`."


def check_history(data, answer):
    numbers = [number for number, *_ in run_of(data)][: data["steps"]]
    assert numbers == data["numbers"] and answer == f"`{' '.join(map(str, numbers))}`"


def check_count(data, answer):
    own = len(run_of(data))
    assert data["own"] == own and data["steps"] == 4 * own + 4 * len(output_of(data)) + 5
    assert answer.endswith((f"= {data['steps']}", f"= {own}"))


def check_quadruples(data, answer):
    machine, m = data["machine"], data["number"]
    rule, states = machine.rules[m - 1], list(machine.states)
    j, k, (t, u, s) = states.index(rule.state) + 1, states.index(rule.next) + 1, rule[1:4]
    compute = [f"A{j},{t},/,_,{u},+,_,A{m}'", f"A{m}',/,_,/,{s},{m},0,A{k}"]
    retrace = [f"C{k},/,{m},/,{TURNS[s]},_,0,C{m}'", f"C{m}',{u},/,_,{t},-,_,C{j}"]
    assert data["lines"] in (compute, compute + retrace) and answer.split("\n")[1:-1] == data["lines"]


def overlapping(rows, state, first):
    """The verdict on pairs that have one state and on no tape two symbols, from field `first` on."""
    for i, j in itertools.combinations(range(len(rows)), 2):
        one, two = rows[i], rows[j]
        reads = [(one[t], two[t], one[first + t - 1], two[first + t - 1]) for t in (1, 2, 3)]
        if one[state] == two[state] and all("/" in it[:2] or it[2] == it[3] for it in reads):
            return f"no {i + 1} {j + 1}"
    return "yes"


def check_overlap(data, answer):
    rows = data["table"].entries
    verdicts = f"deterministic {overlapping(rows, 0, 1)}\nreversible {overlapping(rows, 7, 4)}\n"
    assert verdicts == data["verdicts"] and verdicts in answer


def check_inverse(data, answer):
    lines = []
    for row in data["table"].entries[::-1]:
        tapes = [("/", TURNS[act]) if read == "/" else (act, read) for read, act in zip(row[1:4], row[4:7])]
        lines.append(",".join([row[7], *(it[0] for it in tapes), *(it[1] for it in tapes), row[0]]))
    assert answer.split("\n")[1:-1] == lines


def check_predecessors(data, answer):
    """By all configurations with the head beside this one's and another symbol there."""
    machine, found = data["machine"], set()
    for state, head, symbol in itertools.product(machine.states, range(data["head"] - 1, data["head"] + 2), "01_"):
        cells = {place: it for place, it in {**data["cells"], head: symbol}.items() if it != BLANK}
        after = next(steps_of(machine.rules, state, cells, head), None)
        if after and after[1:] == (data["state"], data["head"], data["cells"]):
            found.add((after[0], state, head, tuple(sorted(cells.items()))))
    assert found == {(*it[:3], tuple(sorted(it[3].items()))) for it in data["found"]} and found
    assert len(answer.splitlines()) == len(found)


def walk(circuit, steps, place=None, bars=None):
    """A walk of the signal by the two rules of the rotary element: how many steps, where it is, and the bars."""
    wires = {(it.number, side): getattr(it, side) for it in circuit for side in "nesw"}
    bars = bars or [it.bar for it in circuit]
    place = place or circuit.place
    for made in range(steps):
        number, side = int(place[:-2]), place[-1]
        is_along = (bars[number] == "V") == (side in "ns")
        out = OPPOSITE[side] if is_along else RIGHT[side]
        if not is_along:
            bars[number] = "V" if bars[number] == "H" else "H"
        place = wires[number, out]
        if place is None:
            return made + 1, f"{number}.{out}", bars, True
    return steps, place, bars, False


def check_walk(data, answer, asked):
    before, after = data["before"], data["after"]
    made, place, bars, has_left = walk(before, data["steps"])
    assert made == data["steps"] and (place, has_left) == (after.place, after.has_left)
    assert bars == [it.bar for it in after]
    assert answer == told(data[asked])


def told(circuit):
    verb = "has left by" if circuit.has_left else "is about to enter"
    bars = ", ".join(f"{it.number} `{it.bar}`" for it in circuit)
    return f"The signal {verb} `{circuit.place}`. Bars: {bars}."


def check_bank(data, answer):
    moves, (state, port) = data["moves"], data["goal"]
    table = "".join(f"{','.join(map(str, (*pair, *goal)))}\n" for pair, goal in moves.items())
    bank = SequentialMachine(table).realise(*data["pair"])
    made, place, bars, _ = walk(bank, 10**6)
    states, ports = max(it for it, _ in moves), max(it for _, it in moves)
    assert place == f"{(states - 1) * (ports + 1) + port - 1}.e" and moves[data["pair"]] == (state, port)
    assert bars[ports :: ports + 1] == ["H" if it == state else "V" for it in range(1, states + 1)]
    assert made == data["steps"] and f"port {port}," in answer and f"state {state}." in answer


def least_sequence(outputs, ports, most):
    """The first sequence, of all in the order of their lengths, for which two machines differ."""
    for length in range(1, most + 1):
        for sequence in itertools.product(range(1, ports + 1), repeat=length):
            one, two = outputs(sequence)
            if one != two:
                return sequence
    return None


def by_table(moves, sequence):
    state, found = 1, []
    for port in sequence:
        state, out = moves[state, port]
        found.append(out)
    return found


def check_behaviour(data, answer):
    first, second = data["first"], data["second"]
    ports, states = max(port for _, port in first), max(state for state, _ in first)
    # Two machines of n states that agree on all sequences of 2n - 1 ports in agree on all.
    found = least_sequence(lambda it: (by_table(first, it), by_table(second, it)), ports, 2 * states - 1)
    assert found == data["sequence"] and (("same behaviour" in answer) == (found is None))


def by_circuit(circuit, sequence):
    bars, found = None, []
    for port in sequence:
        _, place, bars, _ = walk(circuit, 10**4, f"{port - 1}.w", bars)
        found.append({"3.e": 1, "4.e": 2}[place])
    return found


def check_circuit(data, answer):
    circuit, moves = Circuit(data["circuit"]), data["moves"]
    found = least_sequence(lambda it: (by_table(moves, it), by_circuit(circuit, it)), 2, 3)
    assert found == data["sequence"] and (("same behaviour" in answer) == (found is None))


def number_of(pairs, goals):
    """The place of a permutation in lexicographic order, by counting those before it."""
    number, left = 0, list(pairs)
    for goal in goals:
        number = number * len(left) + left.index(goal)
        left.remove(goal)
    return number


def check_element(data, answer):
    moves = data["moves"]
    assert number_of(sorted(moves), moves.values()) == data["number"]
    table = "\n".join(",".join(map(str, (*pair, *goal))) for pair, goal in moves.items())
    assert answer in (str(data["number"]), f"```\n{table}\n```")


def check_elements(data, answer):
    if "machine" not in data:
        assert data["elements"] == data["states"] * (data["ports"] + 1) and answer.endswith(f" {data['elements']}")
        return
    window = data.get("window", [1, 5, 9, 5])
    layout = data["machine"].layout(data["word"], window)
    firsts = [it.first for it in layout.modules] + [layout.elements]
    sizes = {(it.tape, it.cell): end - it.first for it, end in zip(layout.modules, firsts[1:])}
    assert sizes[1, 0] == data["one"] and sizes[2, 0] == data["two"]
    total = sum(size for (tape, _), size in sizes.items() if tape)
    assert answer.endswith(f" {total if 'total' in data else data['two']}")


def searched_moves(segments, pebbles):
    """The least number of moves of the pebble game, by a search of all positions."""
    goal, reached, wave = 1 << segments - 1, {0}, [0]
    for moves in itertools.count():
        if goal in wave or not wave:
            return moves if wave else None
        nexts = []
        for it in wave:
            for segment in range(segments):
                other = it ^ 1 << segment
                if (not segment or it >> segment - 1 & 1) and bin(other).count("1") <= pebbles and other not in reached:
                    reached.add(other)
                    nexts.append(other)
        wave = nexts


def check_pebbles(data, answer):
    assert answer == str(data["moves"]) == str(searched_moves(data["segments"], data["pebbles"]))


CHECKS = {name: globals()[f"check_{name}"] for name in KINDS if name not in ("forward", "back")}
CHECKS |= {
    "forward": functools.partial(check_walk, asked="after"),
    "back": functools.partial(check_walk, asked="before"),
}


def check_exam(seed, level, count=40):
    for problem in problems(seed, level, count):
        CHECKS[problem.kind](problem.data, problem.answer)


@pytest.mark.parametrize("level", LEVELS)
def test_solutions_are_right(level, pytestconfig, answering):
    for seed in range((pytestconfig.getoption("--drawn") or 9) // 3):
        check_exam(seed, level)


@pytest.mark.slow
@pytest.mark.parametrize("part", range(10))
def test_solutions_of_a_thousand_seeds_are_right(part, answering):
    for seed in range(1000 + 100 * part, 1100 + 100 * part):
        check_exam(seed, LEVELS[seed % 3])


def drawn(folder, *words):
    """What the tool writes: its status, what it says, and the two files."""
    command = [sys.executable, "-B", os.path.join(places.TOP, "tools", "exam"), *words]
    ran = subprocess.run(command, cwd=folder, capture_output=True, text=True)
    return ran.returncode, ran.stderr, {it: (folder / it).read_bytes() for it in sorted(os.listdir(folder))}


@pytest.mark.parametrize("kind", ["md", "tex"])
def test_the_same_seed_gives_the_same_bytes(tmp_path, kind, answering):
    found = []
    for name, seed in (("one", "7"), ("two", "7"), ("three", "8")):
        (tmp_path / name).mkdir()
        status, said, files = drawn(tmp_path / name, "--seed", seed, "--level", "2", "--out", f"exam.{kind}")
        assert (status, said) == (0, "") and list(files) == [f"exam-solutions.{kind}", f"exam.{kind}"]
        found.append(files)
    assert found[0] == found[1] != found[2]
    sheet, solutions = found[0][f"exam.{kind}"].decode(), found[0][f"exam-solutions.{kind}"].decode()
    head = r"(?m)^## (\d+) \((\d) marks?\)$" if kind == "md" else r"\\subsection\*{(\d+) \\hfill (\d) marks?}"
    heads = re.findall(head, sheet)
    assert len(heads) == 40 and heads == re.findall(head, solutions)
    assert f"40 problems, {sum(int(marks) for _, marks in heads)} marks." in sheet
    assert not any(it.answer in sheet for it in problems(7, 2, 40) if kind == "md" and len(it.answer) > 20)


@pytest.mark.parametrize("level", LEVELS)
def test_latex_compiles(tmp_path, level, answering, needs):
    needs("pdflatex")
    env = {**os.environ, "HOME": str(tmp_path), "TEXMFVAR": str(tmp_path / "var")}
    drawn(tmp_path, "--seed", "7", "--level", str(level), "--out", "exam.tex")
    for name in ("exam", "exam-solutions"):
        command = ["pdflatex", "-interaction=nonstopmode", "-halt-on-error", f"{name}.tex"]
        ran = subprocess.run(command, cwd=tmp_path, capture_output=True, env=env)
        assert ran.returncode == 0 and (tmp_path / f"{name}.pdf").exists(), ran.stdout[-500:]
        assert b"Overfull" not in ran.stdout


def test_bad_options_are_refused(tmp_path):
    status, said, files = drawn(tmp_path, "--seed", "7", "--level", "2", "--out", "exam.doc")
    assert (status, files) == (2, {}) and said == "exam: --out exam.doc: the name must end with .tex or .md\n"
    assert drawn(tmp_path, "--seed", "7", "--level", "4", "--out", "exam.md")[0] == 2


def same_elements(ports):
    """The classes of elements with so many ports that differ only in the names of states, of ports in and of ports out."""
    pairs = [(state, port) for state in range(2) for port in range(ports)]
    place = {pair: number for number, pair in enumerate(pairs)}
    names = list(itertools.permutations(range(ports)))
    renamings = [
        [[place[state ^ swap, name[port]] for state, port in pairs] for name in (ins, outs)]
        for swap, ins, outs in itertools.product((0, 1), names, names)
    ]
    seen = set()
    for goals in itertools.permutations(range(2 * ports)):
        if goals not in seen:
            found = set()
            for ins, outs in renamings:
                other = [0] * len(goals)
                for number, goal in enumerate(goals):
                    other[ins[number]] = outs[goal]
                found.add(tuple(other))
            seen |= found
            yield found


def test_the_classes_of_elements_are_as_many_as_the_lecture_says():
    found = {ports: list(same_elements(ports)) for ports in (2, 3, 4)}
    assert [len(found[ports]) for ports in (2, 3, 4)] == [8, 24, 82]
    assert "there are 8 with k = 2, 24 with k = 3 and 82 with k = 4" in places.text_of("docs", "learn", "lecture-5.md")
    # The rotary element: state 0 is H. Its class is that of number 289, of which that is the least.
    rotary = []
    for bar, side in itertools.product("HV", "nesw"):
        is_along = (bar == "V") == (side in "ns")
        out, after = (OPPOSITE[side], bar) if is_along else (RIGHT[side], "V" if bar == "H" else "H")
        rotary.append(4 * "HV".index(after) + "nesw".index(out))
    (own,) = (it for it in found[4] if tuple(rotary) in it)
    assert min(number_of(range(8), goals) for goals in own) == 289


def test_numbers_of_elements():
    assert [goal for goal in element_of(2, 9).values()] == [(1, 2), (2, 1), (2, 2), (1, 1)]


def test_the_notes_have_the_least_numbers_of_moves():
    rows = re.findall(r"(?m)^\| (\d+) \|(.*)\|$", places.text_of("docs", "learn", "pebbles.md"))
    assert [int(row[0]) for row in rows] == list(range(1, 11))
    for segments, cells in rows:
        told = [None if it.strip() == "-" else int(it) for it in cells.split("|")]
        for pebbles, moves in enumerate(told, 1):
            assert moves == searched_moves(int(segments), pebbles) == pebble_moves(int(segments), pebbles)


def test_the_moves_of_the_notes_are_allowed():
    text = places.text_of("docs", "learn", "pebbles.md")
    moves = re.search(r"With 3 pebbles and 4 segments, (\d+) moves are enough: `(.*)`", text)
    pebbled, most = {0}, 0
    for move in moves[2].split(" "):
        segment = int(move[1:])
        assert segment - 1 in pebbled and (segment in pebbled) == (move[0] == "-")
        pebbled ^= {segment}
        most = max(most, len(pebbled) - 1)
    assert pebbled == {0, 4} and most == 3 and len(moves[2].split(" ")) == int(moves[1]) == pebble_moves(4, 3)
