"""The problems of an examination: of each kind a function that draws one of a level and answers it.

The program answers wherever it has a command for the question; the others are computed from their definitions. `data` has
what a problem is about and its answer as values, for tests.
"""
import functools
import random
from itertools import permutations
from typing import Any, Callable, NamedTuple

from hithwelor import Circuit, Machine, ReversibleMachine, SequentialMachine

LEVELS = (1, 2, 3)
BLANK = "_"
SHIFTS = {"-": -1, "0": 0, "+": 1}


class Problem(NamedTuple):
    """A problem in Markdown: its kind, its marks, the question, the answer, and both as values."""

    kind: str
    marks: int
    question: str
    answer: str
    data: dict[str, Any]


# Each kind by its name: the marks at each level that has it, and what draws a problem.
KINDS: dict[str, tuple[dict[int, int], Callable[[random.Random, int], tuple[str, str, dict[str, Any]]]]] = {}


def kind(**marks):
    """Enters a function as a kind of problems, with its marks at each level: `one=2` are two at level 1."""
    levels = {LEVELS[("one", "two", "three").index(name)]: number for name, number in marks.items()}

    def entered(draw):
        KINDS[draw.__name__] = levels, draw
        return draw

    return entered


def is_told(problem, others):
    """Whether one of these problems has the answer of another in its question."""
    pairs = [(problem, other) for other in others] + [(other, problem) for other in others]
    return any(len(one.answer) > 20 and one.answer in two.question for one, two in pairs)


def problems(seed, level, count):
    """So many problems of a level: its kinds in turn. The same seed gives the same problems."""
    names = [name for name, (marks, _) in KINDS.items() if level in marks]
    found: list[Problem] = []
    tries = 0
    while len(found) < count:
        name = names[len(found) % len(names)]
        marks, draw = KINDS[name]
        generator = random.Random(f"{seed} {level} {len(found)} {name} {tries}")
        problem = Problem(name, marks[level], *draw(generator, level))
        tries += 1
        if not is_told(problem, found):
            found.append(problem)
    return found


def block(text):
    """A block of code."""
    return "```\n" + text.rstrip("\n") + "\n```"


# What drawn machines look like: how many states are between the first and the last, and how many steps they make.
SIZES = {1: (2, 4, 8), 2: (2, 8, 16), 3: (3, 14, 30)}


def draw_machine(generator, level, has_output=False):
    """A machine in standard form and a word on which it halts, with the outcome of its run."""
    inner, least, most = SIZES[level]
    states = [f"Q{number}" for number in range(1, inner + 1)]
    while True:
        rules = [("S", BLANK, BLANK, "+", "Q1")]
        for state in states:
            for symbol in "01" + BLANK:
                rules.append((state, symbol, generator.choice("01"), generator.choice("-+"), generator.choice(states)))
        rules[-1] = (states[-1], BLANK, BLANK, "0", "F")
        word = "".join(generator.choice("01") for _ in range(generator.randint(2, 4)))
        machine = Machine.from_rules(rules)
        outcome = machine.by_itself(word, most)
        if outcome.kind == "halted" and outcome.steps >= least and (outcome.output or not has_output):
            return machine, word, outcome


def numbered(machine):
    """A machine's quintuples with their numbers, as a block."""
    return block("\n".join(f"{number}: {line}" for number, line in enumerate(machine.table.splitlines(), 1)))


@kind(one=2, two=3)
def run(generator, level):
    """The run of a machine by hand."""
    machine, word, outcome = draw_machine(generator, level, True)
    question = f"This machine starts on the blank left of the word `{word}`:\n\n{numbered(machine)}\n\nHow many steps does it make, and what is its output, the word directly right of the head when it halts?"
    answer = f"It halts after {outcome.steps} steps. The output is `{outcome.output}`."
    data = {"machine": machine, "word": word, "steps": outcome.steps, "output": outcome.output}
    return question, answer, data


@kind(one=2, two=3, three=4)
def history(generator, level):
    """What Bennett's machine has on tape 2 after some steps of the machine."""
    machine, word, outcome = draw_machine(generator, level)
    steps = generator.randint(outcome.steps // 2, outcome.steps)
    numbers = [moment.rule for moment in machine.trace(word, steps)][:steps]
    question = f"Bennett's reversible machine runs on the word `{word}` for this machine:\n\n{numbered(machine)}\n\nWhich numbers are on the history tape after {steps} steps of the machine have been computed?"
    answer = f"`{' '.join(map(str, numbers))}`"
    return question, answer, {"machine": machine, "word": word, "steps": steps, "numbers": numbers}


@kind(one=2, two=3)
def count(generator, level):
    """The steps of Bennett's machine, or of the machine."""
    machine, word, outcome = draw_machine(generator, level, True)
    steps = machine.reversible().moments(word).outcome.steps
    data = {"machine": machine, "word": word, "steps": steps, "own": outcome.steps}
    letters = len(outcome.output)
    if level == 1:
        question = f"A machine in standard form halts after {outcome.steps} steps with an output of {letters} letters. How many quadruple steps does its reversible machine make?"
        return question, f"4·{outcome.steps} + 4·{letters} + 5 = {steps}", data
    question = f"The reversible machine of a machine in standard form halts after {steps} quadruple steps. The output has {letters} letters. How many steps does the machine itself make?"
    return question, f"({steps} - 4·{letters} - 5) / 4 = {outcome.steps}", data


@kind(one=2, two=3, three=4)
def quadruples(generator, level):
    """Bennett's quadruples of one quintuple."""
    machine, _, _ = draw_machine(generator, level)
    number, many = generator.randint(1, len(machine.rules)), len(machine.rules)
    lines = machine.bennett().splitlines()
    wanted = lines[2 * number - 2 : 2 * number]
    if level > 1:
        wanted += lines[len(lines) - 2 * number : len(lines) - 2 * number + 2]
    stages = (
        "the two quadruples of the computing stage"
        if level == 1
        else "the two quadruples of the computing stage and the two of the retracing stage"
    )
    question = f"The states of this machine are numbered as they first appear, from 1:\n\n{numbered(machine)}\n\nWrite {stages} of Bennett's machine for quintuple {number}. Call the states `A` and `C` with the number, or with the number of the quintuple and a prime."
    assert many == (len(lines) - 2 * 2 - 3) // 4
    return question, block("\n".join(wanted)), {"machine": machine, "number": number, "lines": wanted}


def draw_quadruples(generator, rows, states):
    """A table of quadruples: on each tape a symbol is rewritten, or the head is shifted."""
    table: list[tuple[str, ...]] = []
    while len(table) < rows:
        tapes = [
            (generator.choice("01"), generator.choice("01"))
            if generator.random() < 0.7
            else ("/", generator.choice("-0+"))
            for _ in range(3)
        ]
        ends = [generator.choice(states), generator.choice(states)]
        row = (ends[0], *(read for read, _ in tapes), *(act for _, act in tapes), ends[1])
        if row not in table:
            table.append(row)
    return ReversibleMachine.from_rules(table)


@kind(one=2, two=3, three=4)
def overlap(generator, level):
    """Whether a table of quadruples is deterministic and reversible."""
    wanted = [generator.choice(["yes", "no"]) for _ in range(2)]
    for _ in range(40):
        table = draw_quadruples(generator, level + 2, "ABCD"[: level + 1])
        verdicts = table.verdicts()
        if [line.split(" ")[1] for line in verdicts.splitlines()] == wanted:
            break
    question = f"Is this table of quadruples deterministic? Is it reversible? If not, give the least pair of quadruples that overlap in domain, or in range.\n\n{numbered(table)}"
    return question, block(verdicts), {"table": table, "verdicts": verdicts}


@kind(one=2, two=3)
def inverse(generator, level):
    """The inverse of a table of quadruples."""
    table = draw_quadruples(generator, 2 * level, "ABC")
    other = table.inverse().table
    question = f"Write the table of the inverse machine.\n\n{block(table.table)}"
    return question, block(other), {"table": table, "inverse": other}


def tape_words(cells):
    """How a tape's cells that are not blank are told: position and symbol of each."""
    shown = ", ".join(f"`{symbol}` at {position}" for position, symbol in sorted(cells.items()))
    return f"the tape has {shown}" if shown else "the tape is blank"


def predecessors_of(rules, state, head, cells):
    """The configurations that lead to this one, each by its quintuple: the number, the state, the head and the cells."""
    found = []
    for number, rule in enumerate(rules, 1):
        place = head - SHIFTS[rule.move]
        if rule.next == state and cells.get(place, BLANK) == rule.write:
            before = {position: symbol for position, symbol in {**cells, place: rule.read}.items() if symbol != BLANK}
            found.append((number, rule.state, place, before))
    return found


@kind(two=4, three=5)
def predecessors(generator, level):
    """All configurations that lead to one."""
    machine, word, _ = draw_machine(generator, level)
    told = []
    for moment in machine.trace(word)[2:]:
        cells = {place: symbol for place, symbol in zip(moment.tape.positions, moment.tape) if symbol != BLANK}
        head = moment.tape.head
        told.append((predecessors_of(machine.rules, moment.state, head, cells), moment, head, cells))
    most = max(len(found) for found, *_ in told)
    found, moment, head, cells = generator.choice([it for it in told if len(it[0]) == most])
    question = f"In a run of this machine the state is `{moment.state}`, the head is at {head}, and {tape_words(cells)}; all other cells are blank:\n\n{numbered(machine)}\n\nGive every configuration that leads to this one in one step, with the quintuple."
    answer = "\n".join(
        f"- quintuple {number}: state `{state}`, head at {place}, {tape_words(before)}"
        for number, state, place, before in found
    )
    data = {"machine": machine, "state": moment.state, "head": head, "cells": cells, "found": found}
    return question, answer, data


def draw_circuit(generator, count, steps):
    """A circuit of so many elements, wired at random, in which the signal passes at least so many times."""
    lines = [f"{element}.{side}" for element in range(count) for side in "nesw"]
    while True:
        goals = generator.sample(lines, len(lines))
        targets = dict(zip(lines, goals))
        end = next(line for line in lines if targets[line] == "0.n")
        text = f"rotary 1\nelements {count}\nstart 0.n\nend {end}\nsteps 0\nat 0.n\n"
        for element in range(count):
            outs = ["-" if line == end else targets[line] for line in lines[4 * element : 4 * element + 4]]
            text += f"e {element} {generator.choice('HV')} {' '.join(outs)}\n"
        circuit = Circuit(text)
        after = circuit.step(steps)
        if after.steps == steps:
            return circuit, after


PLACE = "Give the place of the signal and the bar of each element"


def shown_bars(circuit):
    """The place of a circuit's signal and its bars, in a sentence."""
    bars = ", ".join(f"{element.number} `{element.bar}`" for element in circuit)
    verb = "has left by" if circuit.has_left else "is about to enter"
    return f"The signal {verb} `{circuit.place}`. Bars: {bars}."


@kind(one=2, two=3)
def forward(generator, level):
    """Steps of a circuit of rotary elements."""
    steps = 2 * level + 1
    circuit, after = draw_circuit(generator, 1 + level, steps)
    question = f"{PLACE} {steps} element steps later.\n\n{block(circuit.text)}"
    return question, shown_bars(after), {"before": circuit, "after": after, "steps": steps}


@kind(one=3, two=4, three=5)
def back(generator, level):
    """Steps back of a circuit of rotary elements."""
    steps = 2 * level
    _, after = draw_circuit(generator, 1 + level, steps + level)
    before = after.back(steps)
    question = f"{PLACE} {steps} element steps earlier.\n\n{block(after.text)}"
    return question, shown_bars(before), {"before": before, "after": after, "steps": steps}


def draw_sequential(generator, states, ports):
    """The moves of a reversible sequential machine: a one-to-one function of its pairs of a state and a port."""
    pairs = [(state, port) for state in range(1, states + 1) for port in range(1, ports + 1)]
    return dict(zip(pairs, generator.sample(pairs, len(pairs))))


def sequential(moves):
    """The table of these moves."""
    return SequentialMachine.from_rules([(*pair, *goal) for pair, goal in moves.items()])


@kind(one=2, two=3, three=4)
def bank(generator, level):
    """A move of a bank, and what it costs."""
    states, ports = {1: (2, 2), 2: (2, 3), 3: (3, 3)}[level]
    moves = draw_sequential(generator, states, ports)
    pair = generator.choice(list(moves))
    state, port = moves[pair]
    steps = sequential(moves).realise(*pair).step(10**6).steps
    question = f"The bank of this reversible sequential machine (state, port in, next state, port out) is in state {pair[0]}, and the signal enters by port {pair[1]}:\n\n{block(sequential(moves).table)}\n\nBy which port does the signal leave, and in which state is the bank then?"
    answer = f"The signal leaves by port {port}, and the bank is in state {state}."
    if level > 1:
        question += " After how many element steps?"
        answer += f" That takes {steps} element steps."
    return question, answer, {"moves": moves, "pair": pair, "goal": (state, port), "steps": steps}


def told_apart(first, second, ports, start=1):
    """The least of the shortest sequences of ports in for which two machines, both in this state, differ in a port out; or
    None."""
    reached, queue = {(start, start)}, [((start, start), ())]
    for (one, two), sequence in queue:
        for port in ports:
            (next_one, out_one), (next_two, out_two) = first[one, port], second[two, port]
            if out_one != out_two:
                return (*sequence, port)
            if (next_one, next_two) not in reached:
                reached.add((next_one, next_two))
                queue.append(((next_one, next_two), (*sequence, port)))
    return None


def outputs_of(moves, sequence, state=1):
    """The ports out for a sequence of ports in."""
    found = []
    for port in sequence:
        state, out = moves[state, port]
        found.append(out)
    return found


def draw_pair(generator, states, ports, least):
    """Two machines, and the sequence that tells them apart: at least so many ports in, or None. Alike are those that differ
    in the names of states but 1; the others have the goals of two pairs exchanged."""
    is_alike = generator.random() < 0.3
    while True:
        first = draw_sequential(generator, states, ports)
        if is_alike:
            names = [1, *generator.sample(range(2, states + 1), states - 1)]
            renamed = {(names[q - 1], port): (names[goal - 1], out) for (q, port), (goal, out) in first.items()}
            return first, dict(sorted(renamed.items())), None
        one, two = generator.sample(list(first), 2)
        second = {**first, one: first[two], two: first[one]}
        sequence = told_apart(first, second, range(1, ports + 1))
        if sequence and len(sequence) >= least:
            return first, second, sequence


def verdict_of(first, second, sequence):
    """What an answer says of two machines."""
    if sequence is None:
        return "They have the same behaviour: no sequence tells them apart."
    words = [" ".join(map(str, it)) for it in (sequence, outputs_of(first, sequence), outputs_of(second, sequence))]
    return f"They differ. The sequence `{words[0]}` tells them apart: the first leaves by `{words[1]}`, the second by `{words[2]}`."


SHORTEST = "give the shortest sequence of ports in that tells them apart; of several, the one that comes first in the order of numbers"


@kind(two=4, three=5)
def behaviour(generator, level):
    """Whether two reversible sequential machines behave alike."""
    states, ports = level, 2 + generator.randint(0, 1)
    first, second, sequence = draw_pair(generator, states, ports, level - 1)
    question = f"Both machines (state, port in, next state, port out) start in state 1. Do they leave by the same ports for every sequence of ports in? If not, {SHORTEST}.\n\n{block(sequential(first).table)}\n\n{block(sequential(second).table)}"
    return question, verdict_of(first, second, sequence), {"first": first, "second": second, "sequence": sequence}


@kind(three=6)
def circuit(generator, level):
    """Whether a circuit has the behaviour of a table."""
    first, second, sequence = draw_pair(generator, level - 1, 2, 2)
    text = sequential(second).realise(1, 1).text
    question = f"This is a bank of {level - 1} columns with two ports, in state 1. Port in 1 is `0.w`, port in 2 is `1.w`; port out 1 is `3.e`, port out 2 is `4.e`:\n\n{block(text)}\n\nHas it the behaviour of this table (state, port in, next state, port out) in state 1? If not, {SHORTEST}.\n\n{block(sequential(first).table)}"
    answer = (
        verdict_of(first, second, sequence)
        .replace("the first leaves", "the table leaves")
        .replace("the second by", "the circuit by")
    )
    return question, answer, {"moves": first, "circuit": text, "sequence": sequence}


def element_of(ports, number):
    """The moves of the reversible element with one bit of memory that has this number: the permutations of its pairs in
    lexicographic order, from 0."""
    pairs = [(state, port) for state in (1, 2) for port in range(1, ports + 1)]
    goals = next(goals for place, goals in enumerate(permutations(pairs)) if place == number)
    return dict(zip(pairs, goals))


@kind(two=3, three=4)
def element(generator, level):
    """An element by its number, or the number of an element."""
    ports = level
    number = generator.randrange({2: 24, 3: 720}[ports])
    moves = element_of(ports, number)
    table = sequential(moves).table
    order = "The permutations of its pairs (state, port) are numbered from 0 in lexicographic order"
    data = {"ports": ports, "number": number, "moves": moves}
    if generator.random() < 0.5:
        question = f"A reversible element with one bit of memory has {ports} ports each way. {order}. Write the table of element {number}: state, port in, next state, port out."
        return question, block(table), data
    question = f"This is a reversible element with one bit of memory. {order}. Which number has it?\n\n{block(table)}"
    return question, f"{number}", data


@kind(one=1, two=2, three=3)
def elements(generator, level):
    """How many elements a bank, a cell or all cells of a circuit have."""
    if level == 1:
        states, ports = generator.randint(2, 9), generator.randint(2, 9)
        question = f"A reversible sequential machine has {states} states and {ports} ports. How many rotary elements has its bank?"
        return (
            question,
            f"{states}·({ports} + 1) = {states * (ports + 1)}",
            {"states": states, "ports": ports, "elements": states * (ports + 1)},
        )
    machine, word, outcome = draw_machine(generator, level)
    symbols, names = len(machine.letters) + 1, len(machine.rules) + 1
    one, two = (2 * it * (2 * it + 9) for it in (symbols, names))
    data = {"machine": machine, "word": word, "one": one, "two": two}
    facts = f"A machine has {symbols - 1} letters and {names - 1} quintuples."
    if level == 2:
        question = f"{facts} How many rotary elements has a cell of its history tape?"
        return question, f"2·{names}·(2·{names} + 9) = {two}", data
    window = [generator.randint(1, 3), generator.randint(5, 8), outcome.steps, generator.randint(3, 6)]
    work, past, out = window[0] + window[1] + 1, window[2] + 1, window[3] + 1
    total = (work + out) * one + past * two
    question = f"{facts} Its circuit has the window `{' '.join(map(str, window))}`. How many rotary elements have the cells of all three tapes together, without the control?"
    return question, f"({work} + {out})·{one} + {past}·{two} = {total}", {**data, "window": window, "total": total}


@functools.lru_cache(maxsize=None)
def pebble_moves(segments, pebbles):
    """The least number of moves of Bennett's pebble game that leave one pebble, on the last segment; None if there are too
    few pebbles."""
    if segments == 0:
        return 0
    if pebbles == 0:
        return None
    if segments == 1:
        return 1
    found = []
    for middle in range(1, segments):
        parts = (
            pebble_moves(middle, pebbles),
            pebble_moves(segments - middle, pebbles - 1),
            pebble_moves(middle, pebbles - 1),
        )
        if None not in parts:
            found.append(sum(parts))
    return min(found, default=None)


@kind(three=3)
def pebbles(generator, level):
    """Bennett's pebble game."""
    segments = generator.randint(3, 7)
    least = next(many for many in range(1, 9) if pebble_moves(segments, many) is not None)
    many = generator.randint(least, least + 1)
    moves = pebble_moves(segments, many)
    question = f"Bennett's pebble game: a pebble may be put on segment i, or taken from it, if i = 1 or segment i - 1 has a pebble. There are {many} pebbles and {segments} segments, all empty. What is the least number of moves after which segment {segments} alone has a pebble?"
    return question, f"{moves}", {"segments": segments, "pebbles": many, "moves": moves}
