"""Inputs that were changed at random, under every command, and what any answer must be.

Any answer has a status of docs/use/formats.md and the form of text that the command has with it; with memory at hand it is never
status 7, 8 or 9, nothing is on standard error, and it comes within a minute and four GiB. What is taken is held against itself
besides: `step 0` writes an accepted text again as it is; as many steps back as `step` made give the text that was; two mirrors are
the circuit; the undoing schedule of a farm restores its boards; Bennett's machine of a table that `check` takes is deterministic
and reversible.

An input is drawn so: an example, a drawn circuit or a drawn table, in which bytes or text lines were changed, dropped,
doubled or exchanged, or which ends early or goes on with another. The same seed gives the same inputs.

test_inputs.py runs this file as a program of its own, since an answer that takes too long or too much ends its process:

    python3 tests/inputs.py SEED FIRST STRIDE COUNT [--library PATH] [PROGRAM]

draws the batches FIRST, FIRST + STRIDE, .. of COUNT inputs, and prints a line of JSON for each: its place, how many inputs
it has, how often each command came to each status, and the faults.
"""
import argparse
import json
import os
import random
import re
import resource
import signal
import subprocess
import sys
from collections import Counter

sys.dont_write_bytecode = True
from places import TOP

sys.path[:0] = [os.path.join(TOP, folder) for folder in ("python", "tools/lib")]
from hithwelor import answers
from samples import bank, tangle, text_of

BATCH, SECONDS, ROOM = 200, 60, 4 << 30
DONE, USAGE, STUCK, WINDOW, INSIDE = 0, 2, 10, 11, 12

N = r"(?:0|[1-9]\d*)"
WORD = r"[!-~]*"
PLACE = rf"{N}\.[nesw]"
FAULT = r"(?:syntax|too many|target|end wired|left wired|start fed|two sources|order|spelling)"
RECORD = rf"(?:empty|record {N} (?:too many|fields|field \d (?:name|symbol|shift|number)))"
FORM = rf"(?:S1 {N} {N}|S2|S3 {N}|S4|S5 {N})"
REFUSALS = {
    USAGE: "usage",
    3: rf"text: (?:line {N} {FAULT}|(?:second )?{RECORD}|no script|no second|no schedule|script line {N} (?:form|no state|same break"
    rf"|no break)|board {N} line {N} {FAULT}|schedule line {N} (?:form|board))",
    4: rf"machine: (?:(?:second )?{FORM}|halting {N}|(?:second )?(?:domain|range) {N} {N}|(?:reads|writes) {N} {N}"
    rf"|(?:silent|initial|final) {N}|closed)",
    5: rf"word: (?:{N}|{N} {N}|state|line|second state|(?:in|out) {N})",
    6: rf"size: (?:input|word needs {N}|word [123] needs {N}|symbols [123] {N}|elements {N}|quintuples {N}|quadruples {N})",
}
TEXT = rf"rotary [12]\nelements {N}\nstart {PLACE}\nend {PLACE}\nsteps {N}\n(?:at|left) {PLACE}\n(?:[ecr] [^\n]+\n)+"
TAPES = rf"(?:tape [123] from -?{N} head (?:-?{N}|\?):[^\n]*\n){{3}}"
RUN = (
    rf"elements {N}\n(?:exit [^\n]+|inside {PLACE})\nsteps {N}\n(?:quadruple steps {N}\n)?{TAPES}(?:output ={WORD}\n)?"
)
QUADRUPLES = rf"(?:[^,\n]+(?:,[^,\n]+){{7}}\n)+"
LOOK = rf"element (?:at|left) {PLACE} steps {N}\n[^\n]+\nquadruple [^\n]+\n{TAPES}"
VIEW = rf"{LOOK}machine [^\n]+\n"
PLAYED = rf"(?:%s|(?:at|left) {PLACE} steps {N}(?: break \w+)?\n|(?:break|drop) \w+\n)*"
LAYOUT = (
    rf"elements {N}\nmodules {N}\n(?:module {N} (?:control|tape [123] cell -?{N}) from {N} columns {N} lines {N}\n)+"
    rf"(?:column {N} of control (?:begin|end|reads [^\n]+|shifts {N} [123]|writes [^\n]+)\n)+"
    rf"(?:line {N} of control in [^\n]+ out [^\n]+\n)+"
    rf"(?:(?:column {N} of tape [123] (?:plain|head) [!-~]+\n)+(?:line {N} of tape [123] [^\n]+\n)+){{3}}"
)
DRIVE = rf"elements {N}\n(?:%s)\nsteps {N}\nquadruple steps {N}\n{TAPES}"
# The form of a command's text, by its statuses.
FORMS = {
    "step": {DONE: TEXT},
    "back": {DONE: TEXT},
    "migrate": {DONE: TEXT},
    "mirror": {DONE: TEXT},
    "plan": {DONE: rf"elements {N}\nwires {N}\ntracks {N}\ndensest {N}\n(?:wire {PLACE} {PLACE} track {N}\n)*"},
    "realise": {DONE: TEXT},
    "compile": {DONE: TEXT},
    "layout": {DONE: LAYOUT},
    "build": {DONE: TEXT},
    "drive": {
        status: DRIVE % exit
        for status, exit in (
            (DONE, "exit end"),
            (STUCK, r"exit stuck [^ \n]+(?: [!-~]+){3}"),
            (WINDOW, "exit window [123] (?:left|right)"),
            (INSIDE, f"inside {PLACE}"),
        )
    },
    "look": {DONE: LOOK},
    "play": {DONE: PLAYED % LOOK},
    "check": {DONE: rf"standard states {N} symbols {N} quintuples {N}\n"},
    "machine": {DONE: rf"halted {N}\noutput ={WORD}\n", STUCK: rf"stuck [^\n]+ [!-~] {N}\n", INSIDE: rf"running {N}\n"},
    "trace": {
        status: rf"(?:{N} [^ \n]+ from -?{N} head -?{N} cells {N}:(?: [!-~])+(?: rule {N})?\n)+{last}\n"
        for status, last in ((DONE, rf"halted {N}"), (STUCK, rf"stuck [^\n]+ [!-~] {N}"), (INSIDE, rf"running {N}"))
    },
    "moments": {
        status: rf"(?:{N} [^ \n]+(?: tape [123] from -?{N} head -?{N} cells {N}:(?: [!-~]+)+?){{3}}(?: rule {N})?\n)+{last}\n"
        for status, last in (
            (DONE, rf"halted {N}"),
            (STUCK, rf"stuck [^ \n]+(?: [!-~]+){{3}} {N}"),
            (INSIDE, rf"running {N}"),
        )
    },
    "inverse": {DONE: QUADRUPLES},
    "reversible": {DONE: rf"deterministic (?:yes|no {N} {N})\nreversible (?:yes|no {N} {N})\n"},
    "bennett": {DONE: QUADRUPLES},
    "standard": {DONE: r"(?:[^,\n]+(?:,[^,\n]+){4}\n)+"},
    "run": {status: rf"(?:window {N} {N} {N} {N}\n)?{RUN}" for status in (DONE, STUCK, WINDOW, INSIDE)},
    "view": {DONE: VIEW},
    "session": {DONE: PLAYED % VIEW},
    "generate": {DONE: rf"increments {N}\n{RUN}"},
    "element": {DONE: rf"(?:{N},{N},{N},{N}\n)+"},
    "erase": {
        DONE: rf"{QUADRUPLES}|halted {N}\nwork ={WORD}\noutput ={WORD}\n",
        STUCK: rf"stuck [^\n]+ {N}\n",
        INSIDE: rf"running {N}\n",
    },
    "window": {DONE: rf"window {N} {N} {N} {N}\n", INSIDE: rf"running {N}\n"},
    "room": {DONE: rf"room {N} {N} {N} {N}\n", WINDOW: r"none [23]\n", INSIDE: rf"running {N}\n"},
    "behaviour": {DONE: rf"(?:{N},{N},{N},{N}\n)+", INSIDE: rf"(?:more|running) {N} {N}\n"},
    "crossings": {
        DONE: rf"(?:state {N} in {PLACE} next {N} out {PLACE} steps {N}\n)+",
        INSIDE: rf"(?:more|running) {N} {N}\n",
    },
    "equal": {DONE: rf"equal\n|differ(?: {N})+\nfirst (?:{N}|-)\nsecond (?:{N}|-)\n"},
    "walk": {DONE: PLAYED % rf"(?:at|left) {PLACE}\nsteps {N}\nturned(?: {N})*\n"},
    "farm": {DONE: rf"(?:{TEXT}%\n)*(?:[+-] {N} {N}\n)*"},
}
TEXT_COMMANDS = ["step", "back", "migrate", "mirror", "plan", "behaviour", "crossings"]
TABLE_COMMANDS = [
    "check",
    "machine",
    "trace",
    "moments",
    "bennett",
    "standard",
    "run",
    "view",
    "compile",
    "layout",
    "build",
    "drive",
    "look",
    "reversible",
    "inverse",
    "realise",
    "window",
    "room",
]


def read(name):
    with open(os.path.join(TOP, "examples", name), "rb") as file:
        return file.read()


EXAMPLES = {
    name: read(name) for name in sorted(os.listdir(os.path.join(TOP, "examples"))) if name.endswith((".csv", ".txt"))
}
OF_TWO_PARTS = {
    "session": "least-session.txt",
    "play": "adder-session.txt",
    "erase": "not-twice.txt",
    "farm": "two-boards.txt",
    "walk": "two-elements-walk.txt",
    "equal": None,
}
ARE_TEXTS = [data for data in EXAMPLES.values() if data.startswith(b"rotary") and b"%" not in data]
ARE_TABLES = [data for name, data in EXAMPLES.items() if name.endswith(".csv")]


# ---- inputs


def drawn_table(draw):
    """A table of quintuples of few states and letters: a start and an end as standard form wants them, and what is drawn between."""
    states, letters = ["A", "B", "C"][: draw.randrange(1, 4)], "_01"
    rows = [
        (f"{state},{read},{draw.choice(letters)},{draw.choice('-0+')},{draw.choice(states + ['H'] * 2)}")
        for state in states
        for read in letters
        if draw.random() < 0.8
    ]
    return "\n".join(["S,_,_,+,A", *rows, "H,_,_,0,F"]).encode() + b"\n"


def drawn_quadruples(draw):
    """A table of quadruples: one that is uniform and reversible, or its rows with some drawn anew."""
    rows = ["S,_,_,_,_,_,_,R", "R,/,/,/,+,+,+,A", "A,a,a,a,a,a,a,R", "A,b,a,_,b,b,b,R", "A,_,_,_,_,_,_,F"]
    while draw.random() < 0.3:
        acts = [draw.choice([("/", draw.choice("-0+")), (draw.choice("_ab"), draw.choice("_ab"))]) for _ in range(3)]
        row = [draw.choice("SABC"), *(read for read, _ in acts), *(act for _, act in acts), draw.choice("ABCF")]
        rows[draw.randrange(len(rows))] = ",".join(row)
    return "\n".join(rows).encode() + b"\n"


def drawn_moves(draw):
    """A table of a reversible sequential machine of few states and lines."""
    pairs = [(state, line) for state in range(1, draw.randrange(2, 5)) for line in range(1, draw.randrange(2, 4))]
    count = draw.randrange(1, len(pairs) + 1)
    moves = zip(draw.sample(pairs, count), draw.sample(pairs, count))
    return "".join(f"{q},{i},{r},{o}\n" for (q, i), (r, o) in moves).encode()


def drawn_text(draw):
    """A circuit: a bank whose moves are a permutation, or elements with wires at random."""
    made = (
        bank(draw.randrange(1, 4), draw.randrange(1, 4), 0, draw.random())
        if draw.random() < 0.5
        else tangle(draw.randrange(1, 7), draw.random())
    )
    return text_of(list(zip(made.bars, made.targets)), made.start, made.end, made.place).encode()


def changed_bytes(draw, data, other):
    """The bytes with one change."""
    if not data:
        return draw.choice([other, b"\n", b"%\n"])
    i, j = draw.randrange(len(data)), draw.randrange(len(data))
    low, high = min(i, j), max(i, j)
    kind = draw.randrange(8)
    if kind == 0:
        return data[:i] + bytes([draw.choice([draw.randrange(256), draw.choice(data)])]) + data[i + 1 :]
    if kind == 1:
        return data[:i] + data[i + 1 :]
    if kind == 2:
        return data[:i] + data[i : i + 1] + data[i:]
    if kind == 3 and low < high:
        return data[:low] + data[high : high + 1] + data[low + 1 : high] + data[low : low + 1] + data[high + 1 :]
    if kind == 4:
        return data[:i]
    if kind == 5:
        return data + draw.choice([b"\n", b"0", b"%\n", b"\xef\xbb\xbf", other])
    if kind == 6:
        return data[:i] + other[draw.randrange(len(other) + 1) :] if other else data
    return re.sub(
        rb"\d+",
        lambda found: str(max(0, int(found[0]) + draw.choice([-1, 1]))).encode() if found.start() >= i else found[0],
        data,
        count=1 + draw.randrange(20),
    )


def changed_lines(draw, data):
    """The text lines with one of them changed, dropped, doubled or exchanged."""
    lines = data.splitlines(keepends=True)
    if not lines:
        return data
    i, j = draw.randrange(len(lines)), draw.randrange(len(lines))
    kind = draw.randrange(4)
    if kind == 0:
        del lines[i]
    elif kind == 1:
        lines.insert(j, lines[i])
    elif kind == 2:
        lines[i], lines[j] = lines[j], lines[i]
    else:
        parts = re.split(rb"([ ,])", lines[i])
        parts[draw.randrange(0, len(parts), 2)] = draw.choice(
            [b"0", b"1", b"-", b"_", b"/", b"", b"99", b"4611686018427387904"]
        )
        lines[i] = b"".join(parts)
    return b"".join(lines)


def drawn_input(draw, base, others):
    """An input with up to three changes; one in eight has none."""
    data = base
    for _ in range(draw.choice([0, 1, 1, 1, 1, 2, 2, 3])):
        data = changed_lines(draw, data) if draw.random() < 0.4 else changed_bytes(draw, data, draw.choice(others))
    return data


def drawn_words(draw, name):
    """Words of a command's form, with small numbers; now and then words that have none."""
    number = lambda *limits: str(draw.choice(limits))
    word = "=" + "".join(draw.choice("01") for _ in range(draw.randrange(4)))
    window = [number(0, 1), number(1, 2, 3), number(0, 1, 2, 3, 5), number(1, 2, 3)]
    tape = lambda: draw.choice(
        [word, "=", "=", ":", "=a", ":a", ":0", ":a,b", "=a", "=ab", ":a,", ":_", ":x", "=" + "\x7f", ":,,"]
    )
    tapes = [tape() for _ in range(draw.choice([1, 3]))]
    forms = {
        "step": [number(0, 1, 2, 7, 100)],
        "back": [number(0, 1, 5)],
        "machine": [word, number(0, 1, 7, 40)],
        "trace": [word, number(0, 1, 7, 40)],
        "moments": [word, number(0, 1, 7, 40)],
        "realise": [number(1, 2, 3), number(1, 2)],
        "window": [word, number(0, 1, 7, 40)],
        "room": [*tapes, number(0, 1, 7, 40)],
        "behaviour": [number(1, 2, 50), number(1, 9, 1000)],
        "crossings": [number(1, 2, 50), number(1, 9, 1000)],
        "equal": [number(1, 2, 3), number(1, 2)],
        "compile": [word, *window],
        "layout": [word, *window],
        "build": [*tapes, *window],
        "drive": [*tapes, *window, number(0, 1, 1000, 99999)],
        "look": [*tapes, *window, number(0, 1, 1000, 99999)],
        "play": [*tapes, *window],
        "run": [word, *window],
        "view": [word, *window, number(0, 1, 1000, 9999)],
        "session": [word, *window],
        "generate": ["1"],
        "element": [number(1, 2, 4, 10), number(0, 1, 23, 24, 289)],
    }
    words = [name, *forms.get(name, [])]
    if name == "run" and draw.random() < 0.2:
        words.append(number(0, 1, 500, 5000))
    if name in ("behaviour", "crossings") and draw.random() < 0.6:
        ports = lambda: ":" + ",".join(f"{draw.randrange(4)}.{draw.choice('nesw')}" for _ in range(draw.randrange(4)))
        words += [ports(), draw.choice([ports(), ":0.n,", ":0", ":"])]
    if name == "erase" and draw.random() < 0.5:
        words += [word, number(0, 5, 200)]
    if draw.random() < 0.03:
        words = draw.choice(
            [words[:-1], words + ["0"], [name.upper(), *words[1:]], [*words[:-1], "01"], [*words[:-1], ""]]
        )
    return words


def drawn_case(draw):
    """Words and an input."""
    kind = draw.random()
    if kind < 0.35:
        name, base, others = draw.choice(TEXT_COMMANDS), draw.choice([*ARE_TEXTS, drawn_text(draw)]), ARE_TEXTS
    elif kind < 0.75:
        name, base, others = (
            draw.choice(TABLE_COMMANDS),
            draw.choice([*ARE_TABLES, drawn_table(draw), drawn_table(draw)]),
            ARE_TABLES,
        )
        if name in ("moments", "room", "build", "drive", "look", "reversible", "inverse"):
            base = draw.choice([base, drawn_quadruples(draw), drawn_quadruples(draw)])
    else:
        name = draw.choice(["session", "play", "erase", "farm", "equal", "walk"])
        base, others = (
            draw.choice(
                [
                    EXAMPLES[OF_TWO_PARTS[name]]
                    if OF_TWO_PARTS[name]
                    else drawn_moves(draw) + b"%\n" + drawn_moves(draw),
                    drawn_table(draw) + b"%\n" + drawn_table(draw),
                    drawn_text(draw) + b"%\n+ 1 3\n- 1 1\n",
                    drawn_text(draw) + b"%\nbreak a element 1\nbreak b line 0.w\ngo 99\nview\ndrop a\nrev 99\nview\n",
                    drawn_quadruples(draw) + b"%\nbreak a state A\ngo 9999\nview\nrev 99\nview\n",
                ]
            ),
            ARE_TEXTS + ARE_TABLES,
        )
    return drawn_words(draw, name), drawn_input(draw, base, others)


# ---- inputs that aren't drawn

# The least machine in standard form, and a signal at one element.
LEAST = b"S,_,_,+,T\nT,_,_,0,F\n"
ELEMENT = b"rotary 1\nelements 1\nstart 0.n\nend 0.s\nsteps 0\nat 0.n\ne 0 V - - - -\n"
# The least machine of quadruples.
QUADRUPLES_LEAST = b"S,/,/,/,+,0,0,F\n"
# Words, an input, and the answer.
HOSTILE = [
    ("step 1", ELEMENT + b"\n", 3, "text: line 8 syntax"),
    ("step 1", ELEMENT.replace(b"elements 1\n", b"elements 1048576\n").partition(b"e 0")[0], 3, "text: line 7 syntax"),
    ("step 1", ELEMENT.replace(b"elements 1\n", b"elements 1048577\n"), 3, "text: line 2 too many"),
    ("step 1", ELEMENT.replace(b"rotary 1\nelements 1\n", b"rotary 2\nelements 4194305\n"), 3, "text: line 2 too many"),
    ("step 1", ELEMENT.replace(b"steps 0", b"steps 00"), 3, "text: line 5 syntax"),
    ("step 1", ELEMENT.replace(b"steps 0", b"steps " + b"9" * 200), 3, "text: line 5 syntax"),
    ("step 1", b"\xef\xbb\xbf" + ELEMENT, 3, "text: line 1 syntax"),
    ("step 1", ELEMENT.replace(b"\n", b"\r\n"), 3, "text: line 1 syntax"),
    ("check", b"S" * 33 + b",_,_,+,T\n", 3, "text: record 1 field 1 name"),
    ("check", LEAST.replace(b"S,_", b"S,/"), 3, "text: record 1 field 2 symbol"),
    ("check", b"S,_,_,+,T\n" * 4001, 3, "text: record 4001 too many"),
    ("check", b"", 3, "text: empty"),
    ("check", b"\n\r\n\n", 3, "text: empty"),
    ("session = 0 2 2 1", b"%\n", 3, "text: empty"),
    ("session = 0 2 2 1", LEAST, 3, "text: no script"),
    ("session = 0 2 2 1", LEAST + b"%\nview \n", 3, "text: script line 1 form"),
    ("walk", ELEMENT, 3, "text: no script"),
    ("walk", ELEMENT + b"\n%\n", 3, "text: line 8 syntax"),
    ("walk", ELEMENT + b"%\nbreak a state A1\n", 3, "text: script line 1 form"),
    ("walk", ELEMENT + b"%\nbreak a line 0.n\nbreak a line 0.n\n", 3, "text: script line 2 same break"),
    ("walk", ELEMENT + b"%\nbreak a line 4611686018427387905.n\n", 3, "text: script line 1 form"),
    ("walk", ELEMENT + b"%\nbreak " + b"a" * 70000 + b" element 0\n", 3, "text: script line 1 form"),
    ("walk 1", ELEMENT, 2, "usage"),
    ("erase", LEAST, 3, "text: no second"),
    ("erase", LEAST + b"%\n", 3, "text: second empty"),
    ("farm", ELEMENT, 3, "text: no schedule"),
    ("farm", ELEMENT + b"%\n+ 2 1\n", 3, "text: schedule line 1 board"),
    ("farm", ELEMENT + b"%\n+ 0 1\n+ 1 0\n", 3, "text: schedule line 1 board"),
    ("farm", ELEMENT + b"%\n+ 1 1", 3, "text: schedule line 1 form"),
    ("machine =12 5", EXAMPLES["increment.csv"], 5, "word: 2"),
    ("realise 3 1", EXAMPLES["two-moves.csv"], 5, "word: state"),
    ("element 1 2", b"", 5, "word: number"),
    ("layout = 0 2 2 1", b"", 3, "text: empty"),
    ("layout =1 0 2 2 1", LEAST, 5, "word: 1"),
    ("build = 0 2 2 1", b"S,/,/,/,+,0,0\n", 3, "text: record 1 fields"),
    ("build = 0 2 2 1", b"S,/,/,/,+,0,2,F\n", 3, "text: record 1 field 7 shift"),
    ("build =" + "1" * 70000 + " = = 0 2 2 1", QUADRUPLES_LEAST, 5, "word: 1 1"),
    ("build = :, = 0 2 2 1", QUADRUPLES_LEAST, 5, "word: 2 1"),
    ("build :" + "," * 70000 + " 0 2 2 1", QUADRUPLES_LEAST, 5, "word: 1"),
    ("build = 0 2 2 1048576", QUADRUPLES_LEAST, 6, "size: elements 23068868"),
    ("drive = = :a" + ",a" * 40000 + " 0 2 2 1 5", QUADRUPLES_LEAST, 5, "word: 3 1"),
    ("drive = 0 2 2 1 2305843009213693953", QUADRUPLES_LEAST, 2, "usage"),
    ("drive = 0 2 2 1 5", b"S,/,/,/,0,0,0,F\n", 4, "machine: silent 1"),
    ("room = 1048576", b"S,/,/,/,0,0,0,F\n", 4, "machine: silent 1"),
    ("room = 1048577", QUADRUPLES_LEAST, 2, "usage"),
    ("room = = :a" + ",a" * 40000 + " 9", QUADRUPLES_LEAST, 5, "word: 3 1"),
    ("room =", QUADRUPLES_LEAST, 2, "usage"),
    ("look = 0 2 2 1 5", LEAST, 3, "text: record 1 fields"),
    ("look = = = 0 2 2 1 4611686018427387905", QUADRUPLES_LEAST, 2, "usage"),
    ("look = = :a" + ",a" * 40000 + " 0 2 2 1 5", QUADRUPLES_LEAST, 5, "word: 3 1"),
    ("play = 0 2 2 1", QUADRUPLES_LEAST, 3, "text: no script"),
    ("play = 0 2 2 1", b"%\n", 3, "text: empty"),
    ("play =1 0 2 2 1", QUADRUPLES_LEAST + b"%\nview \n", 5, "word: 1"),
    ("play = 0 2 2 1", QUADRUPLES_LEAST + b"%\nview \n", 3, "text: script line 1 form"),
    ("play = 0 2 2 1", QUADRUPLES_LEAST + b"%\nbreak a state F\nbreak b state T\n", 3, "text: script line 2 no state"),
]
# Commands whose input is tried with each of its fronts.
CUT = [
    ("step 1", "across.txt"),
    ("back 1", "two-columns.txt"),
    ("plan", "eight-rows.txt"),
    ("migrate", "two-elements.txt"),
    ("mirror", "two-columns.txt"),
    ("check", "increment.csv"),
    ("machine =1011 40", "increment.csv"),
    ("bennett", "least.csv"),
    ("standard", "not.csv"),
    ("reversible", "reversible.csv"),
    ("realise 1 1", "two-moves.csv"),
    ("compile = 0 2 2 1", "least.csv"),
    ("layout = 0 2 2 1", "least.csv"),
    ("build =11 =110 = 0 3 4 3", "adder.csv"),
    ("drive =11 :1,1,0 = 0 3 4 3 1000", "adder.csv"),
    ("look =11 :1,1,0 = 0 3 4 3 1000", "adder.csv"),
    ("room =11 :1,1,0 = 1000", "adder.csv"),
    ("play =11 =110 = 0 3 4 3", "adder-session.txt"),
    ("run = 0 2 2 1", "least.csv"),
    ("view = 0 2 2 1 6539", "least.csv"),
    ("session = 0 2 2 1", "least-session.txt"),
    ("erase =1 40", "not-twice.txt"),
    ("farm", "two-boards.txt"),
    ("walk", "two-elements-walk.txt"),
]


# ---- what an answer must be


def form_fault(words, status, text):
    """What is wrong with an answer's form, or None."""
    name = words[0] if words else ""
    wanted = REFUSALS[status] + "\n" if status in REFUSALS else FORMS.get(name, {}).get(status)
    if wanted is None:
        return f"status {status} isn't one of `{name}`"
    return None if re.fullmatch(wanted, text) else f"no text of status {status}: {text[-80:]!r}"


def steps_of(text):
    return int(re.search(r"^steps (\d+)$", text, flags=re.M)[1])


def law_fault(ask, words, data, text):
    """What is wrong with an accepted input's answer beside others, or None. `ask` answers words and bytes."""
    name, again = words[0], lambda *it, on=text.encode(): ask(list(it), on)[1]
    if name in TEXT_COMMANDS and ask(["step", "0"], data) != (DONE, data.decode()):
        return "`step 0` doesn't write the text again"
    if name == "step" and again("back", str(steps_of(text) - steps_of(data.decode()))) != data.decode():
        return "as many steps back don't give the text"
    if name == "mirror" and again("mirror") != re.sub(r"^steps .*$", "steps 0", data.decode(), flags=re.M):
        return "two mirrors aren't the circuit"
    if name == "migrate" and again("migrate") != text:
        return "a migrated text isn't its own migrated text"
    if (
        name == "check"
        and again("reversible", on=ask(["bennett"], data)[1].encode()) != "deterministic yes\nreversible yes\n"
    ):
        return "Bennett's machine isn't reversible"
    if name == "farm" and again("farm").rpartition("%\n")[0] != data.decode().rpartition("%\n")[0]:
        return "the undoing schedule doesn't restore the boards"
    return None


def judged(ask, words, data):
    """The status, and what is wrong with the answer, or None."""
    try:
        status, text = ask(words, data)
    except (UnicodeDecodeError, RuntimeError) as fault:
        return None, str(fault)
    return status, form_fault(words, status, text) or (law_fault(ask, words, data, text) if status == DONE else None)


# ---- who answers


def by_way(way):
    """Answers by the shared library, or by one process of node."""

    def ask(words, data):
        status, text = way.answer(b"\0".join(word.encode() for word in words), data)
        return status, text.decode("ascii")

    return ask


def by_program(program):
    """Answers by the program, a process each."""

    def ask(words, data):
        quiet = {**os.environ, "HITHWELOR_QUIET": "1"}
        ran = subprocess.run([program, *words], input=data, stdout=subprocess.PIPE, stderr=subprocess.PIPE, env=quiet)
        if ran.stderr:
            raise RuntimeError(f"on standard error: {ran.stderr[:80]!r}")
        return ran.returncode, ran.stdout.decode("ascii")

    return ask


def batch(library, program, seed, number):
    """How often each command came to each status, and the faults of so many inputs: (words, input, what is wrong). An answer
    that takes too long ends the process."""
    resource.setrlimit(resource.RLIMIT_AS, (ROOM, ROOM))
    ask, draw, ends, found = (
        by_way(answers.Library(library)) if library else by_program(program),
        random.Random(seed),
        Counter(),
        [],
    )
    for _ in range(number):
        words, data = drawn_case(draw)
        signal.alarm(SECONDS)
        status, fault = judged(ask, words, data)
        signal.alarm(0)
        ends[words[0] if words else "", status] += 1
        if fault:
            found.append((words, data, fault))
    return ends, found


def main():
    parser = argparse.ArgumentParser(description=__doc__, formatter_class=argparse.RawDescriptionHelpFormatter)
    parser.add_argument("seed", type=int)
    parser.add_argument("first", type=int)
    parser.add_argument("stride", type=int)
    parser.add_argument("count", type=int)
    parser.add_argument("--library", metavar="PATH", help="the shared library, in place of a program")
    parser.add_argument("program", nargs="?", help="the program")
    given = parser.parse_args()
    sizes = [min(BATCH, given.count - at) for at in range(0, given.count, BATCH)]
    for place in range(given.first, len(sizes), given.stride):
        print(f"batch {place}", flush=True)
        ends, found = batch(given.library, given.program, f"{given.seed} {place}", sizes[place])
        reached = [[name, status, number] for (name, status), number in ends.items()]
        faults = [[words, repr(data[:400]), fault] for words, data, fault in found]
        print(json.dumps({"place": place, "number": sizes[place], "reached": reached, "faults": faults}), flush=True)


if __name__ == "__main__":
    main()
