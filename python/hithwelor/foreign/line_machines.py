"""Machines that are written in lines: those of Morphett's Turing machine simulator, and the one line of bbchallenge.

page/src/lines.js is the same reader.
"""
from __future__ import annotations

import re

from ..faults import Fault
from .machine_rules import Machine, Rule

MOVES = {"r": "+", "l": "-", "*": "0"}
ANY = "*"
LINE = re.compile(r"(?:---|[0-9][LR][A-Z])+(?:_(?:---|[0-9][LR][A-Z])+)*")


# bbchallenge


def is_line(text):
    """Whether this is the one line of bbchallenge."""
    return bool(LINE.fullmatch(text.strip(" \t\r\n")))


def read_line(text, where):
    """The machine of one line: a group of rules a state, A first, and in it a rule a symbol, 0 first, the blank.

    A rule is what is written, the move, and the next state; `---`, which no run may reach, halts as 1RZ does."""
    groups = text.strip(" \t\r\n").split("_")
    widths = {len(it) for it in groups}
    if len(widths) > 1:
        raise Fault(f"{where}: the states have not equally many rules, and each has one for each symbol")
    names = [chr(65 + number) for number in range(len(groups))]
    if len(groups) > 26:
        raise Fault(f"{where}: {len(groups)} states, and a line has at most 26")
    rules, symbols = [], len(groups[0]) // 3
    if symbols > 10:
        raise Fault(f"{where}: {symbols} symbols, and a line has at most 10")
    follow = {group[at + 2] for group in groups for at in range(0, len(group), 3)} - {"-"}
    halting = sorted(follow - set(names)) or ["Z"]
    for state, group in zip(names, groups):
        for symbol in range(symbols):
            it = group[3 * symbol : 3 * symbol + 3]
            place = f"{where}: state {state} symbol {symbol}"
            it = it if it != "---" else f"1R{halting[0]}"
            if int(it[0]) >= symbols and symbols > 1:
                raise Fault(f"{place}: writes {it[0]}, and the line has rules for 0 to {symbols - 1}")
            rules.append(Rule(state, digit(symbol), digit(int(it[0])), {"R": "+", "L": "-"}[it[1]], it[2], place))
    used = {rule.following for rule in rules}
    return Machine(rules, "A", [it for it in halting if it in used], True, "bbchallenge")


def digit(symbol):
    return str(symbol) if symbol else None


# Morphett


def fields_of(line: str) -> list[str]:
    """The fields of a text line, without the comment behind ; and without the mark of a breakpoint."""
    found = re.split(r"[ \t]+", re.sub(r"[ \t]*;.*", "", line).strip(" \t"))
    found = [it for it in found if it]
    return found[:-1] if found and found[-1] == "!" and len(found) == 6 else found


def is_morphett(text: str) -> bool:
    """Whether the first text line that has fields has five, with a move of this simulator."""
    for line in lines_of(text):
        fields = fields_of(line)
        if fields:
            return len(fields) == 5 and fields[3].lower() in MOVES and len(fields[1]) == len(fields[2]) == 1
    return False


def lines_of(text: str) -> list[str]:
    return re.split(r"\r\n|\r|\n", text.removeprefix("\ufeff"))


def halts(state):
    """Whether a machine halts in this state: in each whose name begins so."""
    return state[:4].lower() == "halt"


def read_morphett(text, where):
    """The machine of a program of the simulator. A `*` in place of a state or symbol stands for all that the file names
    and that have no rule of their own; it starts in state 0, or, where no rule leaves that, in the first rule's."""
    lines = enumerate(lines_of(text), 1)
    given = [(number, fields) for number, line in lines for fields in [fields_of(line)] if fields]
    for number, fields in given:
        check_fields(fields, f"{where}: line {number}")
    states = list(dict.fromkeys(it for _, fields in given for it in (fields[0], fields[4]) if it != ANY))
    left = [it for it in states if not halts(it)]
    letters = list(dict.fromkeys(["_", *(it for _, fields in given for it in fields[1:3] if it != ANY)]))
    rules = {}
    # Those with a state and a symbol of their own first, then those of a state, of a symbol, and of neither.
    for any_state, any_symbol in ((False, False), (False, True), (True, False), (True, True)):
        earlier = set(rules)
        for number, fields in given:
            if (fields[0] == ANY, fields[1] == ANY) != (any_state, any_symbol) or halts(fields[0]):
                continue
            for state in left if any_state else [fields[0]]:
                for symbol in letters if any_symbol else [fields[1]]:
                    if (state, symbol) in earlier:
                        continue
                    if (state, symbol) in rules:
                        raise Fault(
                            f"{where}: line {number}: an earlier rule is for state '{state}' and '{symbol}' " "too (S1)"
                        )
                    rules[state, symbol] = rule_of(state, symbol, fields, f"{where}: line {number}")
    start = "0" if "0" in left or not given else given[0][1][0]
    if start == ANY or halts(start):
        raise Fault(f"{where}: line {given[0][0]}: no state is named in which it starts")
    used = {rule.following for rule in rules.values()}
    halting = [it for it in states if halts(it) and it in used]
    return Machine(list(rules.values()), start, halting, False, "Morphett's simulator")


def check_fields(fields, place):
    if len(fields) != 5:
        raise Fault(
            f"{place}: five fields are wanted, state, symbol, new symbol, direction and new state; "
            f"here are {len(fields)}"
        )
    for symbol in fields[1:3]:
        if len(symbol) != 1:
            raise Fault(f"{place}: '{symbol}' is no single symbol")
    if fields[3].lower() not in MOVES:
        raise Fault(f"{place}: the direction is '{fields[3]}', and l, r and * are the directions")


def rule_of(state, symbol, fields, place):
    write = symbol if fields[2] == ANY else fields[2]
    bare = lambda it: None if it == "_" else it
    following = state if fields[4] == ANY else fields[4]
    return Rule(state, bare(symbol), bare(write), MOVES[fields[3].lower()], following, place)
