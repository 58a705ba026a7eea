"""Machines of four other programs: turingmachine.io, JFLAP, Morphett's simulator and bbchallenge.

All have one tape; the first three start on the first letter of the word, as a table of quintuples does that `standard` takes. A
reader gives the machine's rules as they stand in the file; `table_of` makes of them such a table. page/src/formats.js is the
same for the page, and tests/test_import.py compares both on every file of tests/machines.
"""
from __future__ import annotations

import re
from collections.abc import Iterable

from ..faults import Fault
from .jflap_files import read_jflap
from .line_machines import is_line, is_morphett, read_line, read_morphett
from .machine_rules import NONE, SHIFTS, Machine, Rule, shown
from .yaml_text import Entry, pairs_of, read_yaml_text

LONGEST_NAME = 32
SOURCE = "source code"


# Which of the four


def kind_of(text: str) -> str | None:
    """Of which program a text is: jflap, line, morphett or yaml; None where it is of none."""
    bare = text.removeprefix("\ufeff").lstrip(" \t\r\n")
    if bare.startswith("<"):
        return "jflap"
    if bare.startswith(("{", "[")):
        return None
    if is_line(bare):
        return "line"
    if is_morphett(text):
        return "morphett"
    if re.search(r"^[ ]*['\"]?(table|blank|start state|source code|\? *table)['\"]? *:", text, flags=re.M):
        return "yaml"
    return None


def is_table(text):
    """Whether this looks like a table of quintuples, which needs no reader."""
    lines = [line for line in re.split(r"\r\n|\r|\n", text) if line.strip(" \t")]
    return bool(lines) and all(len(line.split(",")) == 5 for line in lines)


def read_machine(text: str, where: str, kind: str | None = None) -> Machine:
    """The machine of a text of one of the four programs."""
    kind = kind or kind_of(text)
    if kind is None:
        more = "; it looks like a table of rules, which the program reads as it is" if is_table(text) else ""
        raise Fault(f"{where}: {NONE}{more}")
    return {"jflap": read_jflap, "line": read_line, "morphett": read_morphett, "yaml": read_yaml}[kind](text, where)


# turingmachine.io


class TuringYaml:
    """Makes a machine of the entries of a turingmachine.io text."""

    def __init__(self, entries, where):
        self.where = where
        self.top = {}
        for entry in entries:
            self.check_word(entry.key, "a key", entry.line)
            if entry.key in self.top:
                raise Fault(f"{where}: line {entry.line}: {shown(entry.key)} stands twice")
            self.top[entry.key] = entry
        blank = self.wanted("blank")
        self.blank = None
        self.blank = self.symbol(blank.value, f"{where}: line {blank.line}")
        self.start = self.wanted("start state").value
        synonyms = self.top["synonyms"].value if "synonyms" in self.top else None
        pairs = pairs_of(synonyms) if isinstance(synonyms, list) else []
        self.synonyms = {key: value for key, value in pairs if isinstance(key, str)}
        self.table = self.wanted("table")

    def check_word(self, word, what, line):
        if not isinstance(word, str):
            raise Fault(f"{self.where}: line {line}: {what} is a word, and this is {shown(word)}")

    def wanted(self, key):
        if key not in self.top:
            raise Fault(f"{self.where}: no line has the key '{key}'")
        return self.top[key]

    def symbol(self, symbol, place):
        """A symbol, or None for the blank."""
        if not isinstance(symbol, str) or len(symbol) != 1:
            raise Fault(f"{place}: {shown(symbol)} is no single symbol")
        return None if symbol == self.blank else symbol

    def instruction(self, state, value, place):
        """What is written (or False where nothing is), the shift, and the next state."""
        if isinstance(value, str) and value in self.synonyms and value not in ("R", "L"):
            value = self.synonyms[value]
        if value in ("R", "L"):
            return False, SHIFTS[value], state
        if not isinstance(value, list):
            raise Fault(f"{place}: {shown(value)} is no instruction")
        given = pairs_of(value)
        strange = [key for key, _ in given if key not in ("R", "L", "write")]
        pairs = {key: it for key, it in given if key not in strange}
        moves = [key for key in pairs if key != "write"]
        if strange:
            raise Fault(f"{place}: an instruction has no {shown(strange[0])}")
        if len(moves) != 1:
            raise Fault(f"{place}: an instruction has one of R and L")
        following = pairs[moves[0]] or state
        if not isinstance(following, str):
            raise Fault(f"{place}: a state is a word, and this is {shown(following)}")
        write = self.symbol(pairs["write"], place) if "write" in pairs else False
        return write, SHIFTS[moves[0]], following

    def machine(self):
        if not isinstance(self.table.value, list):
            raise Fault(f"{self.where}: line {self.table.line}: the table has no states")
        rules, states, halting = [], [], []
        for entry in [it if isinstance(it, Entry) else Entry(*it, self.table.line) for it in self.table.value]:
            self.check_word(entry.key, "a state", entry.line)
            if entry.key in states:
                raise Fault(f"{self.where}: line {entry.line}: state {shown(entry.key)} stands twice")
            states.append(entry.key)
            if not entry.value:
                halting.append(entry.key)
                continue
            if not isinstance(entry.value, list):
                raise Fault(
                    f"{self.where}: line {entry.line}: state {shown(entry.key)} has no rules but {shown(entry.value)}"
                )
            rules += self.rules_of(entry)
        for rule in rules:
            if rule.following not in states:
                raise Fault(f"{rule.place}: no state of the table is called {shown(rule.following)}")
        if self.start not in states:
            raise Fault(f"{self.where}: no state of the table is called {shown(self.start)}, the start state")
        return Machine(rules, self.start, halting, False, "turingmachine.io")

    def rules_of(self, entry):
        """The rules of a state; a key may be a list of symbols."""
        rules = []
        for item in entry.value:
            key, value = (item.key, item.value) if isinstance(item, Entry) else item
            line = item.line if isinstance(item, Entry) else entry.line
            place = f"{self.where}: line {line}"
            write, shift, following = self.instruction(entry.key, value, place)
            for symbol in key if isinstance(key, tuple) else (key,):
                read = self.symbol(symbol, place)
                rules.append(Rule(entry.key, read, read if write is False else write, shift, following, place))
        return rules


def read_yaml(text, where):
    """The machine of a turingmachine.io text: of the machine's own, or of the document that is downloaded, which has it as a
    text of its own."""
    entries = read_yaml_text(text, where)
    source = [it.value for it in entries if it.key == SOURCE]
    if source and isinstance(source[0], str):
        where = f"{where}: {SOURCE}"
        entries = read_yaml_text(source[0], where)
    return TuringYaml(entries, where).machine()


# The table


def halting_state(machine, wanted, where):
    """The names of the states that are the table's halting one."""
    halting = machine.halting
    if wanted is not None:
        known = {rule.state for rule in machine.rules} | {rule.following for rule in machine.rules} | set(halting)
        if wanted not in known:
            raise Fault(f"{where}: no state is called {shown(wanted)}")
        halting = [wanted]
    if not halting:
        left = {rule.state for rule in machine.rules}
        ends = list(dict.fromkeys(rule.following for rule in machine.rules if rule.following not in left))
        told = f"--halt names one: {', '.join(ends)}" if ends else "and each state has rules: add one in which it halts"
        raise Fault(f"{where}: no state halts by its name; {told}")
    for rule in machine.rules:
        if rule.state in halting:
            raise Fault(
                f"{rule.place}: leaves {shown(rule.state)}, in which the machine halts; "
                "standard form has no such rule (S5)"
            )
    if len(halting) > 1 and not machine.halts_alike:
        raise Fault(
            f"{where}: {len(halting)} states halt, {', '.join(halting)}, and a table has one; --halt names it, "
            "and in the others the machine is stuck"
        )
    return halting


def check_domains(rules):
    """No two rules share state and symbol: demand S1."""
    seen = {}
    for rule in rules:
        earlier = seen.setdefault((rule.state, rule.read), rule)
        if earlier is not rule:
            symbol = "the blank" if rule.read is None else shown(rule.read)
            raise Fault(f"{rule.place}: an earlier rule is for state {shown(rule.state)} and {symbol} too (S1)")


def check_letters(rules):
    """Every letter is one that tables allow."""
    for rule in rules:
        for symbol in (rule.read, rule.write):
            if symbol is None:
                continue
            if symbol == "_":
                raise Fault(f"{rule.place}: the letter '_' is the blank of a table")
            if not 33 <= ord(symbol) <= 126 or symbol in '/,"':
                raise Fault(
                    f"{rule.place}: {shown(symbol)} is no letter of a table: "
                    'one byte from 33 to 126 other than / , and "'
                )


def ordered(rules, start, halting, where):
    """The rules with one of the start state first, and one that halts last."""
    first = [rule for rule in rules if rule.state == start]
    if not first:
        raise Fault(f"{where}: no rule leaves the start state {shown(start)}")
    others = [rule for rule in rules if rule.state != start]
    ending = [rule for rule in first + others if rule.following in halting]
    if not ending:
        raise Fault(f"{where}: no rule leads to {shown(halting[0])}, in which the machine halts")
    last = ending[-1]
    if len(rules) > 1 and len(first) == 1 and last is first[0]:
        raise Fault(
            f"{last.place}: it is the only rule of the start state and the only one that halts; "
            "take out the others, which are never used"
        )
    return [rule for rule in first + others if rule is not last] + [last]


def new_names(states: Iterable[str]) -> dict[str, str]:
    """A name that tables allow for each state, and no two alike."""
    names, taken = {}, set()
    for state in states:
        base = re.sub(r"[^A-Za-z0-9'.-]", "-", str(state))[:LONGEST_NAME] or "q"
        name, number = base, 1
        while name in taken:
            number += 1
            mark = f".{number}"
            name = base[: LONGEST_NAME - len(mark)] + mark
        names[state] = name
        taken.add(name)
    return names


def table_of(machine: Machine, where: str, wanted: str | None = None) -> tuple[str, dict[str, str]]:
    """The table's text, and the new names of states by their old ones."""
    halting = halting_state(machine, wanted, where)
    check_domains(machine.rules)
    check_letters(machine.rules)
    rules = ordered(machine.rules, machine.start, halting, where)
    one = {state: halting[0] for state in halting}
    states = []
    for rule in rules:
        states += [rule.state, one.get(rule.following, rule.following)]
    names = new_names(dict.fromkeys(states))
    lines = []
    for rule in rules:
        following = names[one.get(rule.following, rule.following)]
        lines.append(f"{names[rule.state]},{rule.read or '_'},{rule.write or '_'},{rule.shift},{following}\n")
    return "".join(lines), {**names, **{state: names[one[state]] for state in halting}}
