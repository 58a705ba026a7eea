"""Machines of JFLAP: a .jff file of versions 4 to 7, and one of version 8, in which all is a `structure`.

One tape, single states, and rules that name their symbols: what goes beyond that is refused by its name.
page/src/jflap.js is the same reader.
"""
from __future__ import annotations

import re
import xml.etree.ElementTree as ElementTree

from ..faults import Fault
from .machine_rules import NONE, SHIFTS, Machine, Rule

# How the blank is written, besides by nothing.
BLANKS = ["", "\u25a1"]
# The kinds of what a file of version 8 may have.
MACHINES = [
    "turing",
    "tm",
    "multitape_tm",
    "block_tm",
    "fsa",
    "fa",
    "pda",
    "mealy",
    "moore",
    "grammar",
    "regex",
    "lsystem",
]
PART = re.compile(r"(read|write|move)(\d*)")


def read_jflap(text, where):
    """The machine of a .jff file."""
    if not re.search(r"<structure\b", text):
        raise Fault(f"{where}: {NONE}")
    try:
        if "<!DOCTYPE" in text or re.search(r"\sxml(ns)?[:=]", text):
            raise ElementTree.ParseError
        root = ElementTree.fromstring(re.sub(r"\A\ufeff?\s*(<\?xml.*?\?>)?", "", text, count=1, flags=re.S))
    except ElementTree.ParseError:
        raise Fault(f"{where}: no XML that can be read") from None
    if root.tag != "structure":
        raise Fault(f"{where}: {NONE}")
    return (JflapEight if root.get("type") else JflapSeven)(root, where).machine()


def word_of(element, name):
    """The text of an element's part, without the blanks around it."""
    return (element.findtext(name) or "").strip(" \t\r\n")


class Jflap:
    """What the files of all versions have."""

    def __init__(self, root, where):
        self.root, self.where, self.names, self.taken = root, where, {}, set()

    def add_state(self, number, name):
        """Notes a state by its id; of two with one name the second has its id behind it."""
        told, count = name or f"q{number}", 0
        name = told
        while name in self.taken:
            count += 1
            name = f"{told}.{number}" if count == 1 else f"{told}.{number}.{count}"
        if number in self.names:
            raise Fault(f"{self.where}: two states have the id '{number}'")
        self.names[number] = name
        self.taken.add(name)

    def state(self, number, place):
        if number not in self.names:
            raise Fault(f"{place}: no state has the id '{number}'")
        return self.names[number]

    def rule(self, item, number, ends):
        """The rule of a transition, between these ids."""
        place = f"{self.where}: transition {number}"
        states = [self.state(it, place) for it in ends]
        parts, tapes = {}, set()
        for it in item:
            found = PART.fullmatch(it.tag)
            if found:
                tapes.add(it.get("tape") or found[2] or "1")
                parts.setdefault(found[1], (it.text or "").strip(" \t\r\n"))
        if len(tapes) > 1:
            raise Fault(f"{self.where}: the machine has {len(tapes)} tapes, and only one-tape machines are read")
        symbols = []
        for act in ("read", "write"):
            symbol = parts.get(act, "")
            if symbol == "~" or len(symbol) > 1:
                raise Fault(f"{place}: {act}s '{symbol}', and only single symbols are taken")
            symbols.append(None if symbol in BLANKS else symbol)
        move = parts.get("move", "")
        if move not in SHIFTS:
            raise Fault(f"{place}: moves '{move}', and R, L and S are the moves")
        return Rule(states[0], symbols[0], symbols[1], SHIFTS[move], states[1], place)

    def check_kind(self, kind, tapes):
        if kind != "turing":
            raise Fault(f"{self.where}: its type is {repr_of(kind)}, and a Turing machine's is 'turing'")
        if tapes != "1":
            raise Fault(f"{self.where}: the machine has {tapes} tapes, and only one-tape machines are read")


def repr_of(kind):
    return f"'{kind}'" if kind else "missing"


class JflapSeven(Jflap):
    """A file of versions 4 to 7: states, or blocks with a machine each, in an automaton."""

    def machine(self):
        self.check_kind(word_of(self.root, "type"), word_of(self.root, "tapes") or "1")
        automaton = self.root.find("automaton")
        automaton = self.root if automaton is None else automaton
        start, halting = None, []
        for item in [it for it in automaton if it.tag in ("state", "block")]:
            number, name = item.get("id") or "", item.get("name") or ""
            tag = word_of(item, "tag")
            if item.tag == "block" and any(it.tag == tag and len(it) for it in automaton):
                raise Fault(f"{self.where}: block '{name}' is a machine of its own, and only single states are read")
            self.add_state(number, name)
            if item.find("initial") is not None:
                start = self.names[number]
            if item.find("final") is not None:
                halting.append(self.names[number])
        if start is None:
            raise Fault(f"{self.where}: no state is the initial one")
        rules = [
            self.rule(item, number, [word_of(item, "from"), word_of(item, "to")])
            for number, item in enumerate(automaton.findall("transition"), 1)
        ]
        return Machine(rules, start, halting, True, "JFLAP")


class JflapEight(Jflap):
    """A file of version 8: structures by their types, and in transitions states with name and id."""

    def structures(self, *kinds):
        return [it for it in self.root.iter("structure") if it.get("type") in kinds]

    def ids(self, *kinds):
        """The ids of the states in structures of these kinds."""
        return [word_of(state, "id") for it in self.structures(*kinds) for state in it.findall("state")]

    def machine(self):
        kinds = [it.get("type") for it in self.root.iter("structure")]
        counts = [(it.text or "").strip(" \t\r\n") for it in self.root.iter() if it.tag in ("tapes", "tape_num")]
        tapes = next((it for it in counts if it), "1")
        machines = [it for it in kinds if it in MACHINES]
        kind = machines[0] if machines else ""
        if kind == "block_tm":
            raise Fault(f"{self.where}: it is a machine of blocks, and only single states are read")
        self.check_kind("turing" if kind in ("tm", "multitape_tm") else kind, tapes)
        for it in self.structures("state_set", "states"):
            for state in it.findall("state"):
                self.add_state(word_of(state, "id"), word_of(state, "name"))
        starts, halting = self.ids("start_state"), self.ids("final_states")
        if not starts:
            raise Fault(f"{self.where}: no state is the initial one")
        items = [
            it
            for one in self.structures("transition_set")
            for it in one
            if it.find("from") is not None and it.find("to") is not None
        ]
        rules = [
            self.rule(it, number, [self.end(it.find(end)) for end in ("from", "to")])
            for number, it in enumerate(items, 1)
        ]
        start, *ends = [self.state(it, self.where) for it in [starts[0], *halting]]
        return Machine(rules, start, ends, True, "JFLAP")

    def end(self, element):
        """The id of the state at which a transition begins or ends."""
        return word_of(element, "id") or (element.text or "").strip(" \t\r\n")
