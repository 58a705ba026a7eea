"""The machines of examples/machines, and an interpreter of quintuples that knows nothing of the program.

It was written from the rule of a textbook alone: look up the state and the scanned symbol, write, move, go on. It runs
a table as it stands, from the first letter of the word or from the blank before it.
"""
import json
import os
import re

import places

FOLDER = os.path.join("examples", "machines")
BLANK = "_"
SHIFTS = {"-": -1, "0": 0, "+": 1}


def machines():
    """What machines.json tells, by the machines' names."""
    return {it["name"]: it for it in json.loads(places.text_of(FOLDER, "machines.json"))}


def table_of(name):
    return places.text_of(FOLDER, f"{name}.csv")


def rows_of(table):
    """The quintuples of a table, as tuples of five."""
    return [tuple(line.split(",")) for line in table.splitlines()]


class Interpreter:
    """A run of quintuples: state, tape and head, with the number of steps that were made."""

    def __init__(self, rows, word, head):
        self.rules = {}
        for number, (state, read, write, shift, after) in enumerate(rows, 1):
            assert (state, read) not in self.rules, f"two rules for {state} and {read}"
            self.rules[state, read] = (number, write, SHIFTS[shift], after)
        self.state, self.final = rows[0][0], rows[-1][4]
        self.cells = {place: letter for place, letter in enumerate(word, 1)}
        self.head, self.steps, self.number = head, 0, None

    def scanned(self):
        return self.cells.get(self.head, BLANK)

    def next_rule(self):
        """The number of the rule that comes next, or None where it has halted or is stuck."""
        found = None if self.state == self.final else self.rules.get((self.state, self.scanned()))
        return found and found[0]

    def outcome(self):
        if self.state == self.final:
            return "halted"
        return "running" if self.next_rule() else "stuck"

    def step(self):
        _, self.cells[self.head], shift, self.state = self.rules[self.state, self.scanned()]
        self.head += shift
        self.steps += 1

    def run(self, most):
        while self.steps < most and self.next_rule():
            self.step()
        return self.outcome()

    def marks(self):
        """How many cells aren't blank."""
        return sum(letter != BLANK for letter in self.cells.values())

    def output(self):
        """The longest word without blanks just right of the head."""
        letters, place = [], self.head + 1
        while (letter := self.cells.get(place, BLANK)) != BLANK:
            letters.append(letter)
            place += 1
        return "".join(letters)

    def letters_at_head(self):
        """How many letters without a blank end at the head."""
        place = self.head
        while self.cells.get(place, BLANK) != BLANK:
            place -= 1
        return self.head - place

    def shown(self):
        """The first cell that is shown, the head, and the letters from that cell to the last one: all that isn't
        blank, and the head's."""
        places_shown = [place for place, letter in self.cells.items() if letter != BLANK] + [self.head]
        first, last = min(places_shown), max(places_shown)
        return first, self.head, "".join(self.cells.get(place, BLANK) for place in range(first, last + 1))


LINE = re.compile(r"(\d+) (\S+) from (-?\d+) head (-?\d+) cells (\d+): (\S(?: \S)*)(?: rule (\d+))?")


def moments_of(lines):
    """What the lines of a trace tell, moment by moment: steps, state, what is shown, and the next rule's number."""
    for line in lines:
        found = LINE.fullmatch(line)
        assert found, line
        letters = found[6].replace(" ", "")
        assert len(letters) == int(found[5]), line
        yield int(found[1]), found[2], (int(found[3]), int(found[4]), letters), found[7] and int(found[7])


def tagged(rules, word):
    """What a tag system leaves that takes two letters off: letters are numbers from 1, each with its rule, in order."""
    word = list(word)
    while len(word) >= 2:
        word = word[2:] + rules[word[0] - 1]
    return word


def encoded(letters):
    return "".join("1" * letter + "0" for letter in letters)
