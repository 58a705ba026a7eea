"""The frames of a farm: what `farm` prints for its boards and the first text lines of their schedule."""
import re
from dataclasses import dataclass, replace

from workbench_text import Fault, Frame, frame_of, read_configuration

EVENT = re.compile(r"([+-]) ([1-9][0-9]*) ([1-9][0-9]*)")
PRINTED = "what farm prints"


@dataclass(frozen=True)
class Event:
    """A text line of a schedule: so many steps of a board, forward or back."""

    is_forward: bool
    board: int
    steps: int

    def __str__(self):
        return f"{'+' if self.is_forward else '-'} {self.board} {self.steps}"


@dataclass
class Played:
    """A frame of a farm: the text line of the schedule, by its number too, of which the last event has just been made.

    `made` are the steps made of that line; `undoing` is the text line that undoes them, or "" where none were made.
    """

    number: int
    event: Event
    made: int
    undoing: str
    frame: Frame


def read_event(line, where):
    """The event that a text line spells."""
    found = EVENT.fullmatch(line)
    if not found:
        raise Fault(f"{where}: {line!r} is no event")
    return Event(found[1] == "+", int(found[2]), int(found[3]))


def cut(data):
    """The boards of a farm's text, each with its text line %; how many they are; and the schedule's text lines."""
    ends = [found.end() for found in re.finditer(rb"^%\n", data, flags=re.M)]
    if not ends:
        return data, 0, []
    return data[: ends[-1]], len(ends), re.findall(rb"[^\n]*\n|[^\n]+", data[ends[-1] :])


class Farm:
    """A farm whose frames are had one after another. `first` are its boards before the schedule."""

    def __init__(self, program, data):
        self.program = program
        self.boards, self.count, self.lines = cut(data)
        self.texts, self.undoing = self.answer(b"")
        self.first = [self.board(number) for number in range(1, self.count + 1)]
        self.now, self.number, self.before = list(self.first), 0, self.undoing

    def answer(self, schedule):
        """The boards and the undoing schedule that `farm` prints for the first boards and a schedule."""
        *boards, undoing = ("\n" + self.program.run(["farm"], self.boards + schedule)).split("\n%\n")
        if len(boards) != max(1, self.count):
            raise Fault(f"{PRINTED}: {len(boards)} boards, and {self.count} were read")
        return [text.removeprefix("\n") + "\n" for text in boards], undoing.splitlines()

    def board(self, number):
        """The configuration of a board as it was printed last."""
        return read_configuration(self.texts[number - 1], f"{PRINTED}: board {number}")

    def event(self, number):
        """The event in the schedule's text line of this number. Where it is none, the program says what is wrong."""
        line = self.lines[number - 1].decode(errors="replace")
        if not line.endswith("\n") or not EVENT.fullmatch(line[:-1]):
            self.answer(b"".join(self.lines[:number]))
        return read_event(line.removesuffix("\n"), f"standard input: schedule line {number}")

    def play(self, number, event, steps):
        """The frame after the text lines before this one and so many events of its own."""
        if number != self.number:
            self.number, self.before = number, self.undoing
        last = f"{replace(event, steps=steps)}\n".encode()
        texts, self.undoing = self.answer(b"".join(self.lines[: number - 1]) + last)
        made, undoing = self.undone(event)
        changed = {place for place, (old, new) in enumerate(zip(self.texts, texts), 1) if old != new}
        if event.board > self.count or changed - {event.board}:
            raise Fault(f"{PRINTED}: another board than that of {event} has changed")
        self.texts = texts
        before = after = self.now[event.board - 1]
        if changed:
            after = self.now[event.board - 1] = self.board(event.board)
        return Played(number, event, made, undoing, frame_of(after, before))

    def undone(self, event):
        """How many steps of a text line were made, and the text line that undoes them, by what was printed."""
        if self.undoing == self.before:
            return 0, ""
        if self.undoing[1:] != self.before:
            raise Fault(f"{PRINTED}: the schedule that undoes it isn't the one before with one text line more")
        last = read_event(self.undoing[0], PRINTED)
        if (last.is_forward, last.board) != (not event.is_forward, event.board):
            raise Fault(f"{PRINTED}: {last} doesn't undo {event}")
        return last.steps, self.undoing[0]


def frames_by_lines(farm, greatest):
    """A frame for each text line of the schedule, at most so many; and whether that is all of them."""
    frames = []
    for number in range(1, min(greatest, len(farm.lines)) + 1):
        event = farm.event(number)
        frames.append(farm.play(number, event, event.steps))
    return frames, len(farm.lines) <= greatest


def frames_by_events(farm, greatest):
    """A frame for each event by which a step is made, and one for each text line that makes none; at most so many."""
    frames = []
    for number in range(1, len(farm.lines) + 1):
        event = farm.event(number)
        for steps in range(1, event.steps + 1):
            if len(frames) == greatest:
                return frames, False
            played = farm.play(number, event, steps)
            if played.made == steps or steps == 1:
                frames.append(played)
            if played.made < steps:
                break
    return frames, True
