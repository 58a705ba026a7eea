"""The rules of `walk` in docs/use/formats.md, once more: a script on the circuit of a configuration text, for tests that compare
them with the program."""
import re

import circuit_rules

DONE, TEXT = 0, 3
GREATEST = 2**62
NUMBER, LABEL = r"(?:0|[1-9]\d*)", r"[0-9A-Za-z]{1,16}"
LEFT = {out: side for side, out in circuit_rules.RIGHT.items()}
# The forms of a script's lines; a number is at most 2^62, and that of `go` and `rev` at least 1.
FORMS = [
    rf"(step|back|go|rev) ({NUMBER})",
    rf"(break) ({LABEL}) (element) ({NUMBER})",
    rf"(break) ({LABEL}) (line) ({NUMBER})\.([nesw])",
    rf"(drop) ({LABEL})",
    "(view)",
]


def parsed(line):
    """The parts of a line of a script, or None."""
    for form in FORMS:
        found = re.fullmatch(form, line, flags=re.A)
        if found:
            words = found.groups()
            place = {"step": 1, "back": 1, "go": 1, "rev": 1, "break": 3}.get(words[0])
            numbers = [int(words[place])] if place else []
            if any(it > GREATEST for it in numbers) or words[0] in ("go", "rev") and numbers == [0]:
                return None
            return words
    return None


def script_fault(script):
    """The refusal of a script, or None: its first line with a fault."""
    labels, lines = set(), script.split("\n")
    last = lines.pop()
    for number, line in enumerate([*lines, *([last] if last else [])], 1):
        words = parsed(line) if number <= len(lines) else None
        if words is None:
            return f"text: script line {number} form\n"
        if words[0] == "break" and words[1] in labels:
            return f"text: script line {number} same break\n"
        if words[0] == "drop" and words[1] not in labels:
            return f"text: script line {number} no break\n"
        if words[0] == "break":
            labels.add(words[1])
        if words[0] == "drop":
            labels.remove(words[1])
    return None


class Walk:
    """A circuit on its way: its bars, whether the signal has left, its port, and the steps."""

    def __init__(self, text):
        self.circuit = circuit_rules.Circuit(text)
        head = text.split("\n", 6)
        self.before, self.bars = list(self.circuit.bars), list(self.circuit.bars)
        self.steps = int(head[4].split(" ")[1])
        self.has_left, self.port = head[5].startswith("left "), head[5].split(" ")[1]
        self.breaks = {}

    def step(self):
        """Makes an element step; False where there is none."""
        if self.has_left or self.steps == GREATEST:
            return False
        number, side = int(self.port[:-2]), self.port[-1]
        out = self.through(number, side, circuit_rules.OPPOSITE, circuit_rules.RIGHT)
        self.steps, target = self.steps + 1, self.circuit.wires.get(f"{number}.{out}")
        self.has_left, self.port = target is None, target or f"{number}.{out}"
        return True

    def back(self):
        """Makes an element step back; False where there is none."""
        source = self.port if self.has_left else self.circuit.sources.get(self.port)
        if self.steps == 0 or source is None:
            return False
        number, out = int(source[:-2]), source[-1]
        side = self.through(number, out, circuit_rules.OPPOSITE, LEFT)
        self.steps, self.has_left, self.port = self.steps - 1, False, f"{number}.{side}"
        return True

    def through(self, number, side, straight, turned):
        """The other side of an element, whose bar turns if the signal does."""
        if side in circuit_rules.ALONG[self.bars[number]]:
            return straight[side]
        self.bars[number] = "H" if self.bars[number] == "V" else "V"
        return turned[side]

    def hit(self):
        """The label of the first breakpoint that holds, or None."""
        holds = {"element": lambda it: it == self.port[:-2], "line": lambda it: it == self.port}
        return next((label for label, (kind, it) in self.breaks.items() if not self.has_left and holds[kind](it)), None)

    def place(self):
        return f"{'left' if self.has_left else 'at'} {self.port}"

    def watched(self, move, most):
        """Steps until a breakpoint holds after one; the label that is told."""
        label = None
        for _ in range(most):
            if label is not None or not move():
                break
            label = self.hit()
        return label

    def do(self, words):
        """The answer to a line."""
        name, *rest = words
        if name in ("step", "back", "go", "rev"):
            move, label = (self.step if name in ("step", "go") else self.back), None
            if name in ("go", "rev"):
                label = self.watched(move, int(rest[0]))
            else:
                for _ in range(int(rest[0])):
                    if not move():
                        break
            return f"{self.place()} steps {self.steps}{f' break {label}' if label else ''}\n"
        if name == "view":
            turned = [number for number, bar in enumerate(self.bars) if bar != self.before[number]]
            return f"{self.place()}\nsteps {self.steps}\n{' '.join(['turned', *map(str, turned)])}\n"
        if name == "drop":
            del self.breaks[rest[0]]
        else:
            self.breaks[rest[0]] = (rest[1], ".".join(rest[2:]))
        return f"{name} {rest[0]}\n"


def walk(data, spelled):
    """The status and the text of `walk`; `spelled` gives those of `step 0` to a configuration text."""
    lines = data.split("\n")
    if "%" not in lines[:-1]:
        return TEXT, "text: no script\n"
    at = lines.index("%")
    text, script = "".join(f"{line}\n" for line in lines[:at]), "\n".join(lines[at + 1 :])
    status, refused = spelled(text)
    if status != DONE:
        return status, refused
    fault = script_fault(script)
    if fault:
        return TEXT, fault
    played = Walk(text)
    return DONE, "".join(played.do(parsed(line)) for line in script.split("\n")[:-1])
