"""A small part of YAML, as machines are written in it.

Mappings by indentation with spaces; keys and values that are plain words, words in single or double quotes, or flow
lists and mappings, which may go on over several lines; a key behind `?`; a text behind `|` or `>`; comments; `---`
before it. No block lists, no anchors, no plain words over several lines, no tags. All values are text.
page/src/yaml.js is the same reader.
"""
from __future__ import annotations

import re
from dataclasses import dataclass

from ..faults import Fault

# What stands behind a backslash in a word in double quotes.
ESCAPES = {
    "0": "\0",
    "t": "\t",
    "n": "\n",
    "r": "\r",
    "e": "\x1b",
    "_": "\xa0",
    " ": " ",
    '"': '"',
    "\\": "\\",
    "/": "/",
}
CODES = {"x": 2, "u": 4, "U": 8}
# How deep lists and mappings may stand within each other.
DEEPEST = 50


@dataclass
class Entry:
    """A key with its value, which may be a list of entries, and the number of its text line."""

    key: object
    value: object
    line: int


@dataclass
class Part:
    """What a text line has: how deep it stands, a key with a colon behind it, and a value; either may be lacking."""

    depth: int
    line: int
    key: object = None
    has_key: bool = False
    value: object = None
    has_value: bool = False


class YamlLine:
    """Reads the words, lists and mappings of one text line, and of those on which its lists and mappings go on."""

    def __init__(self, text, place):
        self.text = text
        self.place = place
        self.at = self.depth = 0

    def fault(self, what):
        return Fault(f"{self.place}: {what} at column {self.at + 1}")

    def skip(self):
        while self.at < len(self.text) and self.text[self.at] == " ":
            self.at += 1

    def is_at(self, characters):
        return self.at < len(self.text) and self.text[self.at] in characters

    def is_over(self):
        """Whether only blanks or a comment are left."""
        self.skip()
        return self.at >= len(self.text) or (self.is_at("#") and (self.at == 0 or self.text[self.at - 1] == " "))

    def is_mark(self, mark):
        """Whether this mark stands here as a word of its own."""
        return self.is_at(mark) and self.text[self.at + 1 : self.at + 2] in ("", " ")

    def is_colon(self):
        """Whether a colon that ends a key stands here."""
        return self.is_at(":") and (self.at + 1 >= len(self.text) or self.text[self.at + 1] in " ,}]")

    def node(self, in_flow=False):
        """A word, a list or a mapping. A mapping is a list of pairs; lists are tuples, so that they can be keys."""
        self.skip()
        if self.is_at("[{"):
            return self.flow()
        if self.is_at("'\""):
            return self.quoted()
        if self.is_at("&*!|>%@`") or self.is_mark("-") or self.is_mark("?"):
            raise self.fault(f"'{self.text[self.at]}' begins nothing that is read here")
        begin = self.at
        while self.at < len(self.text) and not self.is_colon():
            if in_flow and self.is_at(",[]{}"):
                break
            if self.is_at("#") and self.text[self.at - 1] == " ":
                break
            self.at += 1
        word = self.text[begin : self.at].rstrip(" ")
        return None if word in ("", "~", "null") else word

    def quoted(self):
        """A word in quotes; in single ones a quote is doubled, in double ones a backslash is before what is meant."""
        quote, word = self.text[self.at], ""
        self.at += 1
        while self.at < len(self.text):
            here, after = self.text[self.at], self.text[self.at + 1 : self.at + 2]
            if here == quote == "'" and after == "'":
                word += after
                self.at += 2
            elif here == "\\" and quote == '"':
                word += self.escaped(after)
            else:
                self.at += 1
                if here == quote:
                    return word
                word += here
        raise self.fault("a quote that isn't closed")

    def escaped(self, mark):
        """What a backslash and the character behind it mean."""
        if mark in CODES:
            code = self.text[self.at + 2 : self.at + 2 + CODES[mark]]
            if len(code) == CODES[mark] and re.fullmatch(r"[0-9A-Fa-f]+", code) and int(code, 16) < 0x110000:
                self.at += 2 + len(code)
                return chr(int(code, 16))
        elif mark in ESCAPES:
            self.at += 2
            return ESCAPES[mark]
        raise self.fault("a backslash with nothing that is read here behind it")

    def flow(self):
        """A list in brackets or a mapping in braces."""
        opening = self.text[self.at]
        closing, items = {"[": "]", "{": "}"}[opening], []
        self.depth += 1
        if self.depth > DEEPEST:
            raise self.fault("lists and mappings stand too deep within each other")
        self.at += 1
        self.skip()
        while not self.is_at(closing):
            if self.is_mark("?") and opening == "{":
                self.at += 1
            item = self.node(in_flow=True)
            if opening == "{":
                self.skip()
                value = None
                if self.is_colon():
                    self.at += 1
                    value = self.node(in_flow=True)
                item = (item, value)
            items.append(item)
            self.skip()
            if self.is_at(","):
                self.at += 1
                self.skip()
            elif not self.is_at(closing):
                raise self.fault(f"no '{closing}' or comma")
        self.at += 1
        self.depth -= 1
        return tuple(items) if opening == "[" else items


def is_open(text):
    """Whether a list or mapping that begins in this text isn't closed in it. A bracket counts where a word begins."""
    depth, quote, at, begins = 0, "", 0, True
    while at < len(text):
        here = text[at]
        if quote:
            if here == "\\" and quote == '"':
                at += 1
            elif here == quote:
                quote = ""
        elif here == "#" and (at == 0 or text[at - 1] == " "):
            break
        elif here in "'\"" and begins:
            quote = here
        elif here in "[{" and (begins or depth):
            depth += 1
        elif here in "]}" and depth:
            depth -= 1
        begins = not quote and (here in "[{,:" or here in " ?" and begins)
        at += 1
    return depth > 0


def without_comment(text):
    """A text line without the comment behind it, which in quotes is none."""
    quote, at = "", 0
    while at < len(text):
        here = text[at]
        if quote:
            if here == "\\" and quote == '"':
                at += 1
            elif here == quote:
                quote = ""
        elif here in "'\"" and (at == 0 or text[at - 1] in " [{,:"):
            quote = here
        elif here == "#" and (at == 0 or text[at - 1] == " "):
            return text[:at].rstrip(" ")
        at += 1
    return text


class YamlText:
    """Makes the entries of a text."""

    def __init__(self, text, where):
        self.where, self.at = where, 0
        self.lines = re.split(r"\r\n|\r|\n", text.removeprefix("\ufeff"))

    def place(self, line):
        return f"{self.where}: line {line}"

    def parts(self):
        """What each text line has that is neither empty nor a comment."""
        found = []
        while self.at < len(self.lines):
            line, number = self.lines[self.at], self.at + 1
            self.at += 1
            bare = line.lstrip(" ")
            if bare.startswith("\t"):
                raise Fault(f"{self.place(number)}: a tab stands before the first word")
            if not bare or bare.startswith("#"):
                continue
            if re.fullmatch(r"(---|\.\.\.)( .*)?", line) or line.startswith("%"):
                if found and not line.startswith("..."):
                    raise Fault(f"{self.place(number)}: a second text begins, and one is read")
                if line[3:].lstrip(" ")[:1] not in ("", "#") and not line.startswith("%"):
                    raise Fault(f"{self.place(number)}: words behind '{line[:3]}'")
                continue
            found.append(self.part(line, len(line) - len(bare), number))
        return found

    def part(self, line, depth, number):
        """What one text line has, with those on which it goes on."""
        reader, it = YamlLine(self.whole(line), self.place(number)), Part(depth, number)
        reader.skip()
        if reader.is_mark("?"):
            reader.at += 1
            it.key, it.has_key = reader.node(), True
            if not reader.is_over():
                raise reader.fault("words behind the key")
            self.value_of_key(it)
            return it
        node = reader.node()
        reader.skip()
        if reader.is_colon():
            reader.at += 1
            it.key, it.has_key = node, True
            self.value(reader, it)
        else:
            it.value, it.has_value = node, True
            if not reader.is_over():
                raise reader.fault("no colon behind the key")
        return it

    def value_of_key(self, it):
        """The value of a key behind `?`: behind a colon on the next line."""
        while self.at < len(self.lines) and self.lines[self.at].lstrip(" ")[:1] in ("", "#"):
            self.at += 1
        line = self.lines[self.at] if self.at < len(self.lines) else ""
        if line[: it.depth].strip(" ") or not re.match(r":( |$)", line[it.depth :]):
            return
        reader = YamlLine(self.whole_at(), self.place(self.at))
        reader.at = it.depth + 1
        self.value(reader, it)

    def whole_at(self):
        self.at += 1
        return self.whole(self.lines[self.at - 1])

    def whole(self, line):
        """A text line with those on which its lists and mappings go on."""
        while is_open(line) and self.at < len(self.lines):
            line = without_comment(line) + " " + self.lines[self.at].strip(" ")
            self.at += 1
        return line

    def value(self, reader, it):
        """The value behind a colon, which may be a text that stands deeper."""
        reader.skip()
        if reader.is_at("|>"):
            head = re.match(r"([|>])([1-9]?[-+]?|[-+][1-9])(?: +#.*| *)$", reader.text[reader.at :])
            if not head:
                raise reader.fault(f"'{reader.text[reader.at]}' begins nothing that is read here")
            it.value, it.has_value = self.scalar(head[1], head[2], it.depth), True
            return
        if not reader.is_over():
            it.value, it.has_value = reader.node(), True
            if not reader.is_over():
                raise reader.fault("words behind the value")

    def scalar(self, style, marks, depth):
        """The text behind `|`, or behind `>`, which joins lines."""
        lines, digits = [], re.sub(r"[-+]", "", marks)
        width = depth + int(digits) if digits else None
        while self.at < len(self.lines):
            line = self.lines[self.at]
            bare = line.lstrip(" ")
            if bare and width is None:
                width = max(len(line) - len(bare), depth + 1)
            if bare and len(line) - len(bare) < width:
                break
            lines.append(line[width:] if bare or width is not None and len(line) > width else "")
            self.at += 1
        kept = list(lines)
        while kept and not kept[-1]:
            kept.pop()
        text = "\n".join(kept) if style == "|" else folded(kept)
        if "-" in marks or not kept:
            return text
        return text + "\n" * (len(lines) - len(kept) + 1 if "+" in marks else 1)

    def entries(self):
        parts = self.parts()
        found, rest = self.nested(parts, 0, 1)
        if rest < len(parts):
            raise Fault(f"{self.place(parts[rest].line)}: less deep than the first line")
        return found

    def nested(self, parts, at, level):
        """The entries from this one on that stand as deep, with those deeper below them."""
        found, depth = [], parts[at].depth if at < len(parts) else 0
        if level > DEEPEST:
            raise Fault(f"{self.place(parts[at].line)}: lists and mappings stand too deep within each other")
        while at < len(parts) and parts[at].depth == depth:
            it = parts[at]
            at += 1
            if not it.has_key:
                raise Fault(f"{self.place(it.line)}: no colon behind the key")
            entry = Entry(it.key, it.value, it.line)
            if at < len(parts) and parts[at].depth > depth:
                if it.has_value:
                    raise Fault(f"{self.place(parts[at].line)}: deeper than a line that has its value already")
                if not parts[at].has_key:
                    entry.value = parts[at].value
                    at += 1
                else:
                    entry.value, at = self.nested(parts, at, level + 1)
            found.append(entry)
        if at < len(parts) and (parts[at].depth > depth or depth == 0):
            raise Fault(f"{self.place(parts[at].line)}: as deep as no line above it")
        return found, at


def folded(lines):
    """Lines joined by blanks: an empty line is an end of line, and one that stands deeper, or beside such a one, keeps
    its own."""
    text, empty = "", 0
    for number, line in enumerate(lines):
        if not line:
            empty += 1
            continue
        if number - empty > 0:
            before = lines[number - empty - 1]
            is_kept = line[0] in " \t" or before[0] in " \t"
            text += "\n" * (empty + 1) if is_kept else "\n" * empty if empty else " "
        else:
            text += "\n" * empty
        text, empty = text + line, 0
    return text


def read_yaml_text(text, where):
    """The entries of a text, as a tree."""
    return YamlText(text, where).entries()


def pairs_of(value):
    """A mapping's pairs, whether it stood in braces or over several text lines."""
    return [(it.key, it.value) if isinstance(it, Entry) else it for it in value]
