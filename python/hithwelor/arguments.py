"""The arguments of the package's calls, checked before the program is asked: words, whole numbers, windows."""
from __future__ import annotations

import operator
from collections.abc import Iterable
from typing import SupportsIndex, Union

# The greatest number of steps of a machine, of element steps, and of element steps of a drive.
MOST_STEPS, MOST_ELEMENT_STEPS, MOST_DRIVE_STEPS = 1_048_576, 2**62, 2**61
# A window of the three tapes: l1, r1, n, r3.
Window = tuple[int, int, int, int]
WINDOW_NAMES = ("l1", "r1", "n", "r3")


class Names(tuple[str, ...]):
    """A word by the names of its symbols, which may have more than one byte: Names(["10", "11"])."""

    __slots__ = ()


Word = Union[str, Names]


def whole(value: SupportsIndex, name: str, most: int, least: int = 0) -> int:
    """A whole number in its limits; another type is a TypeError, another number a ValueError."""
    try:
        number = operator.index(value)
    except TypeError:
        raise TypeError(f"{name} is a whole number, and not {type(value).__name__}") from None
    if not least <= number <= most:
        raise ValueError(f"{name} is a whole number from {least} to {most:,}, and not {number:,}")
    return number


def letters(word: str, name: str = "the word") -> str:
    """A word of letters; another type is a TypeError."""
    if not isinstance(word, str):
        raise TypeError(f"{name} is a str of letters, and not {type(word).__name__}")
    return word


def window_of(window: Iterable[SupportsIndex]) -> Window:
    """A window (l1, r1, n, r3): four whole numbers from 0 to 1,048,576."""
    if not isinstance(window, Iterable):
        raise TypeError(f"a window is four numbers, l1, r1, n and r3, and not {type(window).__name__}")
    numbers = list(window)
    if len(numbers) != 4:
        raise ValueError(f"a window is four numbers, l1, r1, n and r3, and not {len(numbers)}")
    left, right, history, output = (whole(it, name, MOST_STEPS) for it, name in zip(numbers, WINDOW_NAMES))
    return left, right, history, output


def spelled(words: Word | Iterable[Word]) -> list[str]:
    """A word on tape 1, or one on each of the three tapes, as the program reads them."""
    chosen = [words] if isinstance(words, (str, Names)) else list(words)
    if len(chosen) not in (1, 3):
        raise ValueError(f"a machine of quadruples starts with one word, or three, and not {len(chosen)}")
    return [f":{','.join(word)}" if isinstance(word, Names) else f"={letters(word, 'a word')}" for word in chosen]


def text_of(text: str | bytes | bytearray | memoryview, what: str) -> str:
    """A text, or its bytes in UTF-8; a path is a TypeError that names `open`."""
    if isinstance(text, str):
        return text
    if isinstance(text, (bytes, bytearray, memoryview)):
        return bytes(text).decode()
    raise TypeError(f"{what} is a text, and not {type(text).__name__}; `open` reads a file")
