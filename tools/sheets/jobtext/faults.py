"""What is wrong with a text: messages with their places, of which several are told at once."""
from __future__ import annotations

from typing import NamedTuple, Optional

from .limits import FAULTS_TOLD_MOST, WORD_TOLD_MOST


class Place(NamedTuple):
    """A line and a column of a text, both counted from 1."""

    line: int
    column: int


class Fault(NamedTuple):
    """One thing that is wrong. What is wrong with a text as a whole has no place."""

    place: Optional[Place]
    message: str

    def __str__(self) -> str:
        if self.place is None:
            return self.message
        return f'line {self.place.line}, column {self.place.column}: {self.message}'


class Wrong(Exception):
    """A text is refused, for these faults: each once, in the order of their places."""

    def __init__(self, *faults: Fault):
        super().__init__(*faults)
        self.faults = sorted(set(faults), key=lambda fault: (fault.place is None, fault))

    def told(self, file: str) -> list[str]:
        """The lines to be shown, each with the file's name."""
        lines = [f'{file}: {fault}' for fault in self.faults[:FAULTS_TOLD_MOST]]
        left = len(self.faults) - len(lines)
        return lines + ([f'{file}: and {left} more faults'] if left else [])


def seen(word: str) -> str:
    """A word or a file's name in a message, which stays one line whatever it is."""
    return word if word.isprintable() else ascii(word)


def cut(word: str) -> str:
    """A word as a message shows it: its first letters, if it is long."""
    word = seen(word)
    return word if len(word) <= WORD_TOLD_MOST else word[:WORD_TOLD_MOST] + '..'


def counted(number: int, thing: str) -> str:
    """`1 part`, `2 parts`."""
    return f'{number} {thing}' if number == 1 else f'{number} {thing}s'
