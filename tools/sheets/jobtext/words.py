"""The words of one line, each with its column."""
from __future__ import annotations

import re
from typing import NamedTuple

from .faults import Fault, Place, Wrong, cut

# Between words stand blanks, and a comment up to the end of the line. A quote that is not closed
# takes the rest of the line, so that a `#` behind it is not taken for a comment.
WORD = re.compile(r'''
      (?P<between>  \ + | \#.* )
    | (?P<quoted>   "(?:[^"\\]|\\.)*" )
    | (?P<unclosed> ".* )
    | (?P<number>   -?[0-9][A-Za-z0-9_]* )
    | (?P<name>     [a-z][A-Za-z0-9_]* )
    | (?P<capital>  [A-Z][A-Za-z0-9_]* )
    | (?P<mark>     \.\. | _(?![A-Za-z0-9_]) | [\[\](),<>|=] )
    | (?P<other>    _[A-Za-z0-9_]* | . )
''', re.VERBOSE)


class Word(NamedTuple):
    """A word, of which kind it is (a group of WORD, or `end`), and where."""

    kind: str
    text: str
    place: Place

    def told(self) -> str:
        """The word in a message; marks are quoted, since a lone comma does not show."""
        return f"'{self.text}'" if self.kind == 'mark' else cut(self.text)


def words_of(line: str, number: int) -> list[Word]:
    """The words of a line; the last is its end, which has no letters."""
    found = []
    end = 0
    for match in WORD.finditer(line):
        kind = match.lastgroup or 'other'
        if kind != 'between':
            found.append(Word(kind, match.group(), Place(number, match.start() + 1)))
            end = match.end()
    return found + [Word('end', '', Place(number, end + 1))]


class Line:
    """The words of one line, read from the front.

    What stops the reading of the line is raised; what does not is noted, so that one line can
    have several faults.
    """

    def __init__(self, words: list[Word], faults: list[Fault]):
        self.words = words
        self.faults = faults
        self.at = 0

    def note(self, place: Place, message: str) -> None:
        self.faults.append(Fault(place, message))

    def peek(self) -> Word:
        """The next word. One that cannot be understood is found out here, wherever it stands."""
        word = self.words[self.at]
        if word.kind == 'unclosed':
            raise Wrong(Fault(word.place, 'a text in quotes is not closed on its line'))
        if word.kind == 'other':
            raise Wrong(Fault(word.place, f"'{cut(word.text)}' is not understood"))
        return word

    def take(self) -> Word:
        word = self.peek()
        if word.kind != 'end':
            self.at += 1
        return word

    def left(self) -> int:
        """How many words are left, the end not counted."""
        return len(self.words) - 1 - self.at

    def skip(self, text: str) -> bool:
        """Takes the next word if it is this mark or name."""
        if self.peek().text == text:
            self.at += 1
            return True
        return False

    def expect(self, text: str) -> None:
        if not self.skip(text):
            raise self.unexpected(f"'{text}'")

    def unexpected(self, wanted: str) -> Wrong:
        """That something else stands where `wanted` should."""
        word = self.peek()
        found = 'and the line ends' if word.kind == 'end' else f'not {word.told()}'
        return Wrong(Fault(word.place, f'{wanted} is expected, {found}'))

    def end(self) -> None:
        word = self.peek()
        if word.kind != 'end':
            message = f'{word.told()} is too much: the line is complete before it'
            raise Wrong(Fault(word.place, message))
