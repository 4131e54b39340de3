"""Reads patterns and the values of panels, which have one form."""
from __future__ import annotations

from typing import Optional

from .faults import Fault, Place, Wrong
from .forms import Pattern
from .limits import NAME_NUMBER_MOST, PATTERN_DEPTH_MOST, RECORD_DEPTH_MOST
from .literals import hexadecimal, integer, quoted
from .naming import is_well_numbered
from .words import Line, Word

CLOSES = {'[': ']', '(': ')', '<': '>'}


class PatternReader:
    """Reads one pattern; without a list for its names, one value of a panel."""

    def __init__(self, line: Line, names: Optional[list[str]]):
        self.line = line
        self.names = names
        self.is_value = names is None

    def whole(self) -> Pattern:
        """The pattern that takes the rest of the line."""
        pattern = self.pattern(1)
        self.line.end()
        return pattern

    def pattern(self, depth: int) -> Pattern:
        """A pattern with the names that it is given by `as`, the outermost last."""
        pattern = self.plain(depth)
        while self.line.peek().text == 'as':
            depth += 1
            self.ask_depth(self.line.take().place, depth)
            word = self.line.take()
            pattern = Pattern('assign', word.place, [pattern], self.name(word))
        return pattern

    def ask_depth(self, place: Place, depth: int) -> None:
        """Asked before calls nest too deeply. When all is read it is asked once more, exactly."""
        if depth > depth_most(self.is_value):
            raise Wrong(Fault(place, too_deep(self.is_value)))

    def plain(self, depth: int) -> Pattern:
        word = self.line.peek()
        self.ask_depth(word.place, depth)
        if word.kind in ('number', 'quoted'):
            return self.literal(self.line.take())
        if word.kind == 'capital':
            self.line.take()
            parts = self.several(')', depth) if self.line.skip('(') else []
            return Pattern('constructor', word.place, parts, word.text)
        if word.kind == 'name' and word.text != 'as':
            return Pattern('variable', word.place, word=self.name(self.line.take()))
        if word.text in CLOSES:
            return self.bracketed(self.line.take(), depth)
        if word.text == '_' and not self.is_value:
            return Pattern('discard', self.line.take().place)
        raise self.line.unexpected('a value' if self.is_value else 'a pattern')

    def name(self, word: Word) -> str:
        """A name, in the order in which the text has them."""
        if self.names is None:
            message = f'{word.told()} stands in a panel, which has no names'
            raise Wrong(Fault(word.place, message))
        if word.kind != 'name' or word.text == 'as':
            found = 'and the line ends' if word.kind == 'end' else f'not {word.told()}'
            message = f'a name, which begins with a small letter, is expected, {found}'
            raise Wrong(Fault(word.place, message))
        if not is_well_numbered(word.text):
            known = f'n and a number are n0 to n{NAME_NUMBER_MOST}, no 0 before other digits'
            self.line.note(word.place, f'{word.told()} is no name: {known}')
        self.names.append(word.text)
        return word.text

    def literal(self, word: Word) -> Pattern:
        if word.kind == 'quoted':
            return Pattern('bytes', word.place, word=word.text, text=quoted(self.line, word))
        if word.text.startswith('0x'):
            return Pattern('bytes', word.place, word=word.text, text=hexadecimal(self.line, word))
        return Pattern('integer', word.place, word=word.text, text=integer(self.line, word))

    def bracketed(self, word: Word, depth: int) -> Pattern:
        if word.text == '[':
            return self.list_pattern(word.place, depth)
        parts = self.several(CLOSES[word.text], depth)
        if word.text == '<' and len(parts) != 2:
            self.line.note(word.place, f'a pair has 2 parts, this one {len(parts)}')
        if word.text == '(' and len(parts) < 2:
            self.line.note(word.place, f'a tuple has 2 parts or more, this one {len(parts)}')
        return Pattern('pair' if word.text == '<' else 'tuple', word.place, parts)

    def several(self, close: str, depth: int) -> list[Pattern]:
        """Patterns parted by commas, up to the closing mark."""
        parts: list[Pattern] = []
        if self.line.skip(close):
            return parts
        while True:
            parts.append(self.pattern(depth + 1))
            if self.line.skip(close):
                return parts
            if not self.line.skip(','):
                raise self.line.unexpected(f"',' or '{close}'")

    def list_pattern(self, place: Place, depth: int) -> Pattern:
        """A list, with a tail or without."""
        parts: list[Pattern] = []
        if self.line.skip(']'):
            return Pattern('list', place, parts)
        while True:
            if self.line.peek().text == '..':
                parts.append(self.tail())
                self.line.expect(']')
                return Pattern('tail', place, parts)
            parts.append(self.pattern(depth + 1))
            if self.line.skip(']'):
                return Pattern('list', place, parts)
            if not self.line.skip(','):
                raise self.line.unexpected("',' or ']'")

    def tail(self) -> Pattern:
        """`..` and a name or `_`; with neither it is as with `_`. Its place is that of `..`."""
        place = self.line.take().place
        if self.is_value:
            raise Wrong(Fault(place, 'a tail stands in a panel, which has none'))
        word = self.line.peek()
        if word.text == ']' or self.line.skip('_'):
            return Pattern('discard', place)
        if word.kind == 'name':
            return Pattern('variable', place, word=self.name(self.line.take()))
        raise self.line.unexpected('a name or _ as the tail')


def depth_most(is_value: bool) -> int:
    return RECORD_DEPTH_MOST if is_value else PATTERN_DEPTH_MOST


def too_deep(is_value: bool) -> str:
    """What is said where a pattern or a value nests too deeply."""
    things = 'values' if is_value else 'patterns'
    return f'{things} nest more than {depth_most(is_value)} deep here'
