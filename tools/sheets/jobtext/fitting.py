"""Holds patterns and values against the types of their places, and notes every misfit."""
from __future__ import annotations

from typing import Optional, Sequence

from .faults import Fault, counted, cut
from .forms import Form, Pattern, Text, Type
from .pattern_reading import depth_most, too_deep
from .resolving import Meant, Types, described, with_article

# The kind of type that each kind of pattern asks for; for a constructor its own type is asked for.
ASKS = {'integer': 'int', 'bytes': 'bytes', 'list': 'list', 'tail': 'list', 'pair': 'pair',
        'tuple': 'tuple'}


class Fitting:
    """One clause's pattern, or one panel's value, against the subject."""

    def __init__(self, text: Text, types: Types, faults: list[Fault], is_value: bool):
        self.text = text
        self.types = types
        self.faults = faults
        self.is_value = is_value
        self.bound: dict[str, Pattern] = {}
        self.told_depth = False

    def note(self, pattern: Pattern, message: str) -> None:
        self.faults.append(Fault(pattern.place, message))

    def fit(self, pattern: Pattern, form: Optional[Form], depth: int = 1) -> None:
        """Notes what does not fit, in the pattern and inside it. With no form nothing is known."""
        if depth > depth_most(self.is_value):
            if not self.told_depth:
                self.note(pattern, too_deep(self.is_value))
            self.told_depth = True
            return
        if pattern.kind == 'assign':
            self.fit(pattern.parts[0], form, depth + 1)
        if pattern.kind in ('variable', 'assign'):
            self.bind(pattern)
        if pattern.kind in ('discard', 'variable', 'assign'):
            return
        forms = self.part_forms(pattern, form) or [None] * len(pattern.parts)
        for part, part_form in zip(pattern.parts, forms):
            self.fit(part, part_form, depth + 1)

    def bind(self, pattern: Pattern) -> None:
        first = self.bound.setdefault(pattern.word, pattern)
        if first is not pattern:
            where = f'in column {first.place.column} too'
            self.note(pattern, f'{cut(pattern.word)} is bound twice in this clause, {where}')

    def part_forms(self, pattern: Pattern,
                   form: Optional[Form]) -> Optional[Sequence[Optional[Form]]]:
        """The forms of a pattern's parts; nothing where a misfit leaves them open."""
        meant = self.types.meant(form)
        if pattern.kind == 'constructor':
            return self.constructor_forms(pattern, meant)
        if pattern.kind == 'tail' and len(pattern.parts) == 1:
            self.note(pattern.parts[0], 'a tail needs an element before it: [first, ..rest]')
        if meant is None:
            return None
        if isinstance(meant, Type) or meant.kind != ASKS[pattern.kind]:
            self.note(pattern, f'{found(pattern)}; {described(meant)} is expected here')
            return None
        if pattern.kind == 'list':
            return meant.parts * len(pattern.parts)
        if pattern.kind == 'tail':
            return [*meant.parts * (len(pattern.parts) - 1), form]
        return self.counted_forms(pattern, meant)

    def counted_forms(self, pattern: Pattern, meant: Form) -> Optional[list[Form]]:
        """The forms of a pair's or tuple's parts, if it has as many as it should."""
        if len(pattern.parts) == len(meant.parts):
            return meant.parts
        # A pair with other than two parts was told when it was read, as a tuple of fewer was.
        if pattern.kind == 'tuple' and len(pattern.parts) >= 2:
            self.note(pattern, f'{found(pattern)}; {described(meant)} is expected here')
        return None

    def constructor_forms(self, pattern: Pattern, meant: Meant) -> Optional[list[Form]]:
        """The forms of a constructor's fields: its own, whatever is expected at its place."""
        if pattern.word in self.text.doubtful:
            return None
        constructor = self.text.constructors.get(pattern.word)
        name = cut(pattern.word)
        if constructor is None:
            if not self.text.constructor_unread:
                self.note(pattern, f'there is no constructor {name}')
            return None
        if meant is not None and meant is not constructor.owner:
            of_type = f'{name} is {with_article(constructor.owner)}'
            self.note(pattern, f'{of_type}; {described(meant)} is expected here')
        if len(pattern.parts) == len(constructor.fields):
            return constructor.fields
        takes = counted(len(constructor.fields), 'field')
        self.note(pattern, f'{name} has {takes}; {len(pattern.parts)} stand here')
        return None


def found(pattern: Pattern) -> str:
    """What stands at a place, in a message."""
    if pattern.kind == 'integer':
        return f'{cut(pattern.word)} is an integer'
    if pattern.kind == 'bytes':
        return f'{cut(pattern.word)} is a byte string'
    if pattern.kind == 'tuple':
        return f'this is a tuple of {len(pattern.parts)}'
    return 'this is a pair' if pattern.kind == 'pair' else 'this is a list'
