"""Writes the sheet file and the panel files of a text."""
from __future__ import annotations

from typing import Any, Iterable, Optional, Union

from .faults import Fault, Place, Wrong, cut
from .forms import Constructor, Form, Panel, Pattern, Text, Type
from .limits import (CONSTRUCTORS_MOST, ENTRIES_MOST, PANEL_BYTES_MOST, PANELS_TOLD_MOST,
                     SHEET_BYTES_MOST, TYPES_MOST)
from .resolving import Types

TYPE_KINDS = {'int': 0, 'bytes': 1, 'list': 2, 'pair': 3, 'tuple': 4}
DATA_KIND = 5
PATTERN_KINDS = {'discard': 0, 'variable': 1, 'assign': 2, 'integer': 3, 'bytes': 4, 'list': 5,
                 'tail': 6, 'constructor': 7, 'pair': 8, 'tuple': 9}
VALUE_KINDS = {'integer': 0, 'bytes': 1, 'list': 2, 'pair': 3, 'tuple': 4, 'constructor': 5}


def u16(value: int) -> bytes:
    return value.to_bytes(2, 'little')


def u16s(values: Iterable[int]) -> bytes:
    return b''.join(map(u16, values))


class TypeSections:
    """The type, constructor and type list sections: what the subject reaches, by first use.

    A type, constructor or entry too many is a fault at its place. Since types are so few, the
    calls of this class do not nest deeply.
    """

    def __init__(self, text: Text):
        assert text.subject is not None
        self.types = Types(text)
        self.numbers: dict[Any, int] = {}  # by the name of a type, or the key of a form
        self.records: list[bytes] = []
        self.constructors: list[bytes] = []
        self.entries: list[int] = []
        self.subject = self.number(text.subject)

    def number(self, form: Form) -> int:
        """The number of a form's type; its record is written at its first use."""
        meant = self.types.meant(form)
        assert meant is not None
        key = meant.name if isinstance(meant, Type) else meant.key()
        if key in self.numbers:
            return self.numbers[key]
        number = self.numbers[key] = len(self.records)
        if number == TYPES_MOST:
            raise too_many(meant, 'types', TYPES_MOST)
        self.records.append(b'')
        if isinstance(meant, Type):
            run = self.add_constructors(meant)
            head = bytes((DATA_KIND, meant.flags()))
        else:
            run = self.add_entries(meant, meant.parts)
            head = bytes((TYPE_KINDS[meant.kind], 0))
        self.records[number] = head + u16s(run)
        return number

    def add_constructors(self, data: Type) -> tuple[int, int]:
        first, count = len(self.constructors), len(data.constructors)
        if first + count > CONSTRUCTORS_MOST:
            extra = data.constructors[CONSTRUCTORS_MOST - first]
            raise too_many(extra, 'constructors', CONSTRUCTORS_MOST)
        self.constructors += [b''] * count
        for at, constructor in enumerate(data.constructors, first):
            self.constructors[at] = u16s(self.add_entries(constructor, constructor.fields))
        return first, count

    def add_entries(self, owner: Union[Form, Constructor], forms: list[Form]) -> tuple[int, int]:
        """A run of type entries, behind those of the types that are met in it first."""
        numbers = [self.number(form) for form in forms]
        first = len(self.entries) if numbers else 0
        self.entries += numbers
        if len(self.entries) > ENTRIES_MOST:
            raise too_many(owner, 'type entries', ENTRIES_MOST)
        return first, len(numbers)


def too_many(at: Union[Form, Type, Constructor], things: str, most: int) -> Wrong:
    message = f'with this the sheet has over {most} {things}, the most there may be'
    return Wrong(Fault(at.place, message))


class Records:
    """The patterns of a sheet or the records of a panel, with children and pool."""

    def __init__(self, text: Text, kinds: dict[str, int]):
        self.text = text
        self.kinds = kinds
        self.records: list[bytes] = []
        self.children: list[int] = []
        self.pool = b''

    def add(self, pattern: Pattern) -> int:
        """The number of a pattern's record. Its children stand together in the list of these."""
        number = len(self.records)
        self.records.append(b'')
        if pattern.kind in ('integer', 'bytes'):
            first, count = self.in_pool(pattern.text), len(pattern.text)
        else:
            first, count = len(self.children) if pattern.parts else 0, len(pattern.parts)
            self.children += [0] * count
            for at, part in enumerate(pattern.parts, first):
                self.children[at] = self.add(part)
        head = bytes((self.kinds[pattern.kind], 0))
        self.records[number] = head + u16s((self.field_a(pattern), first, count))
        return number

    def field_a(self, pattern: Pattern) -> int:
        if pattern.kind in ('variable', 'assign'):
            return self.text.names[pattern.word]
        if pattern.kind == 'constructor':
            return self.text.constructors[pattern.word].number
        return 0

    def in_pool(self, literal: bytes) -> int:
        """Where the pool has these bytes, which are added if it has not. No bytes are at 0."""
        at = self.pool.find(literal)
        if at < 0:
            at = len(self.pool)
            self.pool += literal
        return at


def sheet_file(text: Text) -> bytes:
    """The sheet file of a text that was found right."""
    if not text.clauses:
        raise Wrong(Fault(None, 'there is no clause'))
    types = TypeSections(text)
    patterns = Records(text, PATTERN_KINDS)
    roots = [patterns.add(clause.pattern) for clause in text.clauses]
    sections = [b''.join(types.records), b''.join(types.constructors), u16s(types.entries),
                b''.join(patterns.records), u16s(patterns.children), u16s(roots), patterns.pool]
    return file_of(sections, u16(types.subject), SHEET_BYTES_MOST, 'the sheet file', None)


def panel_file(text: Text, name: str) -> bytes:
    """The panel file of a text's panel."""
    if name not in text.panels:
        there = [cut(panel) for panel in text.panels]
        if len(there) > PANELS_TOLD_MOST:
            there[PANELS_TOLD_MOST:] = ['..']
        names = ', '.join(there) or 'none'
        raise Wrong(Fault(None, f'there is no panel {cut(name)}; there are: {names}'))
    return value_file(text, text.panels[name])


def value_file(text: Text, panel: Panel) -> bytes:
    records = Records(text, VALUE_KINDS)
    records.add(panel.value)
    sections = [b''.join(records.records), u16s(records.children), records.pool]
    return file_of(sections, b'', PANEL_BYTES_MOST, f'panel {cut(panel.name)}', panel.place)


def file_of(sections: list[bytes], trailer: bytes, most: int, what: str,
            place: Optional[Place]) -> bytes:
    """Sections back to back, then where each starts, the trailer's own words, and the length."""
    length = sum(map(len, sections)) + 2 * len(sections) + len(trailer) + 2
    if length > most:
        raise Wrong(Fault(place, f'{what} would have {length} bytes; {most} are the most'))
    starts = [sum(map(len, sections[:i])) for i in range(len(sections))]
    return b''.join(sections) + u16s(starts) + trailer + u16(length)
