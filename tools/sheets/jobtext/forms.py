"""What a text is made of, as its words say it: types, patterns, clauses and panels."""
from __future__ import annotations

from dataclasses import dataclass, field
from typing import Any, Optional

from .faults import Place


@dataclass
class Form:
    """A type where it is written: int, bytes, list, pair or tuple with its parts, or a name."""

    kind: str
    place: Place
    parts: list[Form] = field(default_factory=list)
    name: str = ''

    def key(self) -> tuple[Any, ...]:
        """Two forms with one key are one type of the sheet file.

        A name counts with its line: equal forms are shared if they stand on one line, or if they
        have no name in them.
        """
        line = self.place.line if self.kind == 'named' else 0
        return (self.kind, self.name, line, *(part.key() for part in self.parts))


@dataclass
class Constructor:
    """A constructor with the types of its fields; its number is its place in its own type."""

    name: str
    place: Place
    fields: list[Form]
    owner: Type
    number: int


@dataclass
class Type:
    """A type with a name: another name of `same`, or constructors.

    One with neither could not be read. Nothing is known of it then, and anything fits it.
    """

    name: str
    place: Place
    same: Optional[Form] = None
    opaque: bool = False
    listlike: bool = False
    constructors: list[Constructor] = field(default_factory=list)

    def flags(self) -> int:
        """The flag byte of the sheet file."""
        return self.opaque + 2 * self.listlike


@dataclass
class Pattern:
    """A pattern, or a value of a panel, which is one without names, `_` and tails.

    The kinds are the document's: discard, variable, assign, integer, bytes, list, tail (a list
    whose last part is its tail), constructor, pair, tuple. `word` is the name, the constructor
    or the literal as it is written; `text` is the literal's bytes.
    """

    kind: str
    place: Place
    parts: list[Pattern] = field(default_factory=list)
    word: str = ''
    text: bytes = b''


@dataclass
class Clause:
    """One clause of the sheet."""

    place: Place
    pattern: Pattern


@dataclass
class Panel:
    """A panel with a name."""

    name: str
    place: Place
    value: Pattern


@dataclass
class Text:
    """All that a text says."""

    types: dict[str, Type] = field(default_factory=dict)
    constructors: dict[str, Constructor] = field(default_factory=dict)
    subject: Optional[Form] = None
    clauses: list[Clause] = field(default_factory=list)
    panels: dict[str, Panel] = field(default_factory=dict)
    # The names of the clauses in the order of their first use, with the numbers that they get.
    names: dict[str, int] = field(default_factory=dict)

    # What lines that could not be read leave open. Faults that only follow from it are not told.
    statements: int = 0
    subject_unread: bool = False
    type_unread: bool = False
    constructor_unread: bool = False
    doubtful: set[str] = field(default_factory=set)  # constructors that are given twice
