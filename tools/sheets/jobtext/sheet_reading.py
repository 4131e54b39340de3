"""Reads a sheet file's records, refused by document 01's numbers 2 to 11 where they break rules."""
from __future__ import annotations

import re
import struct
from collections import Counter
from dataclasses import dataclass
from typing import Iterator, Optional, Sized

from .limits import (CLAUSES_MOST, CONSTRUCTORS_MOST, ENTRIES_MOST, LITERAL_BYTES_MOST,
                     PATTERN_DEPTH_MOST, PATTERNS_MOST, SHEET_BYTES_MOST, TYPES_MOST)

TRAILER = 18
# How a record is packed: types, constructors, type list, patterns, children, clauses, pool.
RECORDS = ('<BBHH', '<HH', '<H', '<BBHHH', '<H', '<H', '<B')
MOST = (TYPES_MOST, CONSTRUCTORS_MOST, ENTRIES_MOST, PATTERNS_MOST, PATTERNS_MOST, CLAUSES_MOST)

INT, BYTES, LIST, PAIR, TUPLE, DATA = range(6)
(P_DISCARD, P_VARIABLE, P_ASSIGN, P_INTEGER, P_BYTES, P_LIST, P_TAIL, P_CONSTRUCTOR, P_PAIR,
 P_TUPLE) = range(10)
CANONICAL = re.compile(rb'0|-?[1-9][0-9]*')

SAID = {
    2: 'it has under 18 or over 8192 bytes, or its last two bytes say another length',
    3: 'its sections do not rise, pass the trailer, or cut a record',
    4: 'it has no clause',
    5: 'it has too many types, constructors, type entries, patterns, children or clauses',
    6: 'a type, constructor, type entry or the subject breaks the format',
    7: 'this type is opaque, not list-decorated, with one constructor of one field',
    8: 'a pattern, child or root breaks the format, or patterns nest too deeply',
    9: 'this pattern is an integer that is not canonical, or a text over 64 bytes',
    10: 'a pattern of this clause does not fit its type',
    11: 'this clause binds a name twice',
}


class Refused(Exception):
    """A file is no sheet file: the number and the place that the programs say too."""

    def __init__(self, number: int, place: int = 0):
        super().__init__(f'refused {number} {place}: {SAID[number]}')
        self.number, self.place = number, place


@dataclass(frozen=True)
class TypeRecord:
    kind: int
    flag: int
    first: int
    count: int


@dataclass(frozen=True)
class Run:
    first: int
    count: int


@dataclass(frozen=True)
class PatternRecord:
    kind: int
    zero: int
    a: int
    first: int
    count: int


@dataclass
class Sheet:
    """The records of a sheet file."""

    types: list[TypeRecord]
    constructors: list[Run]
    entries: list[int]
    patterns: list[PatternRecord]
    children: list[int]
    roots: list[int]
    pool: bytes
    subject: int

    def parts(self, pattern: int) -> list[int]:
        """The numbers of a pattern's children."""
        record = self.patterns[pattern]
        if record.kind in (P_INTEGER, P_BYTES):
            return []
        return self.children[record.first:record.first + record.count]

    def literal(self, pattern: int) -> bytes:
        record = self.patterns[pattern]
        return self.pool[record.first:record.first + record.count]

    def type_parts(self, number: int) -> list[int]:
        """The entries of a list, pair or tuple type."""
        record = self.types[number]
        return self.entries[record.first:record.first + record.count]

    def fields(self, number: int) -> list[list[int]]:
        """The fields of each constructor of a Data type."""
        record = self.types[number]
        runs = self.constructors[record.first:record.first + record.count]
        return [self.entries[run.first:run.first + run.count] for run in runs]


def read_sheet(data: bytes) -> Sheet:
    """The sheet of a file that passes 2 to 11, tried in their order."""
    sheet = open_sheet(data)
    if not sheet.roots:
        raise Refused(4)
    sections: tuple[Sized, ...] = (sheet.types, sheet.constructors, sheet.entries, sheet.patterns,
                                   sheet.children, sheet.roots)
    if any(len(section) > most for section, most in zip(sections, MOST)):
        raise Refused(5)
    if not types_keep_rules(sheet):
        raise Refused(6)
    for number, record in enumerate(sheet.types):
        opaque_only = record.kind == DATA and record.flag == 1
        if opaque_only and [len(fields) for fields in sheet.fields(number)] == [1]:
            raise Refused(7, number)
    if not shape_fits(sheet):
        raise Refused(8)
    for number in range(len(sheet.patterns)):
        if bad_literal(sheet, number):
            raise Refused(9, number)
    for clause, root in enumerate(sheet.roots):
        if not fits(sheet, root, sheet.subject):
            raise Refused(10, clause)
    for clause, root in enumerate(sheet.roots):
        names = names_in(sheet, root)
        if len(set(names)) < len(names):
            raise Refused(11, clause)
    return sheet


def open_sheet(data: bytes) -> Sheet:
    """Refusals 2 and 3."""
    said = int.from_bytes(data[-2:], 'little')
    if not TRAILER <= len(data) <= SHEET_BYTES_MOST or said != len(data):
        raise Refused(2)
    end = len(data) - TRAILER
    *starts, subject, _ = struct.unpack('<9H', data[end:])
    bounds = list(zip(starts, [*starts[1:], end]))
    sizes = [struct.calcsize(form) for form in RECORDS]
    whole = all(a <= b and (b - a) % size == 0 for (a, b), size in zip(bounds, sizes))
    if starts[0] != 0 or not whole:
        raise Refused(3)
    parts = [data[a:b] for a, b in bounds]
    records = [list(struct.iter_unpack(form, part)) for form, part in zip(RECORDS, parts)]
    entries, children, roots = ([number for (number,) in records[i]] for i in (2, 4, 5))
    return Sheet([TypeRecord(*record) for record in records[0]],
                 [Run(*record) for record in records[1]], entries,
                 [PatternRecord(*record) for record in records[3]], children, roots, parts[6],
                 subject)


def run_in(first: int, count: int, length: int) -> bool:
    """A run inside a section; where its count is 0, its first is 0 too."""
    return first == 0 if count == 0 else first + count <= length


def types_keep_rules(sheet: Sheet) -> bool:
    runs = all(run_in(run.first, run.count, len(sheet.entries)) for run in sheet.constructors)
    known = all(number < len(sheet.types) for number in [*sheet.entries, sheet.subject])
    return runs and known and all(type_keeps_rules(sheet, record) for record in sheet.types)


def type_keeps_rules(sheet: Sheet, record: TypeRecord) -> bool:
    kind, count = record.kind, record.count
    if kind == DATA:
        flagged = count >= 1 and record.flag <= 3
        return flagged and run_in(record.first, count, len(sheet.constructors))
    least = {INT: 0, BYTES: 0, LIST: 1, PAIR: 2, TUPLE: 2}.get(kind)
    if least is None or record.flag or count < least or (kind != TUPLE and count > least):
        return False
    return run_in(record.first, count, len(sheet.entries))


def shape_fits(sheet: Sheet) -> bool:
    """Refusal 8. What asks for children comes after the numbers of these are known to be right."""
    patterns = range(len(sheet.patterns))
    return (all(record_keeps_rules(sheet, record) for record in sheet.patterns)
            and all(number in patterns for number in [*sheet.children, *sheet.roots])
            and all(part > number for number in patterns for part in sheet.parts(number))
            and stands_once(sheet)
            and all(tail_fits(sheet, number) for number in patterns)
            and depths_fit(sheet))


def record_keeps_rules(sheet: Sheet, record: PatternRecord) -> bool:
    """The fields of one pattern. A tail has an element before it."""
    if record.kind > P_TUPLE or record.zero:
        return False
    exact = {P_DISCARD: 0, P_VARIABLE: 0, P_ASSIGN: 1, P_PAIR: 2}.get(record.kind, record.count)
    if record.count != exact or (record.kind == P_TAIL and record.count < 2):
        return False
    if record.a and record.kind not in (P_VARIABLE, P_ASSIGN, P_CONSTRUCTOR):
        return False
    in_pool = record.kind in (P_INTEGER, P_BYTES)
    return run_in(record.first, record.count, len(sheet.pool if in_pool else sheet.children))


def stands_once(sheet: Sheet) -> bool:
    """Each pattern is one root or one entry, and each entry is in one pattern's list."""
    uses = Counter([*sheet.children, *sheet.roots])
    owners = Counter(at for number, record in enumerate(sheet.patterns)
                     for at in range(record.first, record.first + len(sheet.parts(number))))
    return (all(uses[number] == 1 for number in range(len(sheet.patterns)))
            and all(owners[at] == 1 for at in range(len(sheet.children))))


def tail_fits(sheet: Sheet, number: int) -> bool:
    if sheet.patterns[number].kind != P_TAIL:
        return True
    return sheet.patterns[sheet.parts(number)[-1]].kind in (P_VARIABLE, P_DISCARD)


def depths_fit(sheet: Sheet) -> bool:
    depth = dict.fromkeys(sheet.roots, 1)
    for number in range(len(sheet.patterns)):  # every child has a larger number than its parent
        depth.update((part, depth[number] + 1) for part in sheet.parts(number))
    return max(depth.values()) <= PATTERN_DEPTH_MOST


def bad_literal(sheet: Sheet, number: int) -> bool:
    kind = sheet.patterns[number].kind
    if kind not in (P_INTEGER, P_BYTES):
        return False
    literal = sheet.literal(number)
    canonical = kind == P_BYTES or CANONICAL.fullmatch(literal)
    return len(literal) > LITERAL_BYTES_MOST or not canonical


def fits(sheet: Sheet, pattern: int, type_number: int) -> bool:
    """Whether a pattern fits a type, with all inside it."""
    if sheet.patterns[pattern].kind in (P_DISCARD, P_VARIABLE):
        return True
    parts = sheet.parts(pattern)
    types = part_types(sheet, pattern, type_number)
    if types is None or len(types) != len(parts):
        return False
    return all(fits(sheet, part, of) for part, of in zip(parts, types))


def part_types(sheet: Sheet, pattern: int, type_number: int) -> Optional[list[int]]:
    """The types of a pattern's parts; nothing where its kind is not that of its type."""
    record, of = sheet.patterns[pattern], sheet.types[type_number]
    if record.kind == P_ASSIGN:
        return [type_number]
    if record.kind == P_CONSTRUCTOR:
        known = of.kind == DATA and record.a < of.count
        return sheet.fields(type_number)[record.a] if known else None
    asks = {P_INTEGER: INT, P_BYTES: BYTES, P_LIST: LIST, P_TAIL: LIST, P_PAIR: PAIR,
            P_TUPLE: TUPLE}
    if of.kind != asks.get(record.kind):
        return None
    entries = sheet.type_parts(type_number)
    if record.kind == P_LIST:
        return entries * record.count
    if record.kind == P_TAIL:
        return entries * (record.count - 1) + [type_number]
    return entries


def names_in(sheet: Sheet, root: int) -> list[int]:
    """The names that a pattern binds."""
    return [sheet.patterns[pattern].a for pattern in inside(sheet, root)
            if sheet.patterns[pattern].kind in (P_VARIABLE, P_ASSIGN)]


def inside(sheet: Sheet, pattern: int) -> Iterator[int]:
    """A pattern and all inside it."""
    yield pattern
    for part in sheet.parts(pattern):
        yield from inside(sheet, part)
