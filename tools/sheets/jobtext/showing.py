"""Writes a sheet file as a text that can be read again."""
from __future__ import annotations

from .checking import parse
from .faults import Wrong
from .limits import TEXT_BYTES_MOST
from .sheet_reading import (BYTES, DATA, INT, LIST, P_ASSIGN, P_BYTES, P_CONSTRUCTOR, P_DISCARD,
                            P_INTEGER, P_LIST, P_PAIR, P_TAIL, P_TUPLE, P_VARIABLE, PAIR, TUPLE,
                            Sheet, part_types, read_sheet)
from .writing import sheet_file

HEAD = '# The names of types and constructors are made up: a sheet file has none.'
KIND_WORDS = {INT: 'int', BYTES: 'bytes', LIST: 'list', PAIR: 'pair', TUPLE: 'tuple'}
FLAG_WORDS = ('', 'opaque ', 'listlike ', 'opaque listlike ')
BRACKETS = {P_LIST: ('[', ']'), P_TAIL: ('[', ']'), P_PAIR: ('<', '>'), P_TUPLE: ('(', ')')}


def shown(data: bytes) -> str:
    """The text of a sheet file. One that is refused by 2 to 11 has none."""
    sheet = read_sheet(data)
    used = used_types(sheet)
    lines = [HEAD]
    for number in range(len(sheet.types)):
        lines.append(type_line(sheet, number) + ('' if number in used else '  # unused'))
    lines.append(f'subject T{sheet.subject}')
    lines += [f'clause {pattern_text(sheet, root, sheet.subject)}' for root in sheet.roots]
    text = '\n'.join(lines) + '\n'
    return not_read_again(text) + text


def not_read_again(text: str) -> str:
    """A comment that says why no sheet file can be made of the text, where that is so.

    In a sheet file types may share records, and literals may overlap in the pool. In a file that
    is made of a text they do not, and so it may have no room for all.
    """
    if len(text) > TEXT_BYTES_MOST:
        return f'# No file can be made of this text: it has over {TEXT_BYTES_MOST} bytes.\n'
    try:
        sheet_file(parse(text))
    except Wrong as wrong:
        # This comment moves what follows by a line, so only the message is told.
        return f'# No file can be made of this text: {wrong.faults[0].message}.\n'
    return ''


def used_types(sheet: Sheet) -> set[int]:
    """The types that the subject reaches; a file made of the text has only these."""
    used: set[int] = set()
    waiting = [sheet.subject]
    while waiting:
        number = waiting.pop()
        if number in used:
            continue
        used.add(number)
        if sheet.types[number].kind == DATA:
            waiting.extend(part for fields in sheet.fields(number) for part in set(fields))
        else:
            waiting.extend(sheet.type_parts(number))
    return used


def type_line(sheet: Sheet, number: int) -> str:
    record = sheet.types[number]
    if record.kind != DATA:
        words = [KIND_WORDS[record.kind], *(f'T{part}' for part in sheet.type_parts(number))]
        return f'type T{number} = ' + ' '.join(words)
    constructors = [with_fields(f'C{number}_{place}', [f'T{part}' for part in fields])
                    for place, fields in enumerate(sheet.fields(number))]
    # A single constructor has its brackets, or it would be the name of another type.
    if len(constructors) == 1 and not constructors[0].endswith(')'):
        constructors[0] += '()'
    return f'type T{number} = {FLAG_WORDS[record.flag]}' + ' | '.join(constructors)


def with_fields(constructor: str, fields: list[str]) -> str:
    return f'{constructor}({", ".join(fields)})' if fields else constructor


def pattern_text(sheet: Sheet, pattern: int, type_number: int) -> str:
    """A pattern of the type at its place, by which its constructors have their names."""
    record = sheet.patterns[pattern]
    if record.kind == P_DISCARD:
        return '_'
    if record.kind == P_VARIABLE:
        return f'n{record.a}'
    if record.kind == P_INTEGER:
        return sheet.literal(pattern).decode()
    if record.kind == P_BYTES:
        return literal_text(sheet.literal(pattern))
    types = part_types(sheet, pattern, type_number) or []
    parts = [pattern_text(sheet, part, of) for part, of in zip(sheet.parts(pattern), types)]
    if record.kind == P_ASSIGN:
        return f'{parts[0]} as n{record.a}'
    if record.kind == P_CONSTRUCTOR:
        return with_fields(f'C{type_number}_{record.a}', parts)
    if record.kind == P_TAIL:
        parts[-1] = '..' + parts[-1]
    opening, closing = BRACKETS[record.kind]
    return opening + ', '.join(parts) + closing


def literal_text(literal: bytes) -> str:
    """In quotes if every byte is a letter that can be seen, else in hexadecimal digits."""
    if all(0x20 <= byte < 0x7f for byte in literal):
        return '"' + literal.decode().replace('\\', '\\\\').replace('"', '\\"') + '"'
    return '0x' + literal.hex()
