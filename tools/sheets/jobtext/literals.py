"""Integers and byte strings as they are written, and the bytes that they stand for."""
from __future__ import annotations

import re

from .limits import LITERAL_BYTES_MOST
from .words import Line, Word

CANONICAL = re.compile('0|-?[1-9][0-9]*')
PIECE = re.compile(r'\\x([0-9A-Fa-f]{2})|\\(.)|([^\\]+)')
ESCAPES = {'"': b'"', '\\': b'\\', 'n': b'\n', 't': b'\t'}


def integer(line: Line, word: Word) -> bytes:
    """The digits of an integer, which the sheet file has as they are written."""
    if not CANONICAL.fullmatch(word.text):
        line.note(word.place, f'{word.told()} is no integer{not_canonical(word.text)}')
    return short(line, word, word.text.encode(), 'an integer')


def not_canonical(text: str) -> str:
    """Why digits are no integer, if they are digits."""
    if re.fullmatch('-0+', text):
        return ': zero is written 0'
    if re.fullmatch('-?0[0-9]+', text):
        return ': no 0 stands before other digits'
    return ''


def hexadecimal(line: Line, word: Word) -> bytes:
    """The bytes of 0x and hexadecimal digits."""
    digits = word.text[2:]
    if not re.fullmatch('[0-9A-Fa-f]*', digits):
        line.note(word.place, f'{word.told()} has letters that are no hexadecimal digits')
        return b''
    if len(digits) % 2:
        line.note(word.place, f'{word.told()} has half a byte: its digits are odd in number')
        return b''
    return short(line, word, bytes.fromhex(digits), 'a byte string')


def quoted(line: Line, word: Word) -> bytes:
    """The bytes of a text in quotes: UTF-8, with escapes."""
    found = []
    for piece in PIECE.finditer(word.text[1:-1]):
        byte, escape, plain = piece.groups()
        if plain is not None:
            found.append(plain.encode())
        elif byte is not None:
            found.append(bytes.fromhex(byte))
        elif escape in ESCAPES:
            found.append(ESCAPES[escape])
        else:
            place = word.place._replace(column=word.place.column + 1 + piece.start())
            known = r'there are \" \\ \n \t and \xHH with two hexadecimal digits'
            line.note(place, f'\\{escape} is no escape: {known}')
    return short(line, word, b''.join(found), 'a byte string')


def short(line: Line, word: Word, text: bytes, what: str) -> bytes:
    """The same bytes, which may not be too many."""
    if len(text) > LITERAL_BYTES_MOST:
        most = f'{what} has at most {LITERAL_BYTES_MOST}'
        line.note(word.place, f'{word.told()} has {len(text)} bytes: {most}')
    return text
