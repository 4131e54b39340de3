"""A file's bytes, with a limit, and the characters that a text may have."""
from __future__ import annotations

import errno

from .faults import Fault, Place, Wrong
from .limits import TEXT_BYTES_MOST

# What the characters are called that turn up most where they should not.
CALLED = {
    '\t': 'a tab: only blanks stand between words',
    '\r': 'a carriage return: a line ends with a line feed alone',
    '\0': 'a zero byte: this is no text',
    '\ufeff': 'a byte order mark: a text is saved without it',
}
WHY = {
    errno.ENOENT: 'there is no such file',
    errno.EISDIR: 'this is a folder, not a file',
    errno.EACCES: 'it may not be opened',
}


def why(failed: OSError) -> str:
    """Why a file could not be opened, read or written."""
    return WHY.get(failed.errno or 0) or failed.strerror or str(failed)


def file_bytes(path: str, most: int) -> bytes:
    """A file's bytes; never more than one above `most`, however long the file is."""
    try:
        with open(path, 'rb') as file:
            return file.read(most + 1)
    except OSError as failed:
        raise Wrong(Fault(None, why(failed))) from None


def file_source(path: str) -> str:
    """The characters of a text's file."""
    data = file_bytes(path, TEXT_BYTES_MOST)
    if len(data) > TEXT_BYTES_MOST:
        message = f'it has over {TEXT_BYTES_MOST} bytes, the most that a text may have'
        raise Wrong(Fault(None, message))
    try:
        return data.decode('utf-8')
    except UnicodeDecodeError as failed:
        before = data[:failed.start].decode('utf-8')
        place = Place(before.count('\n') + 1, len(before) - before.rfind('\n'))
        message = f'the byte {data[failed.start]:02x} is not UTF-8: this is no text'
        raise Wrong(Fault(place, message)) from None


def source_lines(source: str) -> list[str]:
    """The lines of a text. What cannot be seen is refused: nothing in a text is hidden."""
    lines = source.split('\n')
    for number, line in enumerate(lines, 1):
        if line.isprintable():
            continue
        column, letter = next((i, c) for i, c in enumerate(line, 1) if not c.isprintable())
        message = CALLED.get(letter, f'the character U+{ord(letter):04X} cannot be seen')
        raise Wrong(Fault(Place(number, column), message))
    return lines
