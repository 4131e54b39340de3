#!/usr/bin/env python3
"""Turns a readable text of types, clauses and panels into files, and a sheet file into a text.

    sheets.py sheet TEXT OUT        the sheet file of TEXT
    sheets.py panel TEXT NAME OUT   the panel file of TEXT's panel NAME
    sheets.py panel TEXT NAME OUT --sheet OTHER
                                    the same for the sheet of OTHER, a text with the same types
    sheets.py names TEXT            the number of each name, a line each
    sheets.py show SHEETFILE        a sheet file as a text
    sheets.py help                  this text

docs/TEXT.md says how a text is written and what is said of one that is wrong. Whatever is wrong
with a file is told as `FILE: line L, column C: what`, a line for each fault, and the status is 1.
"""
from __future__ import annotations

import os
import sys
from contextlib import contextmanager
from typing import Iterator, Optional

from jobtext.checking import parse
from jobtext.faults import Fault, Wrong, seen
from jobtext.forms import Text
from jobtext.limits import SHEET_BYTES_MOST
from jobtext.sameness import check_same
from jobtext.sheet_reading import Refused
from jobtext.showing import shown
from jobtext.source import file_bytes, file_source, why
from jobtext.writing import panel_file, sheet_file


USAGE = (__doc__ or '').strip()


class Failed(Exception):
    """The lines that say why nothing was made."""

    def __init__(self, *lines: str):
        super().__init__('\n'.join(lines))


@contextmanager
def about(file: str) -> Iterator[None]:
    """What is found wrong inside is told of this file."""
    try:
        yield
    except Wrong as wrong:
        raise Failed(*wrong.told(seen(file))) from None
    except Refused as refused:
        raise Failed(f'{seen(file)}: {refused}') from None


def text_of(file: str) -> Text:
    with about(file):
        return parse(file_source(file))


def make_sheet(file: str, out: str) -> None:
    text = text_of(file)
    with about(file):
        made = sheet_file(text)
    write(out, made, file)


def make_panel(file: str, name: str, out: str, sheet: Optional[str] = None) -> None:
    text = text_of(file)
    with about(file):
        if sheet is not None:
            check_same(text, text_of(sheet), seen(sheet))
        made = panel_file(text, name)
    write(out, made, file)


def write(out: str, made: bytes, source: str) -> None:
    """Writes a file whole, and never over the text that it was made of."""
    with about(out):
        try:
            if os.path.exists(out) and os.path.samefile(out, source):
                raise Wrong(Fault(None, 'this is the text itself, which is not written over'))
            with open(out, 'wb') as target:
                target.write(made)
        except OSError as failed:
            raise Wrong(Fault(None, why(failed))) from None


def say_names(file: str) -> None:
    say(''.join(f'n{number} {name}\n' for name, number in text_of(file).names.items()))


def show(file: str) -> None:
    with about(file):
        text = shown(file_bytes(file, SHEET_BYTES_MOST))
    say(text)


def say(lines: str) -> None:
    """Writes to the standard output, which may be shut or have no reader left."""
    if sys.stdout is None:
        raise Failed('sheets.py: the standard output is shut')
    try:
        sys.stdout.write(lines)
        sys.stdout.flush()
    except OSError as failed:
        # What is still held back goes nowhere, or Python would complain once more at its end.
        os.dup2(os.open(os.devnull, os.O_WRONLY), sys.stdout.fileno())
        raise Failed(f'sheets.py: the standard output: {why(failed)}') from None


def run(words: list[str]) -> bool:
    """Does what the words say; false if they say nothing that can be done."""
    command, *rest = words or ['']
    if command == 'sheet' and len(rest) == 2:
        make_sheet(rest[0], rest[1])
    elif command == 'panel' and len(rest) == 3:
        make_panel(rest[0], rest[1], rest[2])
    elif command == 'panel' and len(rest) == 5 and rest[3] == '--sheet':
        make_panel(rest[0], rest[1], rest[2], sheet=rest[4])
    elif command == 'names' and len(rest) == 1:
        say_names(rest[0])
    elif command == 'show' and len(rest) == 1:
        show(rest[0])
    elif command in ('help', '-h', '--help') and not rest:
        say(f'{USAGE}\n')
    else:
        return False
    return True


def main(words: list[str]) -> int:
    try:
        if run(words):
            return 0
    except Failed as failed:
        print(failed, file=sys.stderr)
        return 1
    except KeyboardInterrupt:
        return 130
    print(USAGE, file=sys.stderr)
    return 2


if __name__ == '__main__':
    sys.exit(main(sys.argv[1:]))
