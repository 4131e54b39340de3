"""Reads a text and asks everything of it: it comes out right, or with all its faults told."""
from __future__ import annotations

from typing import Iterator

from .faults import Fault, Wrong
from .fitting import Fitting
from .forms import Pattern, Text
from .limits import CLAUSES_MOST, PATTERNS_MOST, RECORDS_MOST
from .reading import read_text
from .resolving import Types, check_types, named_forms
from .writing import TypeSections, sheet_file, value_file


def parse(source: str) -> Text:
    """The text of these characters. It may lack clauses, if only its panels are wanted."""
    faults: list[Fault] = []
    text = read_text(source, faults)
    check_subject(text, faults)
    check_types(text, faults)
    check_fits(text, faults)
    check_counts(text, faults)
    check_type_room(text, faults)
    if not faults:
        check_file_room(text, faults)
    if faults:
        raise Wrong(*faults)
    return text


def check_subject(text: Text, faults: list[Fault]) -> None:
    if not text.statements:
        faults.append(Fault(None, 'the text is empty: it has neither a subject nor a clause'))
    elif text.subject is None and not text.subject_unread:
        faults.append(Fault(None, 'there is no subject'))


def check_fits(text: Text, faults: list[Fault]) -> None:
    types = Types(text)
    for clause in text.clauses:
        Fitting(text, types, faults, is_value=False).fit(clause.pattern, text.subject)
    for panel in text.panels.values():
        Fitting(text, types, faults, is_value=True).fit(panel.value, text.subject)


def check_counts(text: Text, faults: list[Fault]) -> None:
    """How many clauses, patterns and values there are. The first too many is told."""
    if len(text.clauses) > CLAUSES_MOST:
        message = f'this is clause {CLAUSES_MOST + 1}; a sheet has at most {CLAUSES_MOST}'
        faults.append(Fault(text.clauses[CLAUSES_MOST].place, message))
    patterns = (pattern for clause in text.clauses for pattern in all_parts(clause.pattern))
    check_count(patterns, PATTERNS_MOST, 'pattern', 'a sheet', faults)
    for panel in text.panels.values():
        check_count(all_parts(panel.value), RECORDS_MOST, 'value', 'a panel', faults)


def check_count(patterns: Iterator[Pattern], most: int, thing: str, whole: str,
                faults: list[Fault]) -> None:
    for number, pattern in enumerate(patterns, 1):
        if number > most:
            message = f'this is {thing} {number}; {whole} has at most {most}'
            faults.append(Fault(pattern.place, message))
            return


def all_parts(pattern: Pattern) -> Iterator[Pattern]:
    """A pattern and all inside it, in the order in which they are numbered."""
    waiting = [pattern]
    while waiting:
        pattern = waiting.pop()
        yield pattern
        waiting.extend(reversed(pattern.parts))


def check_type_room(text: Text, faults: list[Fault]) -> None:
    """Whether the sheet has room for the types, asked where each of them is known."""
    types = Types(text)
    if text.subject is None or any(types.meant(form) is None for form in named_forms(text)):
        return
    try:
        TypeSections(text)
    except Wrong as wrong:
        faults.extend(wrong.faults)


def check_file_room(text: Text, faults: list[Fault]) -> None:
    """Whether the files are not too long. A file is only made of a text that is right otherwise."""
    for panel in text.panels.values():
        try:
            value_file(text, panel)
        except Wrong as wrong:
            faults.extend(wrong.faults)
    try:
        if text.clauses:
            sheet_file(text)
    except Wrong as wrong:
        faults.extend(wrong.faults)
