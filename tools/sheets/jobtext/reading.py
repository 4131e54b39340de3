"""Reads a text line by line. Whether its patterns fit its types is asked when all is read."""
from __future__ import annotations

from .faults import Fault, Wrong
from .forms import Clause, Panel, Text
from .naming import numbers_of
from .pattern_reading import PatternReader
from .source import source_lines
from .type_reading import read_form, read_type
from .words import Line, words_of


def read_text(source: str, faults: list[Fault]) -> Text:
    """What the text says. After a fault that stops it the reading goes on with the next line."""
    text = Text()
    names: list[str] = []
    for number, written in enumerate(source_lines(source), 1):
        line = Line(words_of(written, number), faults)
        if not line.left():
            continue
        text.statements += 1
        try:
            read_statement(text, line, names)
        except Wrong as wrong:
            faults.extend(wrong.faults)
    text.names = numbers_of(names)
    return text


def read_statement(text: Text, line: Line, names: list[str]) -> None:
    head = line.take()
    if head.text == 'type':
        read_type(text, line)
    elif head.text == 'subject':
        read_subject(text, line)
    elif head.text == 'clause':
        text.clauses.append(Clause(head.place, PatternReader(line, names).whole()))
    elif head.text == 'panel':
        read_panel(text, line)
    else:
        message = f'{head.told()} begins no line: type, subject, clause, panel or # does'
        raise Wrong(Fault(head.place, message))


def read_subject(text: Text, line: Line) -> None:
    if text.subject or text.subject_unread:
        raise Wrong(Fault(line.words[0].place, 'the subject is given twice'))
    text.subject_unread = True
    form = read_form(line)
    line.end()
    text.subject, text.subject_unread = form, False


def read_panel(text: Text, line: Line) -> None:
    name = line.take()
    if name.kind not in ('name', 'capital', 'number') or name.text.startswith('-'):
        message = 'a panel has a name of letters, digits and _ before its ='
        raise Wrong(Fault(name.place, message))
    line.expect('=')
    panel = Panel(name.text, name.place, PatternReader(line, None).whole())
    first = text.panels.setdefault(name.text, panel)
    if first is not panel:
        message = f'panel {name.told()} is given twice, first on line {first.place.line}'
        raise Wrong(Fault(name.place, message))
