"""Reads types: the lines that name them, and the forms in which they are written."""
from __future__ import annotations

from .faults import Fault, Wrong, cut
from .forms import Constructor, Form, Text, Type
from .limits import FORM_DEPTH_MOST
from .words import Line, Word

# How many parts a form has; a tuple takes all that follow.
PARTS = {'int': 0, 'bytes': 0, 'list': 1, 'pair': 2}


def read_type(text: Text, line: Line) -> None:
    """One line `type NAME = ..`. If it cannot be read, the text notes what may be missing then."""
    text.type_unread, types_before = True, text.type_unread
    text.constructor_unread, constructors_before = True, text.constructor_unread
    name = take_capital(line, 'the name of a type')
    declared = Type(name.text, name.place)
    first = text.types.setdefault(name.text, declared)
    text.type_unread = types_before
    if first is not declared:
        message = f'type {name.told()} is given twice, first on line {first.place.line}'
        raise Wrong(Fault(name.place, message))
    line.expect('=')
    read_body(declared, line)
    line.end()
    text.constructor_unread = constructors_before
    for constructor in declared.constructors:
        add_constructor(text, constructor, line)


def take_capital(line: Line, what: str) -> Word:
    """The next word, which is a type's or constructor's name."""
    if line.peek().kind != 'capital':
        raise line.unexpected(f'{what}, which begins with a capital letter,')
    return line.take()


def read_body(declared: Type, line: Line) -> None:
    """What stands behind `=`: a form, or constructors."""
    while line.peek().text in ('opaque', 'listlike'):
        word = line.take()
        if getattr(declared, word.text):
            line.note(word.place, f'{word.text} is said twice')
        setattr(declared, word.text, True)
    if not declared.flags():
        # A capital word alone is another type's name: `type A = B`. One constructor is `B()`.
        if line.peek().kind != 'capital' or line.left() == 1:
            declared.same = read_form(line)
            return
    constructors = [read_constructor(declared, line, 0)]
    while line.skip('|'):
        constructors.append(read_constructor(declared, line, len(constructors)))
    declared.constructors = constructors


def read_constructor(owner: Type, line: Line, number: int) -> Constructor:
    name = take_capital(line, 'a constructor')
    fields: list[Form] = []
    if line.skip('(') and not line.skip(')'):
        fields.append(read_form(line))
        while line.skip(','):
            fields.append(read_form(line))
        if not line.skip(')'):
            raise line.unexpected("',' or ')'")
    return Constructor(name.text, name.place, fields, owner, number)


def add_constructor(text: Text, constructor: Constructor, line: Line) -> None:
    first = text.constructors.setdefault(constructor.name, constructor)
    if first is not constructor:
        text.doubtful.add(constructor.name)
        twice = f'is given twice, first on line {first.place.line}'
        line.note(constructor.place, f'constructor {cut(constructor.name)} {twice}')


def read_form(line: Line, depth: int = 1) -> Form:
    """A type as it is written, in any number of brackets."""
    opened = 0
    while line.skip('('):
        opened += 1
    form = read_plain_form(line, depth)
    for _ in range(opened):
        line.expect(')')
    return form


def read_plain_form(line: Line, depth: int) -> Form:
    """Each level is a type of its own, so that a text which nests deeper has no room in a sheet."""
    word = line.peek()
    if depth > FORM_DEPTH_MOST:
        raise Wrong(Fault(word.place, f'types nest more than {FORM_DEPTH_MOST} deep here'))
    if word.kind == 'capital':
        return Form('named', line.take().place, name=word.text)
    if word.text in PARTS:
        line.take()
        parts = [read_form(line, depth + 1) for _ in range(PARTS[word.text])]
        return Form(word.text, word.place, parts)
    if word.text == 'tuple':
        return read_tuple(line, depth)
    raise line.unexpected('a type')


def read_tuple(line: Line, depth: int) -> Form:
    place = line.take().place
    parts = []
    while line.peek().kind != 'end' and line.peek().text not in (',', ')', '|'):
        parts.append(read_form(line, depth + 1))
    if len(parts) < 2:
        line.note(place, f'a tuple has 2 parts or more, this one {len(parts)}')
    return Form('tuple', place, parts)
