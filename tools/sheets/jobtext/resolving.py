"""The types of a text: what each name stands for, and the rules of every type, used or not."""
from __future__ import annotations

from typing import Iterator, Optional, Union

from .faults import Fault, cut
from .forms import Form, Text, Type

# What a form stands for: a form that is no name, a type of constructors, or nothing known.
Known = Union[Form, Type]
Meant = Optional[Known]


class Types:
    """Finds what the forms of one text stand for."""

    def __init__(self, text: Text):
        self.text = text
        self.found: dict[str, Meant] = {}

    def meant(self, form: Optional[Form]) -> Meant:
        """What a form stands for, other names followed to their ends."""
        if form is None or form.kind != 'named':
            return form
        if form.name not in self.found:
            self.follow(form.name)
        return self.found[form.name]

    def follow(self, name: str) -> None:
        """Finds what a name stands for, and with it all names that are passed on the way."""
        passed: dict[str, None] = {}
        while True:
            declared = self.text.types.get(name)
            passed[name] = None
            if declared is None or declared.same is None or declared.same.kind != 'named':
                break
            name = declared.same.name
            if name in self.found or name in passed:
                break
        # A name that leads back to itself stands for nothing.
        if name in self.found:
            end = self.found[name]
        elif declared is None or (declared.same and declared.same.kind == 'named'):
            end = None
        else:
            end = declared.same or (declared if declared.constructors else None)
        self.found.update(dict.fromkeys(passed, end))


def described(meant: Known) -> str:
    """A type in a message."""
    if isinstance(meant, Type):
        return with_article(meant)
    said = {'int': 'an integer', 'bytes': 'a byte string', 'list': 'a list', 'pair': 'a pair'}
    return said.get(meant.kind) or f'a tuple of {len(meant.parts)}'


def with_article(data: Type) -> str:
    return f'{"an" if data.name[0] in "AEIOU" else "a"} {cut(data.name)}'


def check_types(text: Text, faults: list[Fault]) -> None:
    """The rules of types that ask nothing about numbers and room."""
    check_known(text, faults)
    check_other_names(text, faults)
    for declared in text.types.values():
        if is_transparent(declared):
            message = (f'type {cut(declared.name)} is opaque with one constructor of one field: '
                       'the format refuses such a type (7)')
            faults.append(Fault(declared.place, message))


def check_known(text: Text, faults: list[Fault]) -> None:
    """Each type that is named is there, unless the line that gives one could not be read."""
    if text.type_unread:
        return
    other_names = {id(declared.same) for declared in text.types.values()}
    for form in named_forms(text):
        if form.name in text.types:
            continue
        name = cut(form.name)
        # Whoever wrote `type A = B` may have meant a constructor.
        hint = f': a single constructor is written {name}()' if id(form) in other_names else ''
        faults.append(Fault(form.place, f'there is no type {name}{hint}'))


def named_forms(text: Text) -> Iterator[Form]:
    """Every name of a type wherever one stands, once for each place."""
    waiting = [text.subject] if text.subject else []
    for declared in text.types.values():
        if declared.same:
            waiting.append(declared.same)
        for constructor in declared.constructors:
            waiting.extend(constructor.fields)
    while waiting:
        form = waiting.pop()
        if form.kind == 'named':
            yield form
        waiting.extend(form.parts)


def check_other_names(text: Text, faults: list[Fault]) -> None:
    """No name may lead, by other names alone, back to itself. Each name is passed once."""
    done: set[str] = set()
    for start in text.types:
        passed: dict[str, None] = {}
        name = start
        while name in text.types and name not in done and name not in passed:
            passed[name] = None
            same = text.types[name].same
            name = same.name if same and same.kind == 'named' else ''
        if name in passed:
            way = list(passed)
            for member in way[way.index(name):]:
                place = text.types[member].place
                message = f'type {cut(member)} is only another name of itself'
                faults.append(Fault(place, message))
        done.update(passed)


def is_transparent(declared: Type) -> bool:
    """Refusal 7: opaque only, one constructor, one field."""
    constructors = declared.constructors
    return declared.flags() == 1 and len(constructors) == 1 and len(constructors[0].fields) == 1
