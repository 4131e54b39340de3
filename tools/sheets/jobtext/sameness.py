"""Holds the types of two texts against each other, for a panel of one on the sheet of the other."""
from __future__ import annotations

from collections import deque
from typing import Iterator, NamedTuple, Optional

from .faults import Fault, Wrong, counted, cut
from .forms import Form, Text, Type
from .resolving import Known, Types, described


class Pairing(NamedTuple):
    """Two forms that have to mean the same, and what they are of."""

    here: Optional[Form]
    there: Optional[Form]
    what: str


def check_same(here: Text, there: Text, there_file: str) -> None:
    """Refused where the subjects of two texts differ in anything that they reach.

    Types of constructors have to agree in their names, flags, constructors and the order of
    these; another name of a type counts as that type. The first difference is told.
    """
    here_types, there_types = Types(here), Types(there)
    waiting = deque([Pairing(here.subject, there.subject, 'the subject')])
    met = set()
    while waiting:
        pairing = waiting.popleft()
        left, right = here_types.meant(pairing.here), there_types.meant(pairing.there)
        assert left is not None and right is not None
        if (id(left), id(right)) in met:
            continue
        met.add((id(left), id(right)))
        fault = difference(pairing, left, right, there_file)
        if fault:
            raise Wrong(fault)
        waiting.extend(pairings(left, right))


def difference(pairing: Pairing, left: Known, right: Known, file: str) -> Optional[Fault]:
    """How two types differ, their parts left aside."""
    if isinstance(left, Type) and isinstance(right, Type) and left.name == right.name:
        there = f'in {file}, line {right.place.line}'
        return flag_difference(left, right, there) or constructor_difference(left, right, there)
    if isinstance(left, Type) or isinstance(right, Type) or described(left) != described(right):
        assert pairing.here is not None
        told = f'{pairing.what} is {described(left)} here and {described(right)} in {file}'
        return Fault(pairing.here.place, told)
    return None


def flag_difference(left: Type, right: Type, there: str) -> Optional[Fault]:
    for flag in ('opaque', 'listlike'):
        mine = getattr(left, flag)
        if mine != getattr(right, flag):
            where = f'here and not {there}' if mine else f'{there} and not here'
            return Fault(left.place, f'type {cut(left.name)} is {flag} {where}')
    return None


def constructor_difference(left: Type, right: Type, there: str) -> Optional[Fault]:
    name = f'type {cut(left.name)}'
    for mine, other in zip(left.constructors, right.constructors):
        if mine.name != other.name:
            told = f'{name} has {cut(mine.name)} here where it has {cut(other.name)} {there}'
            return Fault(mine.place, told)
        if len(mine.fields) != len(other.fields):
            fields = f'{counted(len(mine.fields), "field")} here and {len(other.fields)} {there}'
            return Fault(mine.place, f'{cut(mine.name)} has {fields}')
    if len(left.constructors) != len(right.constructors):
        constructors = f'{counted(len(left.constructors), "constructor")} here'
        return Fault(left.place, f'{name} has {constructors} and {len(right.constructors)} {there}')
    return None


def pairings(left: Known, right: Known) -> Iterator[Pairing]:
    """The parts of two types that are alike themselves."""
    if isinstance(left, Form) and isinstance(right, Form):
        for number, (mine, other) in enumerate(zip(left.parts, right.parts), 1):
            yield Pairing(mine, other, f'part {number} of this {left.kind}')
    if isinstance(left, Type) and isinstance(right, Type):
        for constructor, twin in zip(left.constructors, right.constructors):
            for number, (mine, other) in enumerate(zip(constructor.fields, twin.fields), 1):
                yield Pairing(mine, other, f'field {number} of {cut(constructor.name)}')
