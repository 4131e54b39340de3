"""The number of each name. A listing shows a name by its number, as n1, n2 and so on."""
from __future__ import annotations

import re
from typing import Iterable, Optional

from .limits import NAME_NUMBER_MOST

NUMBERED = re.compile('n([0-9]+)')


def own_number(name: str) -> Optional[int]:
    """The number that a name says itself: n7 is 7. Other names say none."""
    match = NUMBERED.fullmatch(name)
    # Six digits are enough to see that a number is too large, and no long text is made a number.
    return int(match.group(1)[:6]) if match else None


def is_well_numbered(name: str) -> bool:
    """Whether a listing shows a name of n and digits just so: n07 and n70000 it never shows."""
    number = own_number(name)
    return number is None or (number <= NAME_NUMBER_MOST and name == f'n{number}')


def numbers_of(names: Iterable[str]) -> dict[str, int]:
    """A number for each name, in the order of their first use.

    A name like n7 has the number that it says. The others get the lowest numbers from 1 on that
    no name of the text says itself, so that no two names share one.
    """
    own = {name: own_number(name) for name in names}
    said = set(own.values())
    numbers = {}
    next_free = 1
    for name, number in own.items():
        if number is None:
            while next_free in said:
                next_free += 1
            number = next_free
            next_free += 1
        numbers[name] = number
    return numbers
