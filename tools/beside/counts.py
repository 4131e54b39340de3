"""Shows what callgrind counted: counts.py FILE CALLS prints the instructions of one call by function, the first twenty.

FILE is callgrind's own; CALLS is how often the call was made. A function that calls itself stands once. The C library's
copies of memset and memcpy for one processor or another go by these names."""

import re
import sys
from collections import Counter

FIRST = 20


def plain(name):
    """A function's name without the mark of a recursion, and a C library function's without its processor."""
    name = re.sub(r"'\d+$", "", name)
    return re.sub(r"^__(mem\w+?)_(?:avx|sse|evex|erms).*", r"\1", name)


def read(path):
    """The instructions of each function itself, and how often each was called."""
    names, own, called = {}, Counter(), Counter()
    function = callee = ""
    inclusive = False
    for line in open(path, encoding="utf-8"):
        if found := re.match(r"(c?fn)=\((\d+)\)(?: (.*))?$", line):
            kind, number, name = found.groups()
            if name is not None:
                names[number] = plain(name)
            if kind == "fn":
                function = names[number]
            else:
                callee = names[number]
        elif found := re.match(r"calls=(\d+)", line):
            called[callee] += int(found[1])
            inclusive = True  # the next line has what the callee took
        elif found := re.match(r"(?:[+-]?\d+|\*|0x[0-9a-f]+) (\d+)$", line):
            if not inclusive:
                own[function] += int(found[1])
            inclusive = False
    return own, called


def main():
    path, calls = sys.argv[1], int(sys.argv[2])
    own, called = read(path)
    total = sum(own.values())
    print(f"{total / calls:.0f} instructions a call, {calls} calls")
    for name, count in own.most_common(FIRST):
        often = f"{called[name] / calls:.1f}" if called[name] else "-"
        print(f"{count / calls:>10.0f} {100 * count / total:>5.1f}%  called {often:>8}  {name}")


main()
