"""What the tests share: where the tool is, its faults as lines, the command, sheets compared."""
import contextlib
import io
import pathlib
import sys

HERE = pathlib.Path(__file__).resolve().parent
TOOL = HERE.parent / 'sheets.py'
ROOT = HERE.parent.parent.parent
SAMPLES = ROOT / 'samples'
sys.path.insert(0, str(HERE.parent))

import sheets  # noqa: E402
from jobtext.checking import parse  # noqa: E402
from jobtext.faults import Wrong  # noqa: E402
from jobtext.sheet_reading import DATA, P_BYTES, P_INTEGER, read_sheet  # noqa: E402
from jobtext.writing import sheet_file  # noqa: E402


def faults(source):
    """What is told of a text, a line each; nothing of one that is right and has a clause."""
    try:
        sheet_file(parse(source))
    except Wrong as wrong:
        return [str(fault) for fault in wrong.faults]
    return []


def file_of(source):
    """The sheet file of a text."""
    return sheet_file(parse(source))


def command(*words):
    """The status of the command, and what it says on its two outputs."""
    out, err = io.StringIO(), io.StringIO()
    with contextlib.redirect_stdout(out), contextlib.redirect_stderr(err):
        status = sheets.main([str(word) for word in words])
    return status, out.getvalue(), err.getvalue()


def same_meaning(one, other):
    """Whether two sheet files have the same clauses over types of the same make."""
    left, right = read_sheet(one), read_sheet(other)
    if len(left.roots) != len(right.roots) or not same_types(left, right):
        return False
    return all(same_pattern(left, right, a, b) for a, b in zip(left.roots, right.roots))


def same_pattern(left, right, a, b):
    mine, other = left.patterns[a], right.patterns[b]
    if (mine.kind, mine.a) != (other.kind, other.a):
        return False
    if mine.kind in (P_INTEGER, P_BYTES) and left.literal(a) != right.literal(b):
        return False
    parts, twins = left.parts(a), right.parts(b)
    return len(parts) == len(twins) and all(
        same_pattern(left, right, part, twin) for part, twin in zip(parts, twins))


def same_types(left, right):
    """Whether two subjects cannot be told apart, however far they are opened."""
    waiting, met = [(left.subject, right.subject)], set()
    while waiting:
        a, b = waiting.pop()
        if (a, b) in met:
            continue
        met.add((a, b))
        mine, other = left.types[a], right.types[b]
        if (mine.kind, mine.flag) != (other.kind, other.flag):
            return False
        runs = left.fields(a) if mine.kind == DATA else [left.type_parts(a)]
        twins = right.fields(b) if mine.kind == DATA else [right.type_parts(b)]
        if [len(run) for run in runs] != [len(run) for run in twins]:
            return False
        waiting.extend(pair for run, twin in zip(runs, twins) for pair in zip(run, twin))
    return True
