#!/usr/bin/env python3
"""How large each crate is, and how long it takes to prove.

    tools/dev/lines.py [LOG]        a table for docs/PROOFS.md; LOG is what `rt prove` or `rt ci` printed

Code is src/ without its contracts and comments. What stands in specs/ is parted by its declarations: a definition is a record, a data type, an abbreviation or an
unfoldable function, which is what a reader believes or computes with; a law is any other declaration, which is proved. Proofs are
proofs/. Lines that only import, and empty lines, are not counted; a comment goes with what follows it.
"""
import pathlib
import re
import sys

ROOT = pathlib.Path(__file__).resolve().parents[2]
DEFINITION = re.compile(r'(abbrev|unfoldable|record|data|pub record|pub data)\b')
IMPORT = re.compile(r'(ghost )?(use|pub mod|mod|pub use) ')
NO_CODE = re.compile(r'\s*(//|requires\b|ensures\b)')


def counted(path):
    return [line for line in path.read_text(encoding='utf-8').split('\n') if line.strip() and not IMPORT.match(line)]


def spec_lines(path):
    """Lines of definitions and of laws."""
    definitions, laws, held, kind = 0, 0, 0, None
    for line in counted(path):
        if line.startswith('--'):
            held += 1
            continue
        if DEFINITION.match(line):
            kind = 'definition'
        elif re.match(r'(pub )?\S+ :|mutual', line):
            kind = 'law'
        if kind == 'definition':
            definitions += 1 + held
        else:
            laws += 1 + held
        held = 0
    return definitions, laws + held


def crate_lines(crate):
    code = sum(not NO_CODE.match(line) for p in crate.glob('src/**/*.rt') for line in counted(p))
    parts = [spec_lines(p) for p in crate.glob('specs/**/*.antt')]
    proofs = sum(len(counted(p)) for p in crate.glob('proofs/**/*.antt'))
    return code, sum(d for d, _ in parts), sum(n for _, n in parts), proofs


def seconds(log):
    return dict(re.findall(r'^rt: (\w+) proved \((\d+) s\)', log, re.M))


def main(args):
    took = seconds(pathlib.Path(args[0]).read_text(encoding='utf-8')) if args else {}
    total, tests = [0, 0, 0, 0], 0
    print('| crate | code | definitions | laws | proofs | seconds |\n|---|---|---|---|---|---|')
    for line in (ROOT / 'crates.txt').read_text(encoding='utf-8').split('\n'):
        named = re.match(r'(\w+)( staticlib)?:', line)
        if not named:
            continue
        name = named.group(1)
        found = crate_lines(ROOT / 'crates' / name)
        total = [a + b for a, b in zip(total, found)]
        tests += found[0] if name.startswith('test_') else 0
        print(f'| `{name}` | ' + ' | '.join(map(str, found)) + f' | {took.get(name, "")} |')
    code, definitions, laws, proofs = total
    spent = sum(map(int, took.values())) or ''
    print(f'| all | {code} | {definitions} | {laws} | {proofs} | {spent} |')
    print(f'\nLaws and proofs to a line of code, without the tests: {(laws + proofs) / (code - tests):.2f}')


if __name__ == '__main__':
    main(sys.argv[1:])
