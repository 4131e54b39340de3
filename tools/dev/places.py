#!/usr/bin/env python3
"""Counts in crates/*/src what reads like an older Rattle; docs/DESIGN-PASS.md says what each line means. places.py [-v] [FOLDER]: FOLDER is the top of a
checkout, -v lists the places too."""
import collections
import pathlib
import re
import sys

LINES = {
    "own enums": r"^\s*(?:pub(?:\(crate\))? )?enum \w+",
    "numbers of kinds and flags": r"\b(?:pattern|type|record|node|case|step)_kinds::[A-Z_]+|\btype_flags::[A-Z_]+",
    "numbers of refusals": r"\brefusals::[A-Z_]{2,}\b",
    "loops by hand": r"^\s*(?:'\w+: )?while\b",
    "endless loops": r"^\s*(?:let .*= )?(?:'\w+: )?loop \{",
    "counters moved by hand": r"^\s*\w+ [+-]= 1;$",
    "tests that only answer false": r"^\s*return false;$",
    "casts": r"\bas (?:u8|u16|u32|u64|usize)\b",
    "a sheet and its map": r"\bmap: SheetMap\b",
    "a panel and its map": r"\b(?:map|places): PanelMap\b",
    "a tree and its map": r"\bmap: TreeMap\b",
    "a lent array whose length travels beside it": r"\b\w+: &(?:mut )?\[u8; [A-Z_]+\]",
}
WORDS = {"let", "mut", "if", "else", "while", "for", "in", "match", "return", "true", "false", "loop", "as", "break", "continue", "None", "Some"}


def sources(top):
    for path in sorted(top.glob("crates/*/src/**/*.rt")):
        yield path.relative_to(top), [line.split("//")[0].rstrip() for line in path.read_text().splitlines()]


def places(top):
    found = {name: [] for name in LINES}
    for path, lines in sources(top):
        for number, line in enumerate(lines, 1):
            for name, pattern in LINES.items():
                found[name] += [f"{path}:{number}: {line.strip()}" for _ in re.findall(pattern, line)]
    return found


def shape(body):
    """The body with every name and number of its own taken out."""
    return re.sub(r"\w+", lambda word: word[0] if word[0] in WORDS else "x", " ".join(body))


def twins(top):
    """Functions of four lines or more whose bodies have one shape."""
    shapes = collections.defaultdict(list)
    for path, lines in sources(top):
        name, body = None, None
        for line in lines:
            begun = re.match(r"\s*(?:pub(?:\(crate\))? )?(?:extern \"C\" )?fn (\w+)", line)
            if begun:
                name, body = begun[1], None
            elif name and line.strip() == "{" and body is None:
                body = []
            elif name and body is not None and line in ("}", "    }") and len(line) - 1 == len(lead):
                if len(body) >= 4:
                    shapes[shape(body)].append(f"{path}: {name}")
                name, body = None, None
            elif body is not None:
                body.append(line.strip())
            if line.strip() == "{" and body == []:
                lead = line[:-1]
    return [group for group in shapes.values() if len(group) > 1]


def main():
    words = [word for word in sys.argv[1:] if word != "-v"]
    top = pathlib.Path(words[0] if words else pathlib.Path(__file__).parents[2])
    wordy = "-v" in sys.argv
    for name, found in places(top).items():
        print(f"{len(found):5} {name}")
        if wordy:
            print("".join(f"      {place}\n" for place in found), end="")
    groups = twins(top)
    print(f"{sum(map(len, groups)):5} functions in {len(groups)} groups of one shape")
    if wordy:
        print("".join("      " + "; ".join(group) + "\n" for group in groups), end="")


if __name__ == "__main__":
    main()
