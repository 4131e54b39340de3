#!/usr/bin/env python3
"""Draws the tree of a listing:

    tools/picture.py LISTING > tree.svg

LISTING is a file with what `./dewmycel list` prints, or - for standard input. The root stands at the left; each edge says which test leads
there. A switch shows the path of the part that it tests, a leaf or a hoist its clause and the names that it binds."""
import html
import re
import sys

LETTER, LINE, PAD = 6.7, 15, 6  # width and height of the text's letters, and the room around them
GAP_X, GAP_Y = 26, 8
COLOURS = {'switch': '#e8f0fb', 'listswitch': '#e8f0fb', 'leaf': '#e9f6e7', 'hoist': '#f6f0e2'}


class Bad(Exception):
    pass


class Node:
    def __init__(self, kind, lines, edges):
        self.kind, self.lines, self.edges = kind, lines, edges  # edges: what is said on each, and to which node
        self.depth = self.x = self.y = self.top = self.room = 0

    def size(self):
        return 2 * PAD + LETTER * max(map(len, self.lines)), 2 * PAD + LINE * len(self.lines)


def node(number, line):
    """The node of a line: its number, kind, and the rest."""
    try:
        given, kind, head, *rest = line.split()
        if int(given) != number or kind not in COLOURS:
            raise ValueError
        if kind == 'leaf':
            return Node(kind, [f'{number} leaf {head}', *rest], [])
        if kind == 'hoist':
            return Node(kind, [f'{number} hoist {head}', *rest[2:]], [('then', int(rest[1]))])
        edges = []
        if rest[-2] == 'else':
            edges = [('else', int(rest[-1]))]
            rest = rest[:-2]
        tests = [re.fullmatch(r'(.*):(\d+)', test).groups() for test in rest]
        return Node(kind, [f'{number} {kind}', head], [(test, int(child)) for test, child in tests] + edges)
    except (ValueError, IndexError, AttributeError):
        raise Bad(f'line {number + 2} is not that of node {number}: {line}') from None


def read(text):
    head, *lines = text.splitlines() or ['']
    found = re.fullmatch(r'tree (\d+) \d+', head)
    if not found:
        raise Bad(f'not a listing: {head[:60]}')
    if int(found[1]) != len(lines) or not lines:
        raise Bad(f'{len(lines)} lines of nodes, not {found[1]}')
    nodes = [node(number, line) for number, line in enumerate(lines)]
    for number, parent in enumerate(nodes):
        if any(not number < child < len(nodes) for _, child in parent.edges):
            raise Bad(f'node {number} has a child that is not after it')
    return nodes


def lay_out(nodes):
    """A column for each depth; below one another the parts of the picture that belong to one child each, and every node in the middle of its own."""
    for at in reversed(nodes):
        children = sum(nodes[child].room for _, child in at.edges)
        at.room = max(at.size()[1] + GAP_Y, children)
    nodes[0].top = GAP_Y / 2
    for at in nodes:
        at.y = at.top + (at.room - at.size()[1]) / 2
        top = at.top + (at.room - sum(nodes[child].room for _, child in at.edges)) / 2
        for _, child in at.edges:
            nodes[child].depth, nodes[child].top = at.depth + 1, top
            top += nodes[child].room
    left = GAP_Y
    for depth in range(max(at.depth for at in nodes) + 1):
        column = [at for at in nodes if at.depth == depth]
        for at in column:
            at.x = left
        said = max((len(words) for at in column for words, _ in at.edges), default=0)
        left += max(at.size()[0] for at in column) + LETTER * said + GAP_X
    return max(at.x + at.size()[0] for at in nodes) + GAP_Y, nodes[0].room + GAP_Y


def text(x, y, words, more=''):
    return f'<text x="{x:.1f}" y="{y:.1f}"{more}>{html.escape(words)}</text>'


def drawn(nodes):
    width, height = lay_out(nodes)
    out = [f'<svg xmlns="http://www.w3.org/2000/svg" width="{width:.0f}" height="{height:.0f}" font-family="monospace" font-size="11">',
           f'<rect width="{width:.0f}" height="{height:.0f}" fill="white"/>']
    for at in nodes:
        wide, high = at.size()
        said = max((len(words) for words, _ in at.edges), default=0)  # all edges bend before the longest words
        for words, number in at.edges:
            child = nodes[number]
            x, y, end_x, end_y = at.x + wide, at.y + high / 2, child.x, child.y + child.size()[1] / 2
            bend = end_x - LETTER * said - 6
            out.append(f'<path d="M{x:.1f} {y:.1f} L{bend:.1f} {end_y:.1f} L{end_x:.1f} {end_y:.1f}" fill="none" stroke="#888"/>')
            out.append(text(bend + 2, end_y - 3, words, ' fill="#444"'))
    for at in nodes:
        wide, high = at.size()
        out.append(f'<rect x="{at.x:.1f}" y="{at.y:.1f}" width="{wide:.1f}" height="{high:.1f}" rx="4" fill="{COLOURS[at.kind]}" stroke="#666"/>')
        out += [text(at.x + PAD, at.y + PAD + LINE * (i + 0.75), line) for i, line in enumerate(at.lines)]
    return '\n'.join(out + ['</svg>', ''])


def main():
    if len(sys.argv) != 2:
        sys.exit('usage: tools/picture.py LISTING > tree.svg')
    try:
        if sys.argv[1] == '-':
            listing = sys.stdin.read()
        else:
            with open(sys.argv[1], encoding='utf-8') as file:
                listing = file.read()
        sys.stdout.write(drawn(read(listing)))
    except (OSError, UnicodeDecodeError, Bad) as wrong:
        sys.exit(f'picture.py: {wrong}')


main()
