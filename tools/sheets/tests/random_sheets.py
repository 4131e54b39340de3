"""Random sheet files that are accepted up to refusal 11, laid out as the tool would not do it.

Types stand in any order and may be unused, contain themselves, or share entries. Patterns have any
numbers that a file may give them, and literals overlap in the pool.
"""
import random

INT, BYTES, LIST, PAIR, TUPLE, DATA = range(6)


def u16s(*numbers):
    return b''.join(number.to_bytes(2, 'little') for number in numbers)


class SheetMaker:
    """Makes one sheet file."""

    def __init__(self, seed):
        self.random = random.Random(seed)
        self.entries = []
        self.constructors = []
        self.types = []
        self.patterns = []  # kind, a, literal, parts; a root is made after all that is inside it
        self.pool = bytes(self.random.choice(b'0127-abc') for _ in range(self.random.randint(0, 6)))

    def file(self):
        self.make_types()
        self.subject = self.random.randrange(len(self.types))
        roots = []
        for _ in range(self.random.randint(1, 6)):
            self.names = []
            roots.append(self.pattern(self.subject, 1))
        return self.laid_out(roots)

    def make_types(self):
        """Kinds come first, so that each type may have any type inside."""
        many = self.random.randint(1, 8)
        kinds = [self.random.randint(INT, DATA) for _ in range(many)]
        for kind in kinds:
            if kind == DATA:
                first, count = len(self.constructors), self.random.randint(1, 3)
                flag = self.random.randint(0, 3)
                least = 2 if count == 1 and flag == 1 else 0
                for _ in range(count):
                    self.constructors.append(self.entry_run(many, self.random.randint(least, 3)))
            else:
                count = {INT: 0, BYTES: 0, LIST: 1, PAIR: 2}.get(kind, self.random.randint(2, 3))
                flag, (first, count) = 0, self.entry_run(many, count)
            self.types.append((kind, flag, first, count))

    def entry_run(self, many, count):
        """Entries of their own, or some that are there for another type too."""
        if count == 0:
            return 0, 0
        if len(self.entries) >= count and self.random.random() < 0.3:
            return self.random.randint(0, len(self.entries) - count), count
        first = len(self.entries)
        self.entries += [self.random.randrange(many) for _ in range(count)]
        return first, count

    def pattern(self, type_number, depth):
        """A pattern that fits; its number here is not that of the file."""
        choice = self.random.random()
        enough = depth >= 11 or len(self.patterns) > 120
        if enough or choice < 0.2 or self.random.random() < depth / 12:
            return self.add(1, self.name()) if choice < 0.1 else self.add(0)
        if choice < 0.35:
            return self.add(2, self.name(), parts=[self.pattern(type_number, depth + 1)])
        kind, _, first, count = self.types[type_number]
        if kind == INT:
            return self.add(3, literal=self.random.choice([b'0', b'1', b'-12', b'27', b'7' * 64]))
        if kind == BYTES:
            letters = [self.random.choice(b'ab"\\\n\xff ') for _ in range(64)]
            return self.add(4, literal=bytes(letters[:self.random.choice([0, 1, 2, 3, 64])]))
        if kind == LIST:
            return self.list_pattern(type_number, depth)
        place = self.random.randrange(count) if kind == DATA else 0
        if kind == DATA:
            first, count = self.constructors[first + place]
        parts = [self.pattern(of, depth + 1) for of in self.entries[first:first + count]]
        return self.add({DATA: 7, PAIR: 8, TUPLE: 9}[kind], place, parts=parts)

    def list_pattern(self, type_number, depth):
        element = self.entries[self.types[type_number][2]]
        parts = [self.pattern(element, depth + 1) for _ in range(self.random.randint(0, 3))]
        if not parts or self.random.random() < 0.6:
            return self.add(5, parts=parts)
        tail = self.add(0) if self.random.random() < 0.5 else self.add(1, self.name())
        return self.add(6, parts=[*parts, tail])

    def name(self):
        """A number that the clause has not bound, some of them at the ends of what there is."""
        numbers = (0, 1, 2, 7, 40, 255, 256, 65535, *range(1000, 1200))
        free = [number for number in numbers if number not in self.names]
        self.names.append(self.random.choice(free[:8]))
        return self.names[-1]

    def add(self, kind, a=0, literal=b'', parts=()):
        self.patterns.append((kind, a, literal, list(parts)))
        return len(self.patterns) - 1

    def numbers(self, roots):
        """Numbers in which every child comes after its parent, otherwise by chance."""
        number, open_ones = {}, list(roots)
        while open_ones:
            chosen = open_ones.pop(self.random.randrange(len(open_ones)))
            number[chosen] = len(number)
            open_ones += self.patterns[chosen][3]
        return number

    def in_pool(self, literal):
        """Somewhere in the pool; what is new may begin with the pool's last bytes."""
        at = self.pool.find(literal)
        if at >= 0:
            return at if literal else 0
        shared = next(n for n in range(len(literal), -1, -1) if self.pool.endswith(literal[:n]))
        self.pool += literal[shared:]
        return len(self.pool) - len(literal)

    def laid_out(self, roots):
        number = self.numbers(roots)
        order = sorted(number, key=number.get)
        runs, children = {}, []
        for pattern in self.random.sample(order, len(order)):
            parts = self.patterns[pattern][3]
            runs[pattern] = (len(children) if parts else 0, len(parts))
            children += [number[part] for part in parts]
        records = []
        for pattern in order:
            kind, a, literal, _ = self.patterns[pattern]
            run = (self.in_pool(literal), len(literal)) if kind in (3, 4) else runs[pattern]
            records.append(bytes((kind, 0)) + u16s(a, *run))
        sections = [b''.join(bytes(t[:2]) + u16s(*t[2:]) for t in self.types),
                    b''.join(u16s(*run) for run in self.constructors), u16s(*self.entries),
                    b''.join(records), u16s(*children), u16s(*(number[root] for root in roots)),
                    self.pool]
        starts = [sum(map(len, sections[:i])) for i in range(7)]
        body = b''.join(sections) + u16s(*starts, self.subject)
        return body + u16s(len(body) + 2)


def random_sheet(seed):
    return SheetMaker(seed).file()
