"""Random texts that are right, the same for the same seed."""
import random

NAMES = ['serial', 'rest', 'x', 'y', 'code', 'n1', 'n2', 'n7', 'n0', 'n65535', 'n40', 'waiting']
LITERALS = ['""', '"A7"', '"M-20417"', '0x', '0x00ff', r'"a\"b\\c\n\t\x7f"', '"a  # b"',
            '"Zähler"']
INTEGERS = ['0', '1', '-1', '42', '-7', '20417', '9' * 64]


class NoValue(Exception):
    """A type whose smallest value is deeper than a panel may be."""


class TextMaker:
    """Makes one text: types, a subject, clauses and panels that fit it."""

    def __init__(self, seed):
        self.random = random.Random(seed)
        self.types = {}  # by name: a form, or constructors with their fields
        self.lines = []
        self.data_names = [f'Data{i}' for i in range(self.random.randint(1, 4))]
        self.other_names = [f'Other{i}' for i in range(self.random.randint(0, 2))]
        self.used_names = []

    def text(self):
        for name in self.data_names:
            self.add_data(name)
        for name in self.other_names:
            # Other names lead to forms alone here, so that none leads to itself.
            self.types[name] = self.form(2, names=self.data_names)
            self.lines.append(f'type {name} = {written(self.types[name])}')
        self.subject = self.form(3)
        self.lines.append(f'subject {written(self.subject)}')
        for _ in range(self.random.randint(1, 5)):
            self.used_names = []
            self.lines.append(f'clause {self.pattern(self.subject, 1)}  # a clause')
        self.random.shuffle(self.lines)
        for i in range(2):
            try:
                self.lines.append(f'panel p{i} = {self.value(self.subject, 1)}')
            except NoValue:
                break
        return '\n'.join(self.lines) + '\n'

    def add_data(self, name):
        flags = self.random.choice(['', '', 'opaque ', 'listlike ', 'opaque listlike '])
        many = self.random.randint(1, 4)
        least = 2 if many == 1 and flags == 'opaque ' else 0
        self.types[name] = [
            (f'{name}C{i}', [self.form(2) for _ in range(self.random.randint(least, 3))])
            for i in range(many)]
        parts = [constructor + (f'({", ".join(map(written, fields))})' if fields else '')
                 for constructor, fields in self.types[name]]
        if many == 1 and not parts[0].endswith(')'):
            parts[0] += '()'
        self.lines.append(f'type {name} = {flags}{" | ".join(parts)}')

    def form(self, depth, names=None):
        kind = self.random.choice(['int', 'bytes', 'list', 'pair', 'tuple', 'named', 'named'])
        if kind == 'named':
            return ('named', self.random.choice(names or self.data_names + self.other_names))
        parts = self.random.randint(2, 3)
        count = {'int': 0, 'bytes': 0, 'list': 1, 'pair': 2, 'tuple': parts}[kind]
        if count and depth == 0:
            return ('int',)
        return (kind, *(self.form(depth - 1, names) for _ in range(count)))

    def meant(self, form):
        while form[0] == 'named':
            body = self.types[form[1]]
            if isinstance(body, list):
                return ('data', body)
            form = body
        return form

    def pattern(self, form, depth):
        choice = self.random.random()
        if depth >= 9 or choice < 0.15 or self.random.random() < depth / 12:
            return self.name() if choice < 0.1 else '_'
        if choice < 0.3:
            inner = self.pattern(form, depth + 1)
            name = self.name()
            return inner if name == '_' else f'{inner} as {name}'
        return self.built(self.meant(form), lambda part: self.pattern(part, depth + 1), False)

    def name(self):
        """A name that the clause has not bound; `_` where there is none left."""
        free = [name for name in NAMES if name not in self.used_names]
        if not free:
            return '_'
        self.used_names.append(self.random.choice(free))
        return self.used_names[-1]

    def value(self, form, depth):
        if depth > 14:
            raise NoValue
        return self.built(self.meant(form), lambda part: self.value(part, depth + 1), True)

    def built(self, meant, inside, is_value):
        kind, *parts = meant
        if kind == 'int':
            return self.random.choice(INTEGERS)
        if kind == 'bytes':
            return self.random.choice(LITERALS)
        if kind == 'data':
            constructor, fields = self.random.choice(parts[0])
            return constructor + (f'({", ".join(map(inside, fields))})' if fields else '')
        if kind != 'list':
            opening, closing = '<>' if kind == 'pair' else '()'
            return opening + ', '.join(map(inside, parts)) + closing
        elements = [inside(parts[0]) for _ in range(self.random.randint(0, 2))]
        if elements and not is_value and self.random.random() < 0.4:
            elements.append('..' + self.random.choice(['', '_', self.name()]))
        return '[' + ', '.join(elements) + ']'


def written(form):
    """A form in the words of a text; every part of several words is in brackets."""
    if form[0] == 'named':
        return form[1]
    parts = [written(part) for part in form[1:]]
    return ' '.join([form[0], *(f'({part})' if ' ' in part else part for part in parts)])


def random_text(seed):
    return TextMaker(seed).text()
