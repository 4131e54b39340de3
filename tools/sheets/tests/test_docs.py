"""What docs/TEXT.md shows is what the tool does."""
import re
import unittest

from support import ROOT, faults, file_of, parse
from jobtext import limits
from jobtext.showing import shown

DOC = (ROOT / 'docs/TEXT.md').read_text(encoding='utf-8')


def section(heading):
    return DOC.split(f'\n## {heading}\n')[1].split('\n## ')[0]


def block(heading, number):
    """An indented block of a section, by its place there."""
    blocks = re.findall(r'(?:^    .*\n|^\n(?=    ))+', section(heading), re.MULTILINE)
    lines = [part for part in blocks if part.strip()][number].strip('\n').split('\n')
    return ''.join(line[4:] + '\n' for line in lines)


def written(heading):
    """What stands in backquotes in the first column of a section's table."""
    rows = re.findall(r'^\| (`.*?`) \|', section(heading).replace('\\|', '\0'), re.MULTILINE)
    return [word.replace('\0', '|') for row in rows for word in re.findall('`([^`]*)`', row)]


class Document(unittest.TestCase):
    maxDiff = None

    def setUp(self):
        self.text = block('A text', 0)

    def test_the_text(self):
        self.assertEqual(faults(self.text), [])
        self.assertEqual(parse(self.text).panels.keys(), {'morning'})

    def test_the_text_gone_wrong(self):
        clause = '[Meter(_, Programmed, serial) as first, ..rest]'
        self.assertIn(clause, self.text)
        wrong = self.text.replace(clause, '[Meter(Programmed, Water, serial), ..rest]')
        told = ''.join(f'line.txt: {fault}\n' for fault in faults(wrong))
        self.assertEqual(told, block('A text', 1))

    def test_its_names(self):
        names = parse(self.text).names.items()
        told = ''.join(f'n{number} {name}\n' for name, number in names)
        self.assertEqual(told, block('Names and their numbers', 0))

    def test_its_file_shown(self):
        self.assertEqual(shown(file_of(self.text)), block('A sheet file as a text', 0))

    def test_types(self):
        """Every type that the table has is taken."""
        lines = [word if word.startswith(('type', 'subject')) else f'type Form{number} = {word}'
                 for number, word in enumerate(written('Types'))]
        self.assertGreater(len(lines), 14)
        self.assertEqual(faults('\n'.join([*lines, 'clause _'])), [])

    def test_patterns(self):
        """Every pattern that the table has fits some type."""
        data = 'type Socket = Empty | Fault(int) | Device(bytes, list int)\n'
        subjects = ['int', 'bytes', 'list int', 'pair int int', 'tuple int int int', 'Socket']
        patterns = written('Patterns and values')
        self.assertGreater(len(patterns), 16)
        for pattern in patterns:
            texts = [f'{data}subject {subject}\nclause {pattern}\n' for subject in subjects]
            self.assertIn([], [faults(text) for text in texts], pattern)

    def test_limits(self):
        for number in (limits.TEXT_BYTES_MOST, limits.SHEET_BYTES_MOST, limits.PANEL_BYTES_MOST,
                       limits.RECORDS_MOST, limits.TYPES_MOST, limits.ENTRIES_MOST,
                       limits.CONSTRUCTORS_MOST, limits.PATTERNS_MOST, limits.CLAUSES_MOST):
            self.assertIn(f'| {number:,}', DOC)

    def test_width(self):
        self.assertLessEqual(max(map(len, DOC.splitlines())), 100)


if __name__ == '__main__':
    unittest.main()
