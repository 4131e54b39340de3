"""The limits of the format: what has just room, and the first that is too much."""
import unittest

from support import Wrong, faults, parse
from jobtext.writing import panel_file


def long_words(count):
    """Literals of 64 bytes, none of which is found in others that stand side by side."""
    return [f'"{f"{i:03}" * 21}-"' for i in range(count)]


class Limits(unittest.TestCase):
    def told(self, source, *lines):
        self.assertEqual(faults(source), list(lines))

    def test_clauses(self):
        self.told('subject int\n' + 'clause _\n' * 32)
        self.told('subject int\n' + 'clause _\n' * 33,
                  'line 34, column 1: this is clause 33; a sheet has at most 32')

    def test_patterns(self):
        row = 'clause [' + ', '.join('_' * 95) + ']\n'
        self.told('subject list int\n' + row + row)
        self.told('subject list int\n' + row + 'clause [' + ', '.join('_' * 96) + ']\n',
                  'line 3, column 294: this is pattern 193; a sheet has at most 192')

    def test_depth(self):
        head = 'type L = list L\nsubject L\nclause '
        for deepest in ('_', '[]', 'x'):
            self.told(head + '[' * 11 + deepest + ']' * 11)
            self.told(head + '[' * 12 + deepest + ']' * 12,
                      'line 3, column 20: patterns nest more than 12 deep here')

    def test_depth_by_as(self):
        names = ''.join(f' as {name}' for name in 'abcdefghijkl')
        self.told('subject int\nclause _' + names[:-len(' as l')])
        self.told('subject int\nclause _' + names,
                  'line 2, column 65: patterns nest more than 12 deep here')
        head = 'type L = list L\nsubject L\nclause '
        self.told(head + '[' * 10 + '[] as x' + ']' * 10)
        self.told(head + '[' * 11 + '[] as x' + ']' * 11,
                  'line 3, column 22: patterns nest more than 12 deep here')

    def test_depth_by_as_further_out(self):
        head = 'type L = list L\nsubject L\nclause '
        self.told(head + '[' * 10 + '_' + ']' * 10 + ' as x')
        self.told(head + '[' * 11 + '_' + ']' * 11 + ' as x',
                  'line 3, column 19: patterns nest more than 12 deep here')

    def test_depth_of_a_tail(self):
        head = 'type L = list L\nsubject L\nclause '
        self.told(head + '[' * 10 + '[_, ..x]' + ']' * 10)
        self.told(head + '[' * 11 + '[_, ..x]' + ']' * 11,
                  'line 3, column 20: patterns nest more than 12 deep here')
        self.told(head + '[' * 9 + '[_, ..x]' + ']' * 9 + ' as y')
        self.told(head + '[' * 9 + '[_, ..x]' + ']' * 9 + ' as y as z',
                  'line 3, column 18: patterns nest more than 12 deep here')

    def test_types(self):
        def chain(count):
            names = [f'type T{i} = C{i}(T{i + 1}, T{i + 1})\n' for i in range(count - 1)]
            return 'subject T0\nclause _\n' + ''.join(names) + f'type T{count - 1} = Last()\n'
        self.told(chain(64))
        self.told(chain(65), 'line 67, column 6: with this the sheet has over 64 types, '
                             'the most there may be')

    def test_types_without_a_name(self):
        lists = '(list ' * 62 + '((int))' + ')' * 62
        self.told(f'subject pair {lists} int\nclause _\n')
        self.told(f'subject pair {lists} bytes\nclause _\n',
                  'line 1, column 456: with this the sheet has over 64 types, '
                  'the most there may be')
        self.told(f'subject {"list " * 63} int\nclause _\n')
        self.told(f'subject {"list " * 64} int\nclause _\n',
                  'line 1, column 330: types nest more than 64 deep here')

    def test_constructors(self):
        def data(name, count):
            return f'type {name} = ' + ' | '.join(f'{name}{i}' for i in range(count)) + '\n'
        tail = 'subject pair A B\nclause _\n'
        self.told(data('A', 100) + data('B', 28) + tail)
        self.told(data('A', 100) + data('B', 29) + tail,
                  'line 2, column 168: with this the sheet has over 128 constructors, '
                  'the most there may be')

    def test_type_entries(self):
        def fields(count):
            return ', '.join(['int'] * count)
        self.told(f'type A = A({fields(200)}) | B({fields(56)})\nsubject A\nclause _\n')
        self.told(f'type A = A({fields(200)}) | B({fields(57)})\nsubject A\nclause _\n',
                  'line 1, column 1014: with this the sheet has over 256 type entries, '
                  'the most there may be')

    def test_the_length_of_a_sheet(self):
        def text(count, last):
            words = [*long_words(count), f'"{"x" * last}"']
            return 'subject list bytes\nclause [' + ', '.join(words) + ']\n'
        # 112 patterns with their types and the trailer take 1,152 bytes; 110 literals take 7,040.
        self.told(text(110, 0))
        self.told(text(110, 1), 'the sheet file would have 8193 bytes; 8192 are the most')
        with self.assertRaises(Wrong):
            parse(text(110, 1))

    def test_values(self):
        head = 'subject list int\nclause _\n'
        self.told(head + 'panel p = [' + ', '.join('7' * 511) + ']\n')
        self.told(head + 'panel p = [' + ', '.join('7' * 512) + ']\n',
                  'line 3, column 1545: this is value 513; a panel has at most 512')

    def test_depth_of_a_panel(self):
        head = 'type L = list L\nsubject L\nclause _\npanel p = '
        self.told(head + '[' * 32 + ']' * 32)
        self.told(head + '[' * 33 + ']' * 33,
                  'line 4, column 43: values nest more than 32 deep here')

    def test_the_length_of_a_panel(self):
        def text(count):
            words = ', '.join(long_words(count))
            return f'subject list bytes\nclause _\npanel p = []\npanel q = [{words}]\n'
        self.assertLessEqual(len(panel_file(parse(text(221)), 'q')), 16384)
        self.told(text(222), 'line 4, column 7: panel q would have 16444 bytes; 16384 are the most')

    def test_types_are_told_beside_other_faults(self):
        fields = ', '.join(['int'] * 257)
        self.told(f'type A = A({fields})\nsubject A\nclause 5\n',
                  'line 1, column 10: with this the sheet has over 256 type entries, '
                  'the most there may be',
                  'line 3, column 8: 5 is an integer; an A is expected here')

    def test_a_panel_that_is_not_there(self):
        def panels(count):
            return 'subject int\n' + ''.join(f'panel p{i} = 5\n' for i in range(count))
        twelve = ', '.join(f'p{i}' for i in range(12))
        for source, there in (('subject int\nclause _\n', 'none'), (panels(2), 'p0, p1'),
                              (panels(12), twelve), (panels(13), f'{twelve}, ..')):
            with self.assertRaises(Wrong) as caught:
                panel_file(parse(source), 'c')
            told = f'there is no panel c; there are: {there}'
            self.assertEqual(str(caught.exception.faults[0]), told)


if __name__ == '__main__':
    unittest.main()
