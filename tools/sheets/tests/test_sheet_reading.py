"""Sheet files that break one rule each, and the refusal by which each is told."""
import copy
import struct
import unittest

from support import ROOT, file_of, read_sheet
from jobtext.sheet_reading import Refused

LISTINGS = ROOT / 'crates/test_listings'
FORMS = {'types': '<BBHH', 'constructors': '<HH', 'entries': '<H', 'patterns': '<BBHHH',
         'children': '<H', 'roots': '<H'}

# A list of pairs, and two clauses: [<5, One(x)>, ..n9] and [<_, Two> as n4].
SHEET = {
    'types': [[2, 0, 0, 1], [3, 0, 1, 2], [0, 0, 0, 0], [5, 2, 0, 2], [1, 0, 0, 0], [4, 0, 1, 3]],
    'constructors': [[3, 1], [0, 0]],
    'entries': [[1], [2], [3], [4]],
    'patterns': [[6, 0, 0, 0, 2], [8, 0, 0, 2, 2], [1, 0, 9, 0, 0], [3, 0, 0, 0, 1],
                 [7, 0, 0, 4, 1], [1, 0, 1, 0, 0], [5, 0, 0, 5, 1], [2, 0, 4, 6, 1],
                 [8, 0, 0, 7, 2], [0, 0, 0, 0, 0], [7, 0, 1, 0, 0]],
    'children': [[1], [2], [3], [4], [5], [7], [8], [9], [10]],
    'roots': [[0], [6]],
    'pool': b'5',
    'subject': 0,
}


def packed(sheet):
    """The file of these records."""
    sections = [b''.join(struct.pack(form, *record) for record in sheet[name])
                for name, form in FORMS.items()] + [sheet['pool']]
    starts = [sum(map(len, sections[:i])) for i in range(7)]
    body = b''.join(sections) + struct.pack('<8H', *starts, sheet['subject'])
    return body + struct.pack('<H', len(body) + 2)


def refused(data):
    """The number and place by which a file is refused, as the programs say it."""
    try:
        read_sheet(data)
    except Refused as refusal:
        return f'refused {refusal.number} {refusal.place}'
    return ''


class Rules(unittest.TestCase):
    def says(self, answer, **records):
        """What is said of the sheet with other records: `types_0=[..]`, or a whole section."""
        sheet = copy.deepcopy(SHEET)
        for name, new in records.items():
            section, _, number = name.partition('_')
            if number:
                sheet[section][int(number)] = new
            else:
                sheet[section] = new
        self.assertEqual(refused(packed(sheet)), answer, records)

    def test_the_sheet_is_accepted(self):
        self.says('')
        self.says('', pool=b'5 and bytes that nothing uses')

    def test_2_and_3(self):
        good = packed(SHEET)
        self.assertEqual(refused(good + b'\0'), 'refused 2 0')
        self.assertEqual(refused(good[:-1]), 'refused 2 0')
        self.assertEqual(refused(b''), 'refused 2 0')
        self.assertEqual(refused(bytes(15) + struct.pack('<H', 17)), 'refused 2 0')
        self.assertEqual(refused(bytes(16) + struct.pack('<H', 18)), 'refused 4 0')
        self.assertEqual(refused(bytes(8190) + struct.pack('<H', 8192)), 'refused 4 0')
        self.assertEqual(refused(bytes(8191) + struct.pack('<H', 8193)), 'refused 2 0')
        self.assertEqual(refused(bytes(1 << 17)), 'refused 2 0')
        for at, new in ((0, 6), (1, 37), (2, 0), (6, len(good)), (6, len(good) - 17)):
            where = len(good) - 18 + 2 * at
            wrong = good[:where] + struct.pack('<H', new) + good[where + 2:]
            self.assertEqual(refused(wrong), 'refused 3 0', (at, new))

    def test_4_and_5(self):
        self.says('refused 4 0', roots=[])
        self.says('', types=SHEET['types'] + [[0, 0, 0, 0]] * 58)
        self.says('refused 5 0', types=SHEET['types'] + [[0, 0, 0, 0]] * 59)
        self.says('', constructors=SHEET['constructors'] + [[0, 0]] * 126)
        self.says('refused 5 0', constructors=SHEET['constructors'] + [[0, 0]] * 127)
        self.says('', entries=SHEET['entries'] + [[0]] * 252)
        self.says('refused 5 0', entries=SHEET['entries'] + [[0]] * 253)
        self.says('refused 5 0', patterns=SHEET['patterns'] + [[0, 0, 0, 0, 0]] * 182)
        self.says('refused 5 0', children=SHEET['children'] + [[1]] * 184)
        self.says('refused 5 0', roots=[[0]] * 33)
        self.says('refused 8 0', roots=[[0]] * 32)
        self.says('refused 8 0', patterns=SHEET['patterns'] + [[0, 0, 0, 0, 0]] * 181)
        self.says('refused 8 0', children=SHEET['children'] + [[1]] * 183)

    def test_6(self):
        for record in ([6, 0, 0, 0], [0, 1, 0, 0], [0, 0, 1, 0], [0, 0, 0, 1], [1, 0, 0, 1],
                       [2, 0, 0, 0], [2, 0, 0, 2], [2, 0, 4, 1], [3, 0, 0, 1], [3, 0, 0, 3],
                       [3, 2, 0, 2], [4, 0, 0, 1], [4, 0, 0, 0], [4, 0, 2, 3], [4, 0, 0, 5],
                       [5, 0, 0, 0], [5, 4, 0, 2], [5, 0, 1, 2], [5, 0, 2, 1]):
            self.says('refused 6 0', types_4=record)
        for record in ([0, 0, 0, 0], [2, 0, 3, 1], [3, 0, 2, 2], [4, 0, 0, 4], [5, 3, 1, 1],
                       [5, 0, 0, 2]):
            self.says('', types_4=record)
        for run in ([4, 1], [0, 5], [1, 0]):
            self.says('refused 6 0', constructors_1=run)
        self.says('refused 6 0', entries_3=[6])
        self.says('refused 6 0', subject=6)
        self.says('', entries_3=[5])

    def test_7(self):
        self.says('refused 7 4', types_4=[5, 1, 0, 1])
        self.says('refused 7 4', types_4=[5, 1, 0, 1], types_5=[5, 1, 0, 1])
        for record in ([5, 0, 0, 1], [5, 3, 0, 1], [5, 2, 0, 1], [5, 1, 0, 2], [5, 1, 1, 1]):
            self.says('', types_4=record)

    def test_8_the_fields_of_a_pattern(self):
        for number, records in {
                2: ([10, 0, 0, 0, 0], [1, 1, 9, 0, 0], [1, 0, 9, 1, 0], [1, 0, 9, 0, 1],
                    [0, 0, 1, 0, 0], [0, 0, 0, 1, 0]),
                3: ([3, 0, 1, 0, 1], [3, 0, 0, 1, 1], [3, 0, 0, 0, 2], [4, 0, 1, 0, 0]),
                8: ([8, 0, 0, 7, 1], [8, 0, 1, 7, 2], [8, 0, 0, 7, 3], [8, 0, 0, 8, 2]),
                7: ([2, 0, 4, 6, 0], [2, 0, 4, 6, 2], [2, 0, 4, 0, 0]),
                6: ([5, 0, 1, 5, 1], [5, 0, 0, 5, 0], [6, 0, 0, 5, 1])}.items():
            for record in records:
                self.says('refused 8 0', **{f'patterns_{number}': record})

    def test_8_children_and_roots(self):
        self.says('refused 8 0', children_8=[11])
        self.says('refused 8 0', roots_1=[11])
        self.says('refused 8 0', children_8=[9])
        self.says('refused 8 0', roots=[[0]])
        self.says('refused 8 0', roots=[[0], [6], [10]])
        self.says('refused 8 0', children=SHEET['children'] + [[10]])
        self.says('refused 8 0', children_4=[4])
        itself = SHEET['patterns'] + [[2, 0, 5, 9, 1]]
        self.says('refused 8 0', patterns=itself, children=SHEET['children'] + [[11]])
        self.says('refused 8 0', patterns=SHEET['patterns'] + [[0, 0, 0, 0, 0]])

    def test_8_tails(self):
        one = {'children': [[1]], 'roots': [[0]], 'pool': b''}
        tail = [[6, 0, 0, 0, 1], [1, 0, 1, 0, 0]]
        self.says('refused 8 0', patterns=tail, **one)
        two = {'children': [[1], [2]], 'roots': [[0]], 'pool': b''}
        for last, answer in (([0, 0, 0, 0, 0], ''), ([1, 0, 3, 0, 0], ''),
                             ([4, 0, 0, 0, 0], 'refused 8 0'), ([5, 0, 0, 0, 0], 'refused 8 0')):
            patterns = [[6, 0, 0, 0, 2], [0, 0, 0, 0, 0], last]
            self.says(answer, patterns=patterns, **two)

    def test_8_depth(self):
        for many, answer in ((11, ''), (12, 'refused 8 0')):
            patterns = [[2, 0, i, i, 1] for i in range(many)] + [[0, 0, 0, 0, 0]]
            self.says(answer, patterns=patterns, children=[[i + 1] for i in range(many)],
                      roots=[[0]])

    def test_9(self):
        for literal, answer in ((b'0', ''), (b'-1', ''), (b'9' * 64, ''), (b'-' + b'9' * 63, ''),
                                (b'9' * 65, 'refused 9 3'), (b'', 'refused 9 3'),
                                (b'-0', 'refused 9 3'), (b'01', 'refused 9 3'),
                                (b'-', 'refused 9 3'), (b'1\n', 'refused 9 3')):
            self.says(answer, patterns_3=[3, 0, 0, 0, len(literal)], pool=literal)
        for many, answer in ((64, ''), (65, 'refused 9 0')):
            self.says(answer, subject=4, patterns=[[4, 0, 0, 0, many]], children=[], roots=[[0]],
                      pool=bytes(many))

    def test_10(self):
        self.says('refused 10 0', patterns_3=[4, 0, 0, 0, 1])
        self.says('refused 10 0', patterns_1=[9, 0, 0, 2, 2])
        self.says('refused 10 1', patterns_10=[7, 0, 2, 0, 0])
        self.says('refused 10 1', patterns_10=[7, 0, 0, 0, 0])
        self.says('refused 10 1', patterns_8=[5, 0, 0, 7, 2])
        self.says('refused 10 0', subject=1)
        self.says('', patterns_0=[5, 0, 0, 0, 2], patterns_2=[0, 0, 0, 0, 0])

    def test_11(self):
        self.says('refused 11 0', patterns_2=[1, 0, 1, 0, 0])
        self.says('refused 11 1', patterns_9=[1, 0, 4, 0, 0])
        self.says('', patterns_9=[1, 0, 9, 0, 0])


class Stored(unittest.TestCase):
    def test_the_hand_made_files(self):
        """Up to 11 a file is refused as the stored answers say. Later numbers are of the tree."""
        lines = (LISTINGS / 'stdout').read_text().splitlines()
        count = 0
        for number, line in enumerate(lines):
            if not line.endswith('.sheet'):
                continue
            answer = lines[number + 1]
            early = answer.startswith('refused') and int(answer.split()[1]) <= 11
            data = (LISTINGS / 'data' / line).read_bytes()
            self.assertEqual(refused(data), answer if early else '', line)
            count += 1
        self.assertGreater(count, 20)

    def test_files_of_texts(self):
        self.assertEqual(refused(file_of('subject int\nclause 5\n')), '')


if __name__ == '__main__':
    unittest.main()
