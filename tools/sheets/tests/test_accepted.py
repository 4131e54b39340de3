"""Texts that are right, and the bytes of their files."""
import hashlib
import unittest

from random_texts import random_text
from support import ROOT, SAMPLES, faults, file_of, parse
from jobtext.writing import panel_file

# The first letters of the SHA-256 of each sample's sheet, and of its panels one behind the other.
SAMPLE_FILES = {
    'line': (330, 'a37619f386a5c498', 'd5a4adbb0c74ac24'),
    'listing': (104, '7f74df2d14c5a4d8', 'eaa347c05b21b947'),
    'pairing': (352, '3280ce1d52601782', 'ab9787be5e0da28d'),
    'station': (909, '5441c4f0dad2aead', 'de631b4c72fec866'),
}


def sample(name):
    return parse((SAMPLES / f'{name}.txt').read_text(encoding='utf-8'))


def digest(data):
    return hashlib.sha256(data).hexdigest()[:16]


class Samples(unittest.TestCase):
    def test_their_bytes_stay(self):
        for name, (length, sheet, panels) in SAMPLE_FILES.items():
            text = sample(name)
            made = file_of((SAMPLES / f'{name}.txt').read_text(encoding='utf-8'))
            every = b''.join(panel_file(text, panel) for panel in text.panels)
            self.assertEqual((len(made), digest(made), digest(every)), (length, sheet, panels))

    def test_they_are_the_files_of_the_programs(self):
        text = (SAMPLES / 'station.txt').read_text(encoding='utf-8')
        data = ROOT / 'crates/walker/data'
        self.assertEqual(file_of(text), (data / 'station.sheet').read_bytes())
        panel = panel_file(parse(text), 'calibrate')
        self.assertEqual(panel, (data / 'calibrate.panel').read_bytes())
        listing = (SAMPLES / 'listing.txt').read_text(encoding='utf-8')
        self.assertEqual(file_of(listing), (ROOT / 'crates/lister/stdin').read_bytes())

    def test_there_is_no_other(self):
        self.assertEqual(sorted(SAMPLE_FILES), sorted(path.stem for path in SAMPLES.glob('*.txt')))


class Forms(unittest.TestCase):
    def right(self, source):
        self.assertEqual(faults(source), [])

    def same(self, one, other):
        self.assertEqual(file_of(one), file_of(other))

    def test_every_form(self):
        self.right('''\
# every form once
type Serial = bytes
type Same = (Serial)
type Enum = One | Two | Three(int, Serial)
type Single = Single()
type Flagged = opaque listlike Flagged(int)
type Turned = listlike opaque Turned(int)
type Tree = Leaf | Node(Tree, list Tree)
type Loop = list Loop
subject tuple int Same (list Enum) (pair Single Flagged) Tree Loop Turned
clause (0, "", [], <Single, Flagged(1)>, Leaf, [], Turned(_))
clause (-5, 0x00fF, [One, Two(), ..rest], <Single(), _>, Node(Leaf, []) as tree, [[], [[]]], _)
clause (n7, "a\\"b\\\\\\n\\t\\x00", [Three(1, x) as y as z, .._], both, _, [_, ..], _) as all
clause _
panel one = (1, "x", [Three(1, "y")], <Single, Flagged(-1)>, Node(Leaf, [Leaf]), [], Turned(0))
''')

    def test_comments_and_blanks(self):
        self.same('# first\n\n  subject   list  int  # here\nclause[1,..x]#there\n   clause _ \n',
                  'subject list int\nclause [1, ..x]\nclause _')

    def test_a_hash_in_quotes_is_no_comment(self):
        self.assertIn(b'a  # b', file_of('subject bytes\nclause "a  # b"  # "c"\n'))

    def test_escapes(self):
        made = file_of('subject bytes\nclause "\\"\\\\\\n\\t\\x00\\xfF\\x41"\n')
        self.assertIn(b'"\\\n\t\x00\xffA', made)
        self.same('subject bytes\nclause "\\x41\\x42"\n', 'subject bytes\nclause "AB"\n')
        self.same('subject bytes\nclause 0x4142\n', 'subject bytes\nclause "AB"\n')
        self.same('subject bytes\nclause "ä"\n', 'subject bytes\nclause 0xc3a4\n')

    def test_lines_in_any_order(self):
        self.same('clause A\nsubject A\ntype A = A | B\n', 'type A = A | B\nsubject A\nclause A\n')

    def test_types_and_constructors_may_share_names(self):
        self.right('type Meter = Meter(Serial)\ntype Serial = Serial()\nsubject Meter\n'
                   'clause Meter(Serial)\n')

    def test_other_names_make_no_type(self):
        self.same('type A = B\ntype B = list int\nsubject A\nclause []\n',
                  'subject list int\nclause []\n')

    def test_equal_forms_of_one_line_are_one_type(self):
        head = 'type A = One | Two\n'
        one = file_of(head + 'subject pair (list A) (list A)\nclause _\n')
        two = file_of(head + 'type B = list A\nsubject pair (list A) B\nclause _\n')
        self.assertEqual(len(two) - len(one), 6 + 2)

    def test_an_unused_type_is_not_in_the_file(self):
        self.same('type A = A | B\nsubject int\nclause _\n', 'subject int\nclause _\n')

    def test_panels_alone(self):
        text = parse('subject list int\npanel a = [1]\n')
        records = '0200000000000100' '0000000000000100'
        self.assertEqual(panel_file(text, 'a').hex(),
                         records + '0100' '31' '0000' '1000' '1200' '1b00')

    def test_every_kind_of_value(self):
        text = parse('type A = One | Two(int)\nsubject tuple int bytes (list A) (pair A A)\n'
                     'panel a = (-5, "x", [One], <One, Two(7)>)\n')
        made = panel_file(text, 'a')
        kinds = [(made[at], made[at + 2]) for at in range(0, 9 * 8, 8)]
        self.assertEqual(kinds, [(4, 0), (0, 0), (1, 0), (2, 0), (5, 0), (3, 0), (5, 0), (5, 1),
                                 (0, 0)])

    def test_random_texts(self):
        for seed in range(300):
            self.assertEqual(faults(random_text(seed)), [], f'seed {seed}')


if __name__ == '__main__':
    unittest.main()
