"""A sheet file shown as a text, and that a file made of the text is the same sheet again."""
import pathlib
import struct
import tempfile
import unittest

from random_sheets import random_sheet
from random_texts import random_text
from support import ROOT, SAMPLES, command, faults, file_of, same_meaning
from jobtext.showing import HEAD, shown

DEEP = ROOT / 'crates/test_listings/data/depth-13.sheet'
VECTORS = ROOT / 'crates/test_vectors/data/vectors'


class Shown(unittest.TestCase):
    def check_again(self, data, about=''):
        """The text of a file gives a file of the same meaning, and that one is reached again."""
        made = file_of(shown(data))
        self.assertTrue(same_meaning(data, made), about)
        self.assertEqual(file_of(shown(made)), made, about)

    def test_every_form(self):
        self.assertEqual(shown(file_of('''\
type Serial = bytes
type Kind = Old | New(Serial, int) | Odd(list Kind)
type Single = Single()
type Flagged = opaque listlike Flagged(Single)
subject tuple Kind (pair Flagged int) (list Serial)
clause (Odd([Old, New("a\\"\\\\ b", n7), ..rest]) as odd, <Flagged(_), -5>, ["", 0x00ff, "\\n", ..])
clause _
''')), f'''\
{HEAD}
type T0 = tuple T1 T5 T8
type T1 = C1_0 | C1_1(T2, T3) | C1_2(T4)
type T2 = bytes
type T3 = int
type T4 = list T1
type T5 = pair T6 T3
type T6 = opaque listlike C6_0(T7)
type T7 = C7_0()
type T8 = list T2
subject T0
clause (C1_2([C1_0, C1_1("a\\"\\\\ b", n7), ..n1]) as n2, <C6_0(_), -5>, ["", 0x00ff, 0x0a, .._])
clause _
''')

    def test_bytes(self):
        for byte, written in ((0x1f, '0x1f'), (0x20, '" "'), (0x22, '"\\""'), (0x5c, '"\\\\"'),
                              (0x7e, '"~"'), (0x7f, '0x7f'), (0x80, '0x80'), (0xff, '0xff')):
            data = file_of(f'subject bytes\nclause 0x{byte:02x}\n')
            self.assertTrue(shown(data).endswith(f'clause {written}\n'), byte)
            self.check_again(data)

    def test_a_file_of_a_text_is_made_again_byte_for_byte(self):
        sources = [path.read_text(encoding='utf-8') for path in sorted(SAMPLES.glob('*.txt'))]
        sources += [random_text(seed) for seed in range(250)]
        for source in sources:
            made = file_of(source)
            self.assertEqual(file_of(shown(made)), made, source)

    def test_random_files(self):
        for seed in range(250):
            self.check_again(random_sheet(seed), f'seed {seed}')

    def test_the_vectors(self):
        """Sheets from elsewhere, 300 of them, that are held with the listings of their trees."""
        data = VECTORS.read_bytes()
        at = count = 0
        while at < len(data):
            length, listing = struct.unpack_from('<HH', data, at)
            self.check_again(data[at + 4:at + 4 + length], f'vector {count}')
            at += 4 + length + listing
            count += 1
        self.assertEqual(count, 300)

    def test_unused_types_are_marked(self):
        data = file_of('subject pair int bytes\nclause _\n')
        lone = bytearray(data)
        struct.pack_into('<H', lone, len(lone) - 4, 2)  # the subject is now the bytes
        self.assertEqual(shown(bytes(lone)), f'''\
{HEAD}
type T0 = pair T1 T2  # unused
type T1 = int  # unused
type T2 = bytes
subject T2
clause _
''')

    def test_a_text_that_has_no_room(self):
        """Types that share their constructors: the text writes them out for each type."""
        types = b''.join(struct.pack('<BBHH', 5, 0, 0, 120) for _ in range(2))
        pair = struct.pack('<BBHH', 3, 0, 0, 2)
        starts = (0, 18, 18 + 480, 502, 510, 510, 512)
        data = types + pair + bytes(480) + struct.pack('<HH', 0, 1) + bytes(8) + bytes(2)
        data += struct.pack('<9H', *starts, 2, len(data) + 18)
        text = shown(data)
        self.assertTrue(text.startswith('# No file can be made of this text: with this the sheet '
                                        'has over 128 constructors, the most there may be.\n'))
        self.assertEqual(len(faults(text)), 1)


class Command(unittest.TestCase):
    def test_told_by_the_command(self):
        with tempfile.TemporaryDirectory() as folder:
            file = pathlib.Path(folder) / 'a.sheet'
            file.write_bytes(DEEP.read_bytes())
            told = (f'{file}: refused 8 0: a pattern, child or root breaks the format, '
                    'or patterns nest too deeply\n')
            self.assertEqual(command('show', file), (1, '', told))

    def test_shown_by_the_command(self):
        sheet = ROOT / 'crates/walker/data/station.sheet'
        self.assertEqual(command('show', sheet), (0, shown(sheet.read_bytes()), ''))


if __name__ == '__main__':
    unittest.main()
