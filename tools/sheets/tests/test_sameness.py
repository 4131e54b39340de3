"""A panel of one text for the sheet of another: the types have to be the same."""
import pathlib
import tempfile
import unittest

from support import Wrong, command, parse
from jobtext.sameness import check_same

SHEET = '''\
# The sheet's text begins with a comment, so that its lines are others.
type Serial = bytes
type Firmware = opaque Firmware(int, int)
type Socket = Empty | Fault(int) | Device(Serial, Firmware, list Socket)
type Unused = Unused(int)
subject pair (list Socket) int
clause _
'''
PANELS = '''\
type Firmware = opaque Firmware(int, int)
type Socket = Empty | Fault(int) | Device(bytes, Firmware, Sockets)
type Sockets = list Socket
type Other = Nothing | To | Do(With, It)
type With = int
type It = bytes
subject pair Sockets int
panel a = <[Empty, Device("M-1", Firmware(1, 0), [])], 5>
'''


def told(panels, sheet=SHEET):
    """The difference that is told of two texts."""
    try:
        check_same(parse(panels), parse(sheet), 'sheet.txt')
    except Wrong as wrong:
        return [str(fault) for fault in wrong.faults]
    return []


class Same(unittest.TestCase):
    maxDiff = None

    def differs(self, old, new, line):
        panels = PANELS.replace('panel a', '# panel a').replace(old, new)
        self.assertNotEqual(panels, PANELS)
        self.assertEqual(told(panels), [line])

    def test_only_what_the_subject_reaches_counts(self):
        self.assertEqual(told(PANELS), [])
        self.assertEqual(told(SHEET), [])

    def test_the_subject(self):
        self.differs('subject pair Sockets int', 'subject Sockets',
                     'line 7, column 9: the subject is a list here and a pair in sheet.txt')

    def test_a_part(self):
        self.differs('pair Sockets int', 'pair Sockets bytes',
                     'line 7, column 22: part 2 of this pair is a byte string here '
                     'and an integer in sheet.txt')

    def test_the_order_of_constructors(self):
        self.differs('Empty | Fault(int)', 'Fault(int) | Empty',
                     'line 2, column 15: type Socket has Fault here where it has Empty '
                     'in sheet.txt, line 4')

    def test_the_name_of_a_constructor(self):
        self.differs('Empty', 'Free', 'line 2, column 15: type Socket has Free here where it has '
                                      'Empty in sheet.txt, line 4')

    def test_how_many_constructors(self):
        self.differs('Sockets)\n', 'Sockets) | Lost\n',
                     'line 2, column 6: type Socket has 4 constructors here and 3 '
                     'in sheet.txt, line 4')

    def test_how_many_fields(self):
        self.differs('Fault(int)', 'Fault(int, int)', 'line 2, column 23: Fault has 2 fields here '
                                                      'and 1 in sheet.txt, line 4')

    def test_a_field(self):
        self.differs('Device(bytes', 'Device(int',
                     'line 2, column 43: field 1 of Device is an integer here '
                     'and a byte string in sheet.txt')

    def test_flags(self):
        self.differs('opaque', 'opaque listlike',
                     'line 1, column 6: type Firmware is listlike here '
                     'and not in sheet.txt, line 3')
        self.differs('opaque ', '',
                     'line 1, column 6: type Firmware is opaque in sheet.txt, line 3 and not here')

    def test_the_name_of_a_type(self):
        self.differs('Firmware', 'Release',
                     'line 2, column 50: field 2 of Device is a Release here '
                     'and a Firmware in sheet.txt')

    def test_a_list_for_a_type(self):
        self.differs('Firmware, Sockets)', 'Sockets, Sockets)',
                     'line 2, column 50: field 2 of Device is a list here '
                     'and a Firmware in sheet.txt')

    def test_types_that_contain_themselves(self):
        one = 'type L = list L\nsubject L\nclause []\n'
        two = 'type A = list B\ntype B = list A\nsubject A\nclause []\n'
        self.assertEqual(told(one, two), [])
        three = 'type A = list B\ntype B = pair A A\nsubject A\nclause []\n'
        self.assertEqual(told(one, three), ['line 1, column 15: part 1 of this list is a list here '
                                            'and a pair in sheet.txt'])


class Command(unittest.TestCase):
    def setUp(self):
        self.room = tempfile.TemporaryDirectory()
        self.addCleanup(self.room.cleanup)
        self.folder = pathlib.Path(self.room.name)
        other = SHEET.replace('Empty | Fault(int)', 'Fault(int) | Empty')
        for name, source in (('sheet.txt', SHEET), ('panels.txt', PANELS), ('other.txt', other),
                             ('bad.txt', 'subject %\n')):
            (self.folder / name).write_text(source)

    def panel(self, text, sheet):
        out = self.folder / 'out'
        return command('panel', self.folder / text, 'a', out, '--sheet', self.folder / sheet), out

    def test_the_same_types(self):
        (status, said, wrong), out = self.panel('panels.txt', 'sheet.txt')
        self.assertEqual((status, said, wrong), (0, '', ''))
        plain = self.folder / 'plain'
        self.assertEqual(command('panel', self.folder / 'panels.txt', 'a', plain), (0, '', ''))
        self.assertEqual(out.read_bytes(), plain.read_bytes())

    def test_other_types(self):
        (status, said, wrong), out = self.panel('panels.txt', 'other.txt')
        self.assertEqual((status, said), (1, ''))
        told = (f'{self.folder}/panels.txt: line 2, column 15: type Socket has Empty here '
                f'where it has Fault in {self.folder}/other.txt, line 4\n')
        self.assertEqual(wrong, told)
        self.assertFalse(out.exists())

    def test_a_sheet_that_is_wrong_itself(self):
        (status, _, wrong), out = self.panel('panels.txt', 'bad.txt')
        self.assertEqual(status, 1)
        self.assertEqual(wrong, f"{self.folder}/bad.txt: line 1, column 9: '%' is not understood\n")
        self.assertFalse(out.exists())

    def test_no_sheet(self):
        (status, _, wrong), _ = self.panel('panels.txt', 'absent.txt')
        self.assertEqual((status, wrong), (1, f'{self.folder}/absent.txt: there is no such file\n'))


if __name__ == '__main__':
    unittest.main()
