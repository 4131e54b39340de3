"""Whatever a file holds, the tool says one clear line for each fault and ends with status 1."""
import os
import pathlib
import random
import re
import subprocess
import sys
import tempfile
import unittest

from support import ROOT, SAMPLES, TOOL, command, read_sheet

LIMIT = 1 << 20


class InAFolder(unittest.TestCase):
    def setUp(self):
        room = tempfile.TemporaryDirectory()
        self.addCleanup(room.cleanup)
        self.folder = pathlib.Path(room.name)
        self.text = self.folder / 'a.txt'
        self.out = self.folder / 'out'

    def says(self, data, *lines):
        """What the tool says of a text of these bytes."""
        self.text.write_bytes(data)
        expected = ''.join(f'{self.text}: {line}\n' for line in lines)
        self.assertEqual(command('sheet', self.text, self.out), (1, '', expected))
        self.assertFalse(self.out.exists())


class Files(InAFolder):
    def test_missing(self):
        for words in (['sheet', self.text, self.out], ['panel', self.text, 'p', self.out],
                      ['names', self.text], ['show', self.text]):
            self.assertEqual(command(*words), (1, '', f'{self.text}: there is no such file\n'))

    def test_a_folder(self):
        for words in (['sheet', self.folder, self.out], ['show', self.folder]):
            told = f'{self.folder}: this is a folder, not a file\n'
            self.assertEqual(command(*words), (1, '', told))

    def test_empty(self):
        self.says(b'', 'the text is empty: it has neither a subject nor a clause')

    def test_100_megabytes(self):
        with open(self.text, 'wb') as file:
            file.truncate(100_000_000)
        told = f'{self.text}: it has over 1048576 bytes, the most that a text may have\n'
        self.assertEqual(command('sheet', self.text, self.out), (1, '', told))
        status, out, err = command('show', self.text)
        self.assertEqual((status, out), (1, ''))
        self.assertTrue(err.startswith(f'{self.text}: refused 2 0: '))

    def test_just_the_limit(self):
        text = b'subject int\nclause _\n'
        self.text.write_bytes(text + b'#' * (LIMIT - len(text)))
        self.assertEqual(command('sheet', self.text, self.out), (0, '', ''))
        self.out.unlink()
        self.says(text + b'#' * (LIMIT - len(text) + 1),
                  'it has over 1048576 bytes, the most that a text may have')

    def test_an_endless_file(self):
        told = '/dev/zero: it has over 1048576 bytes, the most that a text may have\n'
        self.assertEqual(command('names', '/dev/zero'), (1, '', told))

    def test_where_it_cannot_write(self):
        sample = SAMPLES / 'line.txt'
        for out, why in ((self.folder, 'this is a folder, not a file'),
                         (self.folder / 'no' / 'out', 'there is no such file'),
                         ('/dev/full', 'No space left on device')):
            self.assertEqual(command('sheet', sample, out), (1, '', f'{out}: {why}\n'))

    def test_it_does_not_write_over_the_text(self):
        self.text.write_text('subject int\nclause _\n')
        told = f'{self.text}: this is the text itself, which is not written over\n'
        self.assertEqual(command('sheet', self.text, self.text), (1, '', told))
        os.link(self.text, self.folder / 'twin')
        self.assertEqual(command('sheet', self.text, self.folder / 'twin')[0], 1)
        self.assertEqual(self.text.read_text(), 'subject int\nclause _\n')

    def test_a_name_of_two_lines(self):
        name = f'{self.folder}/a\nb'
        self.assertEqual(command('names', name), (1, '', f'{name!a}: there is no such file\n'))
        self.text.write_text('subject int\nclause _\n')
        status, _, err = command('panel', self.text, 'p\nq', self.out)
        self.assertEqual((status, err.count('\n')), (1, 1))


class Characters(InAFolder):
    RIGHT = b'subject int\nclause _\n'

    def test_a_byte_order_mark(self):
        self.says(b'\xef\xbb\xbf' + self.RIGHT,
                  'line 1, column 1: a byte order mark: a text is saved without it')

    def test_tabs(self):
        self.says(b'subject int\nclause\t_\nclause\t_\n',
                  'line 2, column 7: a tab: only blanks stand between words')

    def test_lines_of_windows(self):
        self.says(self.RIGHT.replace(b'\n', b'\r\n'),
                  'line 1, column 12: a carriage return: a line ends with a line feed alone')

    def test_zero_bytes(self):
        self.says(b'subject int\nclause "\0"\n', 'line 2, column 9: a zero byte: this is no text')
        self.says(bytes(1000), 'line 1, column 1: a zero byte: this is no text')

    def test_what_is_not_utf_8(self):
        self.says(b'subject int\nclause "\xc3\xa4\xff"\n',
                  'line 2, column 10: the byte ff is not UTF-8: this is no text')
        self.says('subject int\n'.encode('utf-16'),
                  'line 1, column 1: the byte ff is not UTF-8: this is no text')
        self.says(b'\xed\xa0\x80', 'line 1, column 1: the byte ed is not UTF-8: this is no text')

    def test_what_cannot_be_seen(self):
        for letter in ('\u00a0', '\u200b', '\u202e', '\u2028', '\u0085', '\x1b'):
            self.says(f'subject int\n# a{letter}b\n'.encode(),
                      f'line 2, column 4: the character U+{ord(letter):04X} cannot be seen')

    def test_letters_of_other_scripts_may_be_in_quotes_and_comments(self):
        self.text.write_bytes('# Zähler, 計器\nsubject bytes\nclause "計器"\n'.encode())
        self.assertEqual(command('sheet', self.text, self.out), (0, '', ''))


class Nesting(InAFolder):
    def test_brackets(self):
        for many, brackets in ((3000, '[]'), (3000, '()'), (3000, '<>'), (100_000, '[]')):
            deep = (brackets[0] * many + brackets[1] * many).encode()
            self.says(b'subject int\nclause ' + deep,
                      'line 2, column 20: patterns nest more than 12 deep here')
            self.says(b'subject int\npanel p = ' + deep,
                      'line 2, column 43: values nest more than 32 deep here')
            self.says(b'subject int\nclause ' + deep[:many],
                      'line 2, column 20: patterns nest more than 12 deep here')

    def test_constructors(self):
        self.says(b'subject int\nclause ' + b'A(' * 100_000,
                  'line 2, column 32: patterns nest more than 12 deep here')

    def test_as(self):
        self.says(b'subject int\nclause _' + b' as x' * 100_000,
                  'line 2, column 65: patterns nest more than 12 deep here')

    def test_types(self):
        for word, many in ((b'list ', 100_000), (b'pair ', 3000), (b'tuple ', 3000)):
            column = 9 + 64 * len(word)
            self.says(b'subject ' + word * many,
                      f'line 1, column {column}: types nest more than 64 deep here')
        brackets = b'(' * 100_000 + b'int' + b')' * 100_000
        self.text.write_bytes(b'subject ' + brackets + b'\nclause 5')
        self.assertEqual(command('sheet', self.text, self.out), (0, '', ''))

    def test_chains_of_types(self):
        chain = b''.join(b'type T%d = T%d\n' % (i, i + 1) for i in range(8000))
        self.text.write_bytes(chain + b'type T8000 = int\nsubject T0\nclause 5\n')
        self.assertEqual(command('sheet', self.text, self.out), (0, '', ''))
        self.out.unlink()
        status, _, err = command('sheet', self.with_text(chain + b'type T8000 = T0\nsubject T0\n'),
                                 self.out)
        self.assertEqual((status, err.count('\n')), (1, 41))
        data = b''.join(b'type T%d = C%d(T%d, int)\n' % (i, i, i + 1) for i in range(8000))
        self.says(data + b'type T8000 = int\nsubject T0\nclause _\n',
                  'line 65, column 6: with this the sheet has over 64 types, the most there may be')

    def with_text(self, data):
        self.text.write_bytes(data)
        return self.text


class Sizes(InAFolder):
    """A long text is told in time that grows as it does, whatever fills it."""

    SIZE = LIMIT // 32

    def test_much_of_one_thing(self):
        for piece in (b'clause _\n', b'clause %\n', b'type A = A\n', b'panel p = 5\n', b'%', b'"',
                      b'\\', b'[', b', 1', b' as x', b'"a" ', b'x ', b'(', b'type T = A | B\n',
                      b'clause [x, x, y, y, Z, "", 5]\n', b'\n', b' ', b'#'):
            head = b'subject list int\n'
            self.text.write_bytes(head + piece * ((self.SIZE - len(head)) // len(piece)))
            status, _, err = command('sheet', self.text, self.out)
            self.assertEqual(status, 1, piece)
            self.assertLessEqual(len(err.splitlines()), 41)

    def test_one_long_line(self):
        for head, piece, tail in ((b'clause [', b'1, ', b'1]\n'), (b'clause "', b'\\x41', b'"\n'),
                                  (b'panel p = [', b'7, ', b'7]\n'),
                                  (b'type A = A', b' | A', b'\n'),
                                  (b'type A = A(', b'int, ', b'int)\n'),
                                  (b'type A = tuple', b' (B)', b'\n'), (b'clause ', b'1', b'\n')):
            start = b'subject list int\n' + head
            many = (self.SIZE - len(start) - len(tail)) // len(piece)
            self.text.write_bytes(start + piece * many + tail)
            status, _, err = command('sheet', self.text, self.out)
            self.assertEqual(status, 1, head)
            self.assertLessEqual(max(map(len, err.splitlines())), 300)


class Chance(InAFolder):
    def test_changed_samples(self):
        """Samples with letters put in, taken out and moved are taken, or told line by line."""
        chance = random.Random(11)
        sources = [path.read_bytes() for path in sorted(SAMPLES.glob('*.txt'))]
        pieces = [b'[', b']', b'(', b')', b'<', b'>', b',', b'"', b'\\', b'#', b'\n', b' ', b'..',
                  b'_', b' as x', b'type ', b'clause ', b'list ', b'tuple ', b'opaque ', b'0', b'-',
                  b'0x', b'Empty', b'int', b'\0', b'\xff', b'\t', 'ä'.encode(), b'=', b'|']
        taken = 0
        for _ in range(700):
            data = bytearray(chance.choice(sources))
            for _ in range(chance.randint(1, 4)):
                at = chance.randrange(len(data))
                if chance.random() < 0.5:
                    data[at:at] = chance.choice(pieces)
                else:
                    del data[at:at + chance.choice([1, 1, 2, 5, 30])]
            self.text.write_bytes(data)
            status, out, err = command('sheet', self.text, self.out)
            self.assertEqual((status == 0, out), (err == '', ''))
            self.told(err, data.count(b'\n') + 1)
            if status == 0:
                read_sheet(self.out.read_bytes())  # what is taken makes a file that is accepted
                taken += 1
        self.assertGreater(taken, 50)

    def told(self, err, lines):
        places = []
        for line in err.splitlines():
            self.assertTrue(line.startswith(f'{self.text}: '), line)
            found = re.match(r'line ([0-9]+), column ([0-9]+): .', line[len(f'{self.text}: '):])
            places.append((int(found[1]), int(found[2])) if found else (lines + 1, 1))
        self.assertEqual(places, sorted(places))
        self.assertTrue(all(line <= lines + 1 and column >= 1 for line, column in places))

    def test_chance_bytes(self):
        chance = random.Random(12)
        for _ in range(300):
            self.text.write_bytes(bytes(chance.choices(range(256), k=chance.randint(1, 60))))
            self.assertEqual(command('sheet', self.text, self.out)[0], 1)
            self.assertEqual(command('show', self.text)[0], 1)


class Process(InAFolder):
    """The command as it is run from outside."""

    def run_tool(self, *words, **more):
        words = [sys.executable, str(TOOL), *map(str, words)]
        return subprocess.run(words, stderr=subprocess.PIPE, **more)

    def test_words_that_say_nothing(self):
        for words in ([], ['draw'], ['sheet'], ['sheet', 'a'], ['panel', 'a', 'b'], ['names'],
                      ['show'], ['panel', 'a', 'b', 'c', '--types', 'd'], ['show', 'a', 'b']):
            status, out, err = command(*words)
            self.assertEqual((status, out), (2, ''))
            self.assertIn('sheets.py sheet TEXT OUT', err)

    def test_help(self):
        for word in ('help', '-h', '--help'):
            status, out, err = command(word)
            self.assertEqual((status, err), (0, ''))
            self.assertIn('sheets.py sheet TEXT OUT', out)

    def test_run_as_a_program(self):
        done = self.run_tool('sheet', SAMPLES / 'line.txt', self.out, stdout=subprocess.PIPE)
        self.assertEqual((done.returncode, done.stdout, done.stderr), (0, b'', b''))
        done = self.run_tool('names', SAMPLES / 'absent.txt', stdout=subprocess.PIPE)
        self.assertEqual((done.returncode, done.stdout), (1, b''))
        self.assertEqual(done.stderr.count(b'\n'), 1)

    def test_nobody_reads(self):
        read, write = os.pipe()
        os.close(read)
        done = self.run_tool('show', ROOT / 'crates/walker/data/station.sheet', stdout=write)
        os.close(write)
        self.assertEqual(done.returncode, 1)
        self.assertEqual(done.stderr, b'sheets.py: the standard output: Broken pipe\n')

    def test_no_room_for_what_is_said(self):
        with open('/dev/full', 'wb') as full:
            done = self.run_tool('names', SAMPLES / 'line.txt', stdout=full)
        self.assertEqual(done.returncode, 1)
        self.assertEqual(done.stderr, b'sheets.py: the standard output: No space left on device\n')


if __name__ == '__main__':
    unittest.main()
