"""The numbers of names."""
import unittest

from support import SAMPLES, command, file_of, parse


def numbers(clauses, subject='list int'):
    return parse(f'subject {subject}\n{clauses}\n').names


class Numbers(unittest.TestCase):
    def test_by_first_use_from_1(self):
        self.assertEqual(numbers('clause [b, a as c, ..d]\nclause [a, ..e]'),
                         {'b': 1, 'a': 2, 'c': 3, 'd': 4, 'e': 5})

    def test_inside_before_the_whole(self):
        self.assertEqual(numbers('clause [a, ..b] as c'), {'a': 1, 'b': 2, 'c': 3})

    def test_a_name_may_say_its_number(self):
        self.assertEqual(numbers('clause [n7, n0, n65535, n1]'),
                         {'n7': 7, 'n0': 0, 'n65535': 65535, 'n1': 1})

    def test_others_keep_clear_of_these_wherever_they_stand(self):
        self.assertEqual(numbers('clause [a, b, n2]\nclause [c, n1, ..d]\nclause [n4]'),
                         {'a': 3, 'b': 5, 'n2': 2, 'c': 6, 'n1': 1, 'd': 7, 'n4': 4})

    def test_no_two_names_share_a_number(self):
        names = [f'n{i}' for i in range(0, 40, 3)] + [f'x{i}' for i in range(60)]
        found = numbers('\n'.join(f'clause [{name}]' for name in names[:32]))
        self.assertEqual(len(set(found.values())), len(found))

    def test_like_a_number_but_none(self):
        self.assertEqual(numbers('clause [n, n_1, n1x, nn1, n1_]'),
                         {'n': 1, 'n_1': 2, 'n1x': 3, 'nn1': 4, 'n1_': 5})

    def test_they_are_in_the_file(self):
        # Two types of 6 bytes, one entry of 2, the list's record of 8, then that of n513.
        made = file_of('subject list int\nclause [n513, x]\n')
        self.assertEqual(made[22:30].hex(), '0100010200000000')

    def test_the_command(self):
        status, out, err = command('names', SAMPLES / 'line.txt')
        self.assertEqual((status, err), (0, ''))
        self.assertEqual(out, 'n1 rest\nn2 serial\nn3 minor\nn4 waiting\nn5 code\nn6 second\n')


if __name__ == '__main__':
    unittest.main()
