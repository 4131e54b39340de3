"""Texts that are refused: each kind of fault with its message and its exact place."""
import unittest

from support import Wrong, faults, parse

TYPES = '''\
type Family = Electric | Gas | Water
type Stage = Blank | Programmed | Sealed
type Meter = Meter(Family, Stage, bytes)
'''
# Four lines, so that what a test adds begins on line 5.
METER = TYPES + 'subject Meter\n'


def on_int(line):
    """A text with one more line, which is its second."""
    return f'subject int\n{line}\n'


class Refused(unittest.TestCase):
    maxDiff = None

    def told(self, source, *lines):
        self.assertEqual(faults(source), list(lines))


class Fits(Refused):
    def test_a_constructor_of_another_type(self):
        self.told(METER + 'clause Meter(Programmed, Water, serial)\n',
                  'line 5, column 14: Programmed is a Stage; a Family is expected here',
                  'line 5, column 26: Water is a Family; a Stage is expected here')

    def test_the_right_order_is_taken(self):
        self.told(METER + 'clause Meter(Water, Programmed, serial)\n')

    def test_a_constructor_of_another_type_in_a_panel(self):
        self.told(METER + 'clause _\npanel a = Meter(Sealed, Water, "M-1")\n',
                  'line 6, column 17: Sealed is a Stage; a Family is expected here',
                  'line 6, column 25: Water is a Family; a Stage is expected here')

    def test_what_is_inside_a_misfit_is_held_to_its_own_type(self):
        self.told(METER + 'clause Meter(Meter(Blank, 5, _), Blank, _)\n',
                  'line 5, column 14: Meter is a Meter; a Family is expected here',
                  'line 5, column 20: Blank is a Stage; a Family is expected here',
                  'line 5, column 27: 5 is an integer; a Stage is expected here')

    def test_a_constructor_that_is_not_there(self):
        self.told(METER + 'clause Meter(Steam, _, _)\n',
                  'line 5, column 14: there is no constructor Steam')

    def test_how_many_fields(self):
        self.told(METER + 'clause Meter(Water, Blank)\nclause Meter\n'
                          'clause Meter(Water(1), _, _)\n',
                  'line 5, column 8: Meter has 3 fields; 2 stand here',
                  'line 6, column 8: Meter has 3 fields; 0 stand here',
                  'line 7, column 14: Water has 0 fields; 1 stand here')

    def test_kinds(self):
        source = '''\
type All = All(int, bytes, list int, pair int int, tuple int int int)
subject All
clause All("a", 1, (1, 2), [1], <1, 2>)
clause All([], [1], 0x00, (1, 2), [1, ..x])
clause All(<1, 2>, <1, 2>, <1, 2>, All(1, "", [], <1, 1>, (1, 1, 1)), 7)
'''
        self.told(source,
                  'line 3, column 12: "a" is a byte string; an integer is expected here',
                  'line 3, column 17: 1 is an integer; a byte string is expected here',
                  'line 3, column 20: this is a tuple of 2; a list is expected here',
                  'line 3, column 28: this is a list; a pair is expected here',
                  'line 3, column 33: this is a pair; a tuple of 3 is expected here',
                  'line 4, column 12: this is a list; an integer is expected here',
                  'line 4, column 16: this is a list; a byte string is expected here',
                  'line 4, column 21: 0x00 is a byte string; a list is expected here',
                  'line 4, column 27: this is a tuple of 2; a pair is expected here',
                  'line 4, column 35: this is a list; a tuple of 3 is expected here',
                  'line 5, column 12: this is a pair; an integer is expected here',
                  'line 5, column 20: this is a pair; a byte string is expected here',
                  'line 5, column 28: this is a pair; a list is expected here',
                  'line 5, column 36: All is an All; a pair is expected here',
                  'line 5, column 71: 7 is an integer; a tuple of 3 is expected here')

    def test_how_many_parts_a_tuple_has(self):
        self.told('subject tuple int int\nclause (1, 2, 3)\nclause ()\nclause (1)\nclause (1, 2)\n',
                  'line 2, column 8: this is a tuple of 3; a tuple of 2 is expected here',
                  'line 3, column 8: a tuple has 2 parts or more, this one 0',
                  'line 4, column 8: a tuple has 2 parts or more, this one 1')
        self.told('subject tuple int int int\nclause (1, 2)\n',
                  'line 2, column 8: this is a tuple of 2; a tuple of 3 is expected here')

    def test_how_many_parts_a_pair_has(self):
        self.told('subject pair int int\nclause <1>\nclause <1, 2, 3>\nclause <>\nclause <1, 2>\n',
                  'line 2, column 8: a pair has 2 parts, this one 1',
                  'line 3, column 8: a pair has 2 parts, this one 3',
                  'line 4, column 8: a pair has 2 parts, this one 0')

    def test_the_elements_of_a_list(self):
        self.told('subject list int\nclause [1, "a", ..x]\npanel p = [1, [], 2]\n',
                  'line 2, column 12: "a" is a byte string; an integer is expected here',
                  'line 3, column 15: this is a list; an integer is expected here')

    def test_through_other_names(self):
        self.told('type A = B\ntype B = C\ntype C = list Serial\ntype Serial = bytes\n'
                  'subject A\nclause [5, .._]\n',
                  'line 6, column 9: 5 is an integer; a byte string is expected here')

    def test_inside_an_as(self):
        self.told('subject bytes\nclause 5 as x\n',
                  'line 2, column 8: 5 is an integer; a byte string is expected here')


class Names(Refused):
    def test_bound_twice(self):
        self.told('subject list int\nclause [x, 1 as y, x, ..y]\nclause x\n',
                  'line 2, column 20: x is bound twice in this clause, in column 9 too',
                  'line 2, column 23: y is bound twice in this clause, in column 17 too')

    def test_bound_twice_by_as(self):
        self.told(on_int('clause x as x'),
                  'line 2, column 13: x is bound twice in this clause, in column 8 too')

    def test_numbers_that_no_listing_shows(self):
        known = 'n and a number are n0 to n65535, no 0 before other digits'
        self.told('subject list int\nclause [n07, n65536, n00, ..n123456789]\n',
                  f'line 2, column 9: n07 is no name: {known}',
                  f'line 2, column 14: n65536 is no name: {known}',
                  f'line 2, column 22: n00 is no name: {known}',
                  f'line 2, column 29: n123456789 is no name: {known}')

    def test_words_that_are_no_names(self):
        small = 'a name, which begins with a small letter, is expected,'
        self.told('subject int\nclause 5 as Five\nclause 5 as 6\nclause 5 as\nclause 5 as as\n'
                  'clause as\n',
                  f'line 2, column 13: {small} not Five',
                  f'line 3, column 13: {small} not 6',
                  f'line 4, column 12: {small} and the line ends',
                  f'line 5, column 13: {small} not as',
                  'line 6, column 8: a pattern is expected, not as')

    def test_none_in_a_panel(self):
        self.told('subject list int\nclause _\npanel a = x\npanel b = [1 as x]\npanel c = _\n'
                  'panel d = [1, ..x]\n',
                  'line 3, column 11: x stands in a panel, which has no names',
                  'line 4, column 17: x stands in a panel, which has no names',
                  "line 5, column 11: a value is expected, not '_'",
                  'line 6, column 15: a tail stands in a panel, which has none')


class Literals(Refused):
    def test_integers(self):
        self.told('subject list int\nclause [007, -0, -07, 00, 5x, --1]\nclause [-5, 0, 10]\n',
                  'line 2, column 9: 007 is no integer: no 0 stands before other digits',
                  'line 2, column 14: -0 is no integer: zero is written 0',
                  'line 2, column 18: -07 is no integer: no 0 stands before other digits',
                  'line 2, column 23: 00 is no integer: no 0 stands before other digits',
                  'line 2, column 27: 5x is no integer',
                  "line 2, column 31: '-' is not understood")

    def test_integers_of_a_panel(self):
        self.told('subject int\nclause _\npanel a = 01\n',
                  'line 3, column 11: 01 is no integer: no 0 stands before other digits')

    def test_digits_of_other_scripts(self):
        self.told(on_int('clause ٣'), "line 2, column 8: '٣' is not understood")

    def test_over_64_bytes(self):
        long = 'x' * 39
        self.told('subject list bytes\n'
                  f'clause ["{"x" * 64}", "{"x" * 65}"]\nclause [0x{"00" * 64}, 0x{"00" * 65}]\n'
                  f'clause ["{"ä" * 32}", "{"ä" * 33}"]\n',
                  f'line 2, column 77: "{long}.. has 65 bytes: a byte string has at most 64',
                  f'line 3, column 141: 0x{"0" * 38}.. has 65 bytes: a byte string has at most 64',
                  f'line 4, column 45: "{"ä" * 33}" has 66 bytes: a byte string has at most 64')

    def test_integers_over_64_bytes(self):
        self.told(f'subject list int\nclause [{"1" * 64}, {"1" * 65}]\n',
                  f'line 2, column 75: {"1" * 40}.. has 65 bytes: an integer has at most 64')

    def test_hexadecimal(self):
        self.told('subject list bytes\nclause [0x123, 0x1G, 0x, 0xAb]\n',
                  'line 2, column 9: 0x123 has half a byte: its digits are odd in number',
                  'line 2, column 16: 0x1G has letters that are no hexadecimal digits')

    def test_escapes(self):
        known = r'there are \" \\ \n \t and \xHH with two hexadecimal digits'
        self.told('subject bytes\n' + r'clause "ab\q\x4\xZZ\\"' + '\n',
                  rf'line 2, column 11: \q is no escape: {known}',
                  rf'line 2, column 13: \x is no escape: {known}',
                  rf'line 2, column 16: \x is no escape: {known}')

    def test_quotes_that_are_not_closed(self):
        self.told('subject bytes\nclause "abc # no comment\nclause "a\\"\n',
                  'line 2, column 8: a text in quotes is not closed on its line',
                  'line 3, column 8: a text in quotes is not closed on its line')


class Types(Refused):
    def test_unknown_ones_used_or_not(self):
        self.told('type A = A(list Missing)\ntype B = Absent\ntype C = pair int (list Gone)\n'
                  'subject tuple int No\nclause _\n',
                  'line 1, column 17: there is no type Missing',
                  'line 2, column 10: there is no type Absent: '
                  'a single constructor is written Absent()',
                  'line 3, column 25: there is no type Gone',
                  'line 4, column 19: there is no type No')

    def test_names_that_only_name_themselves(self):
        self.told('type A = A\ntype B = C\ntype C = D\ntype D = C\nsubject int\nclause _\n',
                  'line 1, column 6: type A is only another name of itself',
                  'line 3, column 6: type C is only another name of itself',
                  'line 4, column 6: type D is only another name of itself')

    def test_a_constructor_given_twice(self):
        self.told('type A = One | Two | One\ntype B = Three | Two(int)\nsubject A\nclause Two\n',
                  'line 1, column 22: constructor One is given twice, first on line 1',
                  'line 2, column 18: constructor Two is given twice, first on line 1')

    def test_nothing_is_said_of_a_pattern_with_a_constructor_given_twice(self):
        self.told('type A = One | Two\ntype B = Two(int) | Three\nsubject B\nclause Two(5)\n',
                  'line 2, column 10: constructor Two is given twice, first on line 1')

    def test_given_twice(self):
        self.told('type A = int\ntype A = bytes\nsubject int\nsubject int\nclause _\n'
                  'panel p = 1\npanel p = 2\n',
                  'line 2, column 6: type A is given twice, first on line 1',
                  'line 4, column 1: the subject is given twice',
                  'line 7, column 7: panel p is given twice, first on line 6')

    def test_transparent(self):
        why = 'is opaque with one constructor of one field: the format refuses such a type (7)'
        self.told('type Serial = opaque Serial(bytes)\ntype Unused = opaque Unused(int)\n'
                  'type Fine = opaque listlike Fine(int)\ntype Two = opaque Two(int, int)\n'
                  'type None = opaque None\ntype Open = Open(int)\nsubject Serial\nclause _\n',
                  f'line 1, column 6: type Serial {why}', f'line 2, column 6: type Unused {why}')

    def test_tuples_of_fewer_than_two(self):
        self.told('type A = tuple\ntype B = B(tuple int, int)\nsubject int\nclause _\n',
                  'line 1, column 10: a tuple has 2 parts or more, this one 0',
                  'line 2, column 12: a tuple has 2 parts or more, this one 1')

    def test_opaque_is_for_constructors(self):
        capital = 'a constructor, which begins with a capital letter, is expected,'
        self.told('type A = opaque int\ntype B = listlike (B)\ntype C = opaque opaque C\n'
                  'type D = listlike\nsubject int\nclause _\n',
                  f'line 1, column 17: {capital} not int',
                  f"line 2, column 19: {capital} not '('",
                  'line 3, column 17: opaque is said twice',
                  f'line 4, column 18: {capital} and the line ends')

    def test_words(self):
        self.told('type meter = int\ntype = int\ntype A int\ntype B = b\ntype C = C(int\n'
                  'type D = D(int int)\ntype E = E | e\ntype F = int int\ntype G = list\n'
                  'subject int\nclause _\n',
                  'line 1, column 6: the name of a type, which begins with a capital letter, '
                  'is expected, not meter',
                  'line 2, column 6: the name of a type, which begins with a capital letter, '
                  "is expected, not '='",
                  "line 3, column 8: '=' is expected, not int",
                  'line 4, column 10: a type is expected, not b',
                  "line 5, column 15: ',' or ')' is expected, and the line ends",
                  "line 6, column 16: ',' or ')' is expected, not int",
                  'line 7, column 14: a constructor, which begins with a capital letter, '
                  'is expected, not e',
                  'line 8, column 14: int is too much: the line is complete before it',
                  'line 9, column 14: a type is expected, and the line ends')


class Lines(Refused):
    def test_what_begins_no_line(self):
        self.told('subject int\nclauses _\n[1]\nclause _\n',
                  'line 2, column 1: clauses begins no line: '
                  'type, subject, clause, panel or # does',
                  "line 3, column 1: '[' begins no line: type, subject, clause, panel or # does")

    def test_what_is_too_much(self):
        self.told('type A = int int\nsubject int A\nclause _ _\npanel p = 5 6\n',
                  'line 1, column 14: int is too much: the line is complete before it',
                  'line 2, column 13: A is too much: the line is complete before it',
                  "line 3, column 10: '_' is too much: the line is complete before it",
                  'line 4, column 13: 6 is too much: the line is complete before it')

    def test_what_is_not_understood(self):
        self.told('subject list int\nclause [1; 2]\nclause [_x]\nclause %\nclause 7: _\n',
                  "line 2, column 10: ';' is not understood",
                  "line 3, column 9: '_x' is not understood",
                  "line 4, column 8: '%' is not understood",
                  "line 5, column 9: ':' is not understood")

    def test_brackets_and_commas(self):
        self.told('subject list int\nclause [1 2]\nclause [1,]\nclause [1, 2\nclause [,]\nclause\n'
                  'clause [1] 2\nclause [1)\nclause Foo(1]\n',
                  "line 2, column 11: ',' or ']' is expected, not 2",
                  "line 3, column 11: a pattern is expected, not ']'",
                  "line 4, column 13: ',' or ']' is expected, and the line ends",
                  "line 5, column 9: a pattern is expected, not ','",
                  'line 6, column 7: a pattern is expected, and the line ends',
                  'line 7, column 12: 2 is too much: the line is complete before it',
                  "line 8, column 10: ',' or ']' is expected, not ')'",
                  "line 9, column 13: ',' or ')' is expected, not ']'")

    def test_tails(self):
        self.told('subject list int\nclause [..rest]\nclause [..]\nclause [1, ..5]\n'
                  'clause [1, ..x as y]\nclause [1, ..x, 2]\nclause [1, ..\nclause [1, ..]\n',
                  'line 2, column 9: a tail needs an element before it: [first, ..rest]',
                  'line 3, column 9: a tail needs an element before it: [first, ..rest]',
                  'line 4, column 14: a name or _ as the tail is expected, not 5',
                  "line 5, column 16: ']' is expected, not as",
                  "line 6, column 15: ']' is expected, not ','",
                  'line 7, column 14: a name or _ as the tail is expected, and the line ends')

    def test_panels(self):
        self.told('subject int\nclause _\npanel = 5\npanel a 5\npanel b =\npanel -1 = 5\n'
                  'panel "c" = 5\n',
                  'line 3, column 7: a panel has a name of letters, digits and _ before its =',
                  "line 4, column 9: '=' is expected, not 5",
                  'line 5, column 10: a value is expected, and the line ends',
                  'line 6, column 7: a panel has a name of letters, digits and _ before its =',
                  'line 7, column 7: a panel has a name of letters, digits and _ before its =')


class Whole(Refused):
    def test_no_subject(self):
        self.told('type A = int\nclause _\n', 'there is no subject')

    def test_no_clause(self):
        self.told('subject int\npanel p = 5\n', 'there is no clause')

    def test_nothing(self):
        empty = 'the text is empty: it has neither a subject nor a clause'
        for source in ('', '\n', '# a comment\n\n   # another'):
            self.told(source, empty)

    def test_several_in_the_order_of_their_lines(self):
        self.told('clause [1, \ntype A = A(Missing)\nsubject A\nclause A("x")\nclause 5\n'
                  'panel p = A\n',
                  'line 1, column 11: a pattern is expected, and the line ends',
                  'line 2, column 12: there is no type Missing',
                  'line 5, column 8: 5 is an integer; an A is expected here',
                  'line 6, column 11: A has 1 field; 0 stand here')

    def test_what_only_follows_is_not_told(self):
        """A type that cannot be read has no constructors, but that is not the clauses' fault."""
        self.told('type Broken = One(int | Two\nsubject list Broken\nclause [One(5), Two]\n'
                  'clause 5\n',
                  "line 1, column 23: ',' or ')' is expected, not '|'",
                  'line 4, column 8: 5 is an integer; a list is expected here')
        self.told('type % = One\nsubject list Lost\nclause [One]\n',
                  "line 1, column 6: '%' is not understood")
        self.told('type A = A()\nsubject %\nclause 5\nclause B\n',
                  "line 2, column 9: '%' is not understood",
                  'line 4, column 8: there is no constructor B')

    def test_long_words_are_cut(self):
        word = 'W' + 'x' * 60
        shown = 'W' + 'x' * 39 + '..'
        self.told(on_int(f'clause {word}'), f'line 2, column 8: there is no constructor {shown}')
        self.told(on_int(f'clause {word[:40]}'),
                  f'line 2, column 8: there is no constructor {word[:40]}')
        self.told(on_int(f'clause 5 {word}'),
                  f'line 2, column 10: {shown} is too much: the line is complete before it')
        self.told(f'type A = {word}\nsubject int\nclause _\n',
                  f'line 1, column 10: there is no type {shown}: '
                  f'a single constructor is written {shown}()')

    def test_only_so_many_are_told(self):
        with self.assertRaises(Wrong) as caught:
            parse('subject int\n' + 'clause "x"\n' * 30 + 'clause %\n' * 50)
        lines = caught.exception.told('a.txt')
        self.assertEqual(len(lines), 41)
        self.assertEqual(lines[0], 'a.txt: line 2, column 8: "x" is a byte string; '
                                   'an integer is expected here')
        self.assertEqual(lines[-1], 'a.txt: and 40 more faults')


if __name__ == '__main__':
    unittest.main()
