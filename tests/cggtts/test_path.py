#!/usr/bin/env python3
"""Runs cggtts path: lengths, light times, coordinates as they are written, refusals and wrong use.

    python3 tests/cggtts/test_path.py

Lengths are those of Python's whole root, light times and the numbers that words stand for are worked out in fractions; sentences are
written out by hand.
"""
import math
import random
import re
import subprocess
import unittest
from fractions import Fraction

from test_cggtts import PROGRAM, ROOT, run

MOST = 5 * 10 ** 10
LIGHT = 299792458
NAMES = ['%s of the %s' % (axis, point) for point in ('satellite', 'antenna') for axis in 'XYZ']
OTHERS = 'a coordinate that is whole may be in that unit too'
ALREADY = 'those that are whole are in mm already, or in another unit: in that one they would be outside'
EITHER = 'one that is whole may be in that unit too; but one that would then be outside is in mm already, or in another unit'
PARTS = '; if that is %s, it has parts of a mm: round it to whole mm'
INSIDE = 'if that is in a smaller unit than mm, a coordinate inside may be in that unit too'
SHORT = '  a remark: a path to a navigation satellite has eleven digits in mm, and this one under ten; are all coordinates in mm?\n'
MEANINGS = {23: 'a coordinate is not a whole number of millimetres', 24: 'a coordinate is outside -50000000000 to 50000000000 mm'}


def length_of(six):
    return math.isqrt(sum((a - b) ** 2 for a, b in zip(six[:3], six[3:])))


def light_of(length):
    """Whole ps, the nearest with a tie up."""
    return math.floor(Fraction(length * 10 ** 9, LIGHT) + Fraction(1, 2))


def told(number, *rows):
    return 'path: refused %d: %s\n%s' % (number, MEANINGS[number], ''.join('  %s\n' % row for row in rows))


def value_of(word):
    """The number that a decimal stands for."""
    sign, digits, power = re.fullmatch(r'([+-]?)([\d.]+)(?:[eE]([+-]?\d+))?', word).groups()
    before, _, behind = digits.partition('.')
    size = Fraction(int(before + behind), 10 ** len(behind)) * Fraction(10) ** int(power or 0)
    return -size if sign == '-' else size


def remark_on(length):
    return SHORT if 0 < length < 10 ** 9 else ''


def number_of(value):
    if value.denominator != 1:
        return 23
    return 24 if abs(value) > MOST else 0


class Lengths(unittest.TestCase):
    def check(self, six):
        length = length_of(six)
        remark = remark_on(length)
        self.assertEqual(run('path', *six), (0, b'%d mm\n' % length, remark), six)
        rows = b'%d mm\n%d ps\n' % (length, light_of(length))
        self.assertEqual(run('path', '--ps', *six), (0, rows, remark), six)
        self.assertEqual(run('path', *six, '--ps'), (0, rows, remark), six)

    def test_by_hand(self):
        for six, length in (((3, 4, 0, 0, 0, 0), 5), ((1, 2, 2, 0, 0, 0), 3), ((0, 0, 0, 2, -3, 6), 7), ((2, 2, 0, 0, 0, 0), 2),
                            ((5, 5, 5, 5, 5, 5), 0), ((MOST, MOST, MOST, -MOST, -MOST, -MOST), 173205080756)):
            self.assertEqual(run('path', *six), (0, b'%d mm\n' % length, remark_on(length)))

    def test_a_length_too_short_for_a_satellite(self):
        """Coordinates in whole metres are accepted, and a remark is made: from 1 mm to nine digits, in order behind the rows."""
        for length, remark in ((0, ''), (1, SHORT), (999999999, SHORT), (10 ** 9, ''), (10 ** 10, '')):
            self.assertEqual(run('path', 0, 0, 0, 0, 0, -length), (0, b'%d mm\n' % length, remark))
        six = (15600123, 7540654, 20140777, 4202777, 171367, 4778660)
        self.assertEqual(length_of(six), 20498793)
        self.assertEqual(run('path', *six), (0, b'20498793 mm\n', SHORT))
        rows = ('20498793 mm\n%d ps\n' % light_of(20498793) + SHORT).encode()
        self.assertEqual(run('path', 0, 0, 0, 4202777366, 171367999, 4778660203), (0, b'6366183936 mm\n', ''))
        both = subprocess.run([PROGRAM, 'path', *map(str, six), '--ps'], stdout=subprocess.PIPE, stderr=subprocess.STDOUT, check=False)
        self.assertEqual((both.returncode, both.stdout), (0, rows))

    def test_seeded(self):
        pick = random.Random(11)
        for _ in range(60):
            self.check([pick.choice((pick.randint(-MOST, MOST), pick.randint(-9, 9), MOST, -MOST)) for _ in range(6)])

    def test_squares(self):
        for k in (1, 94906267, 49999999999, MOST):
            self.check((k, 0, 0, 0, 0, 0))
            self.check((0, k, 0, 0, 0, 1))
        self.check((20000000000, 200000, 0, 0, 0, 0))

    def test_light_by_hand(self):
        """299792458 mm are 1 ms; 149896229 are half of it; 1 mm is 3.3356 ps."""
        for length, ps in ((0, 0), (1, 3), (2, 7), (3, 10), (149896229, 500000000), (299792458, 10 ** 9), (299792459, 10 ** 9 + 3),
                           (MOST, 166782047599)):
            self.assertEqual(run('path', length, 0, 0, 0, 0, 0, '--ps'), (0, b'%d mm\n%d ps\n' % (length, ps), remark_on(length)))
        # no tie can arise: twice the time is length x 2 x 10^9 / c, which has a factor 2 more than c
        self.assertEqual((LIGHT % 2, LIGHT % 4), (0, 2))

    def test_light_of_the_longest(self):
        six = (MOST, MOST, MOST, -MOST, -MOST, -MOST)
        self.assertEqual(run('path', '--ps', *six)[1], b'173205080756 mm\n%d ps\n' % light_of(173205080756))


class Words(unittest.TestCase):
    def test_one_number_in_many_ways(self):
        for word in ('20', '+20', '020', '20.', '20.0', '20.000', '2e1', '2E+1', '200e-1', '.2e2', '0.02e3', '2000.00e-2', '00020.00e0'):
            self.assertEqual(run('path', word, 0, 0, 0, 0, 0), (0, b'20 mm\n', SHORT), word)
            self.assertEqual(run('path', 0, 0, 0, 0, 0, '-' + word.lstrip('+')), (0, b'20 mm\n', SHORT), word)

    def test_zeros(self):
        for word in ('0', '-0', '+0', '-0.0', '.0', '0.', '0e9', '-0e-9', '0e99999999999999999999', '0' * 5000):
            self.assertEqual(run('path', word, 0, 0, 0, 0, '-0'), (0, b'0 mm\n', ''), word[:40])

    def test_nothing_is_rounded(self):
        """A double of each of these is a whole number within the limits, and they are none."""
        for word in ('20000000000.000000000000001', '0.' + '0' * 400 + '1', '1e-400', '4999999999999999999999999999e-17',
                     '49999999999.9999999999999', '1.00000000000000000000000001', '-3.0000000000000000001'):
            self.assertEqual(number_of(value_of(word)), 23)
            if not word.startswith(('0.', '1e')):
                self.assertEqual(float(word), round(float(word)))
            hint = '' if word[0] in '24' else PARTS % 'km or metres'
            self.assertEqual(run('path', word, 0, 0, 0, 0, 0), (1, b'', told(23, 'X of the satellite is ' + word + hint)))

    def test_whole_numbers_beyond_every_double(self):
        """1e400 is a whole number, so 24, where a double of it would be infinite."""
        for word in ('50000000001', '-50000000001', '9007199254740993', '1e300', '-1e300', '1e400', '-1e400', '1e999999999999', '1' + '0' * 4000,
                     '50000000001.000', '999999999999999', '1e15'):
            row = 'Y of the antenna is %s, not -50000000000 to 50000000000' % word
            self.assertEqual(run('path', 0, 0, 0, 0, word, 0), (1, b'', told(24, row)), word[:40])

    def test_seeded_words(self):
        """Six decimals each, with points and powers; the answer goes by the exact numbers."""
        pick, seen = random.Random(29), set()
        for _ in range(150):
            words = [self.word(pick) for _ in range(6)]
            values = list(map(value_of, words))
            numbers = list(filter(None, map(number_of, values)))
            status, output, errors = run('path', *words)
            seen.add(min(numbers, default=0))
            if numbers:
                self.assertEqual((status, output), (1, b''), words)
                self.assertTrue(errors.startswith('path: refused %d: ' % min(numbers)), words)
            else:
                length = length_of(list(map(int, values)))
                self.assertEqual((status, output, errors), (0, b'%d mm\n' % length, remark_on(length)), words)
        self.assertEqual(seen, {0, 23, 24})

    def word(self, pick):
        """A whole number within the limits, mostly, with its point moved and a power that moves it back, or nearly so."""
        number = pick.choice((pick.randint(-MOST, MOST), pick.randint(-99, 99), pick.choice((1, -1)) * (MOST + pick.randint(0, 1))))
        digits, behind = str(abs(number)) + '0' * pick.randint(0, 20), pick.randint(0, 9)
        zeros = len(digits) - len(str(abs(number)))
        digits = digits.rjust(behind + 1, '0')
        power = behind - zeros - (pick.randint(0, 30) == 0) + (pick.randint(0, 40) == 0)
        return '%s%s.%se%d' % ('-' * (number < 0), digits[:len(digits) - behind], digits[len(digits) - behind:], power)

    def test_words_for_no_number(self):
        for word in ('nan', 'NaN', '-nan', '+NAN', 'inf', '-inf', '+Inf', 'INFINITY', '-Infinity'):
            for place in range(6):
                words = [1e300] * 6
                words[place] = word
                self.assertEqual(run('path', *words), (1, b'', told(23, '%s is %s' % (NAMES[place], word))))


class Refusals(unittest.TestCase):
    def test_each_that_is_to_blame_is_named(self):
        rows = ['X of the satellite is 0.25; if that is metres, it is 250 mm', 'Z of the satellite is 1e-7' + PARTS % 'km or metres',
                'Y of the antenna is nan', EITHER]
        self.assertEqual(run('path', '0.25', 1, '1e-7', MOST + 1, 'nan', 0), (1, b'', told(23, *rows)))
        rows = ['%s is %d, not -50000000000 to 50000000000' % (name, -MOST - 1) for name in NAMES]
        self.assertEqual(run('path', *[-MOST - 1] * 6), (1, b'', told(24, *rows)))
        self.assertEqual(run('path', *[-MOST - 1] * 5, '-0'), (1, b'', told(24, *rows[:5])))
        self.assertEqual(run('path', *[-MOST - 1] * 5, 1), (1, b'', told(24, *rows[:5], INSIDE)))

    def test_metres(self):
        """Up to three decimals, and more where what follows is 0 and kilometres would be outside."""
        for word, mm in (('4202777.366', '4202777366'), ('-171367.9', '-171367900'), ('0.001', '1'), ('4778660203e-3', '4778660203'),
                         ('-.02', '-20'), ('-171367.9990', '-171367999'), ('50000.001000', '50000001'), ('4202777.3660000', '4202777366'),
                         ('49999999.999', '49999999999'), ('-49999999.9990', '-49999999999')):
            self.check_unit(word, 'metres', 1000, mm)

    def test_parts_of_a_millimetre(self):
        """Four decimals as in RINEX headers, or as many as a program prints of a double."""
        for word in ('4202777.3662', '50000.0001', '-50000.0000001', '4202777.3662000001', '49999999.9999', '-20140777.888200001',
                     '50001.0000000001', '49999999.' + '9' * 40):
            self.assertTrue(abs(value_of(word)) * 1000 < MOST < abs(value_of(word)) * 10 ** 6)
            self.check_parts(word, 'metres')
        for word in ('15600.1234567', '1e-7', '49999.9999999', '-0.00000' + '1' * 20):
            self.assertTrue(abs(value_of(word)) * 10 ** 6 < MOST)
            self.check_parts(word, 'km or metres')

    def check_parts(self, word, units):
        self.assertEqual(run('path', 0, 0, 0, 0, 0, word), (1, b'', told(23, 'Z of the antenna is ' + word + PARTS % units)))

    def test_no_advice_leads_outside(self):
        """In metres each of these would be outside, and so refused again."""
        for word in ('50000000.001', '-50000000.0001', '4202777.3662e3', '5.00000000001e10', '123456789012.345', '99999999999999.9', '999999999.999000',
                     '1234567890123.456', '999999999999.9991', '9' * 30 + '.5'):
            self.assertGreater(abs(value_of(word)) * 1000, MOST)
            self.assertEqual(run('path', 0, 0, 0, 0, 0, word), (1, b'', told(23, 'Z of the antenna is ' + word)))
            self.assertEqual(run('path', 7, 0, 0, 0, 0, word), (1, b'', told(23, 'Z of the antenna is ' + word)))

    def test_kilometres(self):
        """Four to six decimals, as in SP3 files, within the limits."""
        for word, mm in (('15600.123457', '15600123457'), ('-7540.654320', '-7540654320'), ('20140.777000', '20140777000'), ('0.000001', '1'),
                         ('1e-4', '100'), ('-49999.999999', '-49999999999'), ('171.3679', '171367900'), ('4202777366e-6', '4202777366'),
                         ('12.5000', '12500000')):
            self.check_unit(word, 'km', 10 ** 6, mm)

    def check_unit(self, word, unit, factor, mm):
        row = 'Z of the antenna is %s; if that is %s, it is %s mm' % (word, unit, mm)
        self.assertEqual(run('path', 0, '-0', '0.000', 0, '0e-3', word), (1, b'', told(23, row)))
        self.assertEqual(value_of(word) * factor, int(mm))
        self.assertEqual(run('path', 0, 0, 0, 7, 0, word), (1, b'', told(23, row, OTHERS)))

    def test_kilometres_go_by_the_point(self):
        """One small coordinate among metres is no km; the other point is judged by itself."""
        words = ('4202777.3662', '1713.9991', '4778660.2033')
        rows = ['%s of the antenna is %s' % (axis, word) + PARTS % 'metres' for axis, word in zip('XYZ', words)]
        self.assertEqual(run('path', 0, 0, 0, *words), (1, b'', told(23, *rows)))
        km = 'Y of the satellite is 1713.9991; if that is km, it is 1713999100 mm'
        self.assertEqual(run('path', 0, '1713.9991', 0, *words), (1, b'', told(23, km, *rows)))
        self.assertEqual(run('path', MOST, '1713.9991', '0e-9', 0, 0, 0), (1, b'', told(23, km, ALREADY)))
        metres = 'Y of the satellite is 1713.9990; if that is metres, it is 1713999 mm'
        self.assertEqual(run('path', '60000.5', '1713.9990', 'nan', 0, 0, 0)[2].splitlines()[2].strip(), metres)

    def test_whole_ones_beside(self):
        """A whole coordinate may be in the unit that is told; one that would be outside in it is in mm."""
        satellite, metres = ('15600123.457', '7540654.321', '20140777.888'), ('15600123457', '7540654321', '20140777888')
        rows = ['%s is %s; if that is metres, it is %s mm' % told_so for told_so in zip(NAMES, satellite, metres)]
        self.assertEqual(run('path', *satellite, 4202777366, 171367999, 4778660203), (1, b'', told(23, *rows, ALREADY)))
        self.assertEqual(run('path', *satellite, 4202777, 171367, 4778660), (1, b'', told(23, *rows, OTHERS)))
        self.assertEqual(run('path', *satellite, 50000000, 0, 0), (1, b'', told(23, *rows, OTHERS)))
        self.assertEqual(run('path', *satellite, 50000001, 0, 0), (1, b'', told(23, *rows, ALREADY)))
        self.assertEqual(run('path', *satellite, 50000000, -50000001, 0), (1, b'', told(23, *rows, EITHER)))
        km = 'X of the satellite is 15600.123457; if that is km, it is 15600123457 mm'
        self.assertEqual(run('path', '15600.123457', 50000, 0, 0, 0, 0), (1, b'', told(23, km, OTHERS)))
        self.assertEqual(run('path', '15600.123457', 50001, 0, 0, 0, 0), (1, b'', told(23, km, ALREADY)))
        both = 'X of the antenna is 1.5; if that is metres, it is 1500 mm'
        self.assertEqual(run('path', '15600.123457', 50001, 0, '1.5', 0, 0), (1, b'', told(23, km, both, OTHERS)))

    def test_no_coordinate_is_left_behind(self):
        """Whole ones are pointed out only beside one that has another unit."""
        self.assertEqual(run('path', 'nan', 1, 2, 3, 4, 5), (1, b'', told(23, 'X of the satellite is nan')))
        rows = ['%s is 1.5; if that is metres, it is 1500 mm' % name for name in NAMES]
        self.assertEqual(run('path', *['1.5'] * 6), (1, b'', told(23, *rows)))
        self.assertEqual(run('path', *['1.5'] * 5, 'inf'), (1, b'', told(23, *rows[:5], 'Z of the antenna is inf')))


class Use(unittest.TestCase):
    def test_wrong_use(self):
        count = 'path: %d of 6 coordinates: X Y Z of the satellite, then of the antenna'
        for words, reason in (((), count % 0), ((1, 2, 3), count % 3), ((1, 2, 3, 4, 5, '--ps'), count % 5),
                              ((1, 2, 3, 4, 5, 6, 7), "path: '7' is one word too many"), ((1, 2, 3, 4, 5, 6, '-7'), "path: '-7' is one word too many"),
                              (('-x', 1, 2, 3, 4, 5, 6), "path: no option '-x'"), (('--pss', 1, 2, 3, 4, 5, 6), "path: no option '--pss'"),
                              (('--', 1, 2, 3, 4, 5, 6, '--ps'), "path: '--ps' is no number"), (('-', 2, 3, 4, 5, 6), "path: '-' is no number"),
                              *(((word, 2, 3, 4, 5, 6), "path: '%s' is no number" % word)
                                for word in ('', 'x', '1 ', ' 1', '0x10', '1e', '1e+', 'e5', '.', '+', '1.2.3', 'nan(1)', 'infi', '1f',
                                             '1e5.0', '+-1'))):
            self.assertEqual(run('path', *words), (2, b'', 'cggtts: %s; try cggtts --help\n' % reason), words)
        for word in ('15600123,457', '-171367,999', '1,5', '15,600,123.457', "15'600'123", '1_000'):
            reason = "path: '%s' is no number: decimals have a point before them, and thousands no mark" % word
            self.assertEqual(run('path', 1, word, 3, 4, 5, 6), (2, b'', 'cggtts: %s; try cggtts --help\n' % reason))
        for word in ('-', '-.', '-5m', '-.5x', '-e5', '--5', '-x5', '-5-'):
            reason = "path: no option '%s'" % word if word in ('-e5', '--5', '-x5') else "path: '%s' is no number" % word
            self.assertEqual(run('path', 1, word, 3, 4, 5, 6), (2, b'', 'cggtts: %s; try cggtts --help\n' % reason))

    def test_words_behind_two_dashes(self):
        self.assertEqual(run('path', '--ps', '--', '-3', 0, 0, 0, '-4', 0), (0, b'5 mm\n17 ps\n', SHORT))

    def test_help(self):
        for words in (('path', '-h'), ('path', '--help', 1), ('help', 'path')):
            status, output, errors = run(*words)
            self.assertEqual((status, errors), (0, ''))
            self.assertIn(b'cggtts path X Y Z X Y Z [--ps]\n', output)
            self.assertIn(b'; --ps adds the time of light, rounded to ps\n', output)
            self.assertNotIn(b'cggtts starts', output)

    def test_output_that_can_not_be_written(self):
        with open('/dev/full', 'wb') as full:
            told_once = 'cggtts: standard output: No space left on device\n'
            self.assertEqual(run('path', MOST, 0, 0, 0, 0, 0, stdout=full)[::2], (2, told_once))
            self.assertEqual(run('path', 1, 2, 2, 0, 0, 0, stdout=full)[::2], (2, SHORT + told_once))

    def test_the_papers_metres(self):
        """trackline.h and trackline(3) have metres whose product with 1000 is no whole number as a double, and near one."""
        for name in ('include/trackline.h', 'man/trackline.3'):
            metres, product = re.search(r'For (\d+\.\d+) it is (\d+\.\d+)\.', (ROOT / name).read_text()).groups()
            self.assertEqual(repr(1000 * float(metres)), product)
            self.assertEqual(round(1000 * float(metres)), value_of(metres) * 1000)
            self.assertTrue(run('path', product, 0, 0, 0, 0, 0)[2].startswith('path: refused 23: '))

    def test_the_papers_run(self):
        """HIRE-BLOCK.md and cggtts(1) have a run each, as it comes out."""
        for name, begin in (('docs/HIRE-BLOCK.md', '    $ '), ('man/cggtts.1', '$ ')):
            text = (ROOT / name).read_text().replace('\\-', '-')
            found = re.findall(r'(?m)^%scggtts (path .*)\n *(\d+ mm)\n *(\d+ ps)$' % re.escape(begin), text)
            self.assertEqual(len(found), 1, name)
            for command, mm, ps in found:
                self.assertEqual(run(*command.split()), (0, ('%s\n%s\n' % (mm, ps)).encode(), ''))
                six = [int(word) for word in command.split()[1:] if word != '--ps']
                self.assertEqual((mm, ps), ('%d mm' % length_of(six), '%d ps' % light_of(length_of(six))))


if __name__ == '__main__':
    unittest.main()
