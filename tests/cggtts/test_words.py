#!/usr/bin/env python3
"""Runs cggtts where it speaks to people: dates, tables, rounded figures, and what a file or a block is taken for.

    python3 tests/cggtts/test_words.py

Dates are those of Python's calendar, figures are worked out in fractions, and the places in blocks are those that are spoilt
here; sentences are written out by hand.
"""
import csv
import datetime
import gzip
import io
import math
import os
import random
import re
import struct
import subprocess
import sys
import unittest
import xml.etree.ElementTree as tree
from fractions import Fraction

from test_cggtts import MEANINGS, OWN, PROGRAM, ROOT, SAMPLE, SAMPLE_LINE, WORKED, WORKED_LINE, Scratch, block, line_with, run
from test_view import FIRST, ROOF, SECOND, SVG, pairs_of, report_of, rounded, some_files, tracked
from blocks import scattered
from papers import FIELDS, field, second_of, starts, with_check

DAY_ZERO = datetime.date(1858, 11, 17)
WORKED_BLOCK = (ROOT / WORKED).read_bytes()
ABOUT = 'about, in ns, rounded to 0.001 ns; the deviation is the standard deviation, over pairs - 1\n'


def calendar(mjd):
    return (DAY_ZERO + datetime.timedelta(days=mjd)).isoformat()


class Dates(Scratch):
    def test_beside_the_mjd(self):
        """Every date of the schedule, a line each, by Python's calendar."""
        mjds = sorted({*range(50722, 51900), *range(50722, 100000, 89), 99999})
        lines = ''.join(line_with([(8, '%05d' % mjd), (14, starts(mjd)[0])]) + '\n' for mjd in mjds)
        status, output, errors = run('read', data=lines.encode())
        self.assertEqual((status, errors), (0, ''))
        found = re.findall(r'(?m)^  MJD +(\d+), (\S+) +\1$', output.decode())
        self.assertEqual([int(mjd) for mjd, _ in found], mjds)
        self.assertEqual([row for row in found if row[1] != calendar(int(row[0]))][:3], [])

    def test_starts_of_a_date(self):
        for mjd in (*range(50722, 52200, 7), 51603, 51604, 73108, 73109, 88068, 99999):
            self.assertEqual(run('starts', calendar(mjd)), run('starts', mjd), mjd)

    def test_dates_out_of_range(self):
        for date, mjd in (('1997-09-30', 50721), ('2132-09-01', 100000), ('1858-11-17', 0), ('0001-01-01', 0), ('9999-12-31', 2973483)):
            told = '%s: refused 7: %s\n  MJD is %d, not 50722 to 99999, which are 1997-10-01 to 2132-08-31\n'
            self.assertEqual(run('starts', date), (1, b'', told % (date, MEANINGS[7], mjd)))
        self.assertEqual((calendar(50722), calendar(99999)), ('1997-10-01', '2132-08-31'))

    def test_words_that_are_no_date(self):
        for word in ('2024-02-30', '2023-02-29', '2100-02-29', '2024-13-01', '2024-00-10', '2024-10-00', '2024-1-01', '24-10-17',
                     '2024/10/17', '2024-10-17 ', '+024-10-17', '2024-10-1x', '0000-01-01', '20241-10-17', '2024-10-170'):
            told = "cggtts: starts: '%s' is neither an MJD nor a date yyyy-mm-dd; try cggtts --help\n" % word
            self.assertEqual(run('starts', word), (2, b'', told))


class Tables(Scratch):
    NAMES = ('file line constellation satellite CL MJD start TRKL ELV AZTH REFSV SRSV REFSYS SRSYS DSG IOE MDTR SMDT MDIO SMDI FR HC '
             'FRC comment').split()

    def row(self, name, number, line, comment=''):
        """By the columns of the line itself."""
        return [str(name), str(number), line[0], str(int(field(line, 'SAT'))), str(int(field(line, 'CL'), 16)), field(line, 'MJD'),
                str(second_of(field(line, 'STTIME'))),
                *(str(int(field(line, column))) for column, _, _ in FIELDS[4:19]), field(line, 'FRC'), comment]

    def test_a_table(self):
        comment = ' 1,5 "quoted" %s'
        path = self.kept('a,b"c', ROOF[0] + WORKED_LINE[:113] + comment.encode() + b'\n')
        status, output, errors = run('read', '--csv', path, '-', data=WORKED_LINE)
        self.assertEqual((status, errors), (0, ''))
        rows = list(csv.reader(io.StringIO(output.decode(), newline='')))
        lines = ROOF[0].decode().splitlines()
        self.assertEqual(rows[0], self.NAMES)
        self.assertEqual(rows[1:-2], [self.row(path, number, line) for number, line in enumerate(lines, 1)])
        self.assertEqual(rows[-2:], [self.row(path, len(lines) + 1, WORKED_LINE.decode(), comment),
                                     self.row('-', 1, WORKED_LINE.decode())])
        # the 23 values: FRC has three of them in one column
        self.assertEqual(len(self.NAMES) - len(('file', 'line', 'comment')) + 2, 23)

    def test_refused_lines(self):
        """They are told as without the option, and have no row; the heading stands in any case."""
        path = self.kept('day', WORKED_LINE + b'G05\r\n' + WORKED_LINE)
        told = '%s:2: refused 12: %s\n  it has 3 bytes\n' % (path, MEANINGS[12])
        status, output, errors = run('read', path, '--csv')
        self.assertEqual((status, errors, output.count(b'\n')), (1, told, 3))
        self.assertEqual(run('read', '--csv', data=b'G05\n')[:2], (1, ','.join(self.NAMES).encode() + b'\n'))

    def test_refused_lines_alone(self):
        path = self.kept('day', WORKED_LINE + b'G05\r\n' + WORKED_LINE)
        told = '%s:2: refused 12: %s\n  it has 3 bytes\n' % (path, MEANINGS[12])
        self.assertEqual(run('read', path, '--bad'), (1, b'', told))
        self.assertEqual(run('read', '--bad', FIRST, SECOND), (0, b'', ''))
        self.assertEqual(run('read', '--bad', path, 'no/such')[0], 2)

    def test_use(self):
        told = 'cggtts: read: --bad shows refused lines alone, and --csv the others: give one of the two; try cggtts --help\n'
        self.assertEqual(run('read', '--bad', '--csv', FIRST), (2, b'', told))
        for command in ('line', 'check', 'merge', 'view'):
            for option in ('--bad', '--csv'):
                told = "cggtts: %s: no option '%s'; try cggtts --help\n" % (command, option)
                self.assertEqual(run(command, FIRST, option), (2, b'', told))


def root_of(fraction):
    """Its square root in thousandths, to the nearest."""
    square = fraction * 10 ** 6
    below = math.isqrt(square.numerator // square.denominator)
    return below + ((2 * below + 1) ** 2 <= 4 * square)


def about_of(first, second):
    """What --about prints below the report."""
    pairs = pairs_of(first, second)
    rows = [('all', [pair[3] for pair in pairs])]
    rows += [(name, [pair[3] for pair in pairs if pair[2] == name]) for name in sorted({pair[2] for pair in pairs})]
    text = ABOUT + '  %-9s %6s %16s %16s %16s\n' % ('satellite', 'pairs', 'mean', 'deviation', 'median')
    for name, values in rows:
        tenths, count = sorted(Fraction(value, 10) for value in values), len(values)
        mean = sum(tenths) / count
        deviation = '-'
        if count > 1:
            deviation = rounded(Fraction(root_of(sum((value - mean) ** 2 for value in tenths) / (count - 1)), 1000), 3)
        median = (tenths[(count - 1) // 2] + tenths[count // 2]) / 2
        text += '  %-9s %6d %16s %16s %16s\n' % (name, count, rounded(mean, 3), deviation, rounded(median, 3))
    return text


class About(Scratch):
    def test_the_roof(self):
        wanted = report_of((FIRST, SECOND), *ROOF) + about_of(*ROOF)
        self.assertEqual(run('view', FIRST, SECOND, '--about'), (0, wanted.encode(), ''))
        self.assertIn('  all           37          -23.686            0.239          -23.700\n', wanted)

    def test_by_hand(self):
        """2, 4, 4, 5 and 7 tenths: mean 4.4, squares about it 13.2, over 4 3.3, root 1.817 tenths; median 4."""
        keys = [(50722, '000200', 'G%02d' % number) for number in (1, 2, 3, 4, 5)]
        first = b''.join(tracked(*key, value) for key, value in zip(keys, (4, 7, 2, 5, 4)))
        second = b''.join(tracked(*key) for key in keys)
        output = run('view', self.kept('one', first), self.kept('other', second), '--about')[1].decode()
        self.assertIn('  all            5            0.440            0.182            0.400\n', output)
        self.assertIn('  G02            1            0.700                -            0.700\n', output)

    def test_many_files(self):
        pick = random.Random(26)
        for _ in range(40):
            first, second = some_files(pick)
            if pairs_of(first, second):
                one, other = self.kept('one', first), self.kept('other', second)
                wanted = report_of((one, other), first, second) + about_of(first, second)
                self.assertEqual(run('view', one, other, '--about'), (0, wanted.encode(), ''))

    def test_no_decimal_of_the_mean_without_it(self):
        for options in ((), ('--svg', self.folder / 'picture')):
            output = run('view', FIRST, SECOND, *options)[1].decode()
            self.assertEqual(re.findall(r'(?m)^  mean.*$', output), ['  mean           -8764/37 x 0.1 ns'])
        self.assertNotIn('23.68', (self.folder / 'picture').read_text())

    def test_use(self):
        told = 'cggtts: view: --pairs prints rows alone, and --about a report: give one of the two; try cggtts --help\n'
        self.assertEqual(run('view', FIRST, SECOND, '--pairs', '--about'), (2, b'', told))


class Both(Scratch):
    def test_each_column_of_a_pair(self):
        """That of the first line before that of the second, written out by hand."""
        key = 50722, '000200', 'G05'
        one = self.kept('one', tracked(*key, -315, 765, [(26, '123'), (73, '0004'), (108, 'L1P')]))
        other = self.kept('other', tracked(*key, 17, 765, [(26, '067'), (73, '0012'), (108, 'L2C')]))
        head = b'# MJD start satellite difference/0.1ns MJD-with-fraction ELV-1 ELV-2 DSG-1 DSG-2 FRC-1 FRC-2 TRKL REFSYS-1 REFSYS-2\n'
        self.assertEqual(run('view', one, other, '--pairs'),
                         (0, head + b'50722 000200 G05 -332 50722.001389 123 67 4 12 L1P L2C 765 -315 17\n', ''))
        self.assertEqual(run('view', other, one, '--pairs'),
                         (0, head + b'50722 000200 G05 332 50722.001389 67 123 12 4 L2C L1P 765 17 -315\n', ''))


class Ranges(Scratch):
    def drawn(self, *options):
        picture = self.folder / 'picture.svg'
        self.assertEqual(run('view', FIRST, SECOND, '--svg', picture, *options), (0, report_of((FIRST, SECOND), *ROOF).encode(), ''))
        return tree.fromstring(picture.read_bytes())

    def check_head(self, picture, lines):
        """Nine pixels for a character are within the picture, lines stand apart, and all below its top."""
        for text in lines:
            self.assertLessEqual(132 + 9 * len(text.text), 960)
        heights = [float(text.get('y')) for text in lines]
        top, height = (float(picture.get('viewBox').split()[i]) for i in (1, 3))
        self.assertEqual(heights, [52.0 - 20 * i for i in reversed(range(len(lines)))])
        self.assertEqual((top, height, float(picture.get('height'))), (heights[0] - 52, 525 - top, height))

    def test_what_is_outside_is_counted(self):
        differences = [pair[3] for pair in pairs_of(*ROOF)]
        for low, high in ((-240, -235), (-242, -232), (-241, -233), (-300, 10), (100, 200), (-239, -238), (-20000000000, 20000000000)):
            word = '%s:%s' % tuple(rounded(Fraction(value, 10), 1) for value in (low, high))
            for option in (['--range', word], ['--range=' + word]):
                picture = self.drawn(*option)
            outside = sum(not low <= value <= high for value in differences)
            texts = [text.text for text in picture.iter(SVG + 'text')]
            small, large = low <= -242 <= high, low <= -232 <= high
            marks = ('' if small and large else ' (dashed)' if small else ' (outside)', ' (dashed)' if large else ' (outside)',
                     ' (red)' if low * 37 <= -8764 <= high * 37 else ' (outside)')
            head = [text for text in picture.findall(SVG + 'text') if text.get('x') == '132'][1:]
            self.assertEqual(' '.join(text.text for text in head), '37 pairs, %d outside %s to %s ns: smallest -24.2 ns%s and largest -23.2 ns%s, '
                             'mean -8764/37 x 0.1 ns%s' % (outside, *word.split(':'), *marks))
            self.check_head(picture, head)
            points = [dot for dot in picture.iter(SVG + 'circle') if dot.find(SVG + 'title') is not None]
            self.assertEqual(len(points), 37 - outside)
            self.assertTrue(all(96 <= float(dot.get('cy')) <= 466 for dot in points))
            levels = [line for line in picture.findall(SVG + 'line') if line.get('stroke-dasharray')]
            self.assertEqual(len(levels), (low <= -242 <= high) + (low <= -232 <= high))
            red = [line for line in picture.findall(SVG + 'line') if line.get('stroke-width')]
            self.assertEqual(len(red), low * 37 <= -8764 <= high * 37)
            counted = sum(int(count) for count in re.findall(r'\w: (\d+) pairs?\b', ' '.join(filter(None, texts[2:]))))
            self.assertEqual(counted, 37 - outside)

    def test_words(self):
        for word in ('', ':', '1', '1:', ':1', '1:1', '2:1', '1:2:3', '1.25:2', 'a:b', '1 :2', '1:2 ', '--1:2', '1.:2', '.5:2',
                     '-2000000001:0', '0:99999999999999999999999'):
            told = "cggtts: view: --range '%s' is not LOW:HIGH in ns, with up to one decimal; try cggtts --help\n" % word
            self.assertEqual(run('view', FIRST, SECOND, '--svg', self.folder / 'x', '--range', word), (2, b'', told))
        told = 'cggtts: view: --range is for a picture, and --svg is not given; try cggtts --help\n'
        self.assertEqual(run('view', FIRST, SECOND, '--range', '1:2'), (2, b'', told))
        self.assertEqual(run('view', FIRST, SECOND, '--range'), (2, b'', 'cggtts: view: --range without LOW:HIGH; try cggtts --help\n'))
        self.assertEqual(os.listdir(self.folder), [])
        self.drawn('--range', '+1:2.5')


def with_numbers(data, changes):
    """A block with other numbers of eight bytes at these places, given as numbers or by what they were."""
    data = bytearray(data)
    for at, value in changes.items():
        before = struct.unpack_from('<q', data, at)[0]
        struct.pack_into('<q', data, at, value(before) if callable(value) else value)
    return bytes(data)


class Where(Scratch):
    """What check says of a block whose slope or scatter does not fit."""
    BLOCK, SECOND = 'farthest from the line: block %d (seconds %d to %d), by about ', 'farthest from the line: second %d (measurement %d), by about '

    def told(self, number, data):
        status, output, errors = run('check', '-', data=data)
        self.assertEqual((status, output), (1, b''))
        self.assertTrue(errors.startswith('-: refused %d: ' % number), errors)
        return errors.splitlines()[1:]

    def test_a_missing_second(self):
        """A 0 in place of one measurement, which lies all of it off the line: its block and its second."""
        for second in (0, 5, 14, 15, 390, 400, 765, 779):
            data = with_numbers(WORKED_BLOCK, {58 + 8 * second: 0})
            status, _, errors = run('check', '-', data=data)
            self.assertEqual(status, 1)
            rows = errors.splitlines()[-2:]
            self.assertTrue(rows[0].startswith('  ' + self.BLOCK % (second // 15, second // 15 * 15, second // 15 * 15 + 14)), rows)
            self.assertTrue(rows[1].startswith('  ' + self.SECOND % (second, second)), rows)
            # the measurement itself, but for what the line is tilted by
            measured = struct.unpack_from('<q', WORKED_BLOCK, 58 + 8 * second)[0]
            self.assertAlmostEqual(int(re.search(r'by about (-?\d+) ps', rows[1]).group(1)) / -measured, 1, delta=0.1)

    def test_a_jump(self):
        """The second beside it lies farthest, on either side."""
        for second, number in ((390, 4), (300, 4), (100, 6)):
            later = {58 + 8 * i: lambda value: value + 7000000 for i in range(second, 780)}
            rows = self.told(number, with_numbers(WORKED_BLOCK, later))
            found = int(re.search(r'second (\d+) \(measurement', rows[-1]).group(1))
            self.assertIn(found, (second - 1, second))

    def test_no_second_stands_out_by_its_corrections(self):
        """Every second is 20 ns off, block by block to either side, and some ns of noise; the path bends by more between its groups."""
        data = with_numbers(WORKED_BLOCK, {58 + 8 * i: lambda value, i=i: value + (20000 if i // 15 % 2 else -20000) for i in range(780)})
        status, _, errors = run('check', '-', data=data)
        off = [abs(int(found)) for found in re.findall(r'by about (-?\d+) ps', errors)]
        self.assertEqual((status, len(off)), (0, 2))
        self.assertTrue(all(20000 <= value < 25000 for value in off), off)

    def test_a_late_row_of_geometry(self):
        row = {6298 + 40 * 20: struct.unpack_from('<q', WORKED_BLOCK, 6298 + 40 * 21)[0]}
        rows = self.told(6, with_numbers(WORKED_BLOCK, row))
        self.assertIn(self.BLOCK % (20, 300, 314), rows[-2])

    def test_a_column(self):
        rows = self.told(4, with_numbers(WORKED_BLOCK, {6298 + 40 * 40 + 24: lambda value: 1000 * value}))
        self.assertTrue(rows[-1].startswith('  farthest from its line: troposphere 40 (seconds 600 to 614), by about '))
        self.assertEqual(len(rows), 2)
        rows = self.told(4, with_numbers(WORKED_BLOCK, {6298 + 40 * 3 + 16: lambda value: -1000 * value}))
        self.assertTrue(rows[-1].startswith('  farthest from its line: ionosphere 3 (seconds 45 to 59), by about '))

    def test_short_tracks(self):
        for n in (4, 5, 20):
            for second in (0, 7, 15 * n - 1):
                rows = self.told(4, block({'measurement %d' % second: 10 ** 11}, n))
                self.assertIn(self.SECOND % (second, second), rows[-1])

    def test_nothing_stands_out(self):
        rows = self.told(4, block(measurements=[10000 * t for t in range(780)]))
        self.assertEqual(rows[-1], '  no block of 15 seconds stands out: all lie within 1 ns of the line')
        # a column that climbs evenly is told by its slope alone
        self.assertEqual(self.told(4, block(troposphere=[1500 * j for j in range(52)])),
                         ['  SMDT is 1000, not -999 to 999' + OWN])

    def test_nanoseconds(self):
        measured = with_numbers(WORKED_BLOCK, {58 + 8 * i: lambda value: value // 1000 for i in range(780)})
        rows = self.told(4, measured)
        self.assertRegex(rows[-1], r'^  geometry is about \d+ times the measurements: are these in ns for ps\?$')
        geometry = with_numbers(WORKED_BLOCK, {6298 + 40 * j: lambda value: value // 1000 for j in range(52)})
        rows = self.told(4, geometry)
        self.assertRegex(rows[-1], r'^  the measurements are about \d+ times the geometry: is that in ns for ps\?$')
        for rows in (self.told(4, data) for data in (measured, geometry)):
            self.assertTrue(900 < int(re.search(r'about (\d+) times', rows[-1]).group(1)) < 1100)
            self.assertFalse(any('farthest' in row for row in rows))

    def test_a_remark_on_an_accepted_block(self):
        """Above 10.0 ns, not at it. scattered(a) has a DSG of a / 100 to the nearest."""
        for scatter, remark in ((10000, ''), (10049, ''), (10050, '10.1'), (123456, '123.5'), (999900, '999.9')):
            status, output, errors = run('check', '-', data=block(clock=scattered(scatter)))
            self.assertEqual((status, output), (0, b'-: accepted\n'))
            told = '  a remark: DSG is %s ns, above 10 ns; look at the track before it is used\n' % remark
            self.assertEqual(errors.splitlines(keepends=True)[:1], [told] if remark else [])
            self.assertEqual('farthest from the line: block ' in errors, bool(remark))
        self.assertEqual(run('check', SAMPLE, WORKED)[2], '')


TWO_FREQUENCIES = ('G05 FF 60600 133000  780 583 2145    +1233431     +9        -315    -41    3  87   97   +5  202  -21  199  -20   4 '
                   ' 0  5 L3P ')
VERSION_01 = {'without': ' 17 FF 60600 133000  780 583 2145    +1233431     +9        -315    -41    3  87   97   +5  202  -21 ',
              'measured': ' 17 FF 60600 133000  780 583 2145    +1233431     +9        -315    -41    3  87   97   +5  202  -21  199  -20   4 '}


def checked(columns):
    return with_check(columns).encode()


class Kinds(Scratch):
    """What is not what the subcommand takes is told by name."""
    PACKED = 'it is a gzip file: unpack it first, as by gunzip'
    BLOCK = "it is a hire block, which 'cggtts check' and 'cggtts line' take"
    LINES = "it has data lines, which 'cggtts read' takes, and is no hire block"
    MEASURED = 'it has a measured ionosphere (MSIO, SMSI, ISG), as lines of two frequencies have: such lines are not taken'
    OLD = "it is a line of version 01, which has no letter, FR, HC and FRC: 'cggtts convert FILE --hc N --frc XYZ' takes such lines"
    OLD_MEASURED = 'it is a line of version 01 with a measured ionosphere (MSIO, SMSI, ISG): such lines are not taken'

    def test_given_as_a_block(self):
        for data, told in ((ROOF[0], self.LINES), (ROOF[0].replace(b'\r', b''), self.LINES), (gzip.compress(WORKED_BLOCK), self.PACKED),
                           (b'CGGTTS     GENERIC DATA FORMAT VERSION = 2E\r\n' + ROOF[0],
                            'it is a file of data lines with a header, and no hire block'),
                           (checked(TWO_FREQUENCIES) + b'\r\n', self.LINES), (checked(VERSION_01['without']), self.OLD)):
            path = self.kept('a', data)
            for command in ('check', 'line'):
                self.assertEqual(run(command, path), (1, b'', '%s: refused 1: %s\n  %s\n' % (path, MEANINGS[1], told)))

    def test_given_as_lines(self):
        for data, told in ((WORKED_BLOCK, self.BLOCK), ((ROOT / SAMPLE).read_bytes(), self.BLOCK), (block(groups=4), self.BLOCK),
                           (WORKED_BLOCK[:5000], self.BLOCK), (gzip.compress(ROOF[0] * 9), self.PACKED)):
            path = self.kept('a', data)
            for arguments in (('read', path), ('read', '--csv', path), ('merge', path, FIRST), ('merge', FIRST, path), ('view', path, FIRST),
                              ('view', FIRST, path)):
                status, _, errors = run(*arguments)
                self.assertEqual(status, 1)
                self.assertRegex(errors, r'^%s:1: refused 1[234]: [^\n]*\n  %s\n$' % (re.escape(str(path)), re.escape(told)))

    def test_long_gzip(self):
        path = self.kept('a', gzip.compress(random.Random(1).randbytes(1200000)))
        self.assertIn('  %s\n' % self.PACKED, run('view', path, FIRST)[2])

    def test_lines_of_other_forms(self):
        self.assertEqual([len(checked(text)) for text in (TWO_FREQUENCIES, *VERSION_01.values())], [127, 103, 117])
        for text, told in ((TWO_FREQUENCIES, self.MEASURED), (VERSION_01['without'], self.OLD), (VERSION_01['measured'], self.OLD_MEASURED)):
            for end in (b'\n', b'\r\n', b' a remark\n'):
                lines = (checked(text) + end) * 3
                path = self.kept('a', lines)
                status, output, errors = run('read', path)
                self.assertEqual((status, output), (1, b''))
                self.assertEqual(re.findall(r'(?m)^  (.*)$', errors), [told] * 3)
                for arguments in (('merge', path, FIRST), ('view', FIRST, path)):
                    status, output, errors = run(*arguments)
                    self.assertEqual((status, output), (1, b''))
                    self.assertRegex(errors, r'^%s:1: refused 1[34]: [^\n]*\n  %s\n$' % (re.escape(str(path)), re.escape(told)))

    def test_published_lines_of_version_01(self):
        """Those of document 003 in the columns of 004, with the letter O that the scan has for 0 in some of its CK."""
        found = 0
        for row in (ROOT / 'tests' / 'published' / 'published.txt').read_text().splitlines():
            words = row.split('|')[0].split()
            if row.startswith('003.'):
                text = ' %2s %2s %5s %6s %4s %3s %4s %11s %6s %11s %6s %4s %3s %4s %4s %4s %4s %2s' % (*words[1:18], words[21])
                errors = run('read', data=text.encode() + b'\n')[2]
                self.assertEqual(errors.splitlines()[1:], ['  ' + self.OLD], text)
                found += 1
        self.assertGreater(found, 10)

    def test_a_line_of_ours_is_none_of_them(self):
        """A line with a long comment and a wrong CK is told by its CK."""
        for comment in ('', ' ' * 27, '9' * 27):
            line = WORKED_LINE.decode()[:111] + '00' + comment
            told = 'CK, columns 112 and 113, is "00", and the columns before it give 8C'
            self.assertEqual(run('read', data=line.encode())[2].splitlines()[1:], ['  ' + told])


class Names(Scratch):
    """File names in messages have no control characters."""

    def named(self, name, data):
        path = os.path.join(os.fsencode(self.folder), name)
        with open(path, 'wb') as file:
            file.write(data)
        return path

    def output_of(self, *arguments):
        done = subprocess.run([PROGRAM, *arguments], capture_output=True, check=False, cwd=ROOT)
        return done.stdout + done.stderr

    def test_names(self):
        for name, told in ((b'a\x1b[31mb', rb'a\x1B[31mb'), (b'a\nb\tc\r', rb'a\x0Ab\x09c\x0D'), (b'\x7f\x01', rb'\x7F\x01'),
                           (b'a\x9bb', rb'a\x9Bb'), (b'a\xc2\x9bb', rb'a\xC2\x9Bb'), ('r\u00f6\u20ac\U0001f6f0'.encode(),) * 2,
                           (b'\xe2\x82', rb'\xE2\x82'), (b'\xc3', rb'\xC3'), (b'\xf0\x9f\x9b', rb'\xF0\x9F\x9B')):
            bad, lines, good = self.named(name, block()[:9]), self.named(name + b'l', ROOF[0]), self.named(name + b'g', block())
            place = os.path.join(os.fsencode(self.folder), told)
            runs = {('check', good): place + b'g: accepted\n', ('check', bad): place + b': refused 11', ('read', bad): place + b':1: refused 12',
                    ('read', lines): place + b'l:1\n', ('read', '--csv', lines): b'"%sl",1,' % place,
                    ('view', lines, lines): b'REFSYS of %sl minus REFSYS of %sl\n' % (place, place), ('line', good + b'x'): place + b'gx: No such',
                    ('merge', lines, bad): place + b':1: refused 12', ('line', '-o', good, good): place + b'g is read, and would be',
                    ('burn' + os.fsdecode(name),): b"no subcommand 'burn" + told + b"'"}
            for arguments, wanted in runs.items():
                made = self.output_of(*arguments)
                self.assertIn(wanted, made)
                self.assertFalse(re.search(rb'[\x00-\x09\x0b-\x1f\x7f]', made), made)

    def test_long_names(self):
        """The longest that the system takes, all of it escaped, twice in one message."""
        folder = os.fsencode(self.folder)
        names = [os.path.join(folder, *[letter * 250] * 15) for letter in (b'\x01', b'\x02')]
        made = self.output_of('view', *names)
        self.assertEqual(made.count(rb'\x01'), 15 * 250)
        self.assertTrue(made.rstrip().endswith(b'No such file or directory'))


class Help(unittest.TestCase):
    def test_the_ways_to_ask(self):
        whole = run('--help')
        self.assertEqual(whole[::2], (0, ''))
        for words in (('-h',), ('help',)):
            self.assertEqual(run(*words), whole)
        for command in ('line', 'check', 'read', 'merge', 'view', 'starts'):
            one = run(command, '--help')
            self.assertIn(b'    cggtts %s ' % command.encode(), one[1])
            self.assertEqual(run('help', command), one)
            self.assertEqual(run(command, '-h'), one)
            self.assertEqual(run(command, 'x', '-h', 'y'), one)
        self.assertEqual(run('-V'), run('--version'))

    def test_wrong_use(self):
        for words, reason in ((('help', 'burn'), "no subcommand 'burn'"), (('help', 'line', 'x'), "help: 'x' is one word too many"),
                              (('-h', 'x'), "-h: 'x' is one word too many"), (('-V', 'x'), "-V: 'x' is one word too many")):
            self.assertEqual(run(*words), (2, b'', 'cggtts: %s; try cggtts --help\n' % reason))
        self.assertEqual(run('line', '--', '-h')[2], 'cggtts: -h: No such file or directory\n')


if __name__ == '__main__':
    unittest.main()
