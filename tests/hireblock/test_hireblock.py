#!/usr/bin/env python3
"""Tests of tools/hireblock.

    python3 tests/hireblock/test_hireblock.py
"""
import os
import pathlib
import random
import re
import resource
import struct
import subprocess
import sys
import unittest

ROOT = pathlib.Path(__file__).resolve().parents[2]
TOOL = ROOT / 'tools' / 'hireblock'
SAMPLE = ROOT / 'examples' / 'sample.txt'

sys.dont_write_bytecode = True
sys.path[:0] = [str(ROOT / 'tests'), str(ROOT / 'tools')]
from blocks import block as sample_block, packed_store  # noqa: E402
from loading import loaded  # noqa: E402
from scratch import Scratch  # noqa: E402

hireblock = loaded('hireblock')


def sample_bytes(n=52):
    """The sample's block with n blocks of 15 seconds, by the paper's layout."""
    return sample_block(groups=n)


def sample_text(n=52):
    """The sample's text with lists for n blocks."""
    text = SAMPLE.read_text().replace('1000 x 780', '1000 x %d' % (15 * n))
    return text.replace('= 0 x 52', '= 0 x %d' % n)


def packed(text):
    return hireblock.pack(hireblock.parse(text))


def round_trip(data):
    return packed(hireblock.show(hireblock.unpack(data)))


class Packing(unittest.TestCase):
    def setUp(self):
        self.text = SAMPLE.read_text()

    def changed(self, name, value):
        """The sample with one value changed."""
        text, count = re.subn(r'(?m)^%s *=.*$' % name, lambda _: '%s = %s' % (name, value), self.text)
        self.assertEqual(count, 1)
        return text

    def test_sample(self):
        self.assertEqual(packed(self.text), sample_bytes())
        self.assertEqual((ROOT / 'examples' / 'sample.blk').read_bytes(), sample_bytes())

    def test_each_part_has_its_place(self):
        places = {'satellite': (5, '<B', 99), 'CL': (6, '<B', 141), 'FR': (7, '<B', 24), 'HC': (8, '<B', 98),
                  'MJD': (12, '<I', 4294967295), 'start': (16, '<I', 86400), 'ELV': (20, '<H', 65535),
                  'AZTH': (22, '<H', 3599), 'IOE': (24, '<H', 999), 'INT': (26, '<q', -1),
                  'CAB': (34, '<q', 2 ** 63 - 1), 'REF': (42, '<q', -2 ** 63), 'GD': (50, '<q', 1234567890123)}
        for name, (at, form, value) in places.items():
            wanted = bytearray(sample_bytes())
            struct.pack_into(form, wanted, at, value)
            self.assertEqual(packed(self.changed(name, value)), bytes(wanted), name)

    def test_columns_are_groups_of_five(self):
        for k, name in enumerate(['geometry', 'relativity', 'ionosphere', 'troposphere', 'clock']):
            values = [10 ** k * (j - 26) for j in range(52)]
            wanted = bytearray(sample_bytes())
            for j, value in enumerate(values):
                struct.pack_into('<q', wanted, 6298 + 40 * j + 8 * k, value)
            self.assertEqual(packed(self.changed(name, ' '.join(map(str, values)))), bytes(wanted), name)

    def test_measurements_in_order(self):
        values = list(range(-390, 390))
        data = packed(self.changed('measurements', '\n'.join(map(str, values))))
        self.assertEqual(struct.unpack_from('<780q', data, 58), tuple(values))

    def test_ways_to_write(self):
        wanted = sample_bytes()
        self.assertEqual(packed(self.changed('CL', '+0255')), wanted)
        self.assertEqual(packed(self.changed('start', '120')), wanted)
        self.assertEqual(packed(self.changed('satellite', '+05')), wanted)
        self.assertEqual(packed(self.changed('FRC', r'\x4C1\x43')), wanted)
        self.assertEqual(packed(self.changed('measurements', '1000x700 1000 x 80')), wanted)
        self.assertEqual(packed(self.changed('measurements', '\n 1000 X 15 # a\n\n(1000 1000x2)x255')), wanted)
        self.assertEqual(packed('sizes = 1 2\n' + self.text), struct.pack('<HH', 1, 2) + wanted[4:])
        self.assertEqual(packed(self.changed('geometry', '0 x52')), wanted)
        self.assertEqual(packed(self.text.replace('satellite', 'SATELLITE').replace('\n', '\r\n')), wanted)
        self.assertEqual(packed('sizes = 780 52\n' + self.text), wanted)

    def test_every_number_of_blocks(self):
        for n in range(4, 53):
            self.assertEqual(packed(sample_text(n)), sample_bytes(n), n)
            self.assertEqual(packed('sizes = %d %d\n' % (15 * n, n) + sample_text(n)), sample_bytes(n), n)
            self.assertEqual(packed('sizes = 780 52\n' + sample_text(n))[4:], sample_bytes(n)[4:], n)

    def test_places_in_a_short_block(self):
        """Measurements from byte 58, groups of five from 58 + 120 n."""
        n = 7
        text = sample_text(n).replace('1000 x 105', ' '.join(map(str, range(105))))
        names = 'geometry', 'relativity', 'ionosphere', 'troposphere', 'clock'
        for k, name in enumerate(names):
            text = re.sub(r'(?m)^%s *=.*$' % name, '%s = ' % name + ' '.join(str(1000 * k + j) for j in range(n)), text)
        data = packed(text)
        self.assertEqual(len(data), 58 + 160 * 7)
        self.assertEqual(struct.unpack_from('<105q', data, 58), tuple(range(105)))
        groups = [struct.unpack_from('<5q', data, 58 + 120 * 7 + 40 * j) for j in range(n)]
        self.assertEqual(groups, [tuple(1000 * k + j for k in range(5)) for j in range(n)])

    def test_repeated_group(self):
        data = packed(self.changed('clock', '(50 -50 -50 50) x 13'))
        clock = [struct.unpack_from('<q', data, 6298 + 40 * j + 32)[0] for j in range(52)]
        self.assertEqual(clock, [50, -50, -50, 50] * 13)

    def test_refused_blocks_can_be_made(self):
        data = packed('sizes = 779 0\n' + self.changed('constellation', r'\x00').replace('L1C', r'\x20e\xFF'))
        self.assertEqual(data[:5], struct.pack('<HH', 779, 0) + b'\0')
        self.assertEqual(data[9:12], b' e\xff')

def faults(text, spoilt=()):
    """Line, column and message of every fault but what is missing."""
    try:
        hireblock.parse(text, spoilt)
    except hireblock.Bad as bad:
        return [tuple(fault) for fault in bad.faults if not fault.message.startswith('missing: ')]
    return []


def beside(text, n=52):
    """A text with those lists behind it that it has not, for n blocks."""
    rest = [row for row in sample_text(n).splitlines() if re.match('measurements|geometry|relativity|iono|tropo|clock', row)
            and row.split()[0] not in re.findall(r'(?m)^\s*(\w+)', text)]
    return '\n'.join([text, *rest])


# how many seconds are over
OVER = ', %s of 15 seconds and %d over: seconds over are left out, never made up'


class Messages(unittest.TestCase):
    def refused(self, text, message, line, column):
        """The text, with the lists of a full track beside it, has this fault and no other."""
        self.assertEqual(faults(beside(text)), [(line, column, message)])

    def test_names(self):
        self.refused('satelite = 5', "unknown name 'satelite', did you mean satellite?", 1, 1)
        self.refused('\n qqqq = 5', "unknown name 'qqqq'; the names are " + ' '.join(hireblock.NAMES), 2, 2)
        self.refused('= 5', "no name stands before '='", 1, 1)
        self.refused('HC = 1\nHC = 2', 'HC stands twice, first in line 1', 2, 6)
        self.refused('MJD = 50722\n  7\n 8', "'7' has no name: write name = value", 2, 3)
        self.refused('12 13', "'12 13' has no name: write name = value", 1, 1)

    def test_missing_equals(self):
        self.refused('MJD 50722', "'=' is missing after MJD", 1, 1)
        self.refused('geometry = 0 x 52\n clock 0 x 52', "'=' is missing after clock", 2, 2)
        self.refused('start: 00:02:00', "'=' is missing after start", 1, 1)
        self.assertEqual(faults('mjd 5x'), [(1, 1, "'=' is missing after MJD"), (1, 5, "'5x' is no whole number")])

    def test_missing_parts(self):
        for text, line in ('', 1), ('HC = 1\nFR = 0\n', 2):
            with self.assertRaises(hireblock.Bad) as caught:
                hireblock.parse(text)
            fault = caught.exception.faults[-1]
            self.assertEqual((fault.line, fault.column), (line, None))
            self.assertTrue(fault.message.startswith('missing: constellation, satellite, CL, F'))
        with self.assertRaises(hireblock.Bad) as caught:
            hireblock.parse(re.sub(r'(?m)^IOE.*$', '', SAMPLE.read_text()))
        lines = len(SAMPLE.read_text().splitlines())
        self.assertEqual(caught.exception.faults, [(lines, None, 'missing: IOE')])

    def test_numbers(self):
        self.refused('HC = 256', '256 does not fit: the block holds 0 to 255', 1, 6)
        self.refused('HC = -1', '-1 does not fit: the block holds 0 to 255', 1, 6)
        self.refused('IOE=  65536', '65536 does not fit: the block holds 0 to 65535', 1, 7)
        whole = 'the block holds -9223372036854775808 to 9223372036854775807'
        for value in ('9223372036854775808', '-9223372036854775809'):
            self.refused('INT = ' + value, '%s does not fit: %s' % (value, whole), 1, 7)
        self.refused('HC = 1.5', "'1.5' is no whole number", 1, 6)
        self.refused('INT = 1.5', "'1.5' is no whole number: INT is in ps", 1, 7)
        self.refused('INT = ' + 'q' * 50, "'%s...' is no whole number" % ('q' * 37), 1, 7)
        for digits in 41, 5000:
            self.refused('INT = ' + '9' * digits, 'a number of %d digits does not fit: %s' % (digits, whole), 1, 7)
        self.assertEqual(faults('INT = -' + '0' * 41 + '5'), [])
        self.refused('MJD =  # later', 'MJD has no value', 1, 6)
        self.refused('MJD = 50 722', "'722' is one word too many for MJD", 1, 10)

    def test_units(self):
        unit = ': %s is in ps'
        self.assertEqual(faults('INT = 38.6 ns'), [(1, 7, "'38.6' is no whole number" + unit % 'INT'),
                                                   (1, 12, "'ns' is one word too many for INT, which is in ps")])
        self.refused('GD = -38.6ns', "'-38.6ns' is no whole number" + unit % 'GD', 1, 6)
        self.refused('clock = 1e3 0 x 51', "'1e3' is no whole number" + unit % 'clock', 1, 9)
        tenths = "'%s' is no whole number: %s is in tenths of a degree, %d for %s"
        self.refused('ELV = 45.0', tenths % ('45.0', 'ELV', 450, '45.0'), 1, 7)
        self.refused('AZTH = 214.5', tenths % ('214.5', 'AZTH', 2145, '214.5'), 1, 8)
        self.refused('AZTH = 214.55', "'214.55' is no whole number: AZTH is in tenths of a degree", 1, 8)
        self.refused('ELV = 45 deg', "'deg' is one word too many for ELV, which is in tenths of a degree", 1, 10)

    def test_a_minus_that_is_none(self):
        for dash in '\u2212\u2013':
            message = "'%s5' begins with the character U+%04X, which only looks like a minus: write '-5'" % (
                dash, ord(dash))
            self.refused('INT = %s5' % dash, message, 1, 7)
            self.refused('clock = 0 x 51 %s5' % dash, message, 1, 16)

    def test_hexadecimal_is_refused_everywhere(self):
        decimal = 'and numbers are decimal here: write'
        self.refused('CL = 0xFF', "'0xFF' is hexadecimal, %s 255" % decimal, 1, 6)
        self.refused('INT = -0X10', "'-0X10' is hexadecimal, %s -16" % decimal, 1, 7)
        self.refused('INT = 0x' + 'F' * 99, "'0x%s...' is hexadecimal, %s it in decimal" % ('F' * 35, decimal), 1, 7)
        self.refused('CL = fF', "'fF' is no whole number: numbers are decimal here, 255 for fF", 1, 6)
        self.refused('HC = FF', "'FF' is no whole number", 1, 6)
        self.refused('clock = 0x3E8 0 x 51', "'0x3E8' is hexadecimal, %s 1000" % decimal, 1, 9)
        self.refused('clock = 0x52', "'0x52' may be hexadecimal, %s '0 x 52' to repeat 0" % decimal, 1, 9)
        joined = "'%sx' is no whole number: to repeat %s write '%s x' and a count"
        self.refused('clock = 7112x 714 0 x 50', joined % ('7112', '7112', '7112'), 1, 9)
        self.refused('clock = 0x 52 0 x 50', joined % ('0', '0', '0'), 1, 9)
        self.refused('clock = (-0x26) x 2', "'-0x26' may be hexadecimal, %s '-0 x 26' to repeat -0" % decimal, 1, 10)

    def test_start(self):
        zeros = "'%s' has the line's leading zeros, but start is a second of the day: write %s"
        self.refused('start = 000200', zeros % ('000200', '00:02:00 or 120'), 1, 9)
        self.refused('start = +090000', zeros % ('+090000', '09:00:00 or 32400'), 1, 9)
        for word in '0120', '006100', '00', '0000200':
            self.refused('start = ' + word, zeros % (word, 'hh:mm:ss, or no leading zeros'), 1, 9)
        for time in '24:00:00', '00:60:00', '00:00:60':
            self.refused('start = ' + time, '%s is no time of the day' % time, 1, 9)
        for word in '0:02:00', '13:30', '1:30:00', '13:30:00Z', '13:30:', ':':
            self.refused('start = ' + word,
                         "'%s' is no time: write hh:mm:ss, two digits each, or the second of the day" % word, 1, 9)
        self.assertEqual(faults('start = 0'), [])
        self.assertEqual(faults('start = 133000'), [])

    def test_characters(self):
        self.refused('FRC = L1', "'L1' has 2 characters, FRC has 3", 1, 7)
        for code in 'L1\u00c9', 'L1\\':
            self.refused('FRC = ' + code, "'%s': write other characters as \\x and two hexadecimal digits" % code, 1, 7)

    def test_lists(self):
        self.refused('geometry = 0', "geometry needs 52 numbers and has 1; write '0 x 52' to repeat it", 1, 12)
        self.refused('clock =', 'clock needs 52 numbers and has 0', 1, 8)
        self.refused('measurements = 1 x 779', 'measurements needs 780 numbers and has 779' + OVER % ('51 blocks', 14), 1, 16)
        self.refused('clock = 1 2\n  3 four (0) x 48', "'four' is no whole number", 2, 5)
        for count in 0, 1, 3:
            self.refused('sizes = ' + ' '.join(['300'] * count), 'sizes needs 2 numbers, 15n and n, and has %d; left out, they '
                         'are what the lists have' % count, 1, 8 if count == 0 else 9)
        self.refused('sizes = 780 65536', '65536 does not fit: the block holds 0 to 65535', 1, 13)
        self.refused('clock = (1 2', "'(' without ')'", 1, 9)
        self.refused('clock = 1 )', "')' without '('", 1, 11)
        self.refused('clock = ((1) x 2)', "'(' inside brackets", 1, 10)

    def test_counts(self):
        self.refused('clock = 1 x', "'x' without a count", 1, 11)
        self.refused('clock = 1 x 0', 'a count of 0 leaves no number: a count is 1 or more', 1, 13)
        self.refused('clock = (1) x -2', 'a count of -2 leaves no number: a count is 1 or more', 1, 15)
        self.refused('clock = 1 x four', "'four' is no count", 1, 13)
        many = 'a count of %s makes far too many numbers: clock has 52 at most'
        self.refused('clock = 1 x 100001', many % '100001', 1, 13)
        self.refused('clock = (1 x 1000) x 1000', many % '1000', 1, 22)
        self.refused('clock = 1 x ' + '9' * 30, many % ('9' * 30), 1, 13)
        self.refused('clock = 1 x 100000 2', 'clock has far more than 52 numbers', 1, 9)

    def test_a_short_row_is_named_by_its_own_line(self):
        rows = [' '.join(['7'] * 15)] * 52
        rows[17] = ' '.join(['7'] * 14)
        self.refused('measurements =\n' + '\n'.join(rows),
                     'this row has 14 numbers, the others 15: measurements needs 780 numbers and has 779', 19, 1)
        rows[30] = '\t' + ' '.join(['7'] * 17)
        self.assertEqual([fault[:2] for fault in faults('measurements =\n' + '\n'.join(rows))], [(19, 1), (32, 2)])
        rows = [' '.join(['7'] * 15)] * 20
        rows[4] = ' '.join(['7'] * 16)
        self.assertEqual(faults(beside('measurements =\n' + '\n'.join(rows), 20)),
                         [(6, 1, 'this row has 16 numbers, the others 15: measurements needs 300 numbers and has 301')])
        self.refused('measurements = ' + '\n'.join(['7 x 16'] * 47 + ['7 x 15', '7 x 12']),
                     'this row has 15 numbers, the others 16: measurements needs 780 numbers and has 779', 48, 1)
        self.refused('clock = 1 x 25\n1 x 26',
                     'this row has 25 numbers, the others 26: clock needs 52 numbers and has 51', 1, 9)
        self.refused('clock = 1 x 26\n1 x 27',
                     'this row has 27 numbers, the others 26: clock needs 52 numbers and has 53', 2, 1)
        self.refused('clock =\n' + '1 x 13\n' * 3,
                     'clock has 39 numbers, in 3 rows of 13, for 39 blocks, but the other lists are for 52', 2, 1)
        self.refused('clock =\n' + '1 x 13\n' * 5,
                     'clock has 65 numbers, in 5 rows of 13, for 65 blocks, but a track has 52 at most, and the other lists are '
                     'for 52', 2, 1)

    def test_seconds_over(self):
        """A satellite that sets after 307 seconds; and a row that is too short at the end."""
        needs = 'measurements needs %d numbers and has %d'
        for n, has, over in ((20, 307, ('20 blocks', 7)), (20, 299, ('19 blocks', 14)), (52, 790, ('52 blocks', 10)),
                             (4, 16, ('1 block', 1)), (4, 59, ('3 blocks', 14))):
            self.assertEqual(faults(beside('measurements = 0 x %d' % has, n)), [(1, 16, needs % (15 * n, has) + OVER % over)])
        rows = [' '.join(['7'] * 15)] * 20
        for count in 7, 14:
            row = ' '.join(['7'] * count)
            self.assertEqual(faults(beside('measurements =\n' + '\n'.join([*rows, row]), 20)),
                             [(22, 1, 'this row has %d numbers, the others 15: ' % count + needs % (300, 300 + count)
                               + OVER % ('20 blocks', count))])
        self.assertEqual(faults(beside('measurements =\n' + '\n'.join(rows[:-1] + ['7 7']), 20)),
                         [(21, 1, 'this row has 2 numbers, the others 15: ' + needs % (300, 287) + OVER % ('19 blocks', 2))])

    def test_numbers_of_blocks(self):
        """3 and 53 are none, whatever the lists agree on."""
        for n, count in (3, 45), (53, 795), (1, 15):
            found = faults(sample_text(n))
            self.assertEqual([fault[2] for fault in found], [
                'measurements has %d numbers; a track has 4 to 52 blocks, and 15 measurements for each' % count,
                *('%s has %d number%s; a track has 4 to 52 blocks, and a number for each' % (name, n, 's'[n == 1:])
                  for name in ('geometry', 'relativity', 'ionosphere', 'troposphere', 'clock'))])
        for n in 4, 52:
            self.assertEqual(faults(sample_text(n)), [])
        self.assertEqual(faults('clock = 0 x 4'), [])
        self.assertEqual(faults('measurements = 0 x 59'), [(1, 16, 'measurements needs 60 numbers and has 59'
                                                           + OVER % ('3 blocks', 14))])
        self.assertEqual(faults('measurements = 0 x 52'), [
            (1, 16, 'measurements has 52 numbers; a track has 4 to 52 blocks, and 15 measurements for each')])

    def test_lists_that_disagree(self):
        self.refused('clock = 0 x 51', 'clock has 51 numbers, for 51 blocks, but the other lists are for 52', 1, 9)
        self.refused('measurements = 0 x 300',
                     'measurements has 300 numbers, for 20 blocks, but the other lists are for 52', 1, 16)
        self.assertEqual(faults(beside('measurements = 0 x 780', 20)),
                         [(1, 16, 'measurements has 780 numbers, for 52 blocks, but the other lists are for 20')])
        most = '%s has %d numbers, for %d blocks, but a track has 52 at most, and %s for %d'
        self.refused('clock = 0 x 53', most % ('clock', 53, 53, 'the other lists are', 52), 1, 9)
        self.refused('measurements = 0 x 795', most % ('measurements', 795, 53, 'the other lists are', 52), 1, 16)
        # however many there are for 53, they are not reckoned in
        self.assertEqual(faults(beside('measurements = 0 x 300', 53)), [
            (k + 2, 15, most % (name, 53, 53, 'measurements is', 20)) for k, name in enumerate(hireblock.COLUMNS)])
        self.refused('clock = 0 x 3', 'clock needs 52 numbers and has 3', 1, 9)
        self.assertEqual(faults(beside('clock = 0 x 51\ngeometry = 0 x 20')), [
            (1, 9, 'clock has 51 numbers, for 51 blocks, but measurements, relativity, ionosphere and troposphere are '
                   'for 52'),
            (2, 12, 'geometry has 20 numbers, for 20 blocks, but measurements, relativity, ionosphere and troposphere are '
                    'for 52')])
        # where as many are for one number as for another, the measurements decide
        self.assertEqual(faults('geometry = 0 x 51\nmeasurements = 0 x 300'),
                         [(1, 12, 'geometry has 51 numbers, for 51 blocks, but measurements is for 20')])
        self.assertEqual(faults('measurements = 0 x 300\ngeometry = 0 x 20\nclock = 0 x 52\nionosphere = 0 x 52'),
                         [(line, column, '%s has 52 numbers, for 52 blocks, but measurements and geometry are for 20' % name)
                          for line, column, name in ((3, 9, 'clock'), (4, 14, 'ionosphere'))])

    def test_a_row_that_another_makes_up_for(self):
        message = ('this row has %d numbers, the others %d, and another row makes up for it: '
                   'what stands between is shifted')

        def wrapped(name, *counts):
            numbers = iter(range(1000))
            return '%s =\n' % name + '\n'.join(' '.join(str(next(numbers)) for _ in range(n)) for n in counts)

        counts = [15] * 52
        counts[17], counts[30] = 14, 16
        self.assertEqual(faults(wrapped('measurements', *counts)),
                         [(19, 1, message % (14, 15)), (32, 1, message % (16, 15))])
        counts[17:19], counts[30] = [16, 15], 14
        self.assertEqual(faults(wrapped('measurements', *counts)),
                         [(19, 1, message % (16, 15)), (32, 1, message % (14, 15))])
        for k in range(4):
            counts = [13] * 4
            counts[k], counts[(k + 2) % 4] = 12, 14
            self.assertEqual(len(faults(beside(wrapped('clock', *counts)))), 2)
        # the last row is what is left over, and may make up for another too
        self.assertEqual(faults(wrapped('measurements', *[16] * 48, 12)), [])
        self.assertEqual(len(faults(wrapped('measurements', *[16] * 30, 15, *[16] * 17, 13))), 2)
        # a number moved over the line's end; rows that are no table; several rows in one; a count that is written
        counts = [15] * 52
        counts[17:19], counts[40:43] = [14, 16], [17, 14, 14]
        for text in (wrapped('measurements', *counts), wrapped('clock', 10, 12, 14, 16), wrapped('clock', 13, 26, 13),
                     wrapped('clock', 20, 32), 'clock = 0 x 41\n1 2 3\n4 5 6\n7 8 9\n1 2'):
            self.assertEqual(faults(text), [], text)

    def test_all_faults_are_named_in_order(self):
        text = 'HC = 256\nclock = 1 two 3 x 0\nFRC = L1\nclock = five\nMJD 1.5\nrelativity = 0x52'
        places = [(1, 6), (2, 11), (2, 19), (3, 7), (4, 9), (4, 9), (4, 9), (5, 1), (5, 5), (6, 14)]
        self.assertEqual([fault[:2] for fault in faults(text)], places)


class RoundTrip(unittest.TestCase):
    def test_sample(self):
        self.assertEqual(round_trip(sample_bytes()), sample_bytes())

    def test_any_bytes(self):
        seeded = random.Random(8378)
        for _ in range(200):
            data = seeded.randbytes(8378)
            self.assertEqual(round_trip(data), data)

    def test_every_byte_of_a_character(self):
        for byte in range(256):
            data = bytearray(sample_bytes())
            data[4] = data[9] = data[10] = data[11] = byte
            self.assertEqual(round_trip(bytes(data)), bytes(data), byte)

    def test_runs_of_values(self):
        seeded = random.Random(780)
        for _ in range(100):
            data = bytearray(sample_bytes())
            for i in range(780 + 260):
                struct.pack_into('<q', data, 58 + 8 * i, seeded.choice([0, 0, 0, -1]))
            text = hireblock.show(hireblock.unpack(bytes(data)))
            self.assertEqual(packed(text), bytes(data))
            self.assertEqual(hireblock.show(hireblock.parse(text)), text)

    def test_any_bytes_of_every_length(self):
        """The sizes of random bytes are those of no track, and are kept."""
        seeded = random.Random(160)
        for n in range(4, 53):
            for data in sample_bytes(n), seeded.randbytes(58 + 160 * n):
                self.assertEqual(round_trip(data), data, n)

    def test_sizes_are_shown_where_the_lists_have_others(self):
        for n in 4, 20, 52:
            text = hireblock.show(hireblock.unpack(sample_bytes(n)))
            self.assertTrue(text.startswith('# A hire block: one track of %d s, %d blocks of 15 s.\n\ncons' % (15 * n, n)))
            wrong = struct.pack('<HH', 780, 51) + sample_bytes(n)[4:]
            rows = hireblock.show(hireblock.unpack(wrong)).splitlines()
            self.assertEqual(rows[0], '# A hire block: %d bytes, shown by their number as %d blocks, but the sizes, 780 and 51, '
                             'are those of no track.' % (58 + 160 * n, n))
            self.assertEqual(rows[1], 'sizes         = 780 51         # but the lists have %d and %d' % (15 * n, n))
            self.assertEqual(round_trip(wrong), wrong)

    def first_row(self, data, text):
        self.assertEqual(hireblock.show(hireblock.unpack(data)).splitlines()[0], '# A hire block: ' + text)

    def test_a_cut_block_says_so(self):
        """Cut or lengthened by whole blocks it has the length of another track."""
        shown = '%d bytes, shown by their number as %d blocks, but the sizes, %d and %d, make %d: if it '
        for n in 4, 20, 51:
            cut = sample_bytes()[:58 + 160 * n]
            self.first_row(cut, shown % (58 + 160 * n, n, 780, 52, 8378)
                           + 'was cut, what stands as corrections begins with measurements.')
            self.assertEqual(hireblock.unpack(cut)['clock'][:3], [1000] * 3)
            self.assertEqual(round_trip(cut), cut)
        longer = sample_bytes(20) + bytes(160)
        self.first_row(longer, shown % (3418, 21, 300, 20, 3258)
                       + 'is too long, what stands from measurement 300 on are corrections.')

    def test_blocks_that_no_track_has(self):
        """They are shown where sizes and length agree, and can't be packed again."""
        for n, track in (1, '15 s, 1 block'), (3, '45 s, 3 blocks'), (53, '795 s, 53 blocks'), (60, '900 s, 60 blocks'):
            data = sample_bytes(n)
            self.first_row(data, 'one track of %s of 15 s; it will be refused: a track has 4 to 52 blocks.' % track)
            self.assertEqual(hireblock.unpack(data)['measurements'], [1000] * (15 * n))
            with self.assertRaises(hireblock.Bad):
                round_trip(data)

    def wrong_length(self, data, message):
        with self.assertRaises(hireblock.Bad) as caught:
            hireblock.unpack(data)
        self.assertEqual(caught.exception.faults, [(None, None, message)])

    def test_wrong_length(self):
        general = 'a hire block has 58 + 160 n, n from 4 to 52'
        for length, found in (0, '0 bytes'), (1, '1 byte'), (3, '3 bytes'):
            self.wrong_length(bytes(length), '%s; %s' % (found, general))
        # 538 and 8538 bytes are those of 3 and of 53 blocks
        for length in 4, 538, 697, 699, 8377, 8379, 8538:
            self.wrong_length(bytes(length), '%d bytes; %s, and the sizes 0 and 0 are of none' % (length, general))
        for n in (3, 53):
            for data in sample_bytes(n)[:-1], sample_bytes(n) + b'\0', b'\1' + sample_bytes(n)[1:]:
                self.wrong_length(data, '%d bytes; %s, and the sizes %d and %d are of none' % (
                    len(data), general, *struct.unpack_from('<2H', data)))
        self.wrong_length(bytes(58), '58 bytes; %s, and the sizes 0 and 0 are of none' % general)
        for n in (4, 20, 52):
            for data in sample_bytes(n)[:-1], sample_bytes(n) + b'\0', sample_bytes(n)[:4]:
                self.wrong_length(data, '%d bytes, but a hire block of the sizes %d and %d has %d' % (
                    len(data), 15 * n, n, 58 + 160 * n))


class Encoding(unittest.TestCase):
    def spoilt(self, data, *wanted):
        """The bytes have these faults, and what is missing."""
        with self.assertRaises(hireblock.Bad) as caught:
            hireblock.parse(*hireblock.decoded(data))
        found = [fault for fault in caught.exception.faults if not fault.message.startswith('missing: ')]
        self.assertEqual(found, list(wanted))

    def test_utf8_is_taken(self):
        text = '\ufeff' + SAMPLE.read_text().replace('# class', '# Ger\u00e4t')
        self.assertEqual(hireblock.pack(hireblock.parse(*hireblock.decoded(text.encode()))), sample_bytes())

    def test_not_utf8(self):
        message = 'not UTF-8 (byte %02X): save the text as UTF-8'
        self.spoilt(b'HC = 1\n# Ger\xe4t\n', (2, 6, message % 0xE4))
        self.spoilt(b'HC = 1.5 # Ger\xe4t', (1, 6, "'1.5' is no whole number"), (1, 15, message % 0xE4))
        self.spoilt(b'HC = 1\xff5\nFR = x\n\xe9', (1, 7, message % 0xFF), (2, 6, "'x' is no whole number"),
                    (3, 1, message % 0xE9))
        for text in 'HC = 1', 'HC = 1\n':
            for form in 'utf-16', 'utf-16-be':
                with self.assertRaises(hireblock.Bad) as caught:
                    hireblock.decoded(('\ufeff' * (form == 'utf-16-be') + text).encode(form))
                self.assertEqual(caught.exception.faults, [(1, 1, 'not UTF-8 but UTF-16: save the text as UTF-8')])

    def test_no_text(self):
        self.spoilt(b'HC = 1\nFR\0', (2, 3, 'no text: it has bytes of 0'))
        shown = ": this may be a block, which 'hireblock show' shows"
        self.spoilt(sample_bytes(), (1, 4, 'no text: it has bytes of 0' + shown))


class CommandLine(Scratch):
    def run_tool(self, *arguments, data=b'', **more):
        more = {'stdout': subprocess.PIPE, **more}
        command = [sys.executable, str(TOOL), *map(str, arguments)]
        return subprocess.run(command, input=data, stderr=subprocess.PIPE, **more)

    def ends(self, result, status, *messages):
        """The status and all that is written to standard error."""
        lines = ''.join('hireblock: %s\n' % message for message in messages)
        self.assertEqual((result.returncode, result.stderr.decode()), (status, lines))

    def test_pack_and_show(self):
        block, text = self.folder / 'a.blk', self.folder / 'a.txt'
        self.ends(self.run_tool('pack', SAMPLE, '-o', block), 0)
        self.assertEqual(block.read_bytes(), sample_bytes())
        self.ends(self.run_tool('show', block, '-o', text), 0)
        self.assertEqual(self.run_tool('pack', text).stdout, sample_bytes())
        self.assertEqual(self.run_tool('show', '-', data=sample_bytes()).stdout, text.read_bytes())
        self.assertEqual(self.run_tool('show', block, '-o', '-').stdout, text.read_bytes())

    def test_faults_are_1_and_nothing_is_written(self):
        text, block = self.folder / 'bad.txt', self.folder / 'bad.blk'
        content = SAMPLE.read_text().replace('= 50722', '= fifty')
        lines = content.splitlines()
        mjd, hc = (1 + next(k for k, row in enumerate(lines) if row.startswith(name)) for name in ('MJD', 'HC'))
        text.write_text(content)
        fifty = "%s:%d:17: 'fifty' is no whole number" % (text, mjd)
        self.ends(self.run_tool('pack', text, '-o', block), 1, fifty)
        text.write_text(content + 'HC = 300\n')
        self.ends(self.run_tool('pack', text, '-o', block), 1, fifty,
                  '%s:%d:6: HC stands twice, first in line %d' % (text, len(lines) + 1, hc),
                  '%s:%d:6: 300 does not fit: the block holds 0 to 255' % (text, len(lines) + 1),
                  '%s: 3 faults; no block is made' % text)
        self.assertFalse(block.exists())
        general = 'a hire block has 58 + 160 n, n from 4 to 52'
        self.ends(self.run_tool('show', '-', data=b'x'), 1, '-: 1 byte; ' + general)
        self.ends(self.run_tool('show', SAMPLE), 1, "%s: %d bytes; %s: this may be a text, which "
                  "'hireblock pack' packs" % (SAMPLE, SAMPLE.stat().st_size, general))

    def test_many_faults_of_one_kind(self):
        """Of each kind in each list the first five, then how many more; what is no list is named whole."""
        text, block = self.folder / 'bad.txt', self.folder / 'bad.blk'
        content = sample_text(4).replace('1000 x 60', ' '.join(['1.5'] * 54 + ['0x1A'] * 6))
        content = content.replace('geometry    = 0 x 4', 'geometry    = a b c d')
        text.write_text(content)
        lines = content.splitlines()
        measured, geometry = (1 + next(k for k, row in enumerate(lines) if row.startswith(name)) for name in ('measurements', 'geometry'))
        first = lines[measured - 1].index('1.5') + 1
        hexadecimal = "%s:%d:%d: '0x1A' is hexadecimal, and numbers are decimal here: write 26"
        self.ends(self.run_tool('pack', text, '-o', block), 1,
                  *("%s:%d:%d: '1.5' is no whole number: measurements is in ps" % (text, measured, first + 4 * k) for k in range(5)),
                  '%s: and 49 more of this kind in measurements' % text,
                  *(hexadecimal % (text, measured, first + 4 * 54 + 5 * k) for k in range(5)),
                  '%s: and 1 more of this kind in measurements' % text,
                  *("%s:%d:%d: '%s' is no whole number" % (text, geometry, 15 + 2 * k, 'abcd'[k]) for k in range(4)),
                  '%s: 64 faults; no block is made' % text)
        text.write_text(content.replace('satellite     = 5', '\n'.join(['satellite = x'] * 8)))
        status = self.run_tool('pack', text, '-o', block)
        self.assertEqual(status.stderr.count(b"'x' is no whole number"), 8)
        self.assertFalse(block.exists())

    def test_names_without_control_characters(self):
        for name, told in (('a\x1b[31m', r'a\x1B[31m'), ('a\nb', r'a\x0Ab'), (b'\xff\x9b', r'\xFF\x9B'), ('r\u00f6of', 'r\u00f6of')):
            path = os.path.join(os.fsencode(self.folder), os.fsencode(name))
            result = subprocess.run([sys.executable, str(TOOL), 'pack', path], capture_output=True, check=False,
                                    env=dict(os.environ, PYTHONIOENCODING='utf-8'))
            self.ends(result, 2, "can't read %s: No such file or directory" % (self.folder / told))
            with open(path, 'wb') as file:
                file.write(b'HC = x\n')
            result = subprocess.run([sys.executable, str(TOOL), 'pack', path, path], capture_output=True, check=False)
            self.assertFalse(re.search(rb'[\x00-\x09\x0b-\x1f]', result.stderr))
            result = subprocess.run([sys.executable, str(TOOL), 'pack', path], capture_output=True, check=False)
            self.assertEqual(result.returncode, 1)
            self.assertFalse(re.search(rb'[\x00-\x09\x0b-\x1f]', result.stderr))

    def test_version(self):
        version = re.search(r'(?m)^VERSION := (.*)$', (ROOT / 'Makefile').read_text()).group(1)
        for word in ('-V', '--version'):
            result = self.run_tool(word)
            self.assertEqual((result.returncode, result.stdout.decode(), result.stderr), (0, 'hireblock %s\n' % version, b''))

    def test_sizes_that_the_lists_have_not(self):
        """The block is made, to try a refusal, and it is said that it will be refused."""
        block = self.folder / 'a.blk'
        text = ('sizes = 780 52\n' + sample_text(20)).encode()
        remark = '-: packed with the sizes 780 and 52, while the lists have 300 and 20: it will be refused'
        self.ends(self.run_tool('pack', '-', '-o', block, data=text), 0, remark)
        self.assertEqual(block.read_bytes(), struct.pack('<HH', 780, 52) + sample_bytes(20)[4:])
        self.ends(self.run_tool('pack', '-', '-o', block, data=text.replace(b'780 52', b'300 20')), 0)

    def test_a_doubtful_block_is_shown_with_a_remark(self):
        cut, text = sample_bytes()[:3258], self.folder / 'a.txt'
        result = self.run_tool('show', '-', data=cut)
        self.ends(result, 0, '-: 3258 bytes, shown by their number as 20 blocks, but the sizes, 780 and 52, make 8378: '
                  'if it was cut, what stands as corrections begins with measurements')
        self.assertEqual(result.stdout.decode(), hireblock.show(hireblock.unpack(cut)))
        few = '-: it will be refused: a track has 4 to 52 blocks'
        self.ends(self.run_tool('show', '-', '-o', text, data=sample_bytes(3)), 0, few)
        self.assertTrue(text.exists())
        self.ends(self.run_tool('show', '-', data=sample_bytes(4)), 0)

    def test_unreadable_is_2(self):
        self.ends(self.run_tool('show', '/no/such/file'), 2, "can't read /no/such/file: No such file or directory")
        self.ends(self.run_tool('pack', self.folder), 2, "can't read %s: Is a directory" % self.folder)

    def test_unwritable_is_2(self):
        here = self.folder / 'none' / 'a.blk'
        self.ends(self.run_tool('pack', SAMPLE, '-o', here), 2, "can't write %s: No such file or directory" % here)
        self.ends(self.run_tool('pack', SAMPLE, '-o', '/dev/full'), 2, "can't write /dev/full: No space left on device")
        self.assertTrue(pathlib.Path('/dev/full').exists())
        with open('/dev/full', 'wb') as full:
            result = self.run_tool('pack', SAMPLE, stdout=full)
        self.ends(result, 2, "can't write standard output: No space left on device")

    def test_no_cut_block_stays(self):
        def small():
            resource.setrlimit(resource.RLIMIT_FSIZE, (4096, 4096))

        block = self.folder / 'a.blk'
        result = self.run_tool('pack', SAMPLE, '-o', block, preexec_fn=small)
        self.ends(result, 2, "can't write %s: File too large" % block)
        self.assertFalse(block.exists())

    def test_a_closed_pipe_is_2_without_a_word(self):
        reader, writer = os.pipe()
        os.close(reader)
        with open(writer, 'wb') as pipe:
            self.ends(self.run_tool('show', ROOT / 'examples' / 'sample.blk', stdout=pipe), 2)

    def test_wrong_use_is_2(self):
        text = self.folder / 'a.txt'
        text.write_bytes(SAMPLE.read_bytes())
        self.ends(self.run_tool('pack', text, '-o', text), 2, '%s would be overwritten: give another -o' % text)
        self.assertEqual(text.read_bytes(), SAMPLE.read_bytes())
        for arguments in (), ('burn', 'x'), ('pack',), ('show', 'x', 'y'):
            result = self.run_tool(*arguments)
            self.assertEqual(result.returncode, 2)
            self.assertTrue(result.stderr.startswith(b'usage: hireblock'))

    def test_a_terminal_gets_no_block(self):
        ours, theirs = os.openpty()
        result = self.run_tool('pack', SAMPLE, stdout=theirs)
        self.ends(result, 2, 'a block is no text for the terminal: give -o FILE.blk')
        self.ends(self.run_tool('show', ROOT / 'examples' / 'sample.blk', stdout=theirs), 0)
        os.close(ours)
        os.close(theirs)

    def undelayed(self, mjd=50722):
        """The sample's text on a date, without its delays."""
        kept = re.sub(r'(?m)^(INT|CAB|REF|GD) *=.*\n', '', SAMPLE.read_text())
        text = self.folder / 'undelayed.txt'
        text.write_text(kept.replace('= 50722', '= %d' % mjd))
        return text

    def stored(self, version, *entries):
        return self.kept('delays.store', packed_store(version, *entries))

    def test_delays_in_force(self):
        entries = ((50000, 1, 2, 3, 4), (50722, -5, 10 ** 10, 7, -8), (50724, 9, 10, 11, 12))
        told = ('entry 1 of 3, in force from MJD 50000 to 50721: INT 1, CAB 2, REF 3, GD %d',
                'entry 2 of 3, in force from MJD 50722 to 50723: INT -5, CAB 10000000000, REF 7, GD %d',
                'entry 3 of 3, in force from MJD 50724 on: INT 9, CAB 10, REF 11, GD %d')
        for version in 1, 2:
            store = self.stored(version, *entries)
            for mjd, k in ((50000, 0), (50721, 0), (50722, 1), (50723, 1), (50724, 2), (2 ** 32 - 1, 2)):
                gd = entries[k][4] if version == 2 else 0
                wanted = bytearray(sample_bytes())
                wanted[12:16] = struct.pack('<I', mjd)
                wanted[26:58] = struct.pack('<4q', *entries[k][1:4], gd)
                result = self.run_tool('pack', self.undelayed(mjd), '--delays', store)
                self.ends(result, 0, '%s: %s' % (store, told[k] % gd))
                self.assertEqual(result.stdout, wanted)

    def test_gd_of_the_text(self):
        store = self.stored(1, (50000, 1, 2, 3))
        text = self.folder / 'gd.txt'
        for row, gd, told in (('GD = -8380\n', -8380, 'GD -8380 of the text'), ('GD = 0\n', 0, 'GD 0 of the text'), ('', 0, 'GD 0')):
            text.write_text(row + self.undelayed().read_text())
            wanted = bytearray(sample_bytes())
            wanted[12:16] = struct.pack('<I', 50722)
            wanted[26:58] = struct.pack('<4q', 1, 2, 3, gd)
            result = self.run_tool('pack', text, '--delays', store)
            self.ends(result, 0, '%s: entry 1 of 1, in force from MJD 50000 on: INT 1, CAB 2, REF 3, %s' % (store, told))
            self.assertEqual(result.stdout, wanted)
        text.write_text('GD = 5\nREF = 6\n' + self.undelayed().read_text())
        message = "%s:%d:%d: %s comes from the store that --delays names, and so can't stand here"
        self.ends(self.run_tool('pack', text, '--delays', store), 1, message % (text, 2, 7, 'REF'))
        store = self.stored(2, (50000, 1, 2, 3, 4))
        self.ends(self.run_tool('pack', text, '--delays', store), 1, message % (text, 1, 6, 'GD'), message % (text, 2, 7, 'REF'),
                  '%s: 2 faults; no block is made' % text)

    def test_delays_of_the_examples(self):
        examples = ROOT / 'examples'
        result = self.run_tool('pack', examples / 'dated.txt', '--delays', examples / 'delays.store')
        self.assertEqual((result.returncode, result.stdout), (0, (examples / 'worked.blk').read_bytes()))

    def test_delays_in_both_are_refused(self):
        store, block = self.stored(2, (50000, 1, 2, 3, 4)), self.folder / 'a.blk'
        lines = SAMPLE.read_text().splitlines()
        rows = [next((k, row) for k, row in enumerate(lines, 1) if row.startswith(name)) for name in ('INT', 'CAB', 'REF', 'GD')]
        messages = ["%s:%d:%d: %s comes from the store that --delays names, and so can't stand here" % (
            SAMPLE, k, re.search(r'=\s*', row).end() + 1, row.split()[0]) for k, row in rows]
        self.ends(self.run_tool('pack', SAMPLE, '--delays', store, '-o', block), 1, *messages, '%s: 4 faults; no block is made' % SAMPLE)
        self.assertFalse(block.exists())
        self.ends(self.run_tool('pack', self.undelayed(), '-o', block), 1, '%s:%d: missing: INT, CAB, REF, GD' % (
            self.undelayed(), len(self.undelayed().read_text().rstrip('\n').split('\n'))))

    def test_stores_that_are_refused(self):
        block, good = self.folder / 'a.blk', self.stored(2, (50000, 1, 2, 3, 4), (50010, 5, 6, 7, 8)).read_bytes()
        text = (ROOT / 'examples/delays.txt').read_bytes()
        for data, message in ((b'', '20: a store of delays has 4 bytes at least'), (b'\0', '20: a store of delays has 4 bytes at least'),
                              (text, "20: it may be a text, which 'cggtts store TEXT -o STORE' makes a store of"), (b'\3' + good[1:], '20: version 3 with 2 entries is no store of delays'),
                              (b'\2\0\xe9\3', '20: version 2 with 1001 entries is no store of delays'),
                              (good[:-1], '20: 75 bytes are no store of version 2 with 2 entries'),
                              (good + b'\0', '20: 77 bytes are no store of version 2 with 2 entries'),
                              (good[:8] + good[4:8] + good[12:], '20: entry 2 starts on MJD 50000, and the one before it on 50000'),
                              (good[:-8] + struct.pack('<q', -10 ** 10 - 1), '20: entry 2: GD is -10000000001 ps, beyond its limit'),
                              (good[:12] + struct.pack('<q', 10 ** 10 + 1) + good[20:], '20: entry 1: INT is 10000000001 ps, beyond its limit'),
                              (b'\2\0\0\0', '21: no entry starts as early as MJD 50722: it has no entry'),
                              (good[:4] + struct.pack('<II', 50723, 50724) + good[12:],
                               '21: no entry starts as early as MJD 50722: the first starts on 50723')):
            store = self.folder / 'other.store'
            store.write_bytes(data)
            self.ends(self.run_tool('pack', self.undelayed(), '--delays', store, '-o', block), 1, '%s: refused %s' % (store, message))
            self.assertFalse(block.exists())

    def test_the_store_is_not_overwritten(self):
        store = self.stored(2, (50000, 1, 2, 3, 4))
        before = store.read_bytes()
        self.ends(self.run_tool('pack', self.undelayed(), '--delays', store, '-o', store), 2, '%s would be overwritten: give another -o' % store)
        self.assertEqual(store.read_bytes(), before)
        missing = self.folder / 'missing.store'
        self.ends(self.run_tool('pack', self.undelayed(), '--delays', missing), 2, "can't read %s: No such file or directory" % missing)
        self.ends(self.run_tool('pack', '-', '--delays', '-'), 2, 'standard input can be read only once')

    def test_help(self):
        result = self.run_tool('--help')
        self.assertEqual(result.returncode, 0)
        self.assertIn(b'measurements = 1000 x 780', result.stdout)
        for words in (('-h',), ('help',)):
            self.assertEqual(self.run_tool(*words).stdout, result.stdout)
        self.assertEqual(self.run_tool('help', 'pack').stdout, self.run_tool('pack', '--help').stdout)


class Several(Scratch):
    """Several tracks in one file of blocks, and in one text."""

    def run_tool(self, *arguments, data=b''):
        result = subprocess.run([TOOL, *arguments], input=data, capture_output=True, check=False)
        return result.returncode, result.stdout, result.stderr.decode()

    def test_texts_packed_back_to_back(self):
        names = [self.kept('%d.txt' % n, sample_text(n).encode()) for n in (52, 4, 20)]
        wanted = b''.join(sample_bytes(n) for n in (52, 4, 20))
        self.assertEqual(self.run_tool('pack', *names), (0, wanted, ''))
        self.assertEqual(self.run_tool('pack', names[0], '-', names[2], data=sample_text(4).encode()), (0, wanted, ''))
        target = str(self.folder / 'day.blk')
        self.assertEqual(self.run_tool('pack', *names, '-o', target), (0, b'', ''))
        self.assertEqual((self.folder / 'day.blk').read_bytes(), wanted)

    def test_tracks_of_one_text(self):
        wanted = sample_bytes(52) + sample_bytes(4)
        for separator in ('---', '-----', '  ---  ', '--- # the next track', '---\r', '---\n---', '---\n# nothing\n\n---'):
            text = sample_text(52) + separator + '\n' + sample_text(4)
            self.assertEqual(self.run_tool('pack', '-', data=text.encode()), (0, wanted, ''), separator)
        for text in ('---\n' + sample_text(), sample_text() + '---\n'):
            self.assertEqual(self.run_tool('pack', '-', data=text.encode()), (0, sample_bytes(), ''))

    def test_shown_and_packed_again(self):
        pick = random.Random(3)
        for _ in range(20):
            parts = []
            for n in pick.choices(range(4, 53), k=pick.randrange(2, 8)):
                part = bytearray(sample_bytes(n))
                part[58:] = struct.pack('<%dq' % (20 * n), *(pick.randrange(-2 ** 63, 2 ** 63) for _ in range(20 * n)))
                parts.append(bytes(part))
            status, text, said = self.run_tool('show', '-', data=b''.join(parts))
            self.assertEqual((status, said, text.count(b'\n---\n')), (0, '', len(parts) - 1))
            self.assertEqual(self.run_tool('pack', '-', data=text), (0, b''.join(parts), ''))
            heads = [line for line in text.decode().splitlines() if line.startswith('# Hire block ')]
            self.assertEqual(heads, ['# Hire block %d, counted from 0: one track of %d s, %d blocks of 15 s.' % (
                i, (len(part) - 58) // 160 * 15, (len(part) - 58) // 160) for i, part in enumerate(parts)])

    def test_one_block_is_shown_as_before(self):
        for n in (4, 20, 52):
            text = hireblock.show(hireblock.unpack(sample_bytes(n)))
            self.assertEqual(hireblock.show_all(hireblock.unpack_all(sample_bytes(n))), text)
            self.assertTrue(text.startswith('# A hire block: one track of %d s' % (15 * n)))

    def test_faults_keep_their_lines(self):
        """Faults of both tracks of a text, and of both texts; nothing is packed."""
        first, second = sample_text(4).replace('satellite     = 5', 'satellite     = x'), sample_text(4).replace('IOE ', 'IOX ')
        text = first + '---\n' + second
        lines = text.split('\n')
        rows = [i for i, line in enumerate(lines, 1) if ' x ' in line + ' ' and 'satellite' in line or 'IOX' in line]
        target = self.folder / 'out'
        for words in ([self.kept('both', text.encode())], [self.kept('one', first.encode()), self.kept('two', second.encode())]):
            status, printed, said = self.run_tool('pack', *words, '-o', str(target))
            self.assertEqual((status, printed, target.exists()), (1, b'', False))
            self.assertIn("'x' is no whole number", said)
            self.assertIn("unknown name 'IOX'", said)
        both = self.run_tool('pack', self.kept('both', text.encode()))[2]
        self.assertEqual([int(line.split(':')[2]) for line in both.splitlines() if ': ' in line and line.split(':')[2].isdigit()][:2], rows)

    def test_bytes_behind_whole_blocks(self):
        two = sample_bytes(4) + sample_bytes(20)
        for length, what in ((1, '1 byte; a hire block has 58 + 160 n, n from 4 to 52'), (3, '3 bytes; a hire block has 58 + 160 n, n from 4 to 52'),
                             (100, '100 bytes, but a hire block of the sizes 780 and 52 has 8378')):
            said = 'hireblock: -: 2 blocks, and from byte 3956 on none: %s\n' % what
            self.assertEqual(self.run_tool('show', '-', data=two + sample_bytes()[:length]), (1, b'', said))
            said = 'hireblock: -: 1 block, and from byte 698 on none: %s\n' % what
            self.assertEqual(self.run_tool('show', '-', data=sample_bytes(4) + sample_bytes()[:length]), (1, b'', said))
        # 102 bytes make two blocks of 4 as long as one of 9; 160 make one of 20 as long as one of 21, which is shown by its length
        said = 'hireblock: -: 2 blocks, and from byte 1396 on none: 102 bytes, but a hire block of the sizes 780 and 52 has 8378\n'
        self.assertEqual(self.run_tool('show', '-', data=2 * sample_bytes(4) + sample_bytes()[:102]), (1, b'', said))
        longer = sample_bytes(20) + bytes(160)
        status, text, said = self.run_tool('show', '-', data=longer)
        self.assertEqual((status, text.decode()), (0, hireblock.show(hireblock.unpack(longer))))
        self.assertIn('3418 bytes, shown by their number as 21 blocks', said)

    def undelayed(self, *dates):
        """A text of tracks on these dates, without delays, and their blocks with the delays that are given beside each."""
        bare = re.sub(r'(?m)^(INT|CAB|REF|GD) *=.*\n', '', sample_text(4))
        blocks = [bytearray(sample_bytes(4)) for _ in dates]
        for block, (mjd, delays) in zip(blocks, dates):
            block[12:16], block[26:58] = struct.pack('<I', mjd), struct.pack('<4q', *delays)
        return '---\n'.join(bare.replace('= 50722', '= %d' % mjd) for mjd, _ in dates).encode(), b''.join(blocks)

    def test_delays_of_several_tracks(self):
        """Each set that was taken is told once, in the order of the tracks; a track without one is named."""
        store = self.kept('store', struct.pack('<2H2I8q', 2, 2, 50722, 50724, 1, 2, 3, 4, 5, 6, 7, 8))
        old, new = (1, 2, 3, 4), (5, 6, 7, 8)
        told = {old: 'hireblock: %s: entry 1 of 2, in force from MJD 50722 to 50723: INT 1, CAB 2, REF 3, GD 4\n' % store,
                new: 'hireblock: %s: entry 2 of 2, in force from MJD 50724 on: INT 5, CAB 6, REF 7, GD 8\n' % store}
        for dates in ((50722, 50723, 50724, 50725), (50724, 50722, 50724, 50722), (50723, 50722, 50723)):
            tracks = [(mjd, new if mjd >= 50724 else old) for mjd in dates]
            text, blocks = self.undelayed(*tracks)
            said = ''.join(told[delays] for delays in dict.fromkeys(delays for _, delays in tracks))
            self.assertEqual(self.run_tool('pack', '-', '--delays', store, data=text), (0, blocks, said))
        early, _ = self.undelayed((50722, old), (50721, old))
        names = [self.kept('a.txt', self.undelayed((50724, new))[0]), self.kept('b.txt', early)]
        target = self.folder / 'out'
        said = 'hireblock: %s: refused 21: no entry starts as early as MJD 50721: the first starts on 50722, for track %s\n'
        self.assertEqual(self.run_tool('pack', *names, '--delays', store, '-o', str(target)), (1, b'', said % (store, '2 of %s' % names[1])))
        self.assertEqual(self.run_tool('pack', '-', '--delays', store, data=early), (1, b'', said % (store, '2 of -')))
        self.assertFalse(target.exists())

    def test_wrong_use(self):
        text = self.kept('a.txt', sample_text().encode())
        said = 'hireblock: standard input can be read only once\n'
        self.assertEqual(self.run_tool('pack', '-', '-', data=sample_text().encode()), (2, b'', said))
        self.assertEqual(self.run_tool('pack', text, text, '-o', text), (2, b'', 'hireblock: %s would be overwritten: give another -o\n' % text))
        self.assertEqual(self.run_tool('show', text, text)[0], 2)


if __name__ == '__main__':
    unittest.main()
