#!/usr/bin/env python3
"""Runs the program trackline as it is built: what it reads and what it prints, byte for byte.

    python3 tests/trackline/test_trackline.py

The proofs say what is printed of the bytes that were read; here it is seen that they are all of standard input, and
that what is printed reaches standard output. Expected answers are written out by hand.
"""
import os
import pathlib
import subprocess
import sys
import time
import unittest

ROOT = pathlib.Path(__file__).resolve().parent.parent.parent
sys.path.insert(0, str(ROOT / 'tests'))
from blocks import CHANGED_LINE, SAMPLE_LINE, SHORT_LINE, WORKED_LINE, block, line, scattered  # noqa: E402
from papers import field  # noqa: E402

PROGRAM = os.environ.get('TRACKLINE', str(ROOT / 'target' / 'bin' / 'trackline'))


def printed(data):
    result = subprocess.run([PROGRAM], input=data, capture_output=True, check=True)
    assert result.stderr == b'', result.stderr
    return result.stdout


class Trackline(unittest.TestCase):
    def refused(self, number, data):
        self.assertEqual(printed(data), b'refused %d\r\n' % number)

    def test_lengths(self):
        self.refused(11, b'')
        self.refused(11, b'G')
        self.refused(11, block()[:8377])
        self.assertEqual(printed(block()), SAMPLE_LINE)
        self.refused(11, block() + b'\0')
        self.refused(11, (block() * 12)[:100000])

    def test_lengths_of_short_tracks(self):
        for n in range(4, 53):
            data = block(groups=n)
            self.assertEqual(len(data), 58 + 160 * n)
            self.assertEqual(printed(data), line('G05 FF 50722 000200 %04d 450 1800 +0000000010 +00000 +0000000010 +00000 '
                                                 '0000 007 0000 +000 0000 +000 00 00 L1C' % (15 * n)))
            for wrong in (data[:4], data[:57], data[:-1], data[:-160], data + b'\0', data + bytes(160)):
                self.refused(11, wrong)

    def test_bytes_of_zero(self):
        """Under four bytes they are no block at all; from there on their sizes, 0 and 0, are named first."""
        for length in (1, 2, 3):
            self.refused(11, bytes(length))
        for length in (4, 58, 698, 8377, 8378, 8379, 100000):
            self.refused(1, bytes(length))

    def test_kept_blocks(self):
        self.assertEqual(printed((ROOT / 'examples' / 'sample.blk').read_bytes()), SAMPLE_LINE)
        self.assertEqual(printed((ROOT / 'examples' / 'worked.blk').read_bytes()), WORKED_LINE)
        self.assertEqual(printed((ROOT / 'examples' / 'short.blk').read_bytes()), SHORT_LINE)
        self.assertEqual(printed((ROOT / 'examples' / 'changed.blk').read_bytes()), CHANGED_LINE)

    def test_sizes(self):
        for sizes in ((779, 52), (780, 51), (765, 52), (52, 780), (780, 0), (65535, 65535), (0x0C03, 52), (795, 53), (45, 3),
                      (0, 0), (15 * 256 + 60, 4), (60, 256 + 4)):
            self.refused(1, block(zip(('measurements size', 'groups size'), sizes)))
        for n in (3, 53):
            self.refused(1, block(groups=n))
        for n in range(4, 53):
            for sizes in ((15 * n + 1, n), (15 * n, n + 1), (15 * n, n - 1), (n, 15 * n), (15, 1)):
                self.refused(1, block(zip(('measurements size', 'groups size'), sizes), groups=n))
            # the sizes of another track: the length is not theirs
            other = 52 if n == 4 else n - 1
            self.refused(11, block({'measurements size': 15 * other, 'groups size': other}, groups=n))

    def test_figures_of_short_tracks(self):
        """At second t 1000 + 2 t ps: the midpoint is that of second 7.5 n - 0.5, the slope 2 ps/s."""
        for n in range(4, 53):
            midpoint = (2 * 1000 + 2 * (15 * n - 1) + 100) // 200
            self.assertEqual(printed(block(groups=n, measurements=[1000 + 2 * t for t in range(15 * n)])),
                             line('G05 FF 50722 000200 %04d 450 1800 %+011d +00020 %+011d +00020 0000 007 0000 +000 '
                                  '0000 +000 00 00 L1C' % (15 * n, midpoint, midpoint)))

    def test_limits_of_short_tracks(self):
        for n in (4, 5, 51):
            for part, limit in (('measurement 0', 10 ** 12), ('measurement %d' % (15 * n - 1), 10 ** 12),
                                ('geometry %d' % (n - 1), 2 * 10 ** 11), ('relativity 0', 10 ** 10),
                                ('clock %d' % (n - 1), 10 ** 10), ('GD', 10 ** 10)):
                self.refused(2, block({part: limit + 1}, groups=n))
                self.refused(2, block({part: -limit - 1}, groups=n))
            self.refused(3, block(groups=n, measurements=[10 ** 12] * (15 * n)))
            self.refused(4, block(groups=n, clock=[150000 * j for j in range(n)]))
            self.refused(5, block(groups=n, troposphere=[-51] * n))
        for n in (4, 48):
            self.refused(6, block(groups=n, clock=scattered(999950, n)))
            self.assertEqual(field(printed(block(groups=n, clock=scattered(999949, n))), 'DSG'), b'9999')
            for size, dsg in ((49, b'0000'), (50, b'0001'), (149, b'0001'), (150, b'0002')):
                self.assertEqual(field(printed(block(groups=n, clock=scattered(size, n))), 'DSG'), dsg)

    def test_limits(self):
        for part, limit in (('INT', 10 ** 10), ('CAB', 10 ** 10), ('REF', 10 ** 10), ('GD', 10 ** 10),
                            ('measurement 0', 10 ** 12), ('measurement 779', 10 ** 12), ('geometry 51', 2 * 10 ** 11),
                            ('relativity 0', 10 ** 10), ('ionosphere 25', 10 ** 10), ('troposphere 1', 10 ** 10),
                            ('clock 51', 10 ** 10)):
            for value in (limit + 1, -limit - 1, 2 ** 63 - 1, -2 ** 63):
                self.refused(2, block({part: value}))
            self.assertNotEqual(printed(block({part: limit})), b'refused 2\r\n')
            self.assertNotEqual(printed(block({part: -limit})), b'refused 2\r\n')

    def test_midpoints(self):
        self.refused(3, block(measurements=[10 ** 12] * 780))
        self.refused(3, block(measurements=[-10 ** 12] * 780))
        # REFSV fits and REFSYS does not
        self.refused(3, block(measurements=[999999999949] * 780, clock=[1] * 52))
        self.assertEqual(printed(block(measurements=[999999999949] * 780)),
                         line('G05 FF 50722 000200 0780 450 1800 +9999999999 +00000 +9999999999 +00000 0000 007 0000 +000 '
                              '0000 +000 00 00 L1C'))

    def test_slopes(self):
        self.refused(4, block(measurements=[10000 * t for t in range(780)]))
        self.refused(4, block(measurements=[-10000 * t for t in range(780)]))
        self.refused(4, block(clock=[150000 * j for j in range(52)]))
        self.refused(4, block(troposphere=[1500 * j for j in range(52)]))
        self.refused(4, block(ionosphere=[76500 - 1500 * j for j in range(52)]))

    def test_delays(self):
        self.refused(5, block(troposphere=[-51] * 52))
        self.refused(5, block(ionosphere=[-51] * 52))
        self.refused(5, block(troposphere=[999950] * 52))
        self.refused(5, block(ionosphere=[999950] * 52))
        self.assertEqual(printed(block(troposphere=[-50] * 52, ionosphere=[999949] * 52)),
                         line('G05 FF 50722 000200 0780 450 1800 -0000009989 +00000 -0000009989 +00000 0000 007 0000 +000 '
                              '9999 +000 00 00 L1C'))

    def test_scatter(self):
        self.refused(6, block(clock=scattered(999950)))
        self.refused(6, block(clock=scattered(2 ** 32)))
        self.assertEqual(printed(block(clock=scattered(999949))),
                         line('G05 FF 50722 000200 0780 450 1800 +0000000010 +00000 +0000000010 +00000 9999 007 0000 +000 '
                              '0000 +000 00 00 L1C'))

    def test_tenths(self):
        """Each block of one level and 4 ps more in its middle, which make 4 x 167 / 1105 = 0.6045 ps, six tenths."""
        def figures(*levels):
            measurements = [level + more * (i == 7) for level, more in levels for i in range(15)]
            return printed(block(groups=len(levels), measurements=measurements))[34:76].split()

        for n in range(4, 53):
            # 49.6 ps; in whole ps it would be 50, and 1 in REFSV and REFSYS
            self.assertEqual(figures(*[(49, 4)] * n), [b'+0000000000', b'+00000', b'+0000000000', b'+00000', b'0000'])
            self.assertEqual(figures(*[(50, 0)] * n), [b'+0000000001', b'+00000', b'+0000000001', b'+00000', b'0000'])
            # 31149.6 ps, 311 and not 312
            self.assertEqual(figures(*[(31149, 4)] * n)[0], b'+0000000311')
        # T is -1 + 3 x 2.6 = 6.8 ps and the slope T / 15 = 0.45; in whole ps T would be 8 and the slope 1
        self.assertEqual(figures((0, 0), (0, 0), (-1, 0), (2, 4))[1::2], [b'+00000', b'+00000'])
        for n in range(4, 53, 4):
            # the root mean square is 49.6 ps; in whole ps it would be 50, and 1 in DSG
            self.assertEqual(figures(*[(49, 4), (-49, -4), (-49, -4), (49, 4)] * (n // 4))[4], b'0000')
            self.assertEqual(figures(*[(50, 0), (-50, 0), (-50, 0), (50, 0)] * (n // 4))[4], b'0001')

    def test_one_high_value(self):
        """A residual of some microseconds is no 6 where the others are small: one block of 52 lies 7 us higher."""
        clock = [0] * 52
        clock[25] = 7 * 10 ** 6
        # the line's level takes 1 / 52 of it off, its slope next to nothing: 51 / 52 of 7^2 / 52 us^2 are 961346 ps squared
        self.assertEqual(field(printed(block(clock=clock)), 'DSG'), b'9613')

    def test_labels(self):
        for part, value in (('constellation', ord('S')), ('constellation', 0), ('constellation', ord('R')),
                            ('satellite', 0), ('satellite', 100), ('FR', 1), ('HC', 100), ('FRC 0', ord('l')),
                            ('FRC 1', ord(' ')), ('FRC 2', 255), ('MJD', 50721), ('MJD', 100000), ('ELV', 901),
                            ('AZTH', 3600), ('IOE', 256)):
            self.refused(7, block({part: value}))

    def test_starts(self):
        for mjd, start in ((50722, 121), (50722, 0), (50722, 85560), (50722, 86520), (50723, 120), (50723, 86280),
                           (56842, 120), (50722, 2 ** 32 - 1)):
            self.refused(8, block({'MJD': mjd, 'start': start}))
        for mjd, start, columns in ((50723, 840, b'50723 001400'), (50723, 86040, b'50723 235400'),
                                    (56842, 840, b'56842 001400')):
            self.assertEqual(printed(block({'MJD': mjd, 'start': start}))[:19], b'G05 FF ' + columns)

    def test_first_fault_is_named(self):
        cut = {'length': -1}
        faults = [(11, {'length': 3}), (1, {'groups size': 51}), (11, cut), (2, {'GD': 2 ** 62}), (7, {'HC': 200}),
                  (8, {'start': 121})]
        for groups in (52, 20):
            for i, (number, _) in enumerate(faults):
                changes = {}
                for _, fault in reversed(faults[i:]):
                    changes.update(fault)
                length = changes.pop('length', None)
                self.refused(number, block(changes, groups)[:length])

    def test_input_in_pieces(self):
        process = subprocess.Popen([PROGRAM], stdin=subprocess.PIPE, stdout=subprocess.PIPE)
        data = block()
        for piece in (data[:1], data[1:4000], data[4000:8377], data[8377:]):
            process.stdin.write(piece)
            process.stdin.flush()
            time.sleep(0.02)
        self.assertEqual(process.communicate()[0], SAMPLE_LINE)

    def test_what_it_can_not_tell(self):
        """A failed read is answered as a short block, and a failed write by nothing: both end with status 0."""
        with open('/dev/full', 'wb') as full:
            self.assertEqual(subprocess.run([PROGRAM], input=block(), stdout=full, check=False).returncode, 0)
        folder = os.open('/', os.O_RDONLY)
        result = subprocess.run([PROGRAM], stdin=folder, capture_output=True, check=False)
        os.close(folder)
        self.assertEqual((result.returncode, result.stdout), (0, b'refused 11\r\n'))
        self.assertEqual(subprocess.run([PROGRAM], input=b'', capture_output=True, check=False).returncode, 0)


if __name__ == '__main__':
    unittest.main()
