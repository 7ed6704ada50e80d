#!/usr/bin/env python3
"""Runs cggtts view --parted: what it reports of files of any length, and what it refuses.

    python3 tests/cggtts/test_parted.py

Reports are worked out by test_view.py, from a dictionary of the lines.
"""
import os
import random
import unittest

from test_cggtts import MEANINGS, ROOT, Scratch, run
from test_merge import AS_OURS, IN_ORDER, advised
from test_view import FIRST, MOST, ROOF, SECOND, pairs_of, report_of, rows_of, sequence, some_files, starts, tracked


def parted_row(parts):
    return '  parted         by date, and %d report%s joined\n' % (parts, 's' if parts != 1 else '')


def dates_of(first, second):
    return len({pair[0] for pair in pairs_of(first, second)})


def every(mjd, satellites):
    """A line for each of these satellites at each start of a date."""
    return b''.join(tracked(mjd, clock, satellite, refsys=index % 7) for index, clock in enumerate(starts(mjd)) for satellite in satellites)


class Parted(Scratch):
    def viewed(self, first, second, parts=None):
        """The report is that on the whole files, and says of how many parts it is joined."""
        names = self.kept('first', first), self.kept('second', second)
        wanted = report_of(names, first, second) + parted_row(parts or dates_of(first, second))
        self.assertEqual(run('view', '--parted', *names), (0, wanted.encode(), ''))
        self.assertEqual(run('view', *names, '--parted', '--pairs'), (0, rows_of(first, second).encode(), ''))

    def test_the_roof(self):
        """Two dates, and the same report as in one."""
        self.viewed(*ROOF, parts=2)
        status, output, _ = run('view', '--parted', FIRST, SECOND)
        self.assertEqual((status, output), (0, run('view', FIRST, SECOND)[1] + parted_row(2).encode()))
        self.viewed(ROOF[0], ROOF[0], parts=2)

    def test_many_files(self):
        pick, found = random.Random(8), 0
        for _ in range(60):
            files = some_files(pick)
            if pairs_of(*files):
                self.viewed(*files)
                found += 1
        self.assertGreater(found, 40)

    def test_dates_without_a_pair_or_a_partner(self):
        keys = [(mjd, starts(mjd)[5], 'G05') for mjd in range(51081, 51087)]
        first = b''.join(tracked(*key, -MOST) for key in keys[:4])
        second = b''.join(tracked(*key, MOST, trkl) for key, trkl in zip(keys[1:], (780, 60, 780, 780, 780)))
        self.viewed(first, second, parts=2)
        self.viewed(second, first, parts=2)

    def test_files_that_are_too_long_for_one_view(self):
        """More than 10000 lines, all differences the largest there are, and a date that alone has as many."""
        count = 40000
        values = [MOST] * count, [-MOST] * count
        first, second = map(sequence, values)
        self.assertGreater(len(first), 1150000)
        names = self.kept('first', first), self.kept('second', second)
        self.assertEqual(run('view', *names)[0], 1)
        status, output, errors = run('view', '--parted', *names)
        self.assertEqual((status, errors), (0, ''))
        self.assertEqual(output.decode(), report_of(names, first, second) + parted_row(dates_of(first, second)))

    def test_a_date_that_is_too_long(self):
        """It is parted by start: 89 starts of 120 satellites."""
        satellites = ['E%02d' % number for number in range(1, 61)] + ['G%02d' % number for number in range(1, 61)]
        long = every(51081, satellites)
        self.assertGreater(len(long), 1150000)
        first, second = long + every(51082, ['G01']), tracked(51080, starts(51080)[0], 'G01') + long
        self.viewed(first, second, parts=89)
        self.viewed(first, every(51081, ['G01']) + every(51082, ['G01']), parts=90)

    def test_the_picture(self):
        names, whole = (FIRST, SECOND), self.folder / 'whole.svg'
        parted = self.folder / 'parted.svg'
        self.assertEqual(run('view', *names, '--svg', whole)[0], 0)
        self.assertEqual(run('view', *names, '--svg', parted, '--parted')[0], 0)
        self.assertEqual(parted.read_bytes(), whole.read_bytes())
        self.assertEqual(sorted(os.listdir(self.folder)), ['parted.svg', 'whole.svg'])

    def test_refused(self):
        """As without it, whatever the length; and 18 where no date has a pair."""
        long, line = sequence([0] * 10001), tracked(50722, '000200', 'G05')
        for number, bad, rows, advice in (
                (16, line, 'it has MJD 50722, start 000200, G05, and the line before it MJD %s, start %s, %s'
                 % (long[-108:-103].decode(), long[-102:-96].decode(), long[-115:-112].decode()), IN_ORDER),
                (13, tracked(99999, starts(99999)[0], 'G 5'), 'column 2 (satellite) is a blank, not a digit', AS_OURS),
                (12, line[:40], 'it has 40 bytes, and a line of a file has 115 with its line end', '')):
            for files, blamed in (((long + bad, line), 0), ((line, long + bad), 1), ((long + bad, bad), 0)):
                names = self.kept('first', files[0]), self.kept('second', files[1])
                told = '%s:10002: refused %d: %s\n' % (names[blamed], number, MEANINGS[number])
                told += ''.join('  %s\n' % row for row in (rows, *advised(advice, names[blamed])))
                self.assertEqual(run('view', '--parted', *names), (1, b'', told))
        one = self.kept('one', line)
        for other in (b'', tracked(50723, '001400', 'G05'), tracked(50722, '000200', 'G05', trkl=60)):
            two = self.kept('two', other)
            self.assertEqual(run('view', '--parted', one, two), (1, b'', run('view', one, two)[2]))
            self.assertIn('refused 18', run('view', '--parted', two, one)[2])

    def test_the_message_s_command(self):
        """That of 19, as it is typed."""
        one, two = self.kept('one', sequence([5] * 10001)), self.kept('two', sequence([4] * 10001))
        errors = run('view', one, two)[2].splitlines()
        self.assertEqual(errors[-1], '    cggtts view --parted %s %s' % (one, two))
        self.assertIn(b'  sum            10001 x 0.1 ns\n', run(*errors[-1].split()[1:])[1])
        for paper in ('docs/REFUSALS.md', 'docs/COMMON-VIEW.md', 'man/cggtts.1'):
            text = (ROOT / paper).read_text().replace('\\-', '-')
            self.assertIn('cggtts view --parted FIRST SECOND\n', text, paper)
            self.assertNotIn('awk', text, paper)


if __name__ == '__main__':
    unittest.main()
