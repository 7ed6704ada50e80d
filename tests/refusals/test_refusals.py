#!/usr/bin/env python3
"""What docs/REFUSALS.md says leads to a refusal, or to none, tried with the worked track and target/bin/trackline, and the
starts of a day with target/cggtts/cggtts too.

    python3 tests/refusals/test_refusals.py
"""
import collections
import copy
import pathlib
import subprocess
import sys
import tempfile
import unittest

ROOT = pathlib.Path(__file__).resolve().parents[2]
PROGRAM = ROOT / 'target' / 'bin' / 'trackline'
CGGTTS = ROOT / 'target' / 'cggtts' / 'cggtts'

sys.dont_write_bytecode = True
sys.path[:0] = [str(ROOT / 'tests'), str(ROOT / 'tools')]
from loading import loaded  # noqa: E402
from papers import second_of  # noqa: E402

hireblock = loaded('hireblock')

WORKED = hireblock.unpack((ROOT / 'examples' / 'worked.blk').read_bytes())
COLUMNS, DELAYS = hireblock.COLUMNS, hireblock.DELAYS
SECOND = 10 ** 12
# the longest track in which measurements that are ten seconds late are noticed
LATE_IS_SEEN = 13


def answer(data):
    """The number that the program refuses with, or 0."""
    printed = subprocess.run([PROGRAM], input=data, stdout=subprocess.PIPE, check=True).stdout.decode().rstrip()
    return int(printed[8:]) if printed.startswith('refused ') else 0


def tried(**parts):
    """The answer to the worked track with other parts."""
    return answer(hireblock.pack({**copy.deepcopy(WORKED), **parts}))


def measured(change):
    return tried(measurements=[change(second, value) for second, value in enumerate(WORKED['measurements'])])


def marked(marker, seconds):
    return measured(lambda second, value: marker if second in seconds else value)


def behind(ps):
    return measured(lambda _, value: value - ps)


def jumped(ps, first):
    return measured(lambda second, value: value + ps * (second >= first))


def late_by(seconds):
    """The measurements that many seconds late; those that are missing are filled with the nearest."""
    numbers = WORKED['measurements']
    return measured(lambda second, _: numbers[min(max(second - seconds, 0), 779)])


def scaled(names, times, over=1):
    """The named parts in another unit."""
    def scale(value):
        return [scale(v) for v in value] if isinstance(value, list) else value * times // over

    return tried(**{name: scale(WORKED[name]) for name in names})


def exchanged(one, other):
    return tried(**{one: WORKED[other], other: WORKED[one]})


def negative(name):
    return tried(**{name: -WORKED[name] if name in DELAYS else [-value for value in WORKED[name]]})


def cut(first, last, **parts):
    """The worked track's blocks from the first to the one before the last."""
    lists = {name: WORKED[name][first:last] for name in COLUMNS}
    measurements = WORKED['measurements'][15 * first:15 * last]
    return hireblock.pack({**WORKED, **lists, 'measurements': measurements, 'sizes': [15 * (last - first), last - first],
                           **parts})


def without(gap):
    """The worked track without some of its blocks, as if what follows had come before."""
    kept = [j for j in range(52) if j not in gap]
    lists = {name: [WORKED[name][j] for j in kept] for name in COLUMNS}
    measurements = [WORKED['measurements'][15 * j + k] for j in kept for k in range(15)]
    return hireblock.pack({**WORKED, **lists, 'measurements': measurements, 'sizes': [15 * len(kept), len(kept)]})


def short(n, change):
    """The answer to the first n blocks of the worked track with other measurements."""
    return answer(cut(0, n, measurements=[change(i, value) for i, value in enumerate(WORKED['measurements'][:15 * n])]))


def short_jump(n, ps, first):
    return short(n, lambda second, value: value + ps * (second >= first))


def fields(data):
    """What is printed, by the places of the line's fields."""
    return subprocess.run([PROGRAM], input=data, stdout=subprocess.PIPE, check=True).stdout.decode().split()


class Card(unittest.TestCase):
    def all_are(self, number, answers):
        self.assertEqual(set(answers), {number})

    def test_worked_track_is_accepted(self):
        self.assertEqual(tried(), 0)

    def test_1(self):
        self.all_are(1, [answer(cut(0, n)) for n in (0, 1, 2, 3)])
        worked = hireblock.pack(WORKED)
        more = hireblock.pack({**WORKED, 'measurements': WORKED['measurements'] + [0] * 15, 'sizes': [795, 53],
                               **{name: WORKED[name] + [0] for name in COLUMNS}})
        exchanged_sizes, wrong_order = worked[2:4] + worked[:2] + worked[4:], worked[1::-1] + worked[3:1:-1] + worked[4:]
        self.all_are(1, [answer(data) for data in (more, exchanged_sizes, wrong_order, worked[1:], b'\0' + worked,
                                                   bytes(4), bytes(698), bytes(8377), bytes(8378))])
        self.all_are(1, [answer((ROOT / 'examples' / name).read_bytes()) for name in ('sample.txt', 'short.txt', 'worked.txt')])
        self.all_are(1, [tried(measurements=WORKED['measurements'][:seconds], sizes=[seconds, 52]) for seconds in (779, 765)])

    def test_11(self):
        worked, short = hireblock.pack(WORKED), cut(0, 20)
        self.all_are(11, [answer(data) for data in (b'', bytes(3), worked[:4], worked[:-1], worked[:4000], worked + b'\n',
                                                    2 * worked, short[:-1], 2 * short)])
        self.all_are(11, [answer(cut(0, n, sizes=[780, 52])) for n in (4, 20, 51)])
        self.assertEqual([len(cut(0, n)) for n in (52, 4)], [8378, 698])

    def test_short_tracks_are_accepted(self):
        self.all_are(0, [answer(cut(0, n)) for n in range(4, 53)])
        self.all_are(0, [answer(cut(n, 52)) for n in range(49)])
        line = subprocess.run([PROGRAM], input=cut(30, 52), stdout=subprocess.PIPE, check=True).stdout.split()
        self.assertEqual(line[2:5], [b'60600', b'133000', b'0330'])

    def test_blocks_missing_in_mid_track(self):
        """A gap makes the slopes steep; what follows it is taken for earlier."""
        full, gap = fields(hireblock.pack(WORKED)), fields(without(range(10, 40)))
        self.assertEqual((full[4], full[10], gap[4], gap[10]), ('0780', '-00041', '0330', '-00125'))
        self.assertEqual(gap[:4], full[:4])
        self.all_are(0, [answer(without(range(first, first + count))) for first in (1, 20, 47) for count in (1, 4)])

    def test_blocks_missing_at_the_ends(self):
        """The same TRKL and start; REFSYS falls by 4.1 ps/s, so that 450 s later it is lower by 1.8 or 1.9 ns."""
        first, last = fields(without(range(22, 52))), fields(without(range(30)))
        self.assertEqual((first[:5], first[4]), (last[:5], '0330'))
        self.assertIn(int(first[9]) - int(last[9]), (18, 19))
        self.assertEqual(without(range(22, 52)), cut(0, 22))

    def test_jumps_in_short_tracks(self):
        """In mid-track a 4 from about n x 0.1 us on, and nothing below; a 6 takes 3.5 us, whatever n is."""
        for n in range(4, 41):
            middle = 15 * n // 2
            self.all_are(4, [short_jump(n, sign * n * 105000, middle) for sign in (1, -1)])
            self.all_are(0, [short_jump(n, sign * n * 90000, middle) for sign in (1, -1)])
        self.all_are(4, [short_jump(n, sign * ps, 15 * n // 2) for n, ps in ((4, 400000), (20, 2000000)) for sign in (1, -1)])
        for n in (4, 13, 20, 40):
            self.assertNotIn(6, {short_jump(n, 3400000, second) for second in range(1, 15 * n, 1 + n // 13)})
        for n in (20, 40):
            self.assertIn(6, {short_jump(n, 3500000, second) for second in range(1, 15 * n, 1 + n // 13)})

    def test_ten_seconds_late_in_short_tracks(self):
        numbers = WORKED['measurements']
        for n in range(4, 53):
            late = short(n, lambda second, _: numbers[max(second - 10, 0)])
            self.assertEqual(late, 4 if n <= LATE_IS_SEEN else 0, n)

    def test_cut_block_with_sizes_by_its_length(self):
        """Its corrections are measurements then: a 2 here, but it need not be."""
        worked = hireblock.pack(WORKED)
        for n in (4, 20, 38):
            data = hireblock.HEAD.pack(15 * n, n, *hireblock.HEAD.unpack_from(worked)[2:]) + worked[58:58 + 160 * n]
            self.assertEqual(hireblock.unpack(data)['geometry'][0], WORKED['measurements'][15 * n])
            self.assertEqual(answer(data), 2)

    def test_2(self):
        self.all_are(2, [marked(9999999999999, [second]) for second in (0, 400, 779)])
        self.all_are(2, [exchanged('geometry', name) for name in COLUMNS[1:]])
        rows = [value for name in COLUMNS for value in WORKED[name]]
        self.assertEqual(tried(**{name: rows[k::5] for k, name in enumerate(COLUMNS)}), 2)
        data = bytearray(hireblock.pack(WORKED))
        for at in range(58, 8378, 8):
            data[at:at + 8] = reversed(data[at:at + 8])
        self.assertEqual(answer(bytes(data)), 2)
        self.all_are(2, [scaled([name], 1000) for name in ('measurements', 'geometry', 'clock')])
        self.all_are(2, [behind(-93 * SECOND // 100), behind(-SECOND), behind(-100 * SECOND)])

    def test_3(self):
        self.assertEqual(behind(SECOND), 3)
        self.all_are(0, [behind(SECOND - 10 ** 6), behind(-92 * SECOND // 100), behind(SECOND // 2)])

    def test_4(self):
        self.all_are(4, [marked(marker, seconds) for marker in (0, 999999999999)
                         for seconds in ([0], [400], [779], range(390, 450), range(390, 780), range(780))])
        self.all_are(4, [scaled([name], 1, 1000) for name in ('measurements', 'geometry')])
        self.all_are(4, [scaled([name], 1000) for name in ('troposphere', 'ionosphere')])
        other = [75000000000 - 900000 * (7 + 15 * j) for j in range(52)]
        self.all_are(4, [tried(geometry=[0] * 52), negative('geometry'), tried(geometry=other)])
        for microseconds, first, last in (6, 250, 530), (10, 150, 650), (100, 15, 765):
            self.all_are(4, [jumped(sign * microseconds * 10 ** 6, second) for sign in (1, -1)
                             for second in (*range(first, last, 60), last)])

    def test_5(self):
        for name in 'troposphere', 'ionosphere':
            self.all_are(5, [negative(name), exchanged(name, 'clock')])

    def test_6(self):
        late = WORKED['geometry'][1:] + WORKED['geometry'][-1:]
        self.all_are(6, [tried(geometry=late), late_by(15)])
        self.all_are(6, [jumped(5 * 10 ** 6, second) for second in (*range(60, 700, 40), 700)])
        self.assertEqual({jumped(4 * 10 ** 6, second) for second in range(1, 780, 60)}, {0, 6})
        self.all_are(6, [jumped(sign * 10 ** 7, second) for sign in (1, -1) for second in (15, 60, 100, 700, 765)])

    def test_a_marker_in_each_second(self):
        """12 of the 780 places of a lone 0 leave the slope as it is."""
        places = range(330, 450)
        count = collections.Counter(marked(0, [second]) for second in places)
        self.assertEqual(count, {4: len(places) - 12, 6: 12})
        self.all_are(4, [marked(0, [second]) for second in (*range(0, 330, 7), *range(450, 780, 7))])

    def test_what_no_refusal_notices(self):
        self.all_are(0, [exchanged('troposphere', 'ionosphere')])
        self.all_are(0, [exchanged('relativity', name) for name in ('troposphere', 'ionosphere', 'clock')])
        self.all_are(0, [exchanged(one, other) for one in DELAYS for other in DELAYS])
        self.all_are(0, [scaled([name], 1, 1000) for name in COLUMNS[1:] + DELAYS])
        self.all_are(0, [scaled(('measurements',) + COLUMNS + DELAYS, 1, 1000)])
        self.all_are(0, [scaled([name], 1000) for name in ('relativity',) + DELAYS])
        self.all_are(0, [negative(name) for name in ('relativity', 'clock') + DELAYS])

    def test_what_shows_in_the_scatter_alone(self):
        self.all_are(0, [late_by(seconds) for seconds in (1, -1, 10, -10)])
        numbers = WORKED['measurements']
        self.all_are(0, [marked(numbers[second - 1], [second]) for second in range(1, 780, 41)])
        self.all_are(0, [jumped(sign * 3 * 10 ** 6, second) for sign in (1, -1) for second in range(1, 780, 26)])
        self.all_are(0, [jumped(10 ** 7, second) for second in (1, 5, 775, 779)])

    def test_what_is_left_out(self):
        self.all_are(0, [tried(**{name: [0] * 52}) for name in ('ionosphere', 'troposphere', 'clock')])
        self.all_are(0, [tried(**{name: [0] * 52 for name in ('ionosphere', 'troposphere', 'clock')})])
        self.all_are(0, [tried(ELV=WORKED['ELV'] // 10, AZTH=WORKED['AZTH'] // 10)])

    def test_places_in_what_is_shown(self):
        """Measurement 17 is the third number of row 2, geometry 17 the fifth of row 2."""
        parts = {**WORKED, 'measurements': list(range(780)), 'geometry': list(range(52))}
        rows = [row.split() for row in hireblock.show(parts).split('\n')]
        for name, third in ('measurements', 2), ('geometry', 4):
            first = 1 + next(k for k, row in enumerate(rows) if row[:1] == [name])
            self.assertEqual(rows[first + 1][third], '17')

    def test_exchanged_air_shows_in_its_own_figures_alone(self):
        def line(**parts):
            data = hireblock.pack({**WORKED, **parts})
            return subprocess.run([PROGRAM], input=data, stdout=subprocess.PIPE, check=True).stdout.decode().split()

        right = line()
        wrong = line(troposphere=WORKED['ionosphere'], ionosphere=WORKED['troposphere'])
        self.assertEqual(wrong[:13] + wrong[17:20], right[:13] + right[17:20])
        self.assertEqual(wrong[13:17], right[15:17] + right[13:15])


class Paths(unittest.TestCase):
    POINTS = (15600123457, 7540654321, 20140777888, 4202777366, 171367999, 4778660203)

    def answer(self, words):
        """The number that cggtts path refuses with, or 0."""
        told = subprocess.run([CGGTTS, 'path', *map(str, words)], stdout=subprocess.DEVNULL, stderr=subprocess.PIPE, check=False)
        return int(told.stderr.split()[2][:-1]) if told.returncode == 1 else -told.returncode

    def with_word(self, word):
        """With this word for each coordinate in turn."""
        return {self.answer(self.POINTS[:place] + (word,) + self.POINTS[place + 1:]) for place in range(6)}

    def test_23(self):
        self.assertEqual(self.answer(self.POINTS), 0)
        self.assertEqual(self.answer(['%d.%03d' % divmod(mm, 1000) for mm in self.POINTS]), 23)
        self.assertEqual(self.with_word('nan'), {23})

    def test_24(self):
        self.assertEqual(self.answer([10 * mm for mm in self.POINTS]), 24)
        self.assertEqual(self.with_word(999999999999), {24})


class Version01(unittest.TestCase):
    EXAMPLES = ROOT / 'examples'

    def answers(self, *words, data=b''):
        """The numbers that lines are refused with, by their lines; none where all are accepted."""
        told = subprocess.run([CGGTTS, *words], input=data, stdout=subprocess.DEVNULL, stderr=subprocess.PIPE, check=False)
        rows = [row.split(': ') for row in told.stderr.decode().splitlines() if ': refused ' in row]
        self.assertEqual(told.returncode, 1 if rows else 0)
        return {int(row[0].rsplit(':', 1)[1]): int(row[1].split()[1]) for row in rows}

    def up(self, data, hc='0', frc='L1C'):
        return self.answers('up', '-', '--hc', hc, '--frc', frc, data=data)

    def down(self, data):
        return self.answers('down', '-', data=data)

    def made(self, *words, data=b''):
        return subprocess.run([CGGTTS, *words], input=data, stdout=subprocess.PIPE, stderr=subprocess.DEVNULL, check=True).stdout

    def test_25(self):
        lines = (self.EXAMPLES / 'week.cggtts').read_bytes().splitlines(keepends=True)[:30]
        others = [number for number, line in enumerate(lines, 1) if not line.startswith(b'G')]
        self.assertEqual(self.answers('down', '-', data=b''.join(lines)), dict.fromkeys(others[:20], 25))
        self.assertEqual(self.answers('down', '--gps', '-', data=b''.join(lines)), {})

    def test_the_wrong_way(self):
        ours, old = ((self.EXAMPLES / name).read_bytes() for name in ('gps.cggtts', 'gps.v01'))
        self.assertEqual(set(self.up(ours).values()), {14})
        self.assertEqual(set(self.answers('down', '-', data=old).values()), {12})
        for length, way, number in ((15, self.up, 14), (16, self.up, 12), (9, self.down, 12), (10, self.down, 14)):
            data = (ours[:113] if way == self.up else old[:103]) + b'x' * length
            self.assertEqual(way(data), {1: number}, length)

    def test_15(self):
        """One HC for all lines does not restore those that had others: such a file is viewed with them, and not merged."""
        lines = [line for line in (self.EXAMPLES / 'week.cggtts').read_bytes().splitlines(keepends=True) if line.startswith(b'G')]
        ours, restored = b''.join(lines), self.made('up', '-', '--hc', '0', '--frc', 'L1C', data=self.made('down', '-', data=b''.join(lines)))
        with tempfile.TemporaryDirectory() as folder:
            path = pathlib.Path(folder) / 'restored'
            path.write_bytes(restored)
            self.assertEqual(set(self.answers('merge', '-', path, data=ours).values()), {15})
            self.assertEqual(subprocess.run([CGGTTS, 'view', '-', path], input=ours, stdout=subprocess.DEVNULL, check=False).returncode, 0)

    def test_blanks(self):
        lines = (self.EXAMPLES / 'published.v01').read_bytes().splitlines(keepends=True)[19:]
        self.assertEqual(set(self.up(b''.join(lines)).values()), {13})
        self.assertEqual(self.answers('convert', '-', '--hc', '0', '--frc', 'L1C', data=b''.join(lines)), {})

    def test_what_is_given(self):
        """Out of its range it is wrong use, before any file is read."""
        old = (self.EXAMPLES / 'gps.v01').read_bytes()
        self.assertEqual(self.up(old, '99', 'Z0A'), {})
        for command in ('up', 'convert'):
            for hc, frc in (('100', 'L1C'), ('0', 'l1c')):
                told = subprocess.run([CGGTTS, command, '-', '--hc', hc, '--frc', frc], input=old, capture_output=True, check=False)
                self.assertEqual((told.returncode, told.stdout), (2, b''))


class Starts(unittest.TestCase):
    anchor = [2 + 16 * k for k in range(89)]

    def listed(self, mjd):
        """The minutes at which the program lets a track start."""
        return [minute for minute in range(1440) if tried(MJD=mjd, start=60 * minute) == 0]

    def printed(self, mjd):
        """The minutes that cggtts starts prints."""
        rows = subprocess.run([CGGTTS, 'starts', str(mjd)], stdout=subprocess.PIPE, check=True).stdout.decode().split()
        self.assertTrue(all(row[4:] == '00' for row in rows))
        return [second_of(row) // 60 for row in rows]

    def test_the_card_s_rule(self):
        self.assertEqual(self.anchor[-1], 23 * 60 + 30)
        self.assertEqual(self.listed(60774), self.anchor)
        later = self.listed(60812)
        self.assertEqual(later, sorted((minute - 38 * 4) % 1436 for minute in self.anchor))
        gaps = [b - a for a, b in zip(later, later[1:])]
        self.assertEqual(collections.Counter(gaps), {16: 87, 28: 1})
        self.assertEqual(later[gaps.index(28) + 1], 2 - 38 * 4 + 1436)

    def test_the_card_s_rule_on_each_day(self):
        """From one MJD of 00:02 .. 23:30 to the next, as cggtts prints them."""
        for days in range(360):
            found = self.printed(60774 + days)
            counted = [minute for minute in range(23 * 60 + 56) if (minute + 4 * (days % 359)) % 1436 in self.anchor]
            self.assertEqual(found, counted)
            gaps = collections.Counter(b - a for a, b in zip(found, found[1:]))
            self.assertEqual(gaps, {16: 88} if days == 0 or days >= 359 - 6 else {16: 87, 28: 1})
            self.assertLessEqual(found[-1], 23 * 60 + 54)

    def test_the_card_s_examples(self):
        for mjd in 50722, 60415, 60774, 61133:
            answers = [tried(MJD=mjd, start=60 * minute) for minute in (2, 18, 1410, 1426, 1438)]
            self.assertEqual(answers, [0, 0, 0, 8, 8])
        self.assertEqual([tried(MJD=60812, start=60 * (13 * 60 + minute)) for minute in (38, 30)], [8, 0])
        self.assertEqual(tried(MJD=60812, start=60 * (23 * 60 + 50)), 0)
        self.assertEqual([tried(MJD=60600, start=start) for start in (48600, 133000)], [0, 8])
        self.assertEqual([tried(MJD=60775, start=60 * (23 * 60 + minute)) for minute in (54, 58)], [0, 8])


if __name__ == '__main__':
    unittest.main()
