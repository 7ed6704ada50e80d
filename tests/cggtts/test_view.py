#!/usr/bin/env python3
"""Runs cggtts view: its report, its rows, its picture, its messages and its exit statuses.

    python3 tests/cggtts/test_view.py

Pairs are found here by a dictionary and means worked out in fractions; the numbers and places of refusals are written out
by hand.
"""
import decimal
import math
import os
import random
import re
import signal
import subprocess
import sys
import unittest
import xml.etree.ElementTree as tree
from fractions import Fraction

from test_cggtts import MEANINGS, PROGRAM, ROOT, SIGNAL_IN_WRITE, Scratch, run
from papers import RANGES, field, second_of, starts
from test_merge import AS_OURS, IN_ORDER, NO_HEADER, advised, by_keys, ended

FIRST, SECOND = ('examples/roof-%s.cggtts' % name for name in 'ab')
ROOF = [(ROOT / name).read_bytes() for name in (FIRST, SECOND)]
SVG = '{http://www.w3.org/2000/svg}'
MOST = RANGES['REFSYS'][1]
# what plotting programs skip
HEAD = ('# MJD start satellite difference/0.1ns MJD-with-fraction ELV-1 ELV-2 DSG-1 DSG-2 FRC-1 FRC-2 TRKL REFSYS-1 '
        'REFSYS-2\n')


def tracked(mjd, clock, satellite, refsys=0, trkl=780, changes=()):
    """A line with its line end, by what a common view goes by."""
    return ended(mjd, clock, satellite, [(21, '%04d' % trkl), (54, '%+011d' % refsys), *changes])


def by_pair(file):
    """The lines by what makes a pair."""
    return {(*by_keys(line), field(line, 'TRKL')): line for line in file.splitlines()}


def pairs_of(first, second):
    """MJD, start, satellite and difference of each pair, in the order of the lines."""
    one, other = ({key: int(field(line, 'REFSYS')) for key, line in by_pair(file).items()} for file in (first, second))
    return [(int(key[0]), key[1].decode(), (key[2] + key[3]).decode(), one[key] - other[key])
            for key in sorted(one) if key in other]


def rounded(fraction, places):
    """A fraction to so many places, a tie going up."""
    units = math.floor(fraction * 10 ** places + Fraction(1, 2))
    return str(decimal.Decimal(units).scaleb(-places)) if units else '0.' + '0' * places


def codes_row(first, second):
    """How many pairs are of two codes, or nothing where none is."""
    one, other = by_pair(first), by_pair(second)
    pairs = one.keys() & other.keys()
    count = sum(field(one[key], 'FRC') != field(other[key], 'FRC') for key in pairs)
    return '  another FRC    in %d of %d pair%s\n' % (count, len(pairs), 's' if len(pairs) > 1 else '') if count else ''


def report_of(names, first, second):
    """What is printed of two files."""
    differences = [pair[3] for pair in pairs_of(first, second)]
    count, total = len(differences), sum(differences)
    extremes = ''.join('  %-14s %d x 0.1 ns = %s ns\n' % (name, value, rounded(Fraction(value, 10), 1))
                       for name, value in (('smallest', min(differences)), ('largest', max(differences))))
    lines = [len(file) // 115 for file in (first, second)]
    return ('REFSYS of %s minus REFSYS of %s\n' % names
            + '  pairs          %d\n  sum            %d x 0.1 ns\n' % (count, total) + extremes
            + '  mean           %d/%d x 0.1 ns\n' % (total, count)
            + '  without a pair %d of %d lines of the first, %d of %d of the second\n' % (
                lines[0] - count, lines[0], lines[1] - count, lines[1]) + codes_row(first, second))


def rows_of(first, second):
    """What --pairs prints of two files."""
    rows, both = HEAD, [{(int(key[0]), key[1], key[2] + key[3]): line for key, line in by_pair(file).items()}
                        for file in (first, second)]
    for mjd, clock, satellite, difference in pairs_of(first, second):
        day = Fraction(second_of(clock), 86400)
        one, other = (lines[mjd, clock.encode(), satellite.encode()] for lines in both)
        more = [int(field(line, name)) for name in ('ELV', 'DSG') for line in (one, other)]
        more += [field(line, 'FRC').decode() for line in (one, other)]
        more += [int(field(one, 'TRKL')), int(field(one, 'REFSYS')), int(field(other, 'REFSYS'))]
        rows += '%d %s %s %d %s %s\n' % (mjd, clock, satellite, difference, rounded(mjd + day, 6), ' '.join(map(str, more)))
    return rows


def numbers_of(report):
    """The four numbers of a report that is printed."""
    return [int(number) for number in re.findall(r'(?m)^  (?:pairs|sum|smallest|largest) +(-?\d+)', report.decode())]


def sequence(refsys, first=(51081, 0)):
    """Lines of as many tracks, one behind the other, with these REFSYS: satellite 1 of GPS to 99, then the next start."""
    lines, (mjd, start) = [], first
    clocks = starts(mjd)
    for i, value in enumerate(refsys):
        satellite = i % 99 + 1
        if i and satellite == 1:
            start += 1
        if start == 89:
            mjd, start = mjd + 1, 0
            clocks = starts(mjd)
        lines.append(tracked(mjd, clocks[start], 'G%02d' % satellite, value))
    return b''.join(lines)


def some_files(pick):
    """Two files that share some tracks, some of these with another TRKL, and some REFSYS that are large."""
    keys = [(mjd, clock, letter + satellite) for mjd in (50722, 51081) for clock in ('000200', '001800', '233000')
            for letter in 'CEGJR' for satellite in ('01', '10', '99')]
    def refsys():
        return pick.choice((pick.randrange(-300, 300), pick.randrange(-MOST, MOST + 1), MOST, -MOST))
    return [b''.join(tracked(*key, refsys(), pick.choice((780, 780, 60)), [(108, pick.choice(('L1C', 'L1P')))])
                     for key in sorted(pick.sample(keys, pick.randrange(1, len(keys)))))
            for _ in range(2)]


class Reports(Scratch):
    def viewed(self, first, second, text=None):
        """The files are accepted, and this is printed."""
        one, other = self.kept('one', first), self.kept('other', second)
        wanted = report_of((one, other), first, second)
        if text is not None:
            self.assertEqual(wanted.split('\n', 1)[1], text)
        self.assertEqual(run('view', one, other), (0, wanted.encode(), ''))

    def test_by_hand(self):
        early, late = (50722, '000200'), (50722, '001800')
        first = tracked(*early, 'G01', 5) + tracked(*early, 'G02', -7) + tracked(*late, 'E01', 100) + tracked(*late, 'E02')
        second = tracked(*early, 'G01', 8) + tracked(*early, 'G02', -7, 765) + tracked(*late, 'E01', -1)
        self.viewed(first, second, '  pairs          2\n  sum            98 x 0.1 ns\n'
                    '  smallest       -3 x 0.1 ns = -0.3 ns\n  largest        101 x 0.1 ns = 10.1 ns\n'
                    '  mean           98/2 x 0.1 ns\n  without a pair 2 of 4 lines of the first, 1 of 3 of the second\n')
        self.viewed(second, first, '  pairs          2\n  sum            -98 x 0.1 ns\n'
                    '  smallest       -101 x 0.1 ns = -10.1 ns\n  largest        3 x 0.1 ns = 0.3 ns\n'
                    '  mean           -98/2 x 0.1 ns\n  without a pair 1 of 3 lines of the first, 2 of 4 of the second\n')

    def test_one_pair_and_a_file_with_itself(self):
        line = tracked(99999, starts(99999)[0], 'R99', -MOST)
        self.viewed(line, line, '  pairs          1\n  sum            0 x 0.1 ns\n  smallest       0 x 0.1 ns = 0.0 ns\n'
                    '  largest        0 x 0.1 ns = 0.0 ns\n  mean           0/1 x 0.1 ns\n'
                    '  without a pair 0 of 1 lines of the first, 0 of 1 of the second\n')
        self.viewed(ROOF[0], ROOF[0])

    def test_ten_thousand_pairs_of_the_largest(self):
        for sign, differs in ((1, 0), (-1, 0), (1, 1), (-1, 1)):
            first, second = [sign * MOST] * 10000, [-sign * MOST] * 10000
            first[4711] -= sign * differs
            self.viewed(sequence(first), sequence(second))
        status, output, _ = run('view', self.folder / 'one', self.folder / 'other')
        self.assertIn(b'  sum            -199999999979999 x 0.1 ns\n', output)
        self.assertIn(b'  mean           -199999999979999/10000 x 0.1 ns\n', output)

    def test_many_files_by_a_dictionary(self):
        pick, found = random.Random(6), 0
        for _ in range(60):
            first, second = some_files(pick)
            if pairs_of(first, second):
                self.viewed(first, second)
                one, other = self.folder / 'one', self.folder / 'other'
                self.assertEqual(run('view', one, other, '--pairs'), (0, rows_of(first, second).encode(), ''))
                self.assertEqual(run('view', '-', other, data=first), (0, report_of(('standard input', other), first, second).encode(), ''))
                self.assertEqual(run('view', '--pairs', one, '-', data=second), (0, rows_of(first, second).encode(), ''))
                found += 1
        self.assertGreater(found, 40)

    def test_pairs_of_two_codes(self):
        """A row behind the others, where there are any; lines that are no pair do not count."""
        keys = [(50722, '000200', 'G0%d' % i) for i in range(1, 5)]
        def lines(codes, trkl=780):
            return b''.join(tracked(*key, trkl=trkl, changes=[(108, code)]) for key, code in zip(keys, codes))
        plain = '  pairs          %d\n  sum            0 x 0.1 ns\n  smallest       0 x 0.1 ns = 0.0 ns\n' \
                '  largest        0 x 0.1 ns = 0.0 ns\n  mean           0/%d x 0.1 ns\n'
        left = '  without a pair %d of %d lines of the first, %d of %d of the second\n'
        same = ['L1C'] * 4
        self.viewed(lines(same), lines(['L1C', 'L1P', 'L2C', 'L1C']),
                    plain % (4, 4) + left % (0, 4, 0, 4) + '  another FRC    in 2 of 4 pairs\n')
        self.viewed(lines(['E1C']), lines(['E5A']), plain % (1, 1) + left % (0, 1, 0, 1) + '  another FRC    in 1 of 1 pair\n')
        self.viewed(lines(same), lines(same), plain % (4, 4) + left % (0, 4, 0, 4))
        late = tracked(50722, '001800', 'G01')
        self.viewed(lines(same) + late, lines(['L1P'] * 4, trkl=60) + late, plain % (1, 1) + left % (4, 5, 4, 5))

    def test_the_papers_runs(self):
        """What README.md and docs/COMMON-VIEW.md show is what is printed of the examples."""
        runs = 0
        for paper in ('README.md', 'docs/COMMON-VIEW.md'):
            text = (ROOT / paper).read_text()
            for words, shown in re.findall(r'(?m)^    \$ cggtts view (.*)\n((?:    (?!\$).*\n)+)', text):
                arguments = words.split(' | ')[0].split()
                arguments = [str(self.folder / word) if word.endswith('.svg') else word for word in arguments]
                made = subprocess.run([PROGRAM, 'view', *arguments], cwd=ROOT / 'examples', stdout=subprocess.PIPE, check=True).stdout
                wanted = re.sub(r'(?m)^    ', '', shown).encode()
                self.assertEqual(b''.join(made.splitlines(keepends=True)[:wanted.count(b'\n')]), wanted, words)
                runs += 1
        self.assertEqual(runs, 3)

    def test_the_papers_blocks(self):
        """The commands by which docs/COMMON-VIEW.md makes the lines from blocks."""
        text = (ROOT / 'docs' / 'COMMON-VIEW.md').read_text()
        commands = re.findall(r'(?m)^    ((?:tools/roof|cggtts line) .*)$', text)
        self.assertEqual(len(commands), 3)
        (self.folder / 'tools').symlink_to(ROOT / 'tools')
        (self.folder / 'cggtts').symlink_to(PROGRAM)
        subprocess.run(['/bin/sh', '-ec', '\n'.join(commands)], cwd=self.folder, check=True,
                       env=dict(os.environ, PATH='%s:%s' % (self.folder, os.environ['PATH'])))
        self.assertEqual([(self.folder / name).read_bytes() for name in ('roof-a.cggtts', 'roof-b.cggtts')], ROOF)


class Rows(Scratch):
    def test_rows(self):
        status, output, errors = run('view', FIRST, SECOND, '--pairs')
        self.assertEqual((status, output.decode(), errors), (0, rows_of(*ROOF), ''))
        self.assertTrue(output.decode().splitlines()[1].startswith('60630 18'))

    def test_only_rows_and_remarks(self):
        """As a plotting program reads it: remarks skipped, fourteen columns, time and difference numbers that ascend in time."""
        printed = run('view', '--pairs', FIRST, SECOND)[1].decode().splitlines()
        rows = [row.split() for row in printed if not row.startswith('#')]
        self.assertEqual({len(row) for row in rows}, {14})
        times = [float(row[4]) for row in rows]
        self.assertEqual(times, sorted(times))
        for row, time in zip(rows, times):
            minutes = second_of(row[1]) // 60
            self.assertAlmostEqual(time, int(row[0]) + minutes / 1440, delta=6e-7)

    def test_the_last_minutes_of_a_date(self):
        clock = starts(50723)[-1]
        line = tracked(50723, clock, 'G01')
        self.kept('one', line)
        self.assertEqual(run('view', self.folder / 'one', self.folder / 'one', '--pairs')[1].decode(),
                         HEAD + '50723 235400 G01 0 50723.995833 450 450 0 0 L1C L1C 780 0 0\n')


class Pictures(Scratch):
    def drawn(self, first, second, names=('one', 'other')):
        """The picture of two files, as a tree."""
        one, other, picture = self.kept(names[0], first), self.kept(names[1], second), self.folder / 'picture.svg'
        self.assertEqual(run('view', one, other, '--svg', picture), (0, report_of((one, other), first, second).encode(), ''))
        self.assertEqual(sorted(os.listdir(self.folder)), sorted({*names, 'picture.svg'}))
        return tree.fromstring(picture.read_bytes())

    def points(self, picture):
        """Those of the pairs, in the order of the letters: the last circle of each group is the legend's."""
        groups = [[(float(dot.get('cx')), float(dot.get('cy'))) for dot in group.findall(SVG + 'circle')]
                  for group in picture.findall(SVG + 'g')]
        return [dot for group in groups for dot in group[:-1]]

    def frame(self, picture):
        box = picture.findall(SVG + 'rect')[-1]
        left, top, width, height = (float(box.get(name)) for name in ('x', 'y', 'width', 'height'))
        return left, top, left + width, top + height

    def inside(self, picture, count):
        left, top, right, bottom = self.frame(picture)
        points = self.points(picture)
        self.assertEqual(len(points), count)
        for x, y in points:
            self.assertTrue(left < x < right and top < y < bottom, (x, y))

    def ticks(self, picture, anchor):
        """Value and coordinate of each label of an axis: below the frame, or left of it."""
        left, top, right, bottom = self.frame(picture)
        found = []
        for text in picture.iter(SVG + 'text'):
            x, y = float(text.get('x')), float(text.get('y'))
            if text.get('text-anchor') == anchor and re.fullmatch(r'-?[\d.]+', text.text or ''):
                found.append((Fraction(text.text), x if anchor == 'middle' else y - 5))
        self.assertIn(len(found), range(2, 11))
        self.assertEqual(len({b[0] - a[0] for a, b in zip(found, found[1:])}), 1)
        return found

    def check_places(self, picture, pairs):
        """Points lie where the first and the last tick of each axis put them, and these are rounded to a tenth of a pixel."""
        scales = []
        for anchor in ('middle', 'end'):
            ticks = self.ticks(picture, anchor)
            (v1, p1), (v2, p2) = ticks[0], ticks[-1]
            scales.append(lambda value, v1=v1, p1=p1, v2=v2, p2=p2: p1 + float((value - v1) / (v2 - v1)) * (p2 - p1))
        for (x, y), (mjd, clock, _, difference) in zip(self.points(picture), sorted(pairs, key=lambda pair: pair[2][0])):
            day = Fraction(second_of(clock) // 60, 1440)
            self.assertAlmostEqual(x, scales[0](mjd + day), delta=0.25)
            self.assertAlmostEqual(y, scales[1](Fraction(difference, 10)), delta=0.25)

    def test_the_documents_picture(self):
        picture = self.folder / 'common-view.svg'
        self.assertEqual(run('view', FIRST, SECOND, '--svg', picture)[::2], (0, ''))
        self.assertEqual(picture.read_bytes(), (ROOT / 'docs' / 'common-view.svg').read_bytes())

    def test_the_roof(self):
        picture, pairs = self.drawn(*ROOF), pairs_of(*ROOF)
        self.inside(picture, len(pairs))
        self.check_places(picture, pairs)
        texts = [text.text for text in picture.iter(SVG + 'text')]
        self.assertEqual(texts[0], 'REFSYS of one minus REFSYS of other')
        self.assertEqual(texts[1], '37 pairs: smallest -24.2 ns and largest -23.2 ns (dashed), mean -8764/37 x 0.1 ns (red)')
        for words in ('difference in ns', 'MJD at the start of the track', 'BeiDou: 9 pairs', 'Galileo: 10 pairs',
                      'GPS: 6 pairs', 'QZSS: 7 pairs', 'GLONASS: 5 pairs'):
            self.assertIn(words, texts)
        named = [dot.find(SVG + 'title').text for group in picture.findall(SVG + 'g') for dot in group.findall(SVG + 'circle')[:-1]]
        self.assertEqual(named, ['%d %s %s %s ns' % (*pair[:3], rounded(Fraction(pair[3], 10), 1))
                                 for pair in sorted(pairs, key=lambda pair: pair[2][0])])
        self.assertIn('60631 003400 R22 -23.2 ns', named)
        self.assertEqual(picture.find(SVG + 'title').text, texts[0])

    def test_lines_of_the_report(self):
        """The smallest and the largest dashed, the mean thick, 0 black where it is inside."""
        first = sequence([0, 30, -60, 0])
        picture = self.drawn(first, sequence([0] * 4))
        heights = {float(line.get('y1')): line for line in picture.findall(SVG + 'line') if float(line.get('x2')) == 930}
        points = [y for _, y in self.points(picture)]
        dashed = sorted(y for y, line in heights.items() if line.get('stroke-dasharray'))
        self.assertEqual(dashed, [min(points), max(points)])
        thick = [y for y, line in heights.items() if line.get('stroke-width')]
        zero = [y for y, line in heights.items() if line.get('stroke') == '#000']
        self.assertEqual(len(thick) + len(zero), 2)
        self.assertIn(zero[0], points)
        # the mean is -0.75 ns, a quarter of the way from 0 to -3 ns
        self.assertAlmostEqual(thick[0], zero[0] + (dashed[1] - zero[0]) / 8, delta=0.15)

    def test_one_pair(self):
        for refsys in (0, 123, -7, MOST, -MOST):
            line, other = tracked(50722, '000200', 'G01', refsys), tracked(50722, '000200', 'G01')
            picture = self.drawn(line, other)
            self.inside(picture, 1)
            self.check_places(picture, pairs_of(line, other))
            texts = {text.text: text for text in picture.iter(SVG + 'text')}
            self.assertIn('1 pair: ', ' '.join(texts))
            self.assertIn('GPS: 1 pair', texts)
            # it is turned, and its letters reach up to 11 pixels to the left of its place
            self.assertIn(float(texts['difference in ns'].get('x')), range(14, 100))

    def test_ten_thousand_pairs(self):
        pick = random.Random(8)
        first = sequence([pick.randrange(-MOST, MOST + 1) for _ in range(10000)])
        second = sequence([pick.randrange(-MOST, MOST + 1) for _ in range(10000)])
        picture = self.drawn(first, second)
        self.inside(picture, 10000)
        self.check_places(picture, pairs_of(first, second))

    def test_first_and_last_date(self):
        first = tracked(50722, '000200', 'G01', MOST) + tracked(99999, starts(99999)[-1], 'R24', -MOST)
        second = tracked(50722, '000200', 'G01', -MOST) + tracked(99999, starts(99999)[-1], 'R24', MOST)
        picture = self.drawn(first, second)
        self.inside(picture, 2)
        self.check_places(picture, pairs_of(first, second))

    def test_spans(self):
        """Ticks for every span of time and of differences."""
        for days in (0, 1, 3, 10, 40, 365, 4000):
            for difference in (1, 7, 30, 999, 12345, MOST):
                keys = sorted({(51081, starts(51081)[3], 'G01'), (51081 + days, starts(51081 + days)[50], 'G01')})
                first = b''.join(tracked(*key, difference * i) for i, key in enumerate(keys))
                second = b''.join(tracked(*key) for key in keys)
                picture = self.drawn(first, second)
                self.inside(picture, 2)
                self.check_places(picture, pairs_of(first, second))

    def test_names(self):
        """Any name leaves the picture well-formed; its end is shown."""
        line = tracked(50722, '000200', 'G01')
        for name, shown in (('a<b>&"\'.cggtts', 'a<b>&"\'.cggtts'), ('two words', 'two words'), ('a\nb', r'a\x0Ab'),
                            ('a\\b', r'a\x5Cb'),
                            ('r\u00f6of', r'r\xC3\xB6of'), (b'\xff\x01', r'\xFF\x01'), (']]>--', ']]>--'),
                            ('x' * 30 + 'y' * 36, '...' + 'y' * 36)):
            path = os.path.join(os.fsencode(self.folder), os.fsencode(name))
            with open(path, 'wb') as file:
                file.write(line)
            picture = self.folder / 'picture.svg'
            done = subprocess.run([PROGRAM, 'view', path, path, '--svg', picture], capture_output=True, check=True)
            told = path.replace(b'\n', rb'\x0A').replace(b'\xff\x01', rb'\xFF\x01')
            self.assertTrue(done.stdout.startswith(b'REFSYS of ' + told + b' minus REFSYS of ' + told + b'\n'))
            title = tree.fromstring(picture.read_bytes()).find(SVG + 'title').text
            self.assertEqual(title, 'REFSYS of %s minus REFSYS of %s' % (shown, shown))


    def heading(self, names):
        """What the picture of files with these names in the folder is headed."""
        line = tracked(50722, '000200', 'G01')
        for path in (self.folder / name for name in names if name != '-'):
            path.parent.mkdir(parents=True, exist_ok=True)
            path.write_bytes(line)
        subprocess.run([PROGRAM, 'view', *names, '--svg', 'picture'], input=line, stdout=subprocess.DEVNULL, cwd=self.folder,
                       check=True)
        return tree.fromstring((self.folder / 'picture').read_bytes()).find(SVG + 'title').text

    def test_files_of_one_name(self):
        """They are shown with the folders in which they differ."""
        for names, shown in ((('a/x', 'b/x'), ('a/x', 'b/x')), (('a/x', 'a/y'), ('x', 'y')), (('x', 'a/x'), ('x', 'a/x')),
                             (('a/b/x', 'c/b/x'), ('a/b/x', 'c/b/x')), (('d/a/x', 'd/b/x'), ('a/x', 'b/x')),
                             (('b/x', 'a/b/x'), ('b/x', 'a/b/x')), (('d/ab/x', 'd/b/x'), ('ab/x', 'b/x')),
                             (('a/x', 'a/bx'), ('x', 'bx')), (('a/x', 'a/x'), ('x', 'x')), (('x', './x'), ('x', './x')),
                             (('-', 'a/x'), ('standard input', 'x'))):
            self.assertEqual(self.heading(names), 'REFSYS of %s minus REFSYS of %s' % shown)


class ToFile(Scratch):
    def roof(self):
        """The roof's files, to be lost."""
        return self.kept('one', ROOF[0]), self.kept('other', ROOF[1])

    def test_the_option(self):
        picture = self.folder / 'picture'
        report = run('view', FIRST, SECOND)[1]
        for arguments in ((FIRST, SECOND, '--svg', picture), ('--svg', picture, FIRST, SECOND),
                          (FIRST, '--svg=%s' % picture, '--', SECOND)):
            self.assertEqual(run('view', *arguments), (0, report, ''))
            self.assertEqual(tree.fromstring(picture.read_bytes()).tag, SVG + 'svg')
            picture.unlink()
        rows = run('view', FIRST, SECOND, '--pairs')[1]
        self.assertEqual(run('view', FIRST, '--pairs', SECOND, '--pairs', '--svg', picture), (0, rows, ''))
        self.assertTrue(picture.exists())

    def test_a_refusal_writes_nothing(self):
        picture, empty = self.kept('picture', b'as it was'), self.kept('empty', b'')
        self.assertEqual(run('view', FIRST, empty, '--svg', picture)[:2], (1, b''))
        self.assertEqual(run('view', FIRST, empty, '--svg', self.folder / 'new')[:2], (1, b''))
        self.assertEqual(run('view', FIRST, 'no/such', '--svg', picture)[:2], (2, b''))
        self.assertEqual(picture.read_bytes(), b'as it was')
        self.assertEqual(sorted(os.listdir(self.folder)), ['empty', 'picture'])

    def test_a_picture_that_can_not_be_written(self):
        """The report stands all the same, and the status tells."""
        report = run('view', FIRST, SECOND)[1]
        for name, reason in (('/dev/full', 'No space left on device'), (self.folder, 'Is a directory'),
                             ('no/such/picture', 'No such file or directory')):
            self.assertEqual(run('view', FIRST, SECOND, '--svg', name), (2, report, 'cggtts: %s: %s\n' % (name, reason)))
        self.assertEqual(os.listdir(self.folder), [])

    def test_what_is_read_is_not_overwritten(self):
        (one, other), link = self.roof(), self.folder / 'link'
        link.symlink_to('one')
        for picture in (one, other, link):
            told = 'cggtts: view: %s is read, and would be overwritten: name another file; try cggtts --help\n' % picture
            self.assertEqual(run('view', one, other, '--svg', picture), (2, b'', told))
        with one.open('rb') as read:
            done = subprocess.run([PROGRAM, 'view', '-', other, '--svg', one], stdin=read, capture_output=True, check=False)
        self.assertEqual((done.returncode, done.stdout), (2, b''))
        self.assertEqual(done.stderr.decode(), 'cggtts: view: %s is read, and would be overwritten: name another file; try cggtts --help\n' % one)
        self.assertEqual([one.read_bytes(), other.read_bytes()], ROOF)

    def test_standard_output(self):
        (one, other), out = self.roof(), self.folder / 'out'
        told = 'cggtts: %s: is also standard output\n'
        for files in ((one, other), (other, one), (one, other, '--pairs'), (one, other, '--svg', out)):
            with one.open('ab') as behind:
                self.assertEqual(run('view', *files, stdout=behind), (2, None, told % one))
        with one.open('rb') as read, one.open('ab') as behind:
            done = subprocess.run([PROGRAM, 'view', '-', other], stdin=read, stdout=behind, stderr=subprocess.PIPE, check=False)
        self.assertEqual((done.returncode, done.stderr.decode()), (2, told % '-'))
        self.assertEqual(one.read_bytes(), ROOF[0])
        needs = 'cggtts: view: standard output is for the report, and --svg needs another file; try cggtts --help\n'
        self.assertEqual(run('view', one, other, '--svg', '-'), (2, b'', needs))
        with out.open('wb') as report:
            self.assertEqual(run('view', one, other, '--svg', out, stdout=report), (2, None, needs))
            self.assertEqual(run('view', one, other, '--svg', '/dev/stdout', stdout=report), (2, None, needs))
        with open('/dev/full', 'wb') as full:
            self.assertEqual(run('view', one, other, stdout=full),
                             (2, None, 'cggtts: standard output: No space left on device\n'))

    def test_a_signal_leaves_the_picture_whole(self):
        picture = self.kept('picture', b'as it was')
        status = run('view', FIRST, SECOND, '--svg', picture, env=self.shim(SIGNAL_IN_WRITE))[0]
        self.assertEqual(status, -signal.SIGTERM)
        self.assertEqual(tree.fromstring(picture.read_bytes()).tag, SVG + 'svg')
        self.assertEqual(sorted(os.listdir(self.folder)), ['picture', 'shim.so'])


class Use(Scratch):
    def test_wrong_use(self):
        for arguments, reason in (((), 'no file'), (('one',), 'two files are needed, not 1'),
                                  (('a', 'b', 'c'), 'two files are needed, not 3'), (('a', 'b', '-o', 'c'), "no option '-o'"),
                                  (('a', 'b', '--svg'), '--svg without a file'),
                                  (('a', 'b', '--svg', 'c', '--svg', 'd'), '--svg twice'),
                                  (('a', 'b', '--svg=c', '--svg'), '--svg twice'),
                                  (('a', 'b', '--svgx'), "no option '--svgx'"), (('a', 'b', '--pair'), "no option '--pair'"),
                                  (('a', 'b', '--pairs=1'), "no option '--pairs=1'"), (('a', 'b', '-p'), "no option '-p'")):
            self.assertEqual(run('view', *arguments), (2, b'', 'cggtts: view: %s; try cggtts --help\n' % reason), arguments)
        for command in ('line', 'check', 'read', 'merge'):
            for option in ('--pairs', '--about', '--svg', '--svg=x', '--range', '--range=1:2', '--parted'):
                told = "cggtts: %s: no option '%s'; try cggtts --help\n" % (command, option)
                self.assertEqual(run(command, 'a', option), (2, b'', told))

    def test_help(self):
        usage = b'cggtts view FIRST SECOND [--pairs | --about] [--svg PICTURE [--range LOW:HIGH]] [--parted]'
        for words in (('--help',), ('a', 'b', '--help'), ('a', '--help', '--pairs'), ('--svg', 'x', '--help'), ('a', '--help', '--', 'b')):
            status, output, errors = run('view', *words)
            self.assertEqual((status, errors), (0, ''))
            self.assertIn(usage, output)
        self.assertIn(b'cggtts merge', run('merge', 'a', 'b', '--help')[1])
        self.assertEqual(run('view', FIRST, '--', '--help'), (2, b'', 'cggtts: --help: No such file or directory\n'))
        self.assertIn(usage, run('--help')[1])

    def test_files_that_can_not_be_read(self):
        missing = 'cggtts: %s: No such file or directory\n'
        self.assertEqual(run('view', 'no/one', 'no/other'), (2, b'', missing % 'no/one' + missing % 'no/other'))
        self.assertEqual(run('view', FIRST, 'no/other'), (2, b'', missing % 'no/other'))
        self.assertEqual(run('view', '-', '-', data=tracked(50722, '000200', 'G01')),
                         (2, b'', 'cggtts: -: standard input can be read only once\n'))


class Refused(Scratch):
    def refused(self, number, place, first, second, *explanations, advice=''):
        """Refused at this place (first or second, and the line; or both), with these lines of explanation and a command."""
        one, other = names = self.kept('first', first), self.kept('second', second)
        explanations += advised(advice, one if place.startswith('first') else other)
        what = place.replace('first', str(one)).replace('second', str(other))
        told = '%s: refused %d: %s\n' % (what, number, MEANINGS[number])
        told += ''.join('  %s\n' % text.replace('FIRST', str(one)).replace('SECOND', str(other)) for text in explanations)
        for options in ((), ('--pairs',), ('--svg', self.folder / 'picture')):
            self.assertEqual(run('view', *names, *options), (1, b'', told))
        self.assertFalse((self.folder / 'picture').exists())

    def test_a_line_of_either_file(self):
        """As merge names it, for each number that a file is refused with."""
        good, later = tracked(50722, '000200', 'G05'), tracked(50722, '001800', 'G05')
        keys = 'it has MJD 50722, start 000200, G05, and the line before it MJD 50722, start 001800, G05'
        check = 'CK, columns 112 and 113, is "%s?", and the columns before it give %s' % (
            good[111:112].decode(), good[111:113].decode())
        for number, bad, why, advice in (
                (14, good[:112] + b'?\r\n', check, ''),
                (13, tracked(50722, '000200', 'G 5'), 'column 2 (satellite) is a blank, not a digit', AS_OURS),
                (13, good[:113] + b'\n\r', 'its lines end with line feed alone, not carriage return and line feed', AS_OURS),
                (7, tracked(50722, '000200', 'G00'), 'satellite is 0, not 1 to 99', ''),
                (7, tracked(50722, '000200', 'G05', trkl=45), 'TRKL is 45 s, not a multiple of 15 from 60 to 780', ''),
                (16, good, keys, IN_ORDER),
                (12, good[:-1], 'it has 114 bytes, and a line of a file has 115 with its line end', AS_OURS)):
            self.refused(number, 'first:2', later + bad, good, why, advice=advice)
            self.refused(number, 'second:2', good, later + bad, why, advice=advice)
            self.refused(number, 'first:2', later + bad, bad[:-1], why, advice=advice)
        self.refused(14, 'second:1', good, b'CGGTTS     GENERIC DATA FORMAT VERSION = 2E\r\n' + good + later, advice=NO_HEADER)

    def test_the_same_keys_and_another_content(self):
        """No 15 here: the lines are a pair."""
        one = self.kept('one', tracked(50722, '000200', 'G05', 7))
        other = tracked(50722, '000200', 'G05', 9, changes=[(5, '00'), (35, '-0000000011'), (108, 'L1P')])
        self.assertEqual(run('view', one, '-', '--pairs', data=other), (0, (HEAD + '50722 000200 G05 -2 50722.001389 450 450 0 0 L1C L1P 780 7 9\n').encode(), ''))

    def test_another_track_length(self):
        told = 'FIRST:%d and SECOND:%d have MJD 50722, start 000200, %s, but TRKL %s and %s'
        early, late = (50722, '000200'), (50722, '001800')
        self.refused(18, 'first and second', tracked(*early, 'G05'), tracked(*early, 'G05', trkl=765),
                     told % (1, 1, 'G05', '0780', '0765'))
        first = tracked(*early, 'C01') + tracked(*early, 'G05') + tracked(*late, 'G05')
        second = tracked(*early, 'E01') + tracked(*early, 'E02') + tracked(*early, 'G05', trkl=60) + tracked(*late, 'G05', trkl=60)
        self.refused(18, 'first and second', first, second, told % (2, 3, 'G05', '0780', '0060'), 'and 1 more')

    def test_nothing_near(self):
        day, next_day = tracked(50722, '000200', 'G05') + tracked(50722, '001800', 'R05'), tracked(50723, '001400', 'G05')
        self.refused(18, 'first and second', day, next_day, 'FIRST has MJD 50722 to 50722, satellites of G R',
                     'SECOND has MJD 50723 to 50723, satellites of G', 'no MJD is in both')
        self.refused(18, 'first and second', next_day, day, 'FIRST has MJD 50723 to 50723, satellites of G',
                     'SECOND has MJD 50722 to 50722, satellites of G R', 'no MJD is in both')
        every = b''.join(tracked(50723, '001400', letter + '07') for letter in 'CEGJR')
        self.refused(18, 'first and second', day + next_day, every, 'FIRST has MJD 50722 to 50723, satellites of G R',
                     'SECOND has MJD 50723 to 50723, satellites of C E G J R', 'no satellite is in both')

    def test_what_is_not_in_both(self):
        """Dates by themselves, not by the first and the last; then starts, then satellites."""
        none = {'mjd': 'no MJD is in both', 'start': 'no MJD has the same start in both', 'satellite': 'no satellite is in both',
                'both': 'no start has the same satellite in both'}
        early, between, late = (50722, '000200'), (50723, '001400'), (50724, '001000')
        has = '%s has MJD %d to %d, satellites of %s'
        for first, second, ranges, letters, told in (
                (tracked(*early, 'G05') + tracked(*late, 'G05'), tracked(*between, 'G05'), (50722, 50724, 50723, 50723), 'GG', ['mjd']),
                (tracked(*early, 'G05') + tracked(*late, 'G06'), tracked(*between, 'G07'), (50722, 50724, 50723, 50723), 'GG',
                 ['mjd', 'satellite']),
                (tracked(*early, 'G05'), tracked(50722, '001800', 'G05'), (50722,) * 4, 'GG', ['start']),
                (tracked(*early, 'G05'), tracked(50722, '001800', 'R05'), (50722,) * 4, 'GR', ['start', 'satellite']),
                (tracked(*early, 'G05'), tracked(*early, 'E05'), (50722,) * 4, 'GE', ['satellite']),
                (tracked(*early, 'G99'), tracked(*early, 'G98'), (50722,) * 4, 'GG', ['satellite']),
                (tracked(*early, 'R98') + tracked(50722, '001800', 'R99'), tracked(*early, 'R99'), (50722,) * 4, 'RR', ['both'])):
            self.refused(18, 'first and second', first, second, has % ('FIRST', *ranges[:2], letters[0]),
                         has % ('SECOND', *ranges[2:], letters[1]), *(none[word] for word in told))

    def test_standard_input(self):
        """As a file it is named -, and in a sentence by its name."""
        one, line = self.kept('one', tracked(50722, '000200', 'G05')), tracked(50723, '001400', 'G05')
        told = '- and %s: refused 18: %s\n' % (one, MEANINGS[18])
        self.assertEqual(run('view', '-', one, data=b''), (1, b'', told + '  standard input has no line\n'))
        self.assertEqual(run('view', '-', one, data=line), (1, b'', told + '  standard input has MJD 50723 to 50723, satellites of G\n'
                                                            '  %s has MJD 50722 to 50722, satellites of G\n  no MJD is in both\n' % one))

    def test_empty_files(self):
        line = tracked(50722, '000200', 'G05')
        self.refused(18, 'first and second', b'', line, 'FIRST has no line')
        self.refused(18, 'first and second', line, b'', 'SECOND has no line')
        self.refused(18, 'first and second', b'', b'', 'FIRST has no line', 'SECOND has no line')

    def test_files_that_are_too_long(self):
        """19 comes before anything is read, and names each file that is too long."""
        full, line = sequence([0] * 10001), tracked(50722, '000200', 'G05')
        by_dates = 'longer files are viewed date by date, and their reports joined, by', '  cggtts view --parted FIRST SECOND'
        self.refused(19, 'first', full, line, 'it has 1150115 bytes, 10001 lines', *by_dates)
        self.refused(19, 'second', b'', full, 'it has 1150115 bytes, 10001 lines', *by_dates)
        head = b'CGGTTS     GENERIC DATA FORMAT VERSION = 2E\n'
        self.refused(19, 'first', head + full, line, 'it has 1150159 bytes, 10001 lines and 44 bytes',
                     *advised(NO_HEADER, self.folder / 'first'), *by_dates)
        self.refused(19, 'first', bytes(1150001), b'?', 'it has 1150001 bytes, 10000 lines and 1 byte', *by_dates)
        self.refused(19, 'second', b'?', bytes(1150002), 'it has 1150002 bytes, 10000 lines and 2 bytes', *by_dates)
        one, other = self.kept('first', full), self.kept('second', full + b'??')
        refusal = '%s: refused 19: ' + MEANINGS[19] + '\n  it has %s\n'
        self.assertEqual(run('view', one, other), (1, b'', refusal % (one, '1150115 bytes, 10001 lines')
                                                   + refusal % (other, '1150117 bytes, 10001 lines and 2 bytes')
                                                   + '  %s\n    cggtts view --parted %s %s\n' % (by_dates[0], one, other)))
        self.assertEqual(run('view', self.kept('first', full[:-115]), self.kept('second', full[:-115]))[0], 0)

    def test_the_second_file_of_two_that_are_wrong(self):
        """The first file's last line comes before the second's first."""
        good, bad = tracked(50722, '000200', 'G05'), tracked(50722, '000200', 'G 5')
        self.refused(13, 'first:3', good + tracked(50722, '001800', 'G05') + bad, bad,
                     'column 2 (satellite) is a blank, not a digit', advice=AS_OURS)


def unnoticed(prose, document, wanted):
    """How many digits of a document's prose were changed, one at a time, and the rows in which that went unnoticed."""
    rows, tried, missed = document.splitlines(keepends=True), 0, []
    for place, row in enumerate(rows):
        for found in re.finditer(r'\d', row if not row.startswith('    ') else ''):
            if row[:found.start()].count('`') % 2 == 0:
                other = row[:found.start()] + str((int(found.group()) + 1) % 10) + row[found.end():]
                tried += 1
                missed += [] if prose.check(prose.read(''.join(rows[:place] + [other] + rows[place + 1:]))[1], wanted)[1] else [other]
    return tried, missed


class Roof(Scratch):
    """tools/roof: whether a figure of docs/COMMON-VIEW.md that is wrong is noticed."""

    @classmethod
    def setUpClass(cls):
        sys.path.insert(0, str(ROOT / 'tools'))
        import loading
        import prose
        import roof_prose
        cls.tool, cls.prose = loading.loaded('roof'), prose
        cls.wanted = prose.phrases(roof_prose, roof_prose.world(cls.tool))
        cls.document = (ROOT / 'docs' / 'COMMON-VIEW.md').read_text()

    def test_each_changed_figure_is_noticed(self):
        self.assertEqual(self.prose.check(self.prose.read(self.document)[1], self.wanted)[1], [])
        tried, missed = unnoticed(self.prose, self.document, self.wanted)
        self.assertEqual(missed, [])
        self.assertGreater(tried, 150)

    def test_help(self):
        """It names a block that is made."""
        done = subprocess.run([ROOT / 'tools' / 'roof', '--help'], capture_output=True, text=True, check=True)
        self.assertEqual(done.stderr, '')
        self.assertIn(re.search(r'FOLDER/(a-.*?\.blk)', done.stdout).group(1), self.tool.blocks_of('a'))
        self.assertEqual(subprocess.run([ROOT / 'tools' / 'roof'], capture_output=True, check=False).returncode, 2)

    def test_the_reports_beside_each_other(self):
        """The tool's report and the one of these tests."""
        report = self.tool.Report(*(file.decode() for file in ROOF))
        self.assertEqual([pair[3] for pair in pairs_of(*ROOF)], list(report.pairs.values()))


if __name__ == '__main__':
    unittest.main()
