#!/usr/bin/env python3
"""Tests of tools/daycost, on a table of its own and on docs/SPEED.md.

    python3 tests/daycost/test_daycost.py
"""
import pathlib
import re
import subprocess
import sys
import unittest

ROOT = pathlib.Path(__file__).resolve().parents[2]
sys.path.insert(0, str(ROOT / 'tests'))
from scratch import Scratch  # noqa: E402

HEAD = '| function | input | proved, least | median | plain Rust, least | median | proved / plain Rust |\n|---|---|---:|---:|---:|---:|---:|\n'
ROWS = ['| `trackline_day` | 100 of 4 | 95.5 | 100 | 190 | 200 | 0.50 (0.45 to 0.55) |\n',
        '| `trackline_day` | 100000 of 4 | 99 | 100 | 200 | 200 | 0.50 (0.50 to 0.50) |\n',
        '| `trackline_day` | 100 full | 390 | 400 | 290 | 300 | 1.33 (1.30 to 1.35) |\n',
        '| `trackline_day` | 10,000 full | 300 | 400 | 200 | 300 | 1.33 (1.30 to 1.35) |\n']
DASHED = ' stroke-dasharray="6 4"'
# of other functions, tables and sets: no points of the picture
OTHERS = ['| `%s` | %s | 1 | 1 | 1 | 1 | 1.00 (1.00 to 1.00) |\n' % row for row in (
    ('trackline_block', '100 full'), ('trackline_day', '10000 full blocks, 1000 a call'), ('trackline_day', '40 full blocks, in cache'),
    ('trackline_day', '1000 blocks of 4 behind a full one'))]
PARTS = ['| `trackline_day` | 100000 of 4, 10000 a call | 199 | 200 | 99 | 100 | 2.00 (1.99 to 2.01) |\n']


def document(rows):
    return '# Speed\n\n' + HEAD + ''.join(rows) + '\n![Cost](cost.svg)\n'


class Daycost(Scratch):
    def run_on(self, text, *way):
        path = self.folder / 'page.md'
        path.write_text(text)
        done = subprocess.run([ROOT / 'tools' / 'daycost', *way, path], capture_output=True, text=True)
        return done.returncode, done.stderr.replace(str(self.folder), 'F')

    def drawn(self, rows):
        self.assertEqual(self.run_on(document(rows), '--svg', self.folder / 'cost.svg'), (0, ''))
        return (self.folder / 'cost.svg').read_text()

    def test_points_by_hand(self):
        """400 ns are the top of the picture, y 46 to 350; 100 to 100,000 are three decades, x 80 to 560."""
        lines = re.findall(r'<polyline points="([^"]+)" fill="none" stroke="#000" stroke-width="1.5"( stroke-dasharray="6 4")?/>', self.drawn(ROWS + OTHERS))
        self.assertEqual(lines, [('80.0,46.0 400.0,46.0', ''), ('80.0,122.0 400.0,122.0', DASHED),
                                 ('80.0,274.0 560.0,274.0', ''), ('80.0,198.0 560.0,198.0', DASHED)])

    def test_a_set_in_parts(self):
        """200 and 100 ns at the right end, hollow, and on no line."""
        without, drawn = self.drawn(ROWS), self.drawn(ROWS + PARTS)
        hollow = ['<circle cx="560.0" cy="198.0" r="4" fill="#fff" stroke="#000"/>',
                  '<rect x="556.5" y="270.5" width="7" height="7" fill="#fff" stroke="#000"/>']
        self.assertEqual([line for line in drawn.splitlines() if 'fill="#fff" stroke' in line], hollow)
        self.assertEqual([line for line in without.splitlines() if 'fill="#fff" stroke' in line], [])
        self.assertEqual(re.findall('<polyline.*', drawn), re.findall('<polyline.*', without))
        self.assertEqual(drawn.count('hollow: in parts, 10,000 blocks a call'), 2)
        self.assertNotIn('hollow', without)

    def test_words(self):
        """What the picture is of, its kinds, its axis and the mark at the lines that are kept: 10,000, two decades of three."""
        drawn = self.drawn(ROWS)
        self.assertIn('<title>What a block of a day costs over the number of blocks in a call</title>\n<desc>', drawn)
        for words in ('>full blocks (52), proved<', '>blocks of 4, plain Rust<', '>blocks of a set, logarithmic<'):
            self.assertIn(words, drawn)
        self.assertIn('<text x="400.0" y="30.0" text-anchor="middle">10,000 lines kept</text>', drawn)

    def test_names_do_not_touch(self):
        alike = [row.replace('| 290 | 300 |', '| 390 | 399 |').replace('| 200 | 300 |', '| 300 | 399 |') for row in ROWS]
        heights = [float(y) for y in re.findall(r'y="([\d.]+)" text-anchor="start">(?:full blocks \(52\)|blocks of 4),', self.drawn(alike))]
        self.assertEqual(len(heights), 4)
        self.assertTrue(all(abs(one - other) >= 16 for i, one in enumerate(heights) for other in heights[:i]), heights)

    def test_a_picture_that_agrees(self):
        self.drawn(ROWS + PARTS)
        self.assertEqual(self.run_on(document(ROWS + OTHERS + PARTS), '--check'), (0, ''))
        self.assertEqual(self.run_on(document(ROWS + OTHERS), '--check')[0], 1)

    def test_a_changed_median(self):
        self.drawn(ROWS)
        for old, new in (('| 100 | 190', '| 101 | 190'), ('| 300 | 1.33', '| 301 | 1.33'), ('10,000 full', '10,000 of 4')):
            status, said = self.run_on(document(ROWS).replace(old, new), '--check')
            self.assertEqual(status, 1, old)
            self.assertTrue(said.startswith('daycost: F/page.md: '), said)

    def test_what_is_no_table(self):
        for rows, said in ((ROWS[1:], 'there is no row of `trackline_day` for 100 blocks of 4'),
                           (ROWS[:3], 'there is no row of `trackline_day` for 10000 blocks full'),
                           (ROWS + ROWS[:1], '100 of 4 stands twice'),
                           (ROWS + PARTS + PARTS, '100000 of 4, 10000 a call stands twice'),
                           ([ROWS[0].replace('95.5', '100.5')] + ROWS[1:], '100 of 4: a median is below the least, or a ratio outside its spread'),
                           ([ROWS[0].replace('0.45', '0.51')] + ROWS[1:], '100 of 4: a median is below the least, or a ratio outside its spread')):
            self.assertEqual(self.run_on(document(rows), '--svg', self.folder / 'none.svg'), (1, 'daycost: F/page.md: %s\n' % said))
        self.assertFalse((self.folder / 'none.svg').exists())

    def test_no_picture(self):
        self.assertEqual(self.run_on(document(ROWS), '--check'), (1, 'daycost: F/page.md: it shows no picture\n'))


if __name__ == '__main__':
    unittest.main()
