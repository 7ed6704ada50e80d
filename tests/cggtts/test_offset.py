#!/usr/bin/env python3
"""Runs cggtts on tracks to whose measurements the same was added: the examples of docs/SHARED-OFFSET.md, and the roof's.

    python3 tests/cggtts/test_offset.py

The lines of the examples are written out by hand; blocks are shifted here, byte by byte.
"""
import random
import re
import struct
import subprocess
import sys
import unittest

from test_cggtts import MEANINGS, PROGRAM, ROOT, Scratch, run
from papers import PLACES, field
from test_view import pairs_of, report_of, unnoticed

sys.dont_write_bytecode = True
sys.path.insert(0, str(ROOT / 'tools'))
import loading  # noqa: E402
import offset_prose  # noqa: E402
import prose  # noqa: E402

SHARED = ROOT / 'examples' / 'shared'
PAPER = ROOT / 'docs' / 'SHARED-OFFSET.md'
START = b'C05 FF 60630 181000 0060 221 1254 '
WEIGHTS = (-78, -13, 42, 87, 122, 147, 162, 167, 162, 147, 122, 87, 42, -13, -78)
ONE = START + b'%s +00058 %s +00058 0001 001 0214 +000 0310 +000 00 03 L2I %s\r\n'
TWO = START + b'%s -00044 %s -00044 0001 001 0214 +000 0310 +000 00 08 L2I %s\r\n'
# the line of each file
LINES = {
    'one': ONE % (b'+0002364413', b'+0000000312', b'64'), 'two': TWO % (b'+0002364288', b'+0000000188', b'78'),
    'one-plus-10': ONE % (b'+0002364413', b'+0000000313', b'65'), 'two-plus-10': TWO % (b'+0002364288', b'+0000000188', b'78'),
    'one-plus-50': ONE % (b'+0002364413', b'+0000000313', b'65'), 'two-plus-50': TWO % (b'+0002364288', b'+0000000188', b'78'),
    'one-plus-300': ONE % (b'+0002364416', b'+0000000315', b'6A'), 'two-plus-300': TWO % (b'+0002364291', b'+0000000191', b'6C')}
# what is added to both, in ps, and the difference of the pair
DIFFERENCES = {0: 124, 1: 125, 10: 125, 50: 125, 99: 124, 300: 124, 100: 124, -50: 125, -100: 124, -200: 124, 1000000: 124, -31250: 125}


def shifted(block, by, delay=None):
    """A hire block with so many ps more in every measurement, and in a delay, counted from 0."""
    count = struct.unpack_from('<H', block)[0]
    numbers = list(struct.unpack_from('<%dq' % (4 + count), block, 26))
    numbers = numbers[:4] + [value + by for value in numbers[4:]]
    if delay is not None:
        numbers[delay] += by
    return block[:26] + struct.pack('<%dq' % len(numbers), *numbers) + block[58 + 8 * count:]


def numbers(line):
    """REFSV, REFSYS, and all other columns but CK."""
    refsv, refsys = PLACES['REFSV'], PLACES['REFSYS']
    return int(line[refsv]), int(line[refsys]), line[:refsv.start] + line[refsv.stop:refsys.start] + line[refsys.stop:111]


class Shifts(Scratch):
    def lines(self, blocks):
        """The line file of blocks, by the program."""
        names = [self.kept('%d.blk' % i, block) for i, block in enumerate(blocks)]
        status, output, errors = run('line', *names)
        self.assertEqual((status, errors), (0, ''))
        return output

    def viewed(self, first, second):
        """The program's rows of two line files, and its report, which has to be theirs."""
        files = self.kept('first', first), self.kept('second', second)
        self.assertEqual(run('view', *files), (0, report_of(files, first, second).encode(), ''))
        status, output, errors = run('view', *files, '--pairs')
        self.assertEqual((status, errors), (0, ''))
        return [(*row.split()[:3], int(row.split()[3])) for row in output.decode().splitlines()[1:]]


class Examples(Shifts):
    def test_the_files(self):
        """Each text packs to its block, and the program makes its line of it."""
        self.assertEqual(sorted(path.name for path in SHARED.iterdir()),
                         sorted(name + end for name in LINES for end in ('.txt', '.blk', '.cggtts')))
        for name, line in LINES.items():
            paths = [SHARED / (name + end) for end in ('.txt', '.blk', '.cggtts')]
            packed = subprocess.run([ROOT / 'tools' / 'hireblock', 'pack', paths[0]], stdout=subprocess.PIPE, check=True)
            self.assertEqual(packed.stdout, paths[1].read_bytes())
            self.assertEqual(run('line', paths[1]), (0, line, ''))
            self.assertEqual(paths[2].read_bytes(), line)

    def test_what_is_added(self):
        """A shifted block is the other but for its measurements."""
        for receiver in ('one', 'two'):
            block = (SHARED / (receiver + '.blk')).read_bytes()
            for by in (10, 50, 300):
                self.assertEqual((SHARED / ('%s-plus-%d.blk' % (receiver, by))).read_bytes(), shifted(block, by))

    def test_the_differences(self):
        blocks = [(SHARED / (receiver + '.blk')).read_bytes() for receiver in ('one', 'two')]
        for by, difference in DIFFERENCES.items():
            rows = self.viewed(*(self.lines([shifted(block, by)]) for block in blocks))
            self.assertEqual(rows, [('60630', '181000', 'C05', difference)], by)
        for end, by in (('', 0), ('-plus-10', 10), ('-plus-50', 50), ('-plus-300', 300)):
            rows = self.viewed(*((SHARED / (receiver + end + '.cggtts')).read_bytes() for receiver in ('one', 'two')))
            self.assertEqual(rows[0][3], DIFFERENCES[by])

    def test_the_papers_runs(self):
        """What docs/SHARED-OFFSET.md shows is what is printed of the examples."""
        runs = re.findall(r'(?m)^    \$ cggtts (.*)\n((?:    (?!\$).*\n)+)', PAPER.read_text())
        self.assertEqual(len(runs), 5)
        for words, shown in runs:
            made = subprocess.run([PROGRAM, *words.split()], cwd=SHARED, stdout=subprocess.PIPE, check=True).stdout
            self.assertEqual(made.replace(b'\r\n', b'\n'), re.sub(r'(?m)^    ', '', shown).encode(), words)

    def test_entered_in_a_delay(self):
        """What is added to the measurements and to INT, CAB or GD is in no line; in REF it counts twice."""
        for receiver in ('one', 'two'):
            block = (SHARED / (receiver + '.blk')).read_bytes()
            for by in (50, 300, -23737):
                for delay in (0, 1, 3):
                    self.assertEqual(self.lines([shifted(block, by, delay)]), LINES[receiver])
                self.assertEqual(self.lines([shifted(block, by, 2)]), self.lines([shifted(block, 2 * by)]))

    def test_entered_in_cab_of_one(self):
        """What one receiver's CAB has and the other's lacks stands in the difference."""
        one, two = ((SHARED / (receiver + '.blk')).read_bytes() for receiver in ('one', 'two'))
        rows = self.viewed(self.lines([shifted(one, 300, 1)]), self.lines([shifted(two, 300)]))
        self.assertEqual(rows[0][3], 121)

    def test_rounded_second_by_second(self):
        """A cable of 100.5 ps before the receiver rounds: 100 or 101 in each measurement, and a difference moves by two."""
        given = (SHARED / 'one.blk').read_bytes()
        constant = 130326604327
        # a tenth of a ps above or below each whole one decides how the receiver rounds
        for_more = [1 if w > 0 else -1 for w in WEIGHTS]
        for_less = [-sign for sign in for_more]
        # REFSYS 0 of S = 196 ps, and 1 of S = 200; with the cable each block is 1287 / 1105 ps higher than 100 more, which makes
        # S = 600.8 and REFSYS 2, or 182 / 1105 ps lower, which makes S = 599.2 and REFSYS 1
        one, two = [constant + 49] * 15, [constant + 50] * 15
        rows = {}
        for cable in (0, 1005):
            files = []
            for whole, signs in ((one, for_more), (two, for_less)):
                heard = [(10 * value + sign + cable + 5) // 10 for value, sign in zip(whole, signs)]
                self.assertLessEqual({new - old for new, old in zip(heard, whole)}, {0} if cable == 0 else {100, 101})
                files.append(self.lines([given[:58] + struct.pack('<60q', *4 * heard) + given[58 + 480:]]))
            rows[cable] = [int(field(line, 'REFSYS')) for line in files], self.viewed(*files)[0][3]
        self.assertEqual(rows, {0: ([0, 1], -1), 1005: ([2, 1], 1)})

    def test_an_offset_of_ones_own(self):
        """The document's commands, and that one file with both lines is refused."""
        runs = re.findall(r'(?m)^    \$ (.* mine\..*)$', PAPER.read_text())
        self.assertEqual(len(runs), 2)
        text = (SHARED / 'one.txt').read_text()
        self.kept('mine.txt', re.sub(r'(?m)^    (\d+) x', lambda row: '    %d x' % (int(row[1]) + 50), text).encode())
        for words in runs:
            program, *words = words.split()
            tool = {'hireblock': ROOT / 'tools' / 'hireblock', 'cggtts': PROGRAM}[program]
            subprocess.run([tool, *words], cwd=self.folder, check=True)
        self.assertEqual((self.folder / 'mine.cggtts').read_bytes(), LINES['one-plus-50'])
        both, two = self.kept('both', LINES['one'] + LINES['two']), self.kept('two', LINES['two'])
        status, output, errors = run('view', both, two)
        self.assertEqual((status, output), (1, b''))
        self.assertIn('refused 16: ' + MEANINGS[16], errors)

    def test_refused_after_a_shift(self):
        """2 for a measurement beyond its limit, 3 for a midpoint of eleven digits."""
        block = (SHARED / 'one.blk').read_bytes()
        # the largest measurement is 130326635737 ps, its limit 10^12 ps; REFSYS is 312, its limit -9999999999
        for by, number in ((869673364200, 0), (869673364300, 2), (-1000000031100, 0), (-1000000031200, 3)):
            self.refused_with(number, shifted(block, by))

    def refused_with(self, number, block):
        path = self.kept('block', block)
        status, output, errors = run('line', path)
        if number:
            self.assertEqual((status, output, errors), (1, b'', '%s: refused %d: %s\n' % (path, number, MEANINGS[number])))
        else:
            self.assertEqual((status, errors), (0, ''))


class Roof(Shifts):
    """The roof's tracks, full and short, with the same added to all of both receivers."""

    @classmethod
    def setUpClass(cls):
        tool = loading.loaded('roof')
        cls.blocks = [list(tool.blocks_of(receiver).values()) for receiver in 'ab']
        cls.before = [(ROOT / 'examples' / ('roof-%s.cggtts' % receiver)).read_bytes() for receiver in 'ab']

    def after(self, by):
        return [self.lines([shifted(block, by) for block in blocks]) for blocks in self.blocks]

    def test_whole_multiples_of_100_ps(self):
        pick = random.Random(7)
        rows = self.viewed(*self.before)
        for k in (1, -1, 237, -2370, 10 ** 8, *(pick.randrange(-10 ** 9, 10 ** 9) for _ in range(8))):
            after = self.after(100 * k)
            for old, new in zip(*(b''.join(files).splitlines() for files in (self.before, after))):
                (refsv, refsys, rest), moved = numbers(old), numbers(new)
                self.assertEqual(moved, (refsv + k, refsys + k, rest))
            self.assertEqual(self.viewed(*after), rows, k)

    def test_other_shifts(self):
        """REFSV and REFSYS move by the next whole number below or above, and a difference by one at most."""
        pick, moves = random.Random(8), set()
        before = pairs_of(*self.before)
        for by in (50, -50, 10, 1, 99, -1, *(pick.randrange(-10 ** 11, 10 ** 11) for _ in range(8))):
            after = self.after(by)
            for old, new in zip(*(b''.join(files).splitlines() for files in (self.before, after))):
                (refsv, refsys, rest), moved = numbers(old), numbers(new)
                self.assertLessEqual({moved[0] - refsv, moved[1] - refsys}, {by // 100, -(-by // 100)})
                self.assertEqual(moved[2], rest)
            changes = [new[3] - old[3] for old, new in zip(before, self.viewed(*after))]
            self.assertLessEqual(set(changes), {-1, 0, 1}, by)
            moves |= set(changes)
        self.assertEqual(moves, {-1, 0, 1})


class Prose(unittest.TestCase):
    """tools/offset: whether a figure of docs/SHARED-OFFSET.md that is wrong is noticed."""

    def test_each_changed_figure_is_noticed(self):
        wanted, document = prose.phrases(offset_prose, loading.loaded('offset')), PAPER.read_text()
        self.assertEqual(prose.check(prose.read(document)[1], wanted)[1], [])
        tried, missed = unnoticed(prose, document, wanted)
        self.assertEqual(missed, [])
        self.assertGreater(tried, 400)

    def test_names_of_theorems(self):
        """What the document names of the proofs is there, in the module that it says."""
        crate = ROOT / 'crates' / 'offset'
        text = PAPER.read_text()
        theorems = re.findall(r'(?m)^\| `([\w-]+)` \| `(\w+)` \|', text)
        definitions = [name for row in re.findall(r'(?m)^\| ((?:`\w+`(?:, )?)+) \|', text) for name in re.findall(r'`(\w+)`', row)]
        self.assertEqual((len(theorems), len(definitions)), (6, 4))
        for name, module in theorems:
            self.assertRegex((crate / 'proofs' / (module + '.antt')).read_text(), r'(?m)^ *pub %s :' % name)
        for name in definitions:
            self.assertRegex((crate / 'specs' / 'Shifted.antt').read_text(), r'(?m)^(?:unfoldable )?pub (?:record )?%s ' % name)
        for name in re.findall(r'\(`(\w+-\w+)`\)', text):
            self.assertRegex((crate / 'proofs' / 'Series.antt').read_text(), r'(?m)^ *pub %s :' % name)


if __name__ == '__main__':
    unittest.main()
