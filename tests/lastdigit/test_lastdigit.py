#!/usr/bin/env python3
"""Tests of tools/lastdigit. Where target/bin/trackline is built, its refusals are compared with the tool's.

    python3 tests/lastdigit/test_lastdigit.py
"""
import importlib.machinery
import importlib.util
import os
import pathlib
import random
import re
import shutil
import struct
import subprocess
import sys
import tempfile
import unittest

ROOT = pathlib.Path(__file__).resolve().parents[2]
TOOL = ROOT / 'tools' / 'lastdigit'
DOCUMENT = ROOT / 'docs' / 'LAST-DIGIT.md'
PROGRAM = ROOT / 'target' / 'bin' / 'trackline'
WORKED = (ROOT / 'examples' / 'worked.blk').read_bytes()
SAMPLE = (ROOT / 'examples' / 'sample.blk').read_bytes()
SHORT = (ROOT / 'examples' / 'short.blk').read_bytes()
CHANGED = (ROOT / 'examples' / 'changed.blk').read_bytes()

sys.dont_write_bytecode = True
sys.path.insert(0, str(ROOT / 'tools'))
import lastdigit_prose  # noqa: E402
import prose  # noqa: E402
LOADER = importlib.machinery.SourceFileLoader('lastdigit', str(TOOL))
SPEC = importlib.util.spec_from_loader('lastdigit', LOADER)
lastdigit = importlib.util.module_from_spec(SPEC)
sys.modules['lastdigit'] = lastdigit
LOADER.exec_module(lastdigit)


def changed(block, *places):
    """A block with numbers put in: offset, form and value of each."""
    block = bytearray(block)
    for at, form, value in places:
        struct.pack_into(form, block, at, value)
    return bytes(block)


def measured(*values):
    """The sample with these measurements, over and over."""
    return changed(SAMPLE, *((58 + 8 * i, '<q', values[i % len(values)]) for i in range(780)))


def column(block, which, *values):
    return changed(block, *((6298 + 40 * j + 8 * which, '<q', values[j % len(values)]) for j in range(52)))


def pattern(a):
    """B is a, -a, -a, a over and over: the clock, while the measurements are 0."""
    return column(measured(0), 4, a, -a, -a, a)


def sample(n, values=(1000,), sizes=None):
    """The sample with n blocks, byte by byte: sizes, labels, no delays, these measurements over and over, no corrections."""
    head = struct.pack('<2H', *(sizes or (15 * n, n))) + SAMPLE[4:58]
    return head + b''.join(struct.pack('<q', values[i % len(values)]) for i in range(15 * n)) + bytes(40 * n)


def scattered(n, a):
    """n blocks whose clocks are a, -a, -a, a over and over."""
    clocks = ((58 + 120 * n + 40 * j + 32, '<q', (a, -a, -a, a)[j % 4]) for j in range(n))
    return changed(sample(n, (0,)), *clocks)


# a block and the number that it is refused with
REFUSED = [
    (b'', 11), (SAMPLE[:3], 11), (bytes(3), 11), (bytes(4), 1), (bytes(8377), 1), (bytes(8378), 1), (SAMPLE[:4], 11),
    (SAMPLE[:-1], 11), (SAMPLE + b'\0', 11), (changed(SAMPLE, (0, '<H', 779)), 1), (changed(SAMPLE, (0, '<H', 765)), 1),
    (changed(SAMPLE, (2, '<H', 51)), 1), (changed(SAMPLE, (0, '<H', 765), (2, '<H', 51)), 11), (sample(3), 1),
    (sample(53), 1), (sample(20, sizes=(20, 300)), 1), (sample(20, sizes=(300, 21)), 1), (sample(20)[:-1], 11), (sample(20) + b'\0', 11),
    (sample(20, sizes=(315, 21)), 11), (sample(20, sizes=(780, 52)), 11), (sample(4, (10 ** 12 + 1,)), 2),
    (changed(sample(4), (698 - 8, '<q', -10 ** 10 - 1)), 2), (sample(4, (10 ** 12,)), 3), (scattered(4, 999950), 6),
    (changed(sample(4), (698 - 16, '<q', -300)), 5), (changed(sample(20), (16, '<I', 121)), 8),
    (changed(SAMPLE, (58 + 8 * 779, '<q', 10 ** 12 + 1)), 2),
    (changed(SAMPLE, (6298, '<q', 2 * 10 ** 11 + 1)), 2),
    (changed(SAMPLE, (6298 + 40 * 51 + 32, '<q', -10 ** 10 - 1)), 2),
    (changed(SAMPLE, (50, '<q', 10 ** 10 + 1)), 2), (measured(10 ** 12), 3), (measured(-999999999951), 3),
    (measured(*range(0, 780 * 10001, 10001)), 4), (column(SAMPLE, 3, *range(0, 52 * 1500, 1500)), 4),
    (column(SAMPLE, 3, -51), 5), (column(SAMPLE, 2, 999950), 5), (pattern(999950), 6),
    (changed(SAMPLE, (5, '<B', 0)), 7), (changed(SAMPLE, (4, '<B', 0x53)), 7), (changed(SAMPLE, (9, '<3s', b'L1c')), 7),
    (changed(SAMPLE, (7, '<B', 1)), 7), (changed(SAMPLE, (24, '<H', 256)), 7), (changed(SAMPLE, (12, '<I', 50721)), 7),
    (changed(SAMPLE, (16, '<I', 121)), 8), (changed(SAMPLE, (12, '<I', 50723)), 8),
    (changed(SAMPLE, (16, '<I', 86520)), 8),
    (changed(pattern(999950), (5, '<B', 0)), 6), (changed(SAMPLE, (5, '<B', 0), (16, '<I', 121)), 7),
]
ACCEPTED = [SAMPLE, WORKED, measured(999999999949), measured(-999999999950), pattern(999949), column(SAMPLE, 3, -50),
            column(SAMPLE, 3, 999949), changed(SAMPLE, (16, '<I', 84600)),
            changed(SAMPLE, (4, '<B', 0x45), (24, '<H', 999)),
            changed(SAMPLE, (4, '<B', 0x52), (7, '<B', 24), (24, '<H', 96)), SHORT, scattered(4, 999949),
            *(sample(n) for n in range(4, 53)), *(sample(n, tuple(range(0, 15 * n * 77, 77))) for n in range(4, 53))]


def run_tool(*arguments):
    return subprocess.run([sys.executable, str(TOOL), *map(str, arguments)], capture_output=True, text=True)


class Tenths(unittest.TestCase):
    """Expected figures are worked out here by hand; 1 for steps is whole ps, as before version 1.4.0."""

    def middle(self, value, every=0):
        """A track of four blocks, every measurement the one number and the middle one of each block more by the other."""
        return sample(4, tuple(every + value * (i == 7) for i in range(15)))

    def test_smoothing(self):
        """The middle weight is 167: 10 x 167 x 3 / 1105 is 4.53, of 4 it is 6.05; in whole ps 0.45 and 0.60."""
        for value, tenths, whole in (3, 5, 0), (4, 6, 1), (-4, -6, -1), (1105, 1670, 167), (0, 0, 0):
            for steps, smoothed in (10, tenths), (1, whole):
                self.assertEqual(lastdigit.Track(self.middle(value), steps).smoothed, [smoothed] * 4)

    def test_corrections_and_columns(self):
        """Every correction counts ten times, and so do C and D: INT 1, CAB 2, REF 4, GD 8, then five columns."""
        block = changed(self.middle(0, 100), (26, '<q', 1), (34, '<q', 2), (42, '<q', 4), (50, '<q', 8),
                        *((58 + 480 + 40 * j + 8 * k, '<q', 16 << k) for j in range(4) for k in range(5)))
        a = 100 - (1 + 2 - 4) - 16 + 32 - 64 - 128 - 8
        for steps in 1, 10:
            values = {'A': a, 'B': a + 256, 'C': 128, 'D': 64}
            self.assertEqual(lastdigit.Track(block, steps).rounded, {k: [steps * v] * 4 for k, v in values.items()})

    def test_a_midpoint_that_changed(self):
        """49 ps and 53 in the middle: 54813 / 1105 is 49.60 ps, so 50 ps and a tie that goes up, or 496 tenths and none."""
        block = self.middle(4, 49)
        self.assertEqual(lastdigit.numbers(lastdigit.Track(block, 1))['REFSYS'], 1)
        self.assertEqual(lastdigit.numbers(lastdigit.Track(block))['REFSYS'], 0)
        self.assertEqual(lastdigit.ExactFit(lastdigit.Track(block).exact['B']).midpoint, lastdigit.Fraction(54813, 110500))

    def test_the_changed_track(self):
        """Its REFSYS was -315 and its DSG 3; both lie on the other side of the tie now, where the exact figures are."""
        old, new = (lastdigit.numbers(lastdigit.Track(CHANGED, steps)) for steps in (1, 10))
        self.assertEqual({name: (old[name], new[name]) for name in old if old[name] != new[name]},
                         {'REFSYS': (-315, -314), 'DSG': (3, 2)})
        result = run_tool(ROOT / 'examples' / 'changed.blk', '--steps', '1')
        self.assertEqual((result.returncode, result.stderr), (0, ''))
        for row in 'S / 5 200 = -314.500192', 'REFSYS = -315', 'Q = 3 251 109', 'promised: 62 001 <= M <= 123 201':
            self.assertIn(row, result.stdout.splitlines())

    def test_share_in_the_manual(self):
        """The shares that trackline(3) names are those that tests/reference counts."""
        page = ' '.join((ROOT / 'man' / 'trackline.3').read_text().split())
        # of each row: the tracks, the lines, then the five figures, REFSYS the third
        full, _, short = lastdigit_prose.shares(lastdigit)
        shares = [100 * row[k] / row[0] for row in (full, short) for k in (1, 4)]
        self.assertIn('for %.2g %% of the full ones, REFSYS for %.2g %%. With 4 blocks they are %.2g %% and %.2g %%.' % tuple(shares), page)

    def test_one_unit_at_most(self):
        """Of seeded tracks no figure moves by more than one, and C's and D's not at all."""
        seeded, moved = random.Random(1105), set()
        for _ in range(200):
            n = seeded.choice([4, 4, 5, 6, 13])
            block = changed(sample(n, tuple(seeded.randrange(-400, 400) for _ in range(15 * n))),
                            *((58 + 120 * n + 8 * k, '<q', seeded.randrange(0, 5000)) for k in range(5 * n)))
            old, new = (lastdigit.numbers(lastdigit.Track(block, steps)) for steps in (1, 10))
            for name, value in old.items():
                self.assertLessEqual(abs(value - new[name]), 1)
                moved |= {name} if value != new[name] else set()
        self.assertLessEqual({'SRSV', 'SRSYS'}, moved)
        self.assertLessEqual(moved, {'REFSV', 'REFSYS', 'SRSV', 'SRSYS', 'DSG'})


class ShortTracks(unittest.TestCase):
    """Expected figures are worked out here by hand."""

    def test_four_values(self):
        """Values 0, 0, 0, 1000 tenths: S is 1000, T 3000 and n(n² - 1) 60, worked out on paper."""
        fit = lastdigit.Fit([0, 0, 0, 1000])
        self.assertEqual((fit.s, fit.t, fit.midpoint, fit.slope), (1000, 3000, 0, 20))
        # the line through (-3, 0), (-1, 0), (1, 0), (3, 1000) is 250 + 150 x
        self.assertEqual(fit.residuals, [200, -100, -400, 300])
        self.assertEqual((fit.q, fit.dsg), (300000, 0))
        exact = lastdigit.ExactFit([0, 0, 0, 100])
        # 15 ps for half of 15 seconds are 2 ps/s, 20 units
        self.assertEqual((exact.midpoint * 100, exact.slope, exact.mean_square), (25, 20, 750))
        self.assertEqual(exact.mean_date, 7 + 15 * 3 / 2)

    def test_lines_are_met(self):
        """Values on a line of 15 b ps a block: midpoint at the mean date, slope 10 b, no residual."""
        for n in range(4, 53):
            for b in (-7, 1, 100):
                fit = lastdigit.Fit([10 * (500 + 15 * b * j) for j in range(n)])
                self.assertEqual(fit.slope, 10 * b)
                self.assertEqual(fit.midpoint, (2 * 500 + 15 * b * (n - 1) + 100) // 200)
                self.assertEqual((set(fit.residuals), fit.dsg), ({0}, 0))

    def test_thresholds(self):
        """The pattern a, -a, -a, a has neither mean nor slope where n is a multiple of 4, so Q is n a²."""
        for n in range(4, 53, 4):
            for a, dsg in (499, 0), (500, 1), (1499, 1), (1500, 2), (9999499, 9999), (9999500, 10000):
                self.assertEqual(lastdigit.Fit([a, -a, -a, a] * (n // 4)).dsg, dsg)

    def test_promise(self):
        for steps, wanted in (10, ['0.5267', '0.5051', '0.502', '0.5005', '0.501']), (1, ['0.7667', '0.5502', '0.5193', '0.505', '0.51']):
            slopes = [lastdigit.promise('slope', n, steps) for n in (4, 20, 52)]
            others = [lastdigit.promise(kind, 52, steps) for kind in ('midpoint', 'DSG')]
            self.assertEqual([lastdigit.rounded_up(value, 4) for value in slopes + others], wanted)

    def test_the_short_sample_needs_its_promise(self):
        track = lastdigit.Track(SHORT)
        distances = {name: (abs(value - exact), kind) for name, kind, value, exact, _ in lastdigit.figures(track)}
        self.assertGreater(distances['SRSYS'][0], lastdigit.promise('slope', 52))
        for name, (distance, kind) in distances.items():
            self.assertLessEqual(distance, lastdigit.promise(kind, 20), name)

    def test_the_worked_track_needs_its_promises(self):
        distances = {name: abs(value - exact) for name, _, value, exact, _ in lastdigit.figures(lastdigit.Track(WORKED))}
        for name in 'REFSYS', 'DSG':
            self.assertGreater(distances[name], lastdigit.Fraction(1, 2))

    def test_printed(self):
        result = run_tool(ROOT / 'examples' / 'short.blk')
        self.assertEqual((result.returncode, result.stderr), (0, ''))
        for row in ('== Smoothing block 10', '== B of the 20 blocks, in 0.1 ps', 'T / 19 950 = -88.500050',
                    '133 x S = -298 495 890',
                    'threshold of 4 = 20 x (1000 x 4 - 500)^2 = 20 x 3500^2 = 245 000 000', 'columns  21 to  24  TRKL    0300'):
            self.assertIn(row, result.stdout.splitlines())
        for n, row in (6, 'T / 525 = 0.000000'), (9, '3 x (2j - 8) x T = 0'), (4, '== Smoothing block 2'):
            self.assertIn(row, subprocess.run([sys.executable, str(TOOL), '-'], input=sample(n),
                                              capture_output=True).stdout.decode().splitlines())


class Blocks(unittest.TestCase):
    def setUp(self):
        folder = tempfile.TemporaryDirectory()
        self.addCleanup(folder.cleanup)
        self.block = pathlib.Path(folder.name, 'a.blk')

    def scatter(self, block):
        """What is printed of the scatter, by its names."""
        self.block.write_bytes(block)
        result = run_tool(self.block)
        self.assertEqual((result.returncode, result.stderr), (0, ''))
        rows = result.stdout.split('== Scatter\n')[1].split('\n\n')[0].splitlines()
        return [row for row in rows if row.startswith(('threshold', 'DSG', 'promised'))]

    def test_dsg_of_0_has_only_the_upper_promise(self):
        first = 'threshold of 1 = 52 x (1000 x 1 - 500)^2 = 52 x 500^2 = 13 000 000'
        for a in 0, 49:
            self.assertEqual(self.scatter(pattern(a)), [first, 'DSG = 0', 'promised: M <= 2 510.01'])
        self.assertEqual(self.scatter(pattern(50)),
                         [first, 'threshold of 2 = 52 x (1000 x 2 - 500)^2 = 52 x 1500^2 = 117 000 000', 'DSG = 1',
                          'promised: 2 490.01 <= M <= 22 530.01'])

    def test_a_refused_block_has_no_line(self):
        for block, number in REFUSED[::4]:
            self.block.write_bytes(block)
            result = run_tool(self.block)
            self.assertEqual((result.returncode, result.stdout), (1, ''))
            self.assertEqual(result.stderr, 'lastdigit: %s: refused %d (docs/REFUSALS.md): it has no line\n' % (
                self.block, number))

    def test_refusals(self):
        for k, (block, number) in enumerate(REFUSED):
            self.assertEqual(lastdigit.refusal(block), number, k)
        for k, block in enumerate(ACCEPTED):
            self.assertEqual(lastdigit.refusal(block), 0, k)

    @unittest.skipUnless(PROGRAM.exists(), 'trackline is not built')
    def test_the_program_says_the_same(self):
        seeded = random.Random(113)
        blocks = [block for block, _ in REFUSED] + ACCEPTED
        for _ in range(60):
            at = seeded.choice([0, 2, 4, 5, 7, 8, 9, 11, 12, 16, 20, 22, 24, 26, 50, 58, 6298, 6330])
            blocks.append(changed(WORKED, (at, '<B', seeded.randrange(256))))
        # the worked track cut after n blocks
        numbers, groups = WORKED[58:6298], WORKED[6298:]
        blocks += [struct.pack('<2H', 15 * n, n) + WORKED[4:58] + numbers[:120 * n] + groups[:40 * n]
                   for n in range(3, 54)]
        for k, block in enumerate(blocks):
            printed = subprocess.run([PROGRAM], input=block, capture_output=True).stdout.decode('latin-1')
            number = lastdigit.refusal(block)
            track = None if number else lastdigit.Track(block)
            ours = 'refused %d' % number if number else lastdigit.line_text(track.labels, lastdigit.numbers(track))
            self.assertEqual(printed, ours + '\r\n', k)

    @unittest.skipUnless(PROGRAM.exists(), 'trackline is not built')
    def test_program(self):
        self.block.write_bytes(changed(SAMPLE, (16, '<I', 121)))
        result = run_tool(self.block, '--program', PROGRAM)
        self.assertEqual((result.returncode, result.stdout), (1, 'lastdigit: %s prints the same refusal\n' % PROGRAM))
        result = run_tool('--program', PROGRAM)
        self.assertEqual((result.returncode, result.stdout), (0, 'lastdigit: %s prints the same line\n' % PROGRAM))
        result = run_tool('--program', '/bin/cat')
        self.assertEqual((result.returncode, result.stdout), (1, 'lastdigit: /bin/cat prints ANOTHER line\n'))

    def test_wrong_use_is_2(self):
        result = run_tool('/no/such/file')
        message = 'lastdigit: /no/such/file: No such file or directory\n'
        self.assertEqual((result.returncode, result.stderr), (2, message))
        result = run_tool(ROOT / 'examples' / 'short.blk', '-r', '20')
        self.assertEqual((result.returncode, result.stderr), (2, 'lastdigit: block 20: the track has 20, 0 to 19\n'))
        for arguments in ('-j', '52'), ('-j', '-1'), ('-j', 'x'), ('a.blk', '--check', DOCUMENT), ('a.blk', '--svg', 'a.svg'), ('--steps', '2'):
            self.assertEqual(run_tool(*arguments).returncode, 2)
        own = 'lastdigit: error: picture and document are of their own tracks, and in tenths of a ps\n'
        for option in '--check', '--svg':
            self.assertTrue(run_tool('a.blk', option, 'a').stderr.endswith(own))
            self.assertTrue(run_tool('--steps', '1', option, 'a').stderr.endswith(own))


class Streams(unittest.TestCase):
    def test_standard_input(self):
        for block, named in (WORKED, ROOT / 'examples' / 'worked.blk'), (SAMPLE, ROOT / 'examples' / 'sample.blk'):
            result = subprocess.run([sys.executable, str(TOOL), '-'], input=block, capture_output=True)
            self.assertEqual((result.returncode, result.stdout.decode()), (0, run_tool(named).stdout))
        result = subprocess.run([sys.executable, str(TOOL), '-'], input=b'', capture_output=True)
        self.assertEqual((result.returncode, result.stderr),
                         (1, b'lastdigit: -: refused 11 (docs/REFUSALS.md): it has no line\n'))
        result = subprocess.run(['/bin/sh', '-c', '"$0" "$1" - 0>/dev/null', sys.executable, str(TOOL)], capture_output=True)
        self.assertEqual((result.returncode, result.stderr), (2, b'lastdigit: standard input: Bad file descriptor\n'))

    def test_standard_output_that_can_not_be_written(self):
        with open('/dev/full', 'wb') as full:
            result = subprocess.run([sys.executable, str(TOOL)], stdout=full, stderr=subprocess.PIPE)
        self.assertEqual((result.returncode, result.stderr),
                         (2, b'lastdigit: standard output: No space left on device\n'))
        reader, writer = os.pipe()
        os.close(reader)
        with open(writer, 'wb') as pipe:
            result = subprocess.run([sys.executable, str(TOOL)], stdout=pipe, stderr=subprocess.PIPE)
        self.assertEqual((result.returncode, result.stderr), (2, b'lastdigit: standard output: Broken pipe\n'))


class Picture(unittest.TestCase):
    def test_both_panels_have_their_axes_labelled(self):
        picture = (ROOT / 'docs' / 'last-digit.svg').read_text()
        for label, count in ('B in ns', 1), ('residual in ps', 1), ('second of the track', 2):
            self.assertEqual(picture.count('>%s</text>' % label), count)


class Document(unittest.TestCase):
    @classmethod
    def setUpClass(cls):
        cls.track = lastdigit.Track(WORKED)
        world = lastdigit_prose.World(lastdigit, cls.track, lastdigit.Track(SHORT), CHANGED)
        cls.phrases = prose.phrases(lastdigit_prose, world)
        cls.code, cls.prose = prose.read(DOCUMENT.read_text())

    def faults(self, rows):
        return prose.check(rows, self.phrases)[1]

    def test_check(self):
        result = run_tool('--check', DOCUMENT)
        self.assertEqual((result.returncode, result.stderr), (0, ''))
        counts = re.match(r'lastdigit: (\d+) lines, 0 differ; (\d+) figures in the prose, 0 wrong or not checked\n$',
                          result.stdout)
        tests = (ROOT / 'docs' / 'evidence' / 'tests.md').read_text()
        self.assertIn('| %s lines and %s other figures of docs/LAST-DIGIT.md |' % counts.groups(), tests)

    def test_check_where_the_sources_are_not(self):
        """As it is installed, the rows that tests/reference counts are left out and named; all else is looked at."""
        text = DOCUMENT.read_text()
        left_out = 'lastdigit: 3 rows of the table of shares are left out: tests/reference counts them, in the sources'
        with tempfile.TemporaryDirectory() as folder:
            for part in 'examples', 'tools':
                shutil.copytree(ROOT / part, pathlib.Path(folder, part))
            paper = pathlib.Path(folder, 'a.md')
            for here, other, status in (('| 100 000 | 337 |', '| 100 000 | 338 |', 0), ('REFSYS was -315', 'REFSYS was -316', 1)):
                self.assertIn(here, text)
                paper.write_text(text.replace(here, other))
                result = subprocess.run([sys.executable, pathlib.Path(folder, 'tools', 'lastdigit'), '--check', paper],
                                        capture_output=True, text=True)
                self.assertEqual((result.returncode, result.stdout.splitlines()[0]), (status, left_out))

    def test_every_figure_of_the_prose_is_checked(self):
        """Each digit is changed, but for those in names that stand as code."""
        for k, row in enumerate(self.prose):
            code = [found.span() for found in re.finditer('`[^`]*`', row)]
            for found in re.finditer(r'\d', row):
                if not any(start < found.start() < end for start, end in code):
                    wrong = row[:found.start()] + str((int(found.group()) + 1) % 10) + row[found.end():]
                    self.assertTrue(self.faults(self.prose[:k] + [wrong] + self.prose[k + 1:]), wrong)

    def test_every_figure_of_the_formulas_is_checked(self):
        def faults(rows):
            return lastdigit_prose.check_formulas(rows, self.track)[1]

        rows = self.code['formulas']
        self.assertEqual((faults(rows), len(faults([]))), ([], 6))
        self.assertTrue(faults([row.replace('- 32j', '+ 32j') for row in rows]))
        for k, row in enumerate(rows):
            for found in re.finditer(r'\d', row):
                wrong = row[:found.start()] + str((int(found.group()) + 1) % 10) + row[found.end():]
                self.assertTrue(faults(rows[:k] + [wrong] + rows[k + 1:]), wrong)

    def test_every_word_between_figures_is_checked(self):
        text = '\n'.join(self.prose)
        for word, other in ((' below the tie', ' above the tie'), ('more than 0.5;', 'less than 0.5;'),
                            ('below -314.5 and above 250', 'above -314.5 and below 250')):
            self.assertIn(word, text)
            self.assertTrue(self.faults(text.replace(word, other).split('\n')), word)

    def test_a_figure_that_nobody_works_out(self):
        fault, = self.faults(self.prose + ['It took 3 s in all.'])
        self.assertRegex(fault, r'^not worked out: 3 in ".+It took 3 s in all\..+"$')

    def test_every_line_of_the_code_blocks_is_checked(self):
        rows = DOCUMENT.read_text().splitlines(keepends=True)
        with tempfile.TemporaryDirectory() as folder:
            wrong = pathlib.Path(folder, 'a.md')
            # of the worked track, of the short one, and of the one that changed
            for line, other in (('DSG = 3\n', 'DSG = 4\n'), ('columns  66 to  71  SRSYS   -00089\n', 'SRSYS\n'),
                                ('exact REFSYS = -314.499572\n', 'exact REFSYS = -314.499573\n')):
                at = rows.index(line)
                before, here, after = rows[:at], rows[at], rows[at + 1:]
                for changes in [other, *after], after, [here, here, *after], [after[0], here, *after[1:]]:
                    wrong.write_text(''.join(before + changes))
                    self.assertEqual(run_tool('--check', wrong).returncode, 1)


if __name__ == '__main__':
    unittest.main()
