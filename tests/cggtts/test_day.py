#!/usr/bin/env python3
"""Runs cggtts day: the file it writes, its messages and its exit statuses, byte for byte.

    python3 tests/cggtts/test_day.py

Blocks are made here byte by byte, their lines by the columns of the paper's sample, and the places of refusals are written out by
hand. What is said of a refused block is compared with what cggtts check says of it alone.
"""
import itertools
import os
import pty
import random
import re
import resource
import shutil
import signal
import struct
import subprocess
import sys
import time
import unittest

from test_cggtts import MEANINGS, PROGRAM, ROOT, SAMPLE_COLUMNS, Scratch, block, line_with, run
from papers import second_of, start_minutes, starts

DAY, LINES = 'examples/oneday.blk', 'examples/oneday.cggtts'
# so many blocks go to the library at once
PART = 10_000


def track(clock, satellite, mjd=50722, groups=4, **more):
    """The sample's block with other keys."""
    changes = {'constellation': ord(satellite[0]), 'satellite': int(satellite[1:]), 'FR': int(satellite[0] == 'R'), 'MJD': mjd,
               'start': second_of(clock)}
    return block({**changes, **more}, groups=groups)


def ended(clock, satellite, mjd=50722, groups=4):
    """Its line with the line end."""
    changes = [(1, satellite), (8, str(mjd)), (14, clock), (21, '%04d' % (15 * groups)), (102, '01' if satellite[0] == 'R' else '00')]
    return line_with(changes, SAMPLE_COLUMNS).encode() + b'\r\n'


# ascending: 50723's 00:14 is behind 50722's 00:18
KEYS = (('000200', 'C99'), ('000200', 'G01', 50722, 52), ('000200', 'G02', 50722, 20), ('001800', 'E01'), ('001400', 'C01', 50723),
        ('001400', 'R01', 50723, 52))
A, B, C, D, E, F = BLOCKS = [track(*keys) for keys in KEYS]
FILE = [ended(*keys) for keys in KEYS]


def told(number, name, index, place, at, *rows, sort=''):
    """What is said of a refused block."""
    where = 'block %d of the %sset and block %d of this file, both counted from 0; it begins at byte %d' % (index, sort, place, at)
    return ''.join(['%s: refused %d: %s\n' % (name, number, MEANINGS[number])] + ['  %s\n' % row for row in (where, *rows)])


def run_with_stack(kibibytes, *words):
    """Status, standard output and standard error of a run with so much stack, and without a core file."""
    def limits():
        resource.setrlimit(resource.RLIMIT_STACK, (kibibytes << 10, kibibytes << 10))
        resource.setrlimit(resource.RLIMIT_CORE, (0, 0))
    done = subprocess.run([PROGRAM, *words], cwd=ROOT, stdin=subprocess.DEVNULL, capture_output=True, preexec_fn=limits)
    return done.returncode, done.stdout, done.stderr


class Accepted(Scratch):
    def test_the_example(self):
        lines, out = (ROOT / LINES).read_bytes(), self.folder / 'out'
        self.assertEqual(run('day', DAY), (0, lines, ''))
        self.assertEqual(run('day', DAY, '-o', out), (0, b'', ''))
        self.assertEqual(out.read_bytes(), lines)
        self.assertEqual(run('day', '-', data=(ROOT / DAY).read_bytes()), (0, lines, ''))
        self.assertEqual(run('merge', out, '/dev/null'), (0, lines, ''))

    def test_stack(self):
        """1.5 MiB are enough. With 1 MiB the system ends the program, and the file of lines stays as it was."""
        lines, out, new = (ROOT / LINES).read_bytes(), self.kept('out', b'old'), self.folder / 'new'
        self.assertEqual(run_with_stack(1536, 'day', DAY), (0, lines, b''))
        for words in (('day', DAY), ('day', DAY, '-o', out), ('day', DAY, '-o', new)):
            self.assertEqual(run_with_stack(1024, *words), (-signal.SIGSEGV, b'', b''))
        self.assertEqual(out.read_bytes(), b'old')
        self.assertEqual([path.name for path in self.folder.iterdir()], ['out'])

    def test_lines_by_their_columns(self):
        for k in range(1, 7):
            path = self.kept('day', b''.join(BLOCKS[:k]))
            self.assertEqual(run('day', path), (0, b''.join(FILE[:k]), ''))

    def test_files_in_any_number(self):
        """Every way to part six blocks into files."""
        for cuts in range(32):
            parts, names = [[BLOCKS[0]]], []
            for i in range(1, 6):
                if cuts >> i - 1 & 1:
                    parts.append([])
                parts[-1].append(BLOCKS[i])
            for i, part in enumerate(parts):
                names.append(self.kept('part%d' % i, b''.join(part)))
            self.assertEqual(run('day', *names), (0, b''.join(FILE), ''))

    def test_standard_input_among_files(self):
        first, last = self.kept('first', A + B), self.kept('last', F)
        self.assertEqual(run('day', first, '-', last, data=C + D + E), (0, b''.join(FILE), ''))

    def test_no_blocks(self):
        empty, other, out = self.kept('empty', b''), self.kept('other', b''), self.folder / 'out'
        remark = 'cggtts: %s: a remark: it is empty, and so has no block\n'
        self.assertEqual(run('day', empty), (0, b'', remark % empty))
        self.assertEqual(run('day', empty, other, '-o', out), (0, b'', remark % empty + remark % other))
        self.assertEqual(out.read_bytes(), b'')
        full = self.kept('full', A)
        self.assertEqual(run('day', empty, full), (0, FILE[0], remark % empty))

    def test_as_line_makes_them(self):
        pick = random.Random(10)
        for _ in range(20):
            keys = sorted({(pick.choice(starts(50722)), 'G%02d' % pick.randrange(1, 100))
                           for _ in range(pick.randrange(1, 9))})
            names = [self.kept('b%d' % i, track(*key, groups=pick.randrange(4, 53))) for i, key in enumerate(keys)]
            status, lines, said = run('line', *names)
            self.assertEqual((status, said), (0, ''))
            self.assertEqual(run('day', *names), (0, lines, ''))


class Refused(Scratch):
    def refused(self, files, number, name, index, place, at, *rows, options=(), sort='', before=''):
        """Whatever is lent to the output stays, and nothing else appears."""
        out = self.kept('out', b'as it was')
        there = sorted(os.listdir(self.folder))
        wanted = (1, b'', before + told(number, name, index, place, at, *rows, sort=sort))
        self.assertEqual(run('day', *files, *options), wanted)
        self.assertEqual(run('day', *files, '-o', out, *options), wanted)
        self.assertEqual(out.read_bytes(), b'as it was')
        self.assertEqual(run('day', *files, '-o', self.folder / 'new', *options), wanted)
        self.assertEqual(sorted(os.listdir(self.folder)), there)

    def test_what_check_says(self):
        """A refused block alone and in a set, at each place."""
        far = {'measurements': [10 ** 12] * 60, 'geometry': [-2 * 10 ** 11] * 4}
        faults = {1: block({'groups size': 3}, groups=4),
                  2: track('000200', 'G05', GD=10 ** 10 + 1),
                  3: block({'GD': -10 ** 10}, groups=4, **far),
                  4: block(groups=4, clock=[0, 10 ** 9, 2 * 10 ** 9, 3 * 10 ** 9]),
                  5: block(groups=4, troposphere=[-1000] * 4),
                  6: block(groups=4, clock=[10 ** 9, -10 ** 9, -10 ** 9, 10 ** 9]),
                  7: track('000200', 'G05', HC=100),
                  8: track('000201', 'G05'),
                  11: A[:57]}
        for number, bad in faults.items():
            alone = self.kept('bad', bad)
            status, printed, said = run('check', alone)
            self.assertEqual((status, printed), (1, b''))
            rows = [row[2:] for row in said.splitlines()[1:]]
            self.assertEqual(said.splitlines()[0], '%s: refused %d: %s' % (alone, number, MEANINGS[number]))
            self.refused([alone], number, alone, 0, 0, 0, *rows)
            before = self.kept('before', A + C)
            self.refused([before, alone], number, alone, 2, 0, 0, *rows)
            self.refused([before, alone, self.kept('behind', F)], number, alone, 2, 0, 0, *rows)
            inside = self.kept('inside', A + C + bad)
            self.refused([inside], number, inside, 2, 2, len(A + C), *rows)

    def test_the_first_offending_block(self):
        late, label = track('000201', 'G05'), track('000200', 'G05', HC=100)
        path = self.kept('day', A + late + label)
        self.assertIn('refused 8:', run('day', path)[2])
        self.assertNotIn('refused 7:', run('day', path)[2])
        path = self.kept('day', A + label + late)
        self.assertIn('refused 7:', run('day', path)[2])

    def test_a_cut_block_stays_cut(self):
        """The next file does not make up for what is missing."""
        first, second = self.kept('first', A + B[:8000]), self.kept('second', B[8000:] + C)
        self.refused([first, second], 11, first, 1, 1, len(A), 'it has 8000 bytes', 'its sizes, 780 and 52, make 8378: 378 missing')
        for length in (1, 2, 3):
            first = self.kept('first', A + B[:length])
            self.refused([first, second], 11, first, 1, 1, len(A), 'it has %d byte%s' % (length, 's'[length == 1:]))

    def test_what_the_card_says_of_bytes(self):
        """Bytes between two blocks, behind the last, and missing in one."""
        between = self.kept('between', A + b'\n' + B)
        self.assertTrue(run('day', between)[2].startswith(told(1, between, 1, 1, len(A))))
        behind = self.kept('behind', A + B + b'\r\n')
        self.refused([behind], 11, behind, 2, 2, len(A + B), 'it has 2 bytes')
        for missing in (1, 8, 40, 160):
            lost = self.kept('lost', A + B[:300] + B[300 + missing:] + C)
            said = run('day', lost)[2]
            self.assertTrue(said.startswith(told(2, lost, 1, 1, len(A))), missing)
            self.assertTrue(any(len(digits) >= 15 for digits in re.findall('[0-9]+', said)), said)

    def test_order(self):
        sort = 'cggtts day --sort puts blocks in order first'
        one = self.kept('one', A + C + B)
        self.refused([one], 16, one, 2, 2, len(A + C), 'it has MJD 50722, start 000200, G01, and the block before it, block 1 of %s, '
                     'MJD 50722, start 000200, G02' % one, sort)
        first, second = self.kept('first', A + E), self.kept('second', B + D)
        self.refused([first, second], 16, second, 2, 0, 0, 'it has MJD 50722, start 000200, G01, and the block before it, block 1 of %s, '
                     'MJD 50723, start 001400, C01' % first, sort)

    def test_the_same_keys(self):
        twice = self.kept('twice', A + B + B)
        self.refused([twice], 16, twice, 2, 2, len(A + B), 'it has MJD 50722, start 000200, G01, as the block before it has, block 1 of %s: '
                     'it is that block once more' % twice)
        other = self.kept('other', A + B + track('000200', 'G01', HC=7))
        row = 'it has MJD 50722, start 000200, G01, as the block before it has, block 1 of %s, which is another' % other
        self.refused([other], 16, other, 2, 2, len(A + B), row)
        self.refused([other], 16, other, 2, 2, len(A + B), row, options=['--sort'], sort='sorted ',
                     before='cggtts: --sort: the blocks stood in order\n')

    def test_other_files(self):
        """A text that is not packed, and lines."""
        for name, row in (('examples/oneday.txt', "this may be a text, which 'hireblock pack' packs"),
                          (LINES, "it has data lines, which 'cggtts read' takes, and is no hire block")):
            self.refused([name], 1, name, 0, 0, 0, row)


class Sorted(Scratch):
    def test_sorting(self):
        pick = random.Random(11)
        for _ in range(30):
            mixed = pick.sample(range(6), 6)
            first, second = (self.kept(name, b''.join(BLOCKS[i] for i in part)) for name, part in (('a', mixed[:3]), ('b', mixed[3:])))
            moved = sum(i != k for i, k in enumerate(mixed))
            said = '%d of 6 blocks moved to put them in order' % moved if moved else 'the blocks stood in order'
            self.assertEqual(run('day', '--sort', first, second), (0, b''.join(FILE), 'cggtts: --sort: %s\n' % said))

    def test_a_place_is_that_in_its_file(self):
        bad = track('001800', 'E01', HC=100)
        path = self.kept('day', F + bad + A)
        status, printed, said = run('day', path, '--sort')
        self.assertEqual((status, printed), (1, b''))
        # of A, bad, F the second; in its file the second too
        self.assertEqual(said.splitlines()[0], 'cggtts: --sort: 2 of 3 blocks moved to put them in order')
        self.assertEqual('\n'.join(said.splitlines()[1:3]) + '\n', told(7, path, 1, 1, len(F), sort='sorted '))

    def test_a_cut_block_comes_last(self):
        first, second = self.kept('first', F + B[:100]), self.kept('second', A)
        status, printed, said = run('day', first, second, '--sort')
        self.assertEqual((status, printed), (1, b''))
        self.assertEqual('\n'.join(said.splitlines()[1:3]) + '\n', told(11, first, 2, 1, len(F), sort='sorted '))


def many(count):
    """So many short blocks in order, and their lines: all satellites of a start, then the next start, then the next date."""
    base, blocks, lines = bytearray(track('000200', 'G01')), [], []
    places = ((mjd, *place) for mjd in itertools.count(50722) for place in zip(start_minutes(mjd), starts(mjd)))
    for i, (mjd, minute, clock) in zip(range(0, count, 99), places):
        struct.pack_into('<II', base, 12, mjd, 60 * minute)
        for satellite in range(1, 1 + min(99, count - i)):
            base[5] = satellite
            blocks.append(bytes(base))
            lines.append(ended(clock, 'G%02d' % satellite, mjd))
    return blocks, lines


class Parts(Scratch):
    """Sets that are longer than what goes to the library at once."""

    def test_long_sets(self):
        blocks, lines = many(2 * PART + 3)
        for count in (PART - 1, PART, PART + 1, 2 * PART - 2, 2 * PART - 1, 2 * PART, 2 * PART + 3):
            path = self.kept('long', b''.join(blocks[:count]))
            self.assertEqual(run('day', path), (0, b''.join(lines[:count]), ''))

    def test_order_across_parts(self):
        blocks, _ = many(2 * PART + 3)
        for i in (1, PART - 1, PART, PART + 1, 2 * PART - 2, 2 * PART - 1, 2 * PART, 2 * PART + 2):
            wrong = list(blocks)
            wrong[i] = blocks[i - 1]
            path = self.kept('long', b''.join(wrong))
            self.assertEqual(run('day', path)[0], 1)
            self.assertTrue(run('day', path)[2].startswith(told(16, path, i, i, 698 * i)), i)
            wrong[i] = blocks[i][:8] + b'\x64' + blocks[i][9:]
            path = self.kept('long', b''.join(wrong))
            self.assertTrue(run('day', path)[2].startswith(told(7, path, i, i, 698 * i)), i)


class Progress(Scratch):
    def watched(self, wait):
        """What a person sees on standard error; the blocks come after so long."""
        blocks, lines = many(PART + 5)
        screen, terminal = pty.openpty()
        out = self.folder / 'out'
        with subprocess.Popen([PROGRAM, 'day', '-', '-o', str(out)], stdin=subprocess.PIPE, stderr=terminal, cwd=ROOT) as running:
            os.close(terminal)
            time.sleep(wait)
            running.communicate(b''.join(blocks))
        try:
            seen = os.read(screen, 10000)
        except OSError:
            seen = b''
        os.close(screen)
        self.assertEqual((running.returncode, out.read_bytes()), (0, b''.join(lines)))
        return seen

    def test_a_long_work(self):
        gone = b'\r' + b' ' * 60 + b'\r'
        self.assertEqual(self.watched(1.3), b'\r  10000 of 10005 blocks\r  10005 of 10005 blocks' + gone)

    def test_a_short_work(self):
        self.assertEqual(self.watched(0), b'')

    def test_no_terminal(self):
        blocks, lines = many(3)
        pipes = {'stdin': subprocess.PIPE, 'stdout': subprocess.PIPE, 'stderr': subprocess.PIPE}
        with subprocess.Popen([PROGRAM, 'day', '-'], cwd=ROOT, **pipes) as running:
            time.sleep(1.2)
            self.assertEqual(running.communicate(b''.join(blocks)), (b''.join(lines), b''))


class Papers(Scratch):
    def test_the_readme(self):
        """Its commands, among the examples."""
        commands = re.findall(r'(?m)^    \$ (cggtts day .*|cmp made.*)$', (ROOT / 'README.md').read_text())
        self.assertEqual(len(commands), 2)
        examples = self.folder / 'examples'
        shutil.copytree(ROOT / 'examples', examples)
        (self.folder / 'cggtts').symlink_to(PROGRAM)
        subprocess.run(['/bin/sh', '-ec', '\n'.join(commands)], cwd=examples, check=True,
                       env=dict(os.environ, PATH='%s:%s' % (self.folder, os.environ['PATH'])))

    def test_the_card(self):
        """The message of docs/REFUSALS.md, of such files."""
        shown = re.search(r'(?m)^    (last.blk: .*)\n    (.*)$', (ROOT / 'docs' / 'REFUSALS.md').read_text()).groups()
        self.kept('first.blk', A + B + C + D + E)
        last = [track(clock, 'C02', 50723, 52) for clock in ('001400', '003000', '003001')]
        self.kept('last.blk', b''.join(last))
        made = subprocess.run([PROGRAM, 'day', 'first.blk', 'last.blk'], cwd=self.folder, capture_output=True, check=False)
        said = made.stderr.decode()
        self.assertEqual(tuple(said.splitlines()[:2]), shown)


class WrongUse(Scratch):
    def test_wrong_use(self):
        path = self.kept('day', A)
        for words, said in ((['day'], 'cggtts: day: no file; try cggtts --help\n'),
                            (['day', path, '--pairs'], "cggtts: day: no option '--pairs'; try cggtts --help\n"),
                            (['line', path, '--sort'], "cggtts: line: no option '--sort'; try cggtts --help\n"),
                            (['day', path, '-o', path], 'cggtts: day: %s is read, and would be overwritten: name another file; try cggtts --help\n' % path),
                            (['day', 'no/such.blk', path], 'cggtts: no/such.blk: No such file or directory\n')):
            self.assertEqual(run(*words), (2, b'', said))
        self.assertEqual((self.folder / 'day').read_bytes(), A)

    def test_help(self):
        for words in (['help', 'day'], ['day', '--help'], ['day', '-h']):
            status, printed, said = run(*words)
            self.assertEqual((status, said), (0, ''))
            self.assertIn(b'cggtts day FILE.. [-o LINES] [--sort]\n', printed)


if __name__ == '__main__':
    sys.exit(unittest.main())
