#!/usr/bin/env python3
"""Runs cggtts merge: the merged bytes, its messages and its exit statuses, byte for byte.

    python3 tests/cggtts/test_merge.py

Lines are made here by their columns, and merged files by sorting lines; the numbers and places of refusals are written
out by hand.
"""
import os
import random
import signal
import stat
import subprocess
import time
import unittest

from test_cggtts import MEANINGS, PROGRAM, ROOT, SAMPLE_COLUMNS, SIGNAL_IN_WRITE, Scratch, line_with, run
from papers import field, starts

FIRST, SECOND, WEEK = ('examples/%s.cggtts' % name for name in ('first', 'second', 'week'))


def ended(mjd, clock, satellite, changes=()):
    """A line with its line end, by its keys."""
    fr = '01' if satellite[0] == 'R' else '00'
    text = line_with([(1, satellite), (8, str(mjd)), (14, clock), (102, fr), *changes], SAMPLE_COLUMNS)
    return text.encode() + b'\r\n'


def by_keys(line):
    return field(line, 'MJD'), field(line, 'STTIME'), line[:1], field(line, 'SAT')


def sorted_lines(*files):
    lines = {line for file in files for line in file.splitlines(keepends=True)}
    return b''.join(sorted(lines, key=by_keys))


# ascending: 50723's 00:14 is behind 50722's 00:18
A, B, C, D, E, F = LINES = [ended(*keys) for keys in (
    (50722, '000200', 'C99'), (50722, '000200', 'G01'), (50722, '000200', 'G02'), (50722, '001800', 'E01'),
    (50723, '001400', 'C01'), (50723, '001400', 'R01'))]


class Merged(Scratch):
    def test_the_week(self):
        files = [(ROOT / name).read_bytes() for name in (FIRST, SECOND, WEEK)]
        self.assertEqual(sorted_lines(*files[:2]), files[2])
        self.assertGreater(len(files[0]) + len(files[1]), len(files[2]) + 20 * 115)
        self.assertEqual(run('merge', FIRST, SECOND), (0, files[2], ''))
        self.assertEqual(run('merge', SECOND, FIRST), (0, files[2], ''))
        self.assertEqual(run('merge', WEEK, SECOND), (0, files[2], ''))

    def test_files(self):
        for first, second in ((b'', b''), (A, b''), (b'', A), (A, A), (A + C, B + D), (A + F, B + E), (D + E, A + B),
                              (A + B + C, B + C + D), (A + B + C + D, C), (b''.join(LINES), b''.join(LINES))):
            one, other = self.kept('one', first), self.kept('other', second)
            self.assertEqual(run('merge', one, other), (0, sorted_lines(first, second), ''))
            self.assertEqual(run('merge', one, '-', data=second), (0, sorted_lines(first, second), ''))
            self.assertEqual(run('merge', '-', other, data=first), (0, sorted_lines(first, second), ''))

    def test_many_files_by_sorting(self):
        pick = random.Random(5)
        keys = [(mjd, clock, letter + satellite) for mjd in (50722, 51081) for clock in ('000200', '001800')
                for letter in 'CEGJR' for satellite in ('01', '10', '99')]
        lines = [ended(*key) for key in keys]
        for _ in range(40):
            first, second = (sorted_lines(*pick.sample(lines, pick.randrange(len(lines)))) for _ in range(2))
            one = self.kept('one', first)
            self.assertEqual(run('merge', one, '-', data=second), (0, sorted_lines(first, second), ''))

    def test_several_files(self):
        """Any number of files, as one by one, in whatever order they are named."""
        pick = random.Random(7)
        lines = [ended(mjd, clock, letter + satellite) for mjd in (50722, 51081) for clock in ('000200', '001800')
                 for letter in 'CEGJR' for satellite in ('01', '10', '99')]
        for count in (3, 4, 5, 8, 9, 40):
            files = [sorted_lines(*pick.sample(lines, pick.randrange(len(lines)))) for _ in range(count)]
            names = [self.kept('file%d' % i, file) for i, file in enumerate(files)]
            self.assertEqual(run('merge', *names), (0, sorted_lines(*files), ''))
            pick.shuffle(names)
            self.assertEqual(run('merge', *names, '-o', names[1]), (0, b'', ''))
            self.assertEqual(names[1].read_bytes(), sorted_lines(*files))
        self.assertEqual(run('merge', *['/dev/null'] * 7), (0, b'', ''))


class ToFile(Scratch):
    def test_output(self):
        one, other, out = self.kept('one', A + C), self.kept('other', B), self.folder / 'out'
        for arguments in ((one, other, '-o', out), ('-o', out, one, other), (one, '-o%s' % out, '--', other)):
            self.assertEqual(run('merge', *arguments), (0, b'', ''))
            self.assertEqual(out.read_bytes(), A + B + C)
            out.unlink()
        self.assertEqual(run('merge', one, other, '-o', '-'), (0, A + B + C, ''))
        self.assertEqual(run('merge', self.kept('none', b''), '/dev/null', '-o', out), (0, b'', ''))
        self.assertEqual(out.read_bytes(), b'')
        self.assertEqual(sorted(os.listdir(self.folder)), ['none', 'one', 'other', 'out'])

    def test_output_is_one_of_the_files(self):
        one, other = self.kept('one', A + C), self.kept('other', B)
        one.chmod(0o640)
        self.assertEqual(run('merge', one, other, '-o', one), (0, b'', ''))
        self.assertEqual((one.read_bytes(), other.read_bytes()), (A + B + C, B))
        self.assertEqual(stat.S_IMODE(one.stat().st_mode), 0o640)
        self.assertEqual(run('merge', one, other, '-o', other), (0, b'', ''))
        self.assertEqual((one.read_bytes(), other.read_bytes()), (A + B + C, A + B + C))
        self.assertEqual(run('merge', one, one, '-o', one), (0, b'', ''))
        self.assertEqual(one.read_bytes(), A + B + C)
        self.assertEqual(sorted(os.listdir(self.folder)), ['one', 'other'])

    def test_output_is_a_link_to_one_of_the_files(self):
        one, link = self.kept('one', A + C), self.folder / 'link'
        link.symlink_to('one')
        before = one.stat().st_ino
        self.assertEqual(run('merge', link, '-', '-o', link, data=B), (0, b'', ''))
        self.assertTrue(link.is_symlink())
        self.assertEqual(one.read_bytes(), A + B + C)
        self.assertNotEqual(one.stat().st_ino, before)  # a new file was put in its place
        self.assertEqual(sorted(os.listdir(self.folder)), ['link', 'one'])

    def test_a_link_that_leads_nowhere(self):
        link = self.folder / 'link'
        link.symlink_to('nothing')
        self.assertEqual(run('merge', '-', '/dev/null', '-o', link, data=B),
                         (2, b'', 'cggtts: %s: No such file or directory\n' % link))
        self.assertEqual(os.listdir(self.folder), ['link'])

    def test_a_refusal_or_a_failure_writes_nothing(self):
        one, other, out = self.kept('one', A + C), self.kept('other', B + A), self.kept('out', b'as it was')
        self.assertEqual(run('merge', one, other, '-o', out)[:2], (1, b''))
        self.assertEqual(run('merge', one, other, '-o', one)[:2], (1, b''))
        self.assertEqual(run('merge', one, 'no/such', '-o', one)[:2], (2, b''))
        self.assertEqual(run('merge', one, other, '-o', self.folder / 'new')[:2], (1, b''))
        self.assertEqual((one.read_bytes(), other.read_bytes(), out.read_bytes()), (A + C, B + A, b'as it was'))
        self.assertEqual(sorted(os.listdir(self.folder)), ['one', 'other', 'out'])

    def test_standard_output_is_one_of_the_files(self):
        one, other, third, link = self.kept('one', A), self.kept('other', B), self.kept('third', C), self.folder / 'link'
        link.symlink_to('one')
        told = 'cggtts: %s: is also standard output; use -o %s\n'
        emptied = 'cggtts: %s: is also standard output, and is empty now: it has to be fetched again; then use -o %s\n'
        for files, name in (((one, other), one), ((other, one), one), ((link, other), link), ((one, one), one),
                            ((one, other, '-o', '-'), one), ((one, other, '-o', '/dev/stdout'), one),
                            ((one, other, '-o', third), one)):
            with one.open('ab') as behind:
                self.assertEqual(run('merge', *files, stdout=behind), (2, None, told % (name, name)))
            self.assertEqual([file.read_bytes() for file in (one, other, third)], [A, B, C])
        with one.open('rb') as read, one.open('ab') as behind:
            done = subprocess.run([PROGRAM, 'merge', '-', other], stdin=read, stdout=behind, stderr=subprocess.PIPE)
        self.assertEqual((done.returncode, done.stderr), (2, b'cggtts: -: is also standard output; use -o\n'))
        self.assertEqual(one.read_bytes(), A)
        with one.open('wb') as empty:
            self.assertEqual(run('merge', one, other, stdout=empty), (2, None, emptied % (one, one)))
            self.assertEqual(run('merge', other, third, one, stdout=empty), (2, None, emptied % (one, one)))
        self.assertEqual([file.read_bytes() for file in (one, other, third)], [b'', B, C])
        with third.open('wb') as out:
            self.assertEqual(run('merge', one, other, stdout=out), (0, None, ''))
        self.assertEqual(third.read_bytes(), B)

    def test_a_signal_leaves_the_file_whole(self):
        one, other = self.kept('one', A + C), self.kept('other', B)
        status = run('merge', one, other, '-o', one, env=self.shim(SIGNAL_IN_WRITE))[0]
        self.assertEqual(status, -signal.SIGTERM)
        self.assertEqual(one.read_bytes(), A + B + C)
        self.assertEqual(sorted(os.listdir(self.folder)), ['one', 'other', 'shim.so'])


class Use(Scratch):
    def test_wrong_use(self):
        for files in ((), ('one',)):
            reason = 'no file' if not files else 'two or more files are needed, not 1'
            self.assertEqual(run('merge', *files), (2, b'', 'cggtts: merge: %s; try cggtts --help\n' % reason))
        for twice in (('-o', 'out', 'one', 'other', '-o', 'out'), ('-oa', '-ob', 'one', 'other'), ('-oa', 'one', 'other', '-o')):
            self.assertEqual(run('merge', *twice), (2, b'', 'cggtts: merge: -o twice; try cggtts --help\n'))
        self.assertEqual(run('merge', 'one', 'other', '-o'), (2, b'', 'cggtts: merge: -o without a file; try cggtts --help\n'))

    def test_help(self):
        status, output, errors = run('merge', '--help')
        self.assertEqual((status, errors), (0, ''))
        self.assertIn(b'cggtts merge FILE FILE.. [-o OUT]', output)
        self.assertIn(b'cggtts merge FILE FILE.. [-o OUT]', run('--help')[1])

    def test_files_that_can_not_be_read_or_written(self):
        missing = 'cggtts: %s: No such file or directory\n'
        self.assertEqual(run('merge', 'no/one', 'no/other'), (2, b'', missing % 'no/one' + missing % 'no/other'))
        self.assertEqual(run('merge', FIRST, 'no/other'), (2, b'', missing % 'no/other'))
        self.assertEqual(run('merge', '-', '-', data=A), (2, b'', 'cggtts: -: standard input can be read only once\n'))
        self.assertEqual(run('merge', FIRST, SECOND, '-o', '/dev/full'),
                         (2, b'', 'cggtts: /dev/full: No space left on device\n'))
        with open('/dev/full', 'wb') as full:
            self.assertEqual(run('merge', FIRST, SECOND, stdout=full),
                             (2, None, 'cggtts: standard output: No space left on device\n'))


# what is said before the command that helps
IN_ORDER = 'convert puts lines in order, and writes equal ones once'
AS_OURS = 'convert puts fills and line ends right, and leaves comments out'
NO_HEADER = 'the file begins with a header, and a line file has data lines alone'


def advised(what, name):
    """The rows of a command that helps with a file, if there is one."""
    return ('%s; this makes a line file of it:' % what, '  cggtts convert %s -o LINES' % name) if what else ()


class Refused(Scratch):
    def refused(self, number, place, first, second, *explanations, advice=''):
        """Refused at this place (first or second, and the line), with these lines of explanation and a command that helps."""
        names = {'first': self.kept('first', first), 'second': self.kept('second', second)}
        name, _, line = place.partition(':')
        told = '%s:%s: refused %d: %s\n' % (names[name], line, number, MEANINGS[number])
        explanations += advised(advice, names[name])
        told += ''.join('  %s\n' % text.replace('FIRST', str(names['first'])).replace('SECOND', str(names['second'])) for text in explanations)
        self.assertEqual(run('merge', names['first'], names['second']), (1, b'', told))

    def test_each_line_of_each_file(self):
        start = 'nearest starts of MJD 50722: before it 120 (00:02:00), after it 1080 (00:18:00)'
        faults = (
            (14, A[:112] + b'?\r\n', ['CK, columns 112 and 113, is "%s?", and the columns before it give %s'
                                     % (A[111:112].decode(), A[111:113].decode())]),
            (13, ended(50722, '000200', 'G 1'), ['column 2 (satellite) is a blank, not a digit']),
            (8, ended(50722, '000201', 'G01'), ['start is 121 (00:02:01)', start]),
            (13, B[:113] + b' \n', ['it goes on behind column 113: a comment, which a line of a file has not']))
        for number, faulty, explanations in faults:
            advice = AS_OURS if number == 13 else ''
            for count in range(len(LINES)):
                file = b''.join(LINES[:count]) + faulty + b''.join(LINES[count:])
                self.refused(number, 'first:%d' % (count + 1), file, D, *explanations, advice=advice)
                self.refused(number, 'second:%d' % (count + 1), D, file, *explanations, advice=advice)
                self.refused(number, 'first:%d' % (count + 1), file, A[:50], *explanations, advice=advice)

    def test_a_character_that_convert_does_not_take(self):
        self.refused(13, 'first:1', ended(50722, '000200', 'G01', [(110, 'i')]), b'', 'column 110 (FRC) is i, not a capital letter or a digit')
        self.refused(13, 'second:1', A, ended(50722, '000200', 'Z01'), 'column 1 (constellation) is Z, not G, R, E, C or J')

    def test_carriage_return_alone(self):
        """convert does not take such a file, and so is not named; what helps is."""
        told = "its lines end with carriage return alone: tr '\\r' '\\n' puts line feeds in their place, which convert takes"
        file = b''.join(LINES).replace(b'\n', b'')
        self.refused(13, 'first:1', file, D, told)
        self.refused(13, 'second:2', D, A + file[114:], told)
        self.assertEqual(run('convert', '-', data=file)[:2], (1, b''))
        self.assertEqual(run('convert', '-', data=file.replace(b'\r', b'\n'))[:2], (0, b''.join(LINES)))

    def test_labels(self):
        status, output, errors = run('merge', '-', '/dev/null', data=A + ended(50722, '000200', 'G00'))
        self.assertEqual((status, output), (1, b''))
        self.assertEqual(errors, '-:2: refused 7: %s\n  satellite is 0, not 1 to 99\n' % MEANINGS[7])

    def test_order(self):
        told = 'it has MJD %s, start %s, %s, and the line before it MJD %s, start %s, %s'
        self.refused(16, 'first:2', B + A, b'', told % ('50722', '000200', 'C99', '50722', '000200', 'G01'), advice=IN_ORDER)
        self.refused(16, 'second:4', F, A + B + E + D + F, told % ('50722', '001800', 'E01', '50723', '001400', 'C01'), advice=IN_ORDER)

    def test_the_same_keys(self):
        self.refused(16, 'second:7', A, b''.join(LINES) + F,
                     'it has MJD 50723, start 001400, R01, and is the line before it once more', advice=IN_ORDER)
        told = 'it has MJD 50722, start 001800, E01 as the line before it has, and is another from column %d on (%s)'
        for change, column, name in (((5, 'FE'), 6, 'CL'), ((35, '+0000000011'), 45, 'REFSV'), ((108, 'L1P'), 110, 'FRC')):
            self.refused(16, 'first:3', A + D + ended(50722, '001800', 'E01', [change]) + F, b'', told % (column, name),
                         advice=IN_ORDER)

    def test_tails(self):
        for length in (1, 47, 113, 114):
            told = 'it has %d byte%s, and a line of a file has 115 with its line end' % (length, 's'[length == 1:])
            advice = AS_OURS if length >= 113 else ''
            self.refused(12, 'first:1', A[:length], b'', told, advice=advice)
            self.refused(12, 'first:4', A + B + C + D[:length], A[:1], told, advice=advice)
            self.refused(12, 'second:2', A + B, C + D[:length], told, advice=advice)

    def test_the_earliest_line_of_the_first_file(self):
        faulty = ended(50722, '000200', 'G 1')
        self.refused(16, 'first:2', B + A + faulty + A[:9], faulty,
                     'it has MJD 50722, start 000200, C99, and the line before it MJD 50722, start 000200, G01', advice=IN_ORDER)
        self.refused(13, 'first:1', faulty + A, faulty, 'column 2 (satellite) is a blank, not a digit', advice=AS_OURS)

    def test_lines_that_differ(self):
        told = 'SECOND:%d has MJD %s, start %s, %s too, and is another from column %d on (%s)'
        both = 'REFSV is +0000000010 in FIRST:%d and +0000000011 in SECOND:%d'
        other = ended(50722, '001800', 'E01', [(35, '+0000000011')])
        self.refused(15, 'first:4', b''.join(LINES), B + other + F, told % (2, '50722', '001800', 'E01', 45, 'REFSV'), both % (4, 2))
        self.refused(15, 'first:1', D, other, told % (1, '50722', '001800', 'E01', 45, 'REFSV'), both % (1, 1))
        two, six = ended(50723, '001400', 'C01', [(108, 'L1P')]), ended(50723, '001400', 'R01', [(5, '00')])
        self.refused(15, 'first:4', A + B + C + D + E + F, A + other + two,
                     told % (2, '50722', '001800', 'E01', 45, 'REFSV'), both % (4, 2), 'and 1 more line differs so')
        self.refused(15, 'first:4', A + B + C + D + E + F, A + other + two + six,
                     told % (2, '50722', '001800', 'E01', 45, 'REFSV'), both % (4, 2), 'and 2 more lines differ so')
        self.refused(15, 'first:5', A + B + C + D + E + F, A + D + two, told % (3, '50723', '001400', 'C01', 110, 'FRC'),
                     'FRC is L1C in FIRST:5 and L1P in SECOND:3')

    def test_several_files(self):
        """The first file that is refused by itself, then the first two that differ."""
        names = [self.kept('file%d' % i, file) for i, file in enumerate((A + C, B, D + A, E, F + E))]
        rows = ('it has MJD 50722, start 000200, C99, and the line before it MJD 50722, start 001800, E01', *advised(IN_ORDER, names[2]))
        told = '%s:2: refused 16: %s\n' % (names[2], MEANINGS[16]) + ''.join('  %s\n' % row for row in rows)
        self.assertEqual(run('merge', *names), (1, b'', told))
        other = ended(50722, '000200', 'G02', [(108, 'L1P')])
        names = [self.kept('file%d' % i, file) for i, file in enumerate((A, B, B + C, E, F, A + D, A + other, other + E))]
        told = '%s:2: refused 15: %s\n' % (names[2], MEANINGS[15])
        told += '  %s:2 has MJD 50722, start 000200, G02 too, and is another from column 110 on (FRC)\n' % names[6]
        told += '  FRC is L1C in %s:2 and L1P in %s:2\n' % (names[2], names[6])
        self.assertEqual(run('merge', *names), (1, b'', told))
        self.assertEqual(run('merge', *names[:6], '-o', names[0])[0], 0)
        self.assertEqual(names[0].read_bytes(), A + B + C + D + E + F)

    def test_a_header(self):
        for head in (b'CGGTTS     GENERIC DATA FORMAT VERSION = 2E\r\n', b'CGGTTS', b'GGTTS', b'SAT CL  MJD  STTIME\r\n', b'SAT',
                     b'\xef\xbb\xbfCGGTTS'):
            self.refused(12, 'first:1', head, b'', advice=NO_HEADER)
        self.refused(14, 'second:1', A, b'SAT CL  MJD  STTIME TRKL\r\n' + A + B, advice=NO_HEADER)
        self.refused(12, 'first:1', b'SA', b'', 'it has 2 bytes, and a line of a file has 115 with its line end')
        self.refused(14, 'first:1', b'CGGTTS     GENERIC DATA FORMAT VERSION = 2E\r\nREV DATE = 2014-02-20\r\n' + A + B, b'', advice=NO_HEADER)
        self.refused(14, 'first:1', b'GGTTS GPS DATA FORMAT VERSION = 01\r\n' + A + B, b'',
                     'the file begins with a header of version 01, and a line file has data lines of ours alone; this makes a line file of it:',
                     '  cggtts convert %s --hc N --frc XYZ -o LINES' % (self.folder / 'first'))

    def test_line_feeds_alone(self):
        self.refused(13, 'first:1', (A + B).replace(b'\r', b''), b'',
                     'its lines end with line feed alone, not carriage return and line feed', advice=AS_OURS)
        self.refused(12, 'second:1', b'', A.replace(b'\r', b''),
                     'its lines end with line feed alone, not carriage return and line feed', advice=AS_OURS)

    def test_the_command_as_it_is_typed(self):
        """Names that a shell would read otherwise are quoted; one that can't be shown is left to the reader."""
        for name, shown in (('a b', "'a b'"), ('$x', "'$x'"), ("it's", 'FILE'), ('a\nb', 'FILE'), ('-x', './-x'), ('a*', "'a*'")):
            (self.folder / name).write_bytes(B + A)
            done = subprocess.run([PROGRAM, 'merge', '--', name, '/dev/null'], cwd=self.folder, capture_output=True, check=False)
            self.assertEqual(done.stderr.decode().splitlines()[-1], '    cggtts convert %s -o LINES' % shown)
            if shown != 'FILE':
                command = done.stderr.decode().splitlines()[-1].replace('cggtts', PROGRAM, 1)
                subprocess.run(['/bin/sh', '-ec', command], cwd=self.folder, capture_output=True, check=True)
                self.assertEqual((self.folder / 'LINES').read_bytes(), A + B)

    def test_long_files_are_judged_soon(self):
        """A fault near the end of 40,000 lines is found by halving: in seconds, not in hours."""
        lines = [ended(mjd, clock, satellite) for mjd in range(51081, 51111) for clock in starts(mjd)
                 for satellite in ('G%02d' % number for number in range(1, 16))]
        self.assertGreater(len(lines), 40000)
        begun = time.monotonic()
        told = 'it has MJD 51110, start %s, G15, and is the line before it once more' % field(lines[-1], 'STTIME').decode()
        self.refused(16, 'second:%d' % (len(lines) + 1), b''.join(lines), b''.join(lines) + lines[-1], told, advice=IN_ORDER)
        self.assertLess(time.monotonic() - begun, 30)


if __name__ == '__main__':
    unittest.main()
