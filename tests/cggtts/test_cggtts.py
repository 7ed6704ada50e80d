#!/usr/bin/env python3
"""Runs the program cggtts: its lines, its messages and its exit statuses, byte for byte.

    python3 tests/cggtts/test_cggtts.py

Expected lines and messages are written out by hand; the numbers that a refusal is explained with are those of the blocks
that are made here.
"""
import fractions
import math
import os
import pathlib
import re
import resource
import signal
import stat
import struct
import subprocess
import sys
import unittest

ROOT = pathlib.Path(__file__).resolve().parent.parent.parent
sys.path.insert(0, str(ROOT / 'tests'))
from blocks import CHANGED_LINE, SAMPLE_LINE, SHORT_LINE, WORKED_LINE, block, scattered  # noqa: E402
from papers import field, starts, with_check  # noqa: E402
from scratch import Scratch  # noqa: E402

PROGRAM = os.environ.get('CGGTTS', str(ROOT / 'target' / 'cggtts' / 'cggtts'))
SAMPLE, WORKED, SHORT = 'examples/sample.blk', 'examples/worked.blk', 'examples/short.blk'
CHANGED = 'examples/changed.blk'
MEANINGS = {1: "the block's two sizes are not 15 n and n, n from 4 to 52",
            2: 'a measurement, a correction or a delay is beyond its limit',
            3: 'REFSV or REFSYS has more than ten digits',
            4: 'SRSV or SRSYS has more than five digits, or SMDT or SMDI more than three',
            5: 'MDTR or MDIO is below 0 or has more than four digits',
            6: 'DSG is below 0 or has more than four digits',
            7: 'a label is out of its range, or the track length is not 15 n, n from 4 to 52',
            8: 'no track of that day starts at that second',
            11: 'the block is under 4 bytes or not as long as its sizes make it',
            12: "the line is not 113 to 140 bytes long (version 01: 103 to 128), or a file's last line is under 115",
            13: 'a character is not allowed in its column or line end',
            14: 'CK is not the two capital digits of the sum of the columns before it',
            15: 'two lines have the same MJD, start, letter and satellite, and differ',
            16: 'the lines do not ascend by MJD, start, letter and satellite',
            18: 'no two lines, one of each file, have the same MJD, start, letter, satellite and TRKL',
            19: 'a file is longer than 1150000 bytes, which are 10000 lines',
            25: "the line's letter is not G, and version 01 has GPS alone"}
# each column in 10^10 ps where it makes A and B largest
TOPS = {'geometry': -20, 'relativity': 1, 'ionosphere': -1, 'troposphere': -1, 'clock': 1}
OWN = ' (worked out by cggtts, not by the library)'
ONE_TOO_MANY = "starts: '50723' is one word too many"


def run(*arguments, data=b'', **more):
    more.setdefault('stdout', subprocess.PIPE)
    result = subprocess.run([PROGRAM, *map(str, arguments)], input=data, stderr=subprocess.PIPE, cwd=ROOT, check=False,
                            **more)
    return result.returncode, result.stdout, result.stderr.decode()


def length_told(data):
    """What is said of a block of a wrong length. Of those that are made here, only repeated ones look like two."""
    rows = ['it has %d byte%s' % (len(data), 's'[len(data) == 1:])]
    if len(data) < 4:
        return rows
    measurements, groups = struct.unpack_from('<2H', data)
    over = len(data) - (58 + 160 * groups)
    what = '%d missing' % -over if over < 0 else '%d too many' % over
    return rows + ['its sizes, %d and %d, make %d: %s' % (measurements, groups, 58 + 160 * groups, what)
                   + ', as if another block followed: cggtts day takes several' * (over >= 4 and data[-over:][:4] == data[:4])]


class Use(Scratch):
    def test_help(self):
        status, output, errors = run('--help')
        self.assertEqual((status, errors), (0, ''))
        for words in (b'cggtts line FILE.. [-o OUT]', b'cggtts check FILE..', b'cggtts read [FILE..]', b'cggtts starts MJD | yyyy-mm-dd',
                      b'Exit status: 0 accepted'):
            self.assertIn(words, output)
        status, output, errors = run('line', '--help')
        self.assertEqual((status, errors), (0, ''))
        self.assertIn(b'cggtts line FILE.. [-o OUT]', output)
        self.assertNotIn(b'cggtts check', output)

    def test_version(self):
        version = re.search(r'(?m)^VERSION := (.*)$', (ROOT / 'Makefile').read_text()).group(1)
        self.assertEqual(run('--version'), (0, b'cggtts %s\n' % version.encode(), ''))

    def test_wrong_use(self):
        for arguments, reason in (((), 'a subcommand is missing'), (('burn', 'x'), "no subcommand 'burn'"),
                                  (('-x',), "no subcommand '-x'"), (('line',), 'line: no file'),
                                  (('line', '-x', SAMPLE), "line: no option '-x'"),
                                  (('line', SAMPLE, '--out=x'), "line: no option '--out=x'"),
                                  (('line', SAMPLE, '-o'), 'line: -o without a file'),
                                  (('--version', 'x'), "--version: 'x' is one word too many"),
                                  (('--help', 'line'), "--help: 'line' is one word too many"),
                                  (('line', '-o'), 'line: -o without a file'), (('line', '-o', 'x'), 'line: no file'),
                                  (('check',), 'check: no file'),
                                  (('check', '-o', 'x', SAMPLE), "check: no option '-o'"),
                                  (('check', '--'), 'check: no file'),
                                  (('read', '-o', 'x'), "read: no option '-o'"),
                                  (('starts',), 'starts: no MJD or date'), (('starts', '50722', '50723'), ONE_TOO_MANY),
                                  *((('starts', word), "starts: '%s' is neither an MJD nor a date yyyy-mm-dd" % word)
                                    for word in ('', '-1', '5O722', '50722.5'))):
            self.assertEqual(run(*arguments), (2, b'', 'cggtts: %s; try cggtts --help\n' % reason), arguments)


class Line(Scratch):
    def test_lines(self):
        self.assertEqual(run('line', SAMPLE), (0, SAMPLE_LINE, ''))
        self.assertEqual(run('line', SAMPLE, WORKED, SAMPLE), (0, SAMPLE_LINE + WORKED_LINE + SAMPLE_LINE, ''))
        self.assertEqual(run('line', SHORT, SAMPLE), (0, SHORT_LINE + SAMPLE_LINE, ''))
        self.assertEqual(run('line', CHANGED), (0, CHANGED_LINE, ''))
        self.assertEqual(run('line', '-', data=block()), (0, SAMPLE_LINE, ''))
        self.assertEqual(run('line', WORKED, '-', data=block()), (0, WORKED_LINE + SAMPLE_LINE, ''))
        self.assertEqual(run('line', '--', SAMPLE), (0, SAMPLE_LINE, ''))

    def test_lengths(self):
        for number, data in ((11, b''), (11, b'G'), (11, block()[:8377]), (11, block() + b'\0'), (11, (block() * 12)[:100000]),
                             (11, block(groups=4)[:-1]), (11, bytes(3)), (1, bytes(4)), (1, bytes(8377)), (1, block(groups=3)),
                             (1, block(groups=53))):
            path = self.kept('a.blk', data)
            message = '%s: refused %d: ' + MEANINGS[number] + '\n'
            told = {11: ''.join('  %s\n' % row for row in length_told(data))}.get(number, '')
            self.assertEqual(run('line', path), (1, b'', message % (path, number) + told))
            self.assertEqual(run('line', '-', data=data), (1, b'', message % ('-', number) + told))

    def test_refused_among_others(self):
        path = self.kept('bad.blk', block({'HC': 100}))
        message = '%s: refused 7: %s\n' % (path, MEANINGS[7])
        self.assertEqual(run('line', SAMPLE, path, WORKED), (1, SAMPLE_LINE + WORKED_LINE, message))

    def test_files_that_can_not_be_read(self):
        message = 'cggtts: no/such.blk: No such file or directory\n'
        self.assertEqual(run('line', 'no/such.blk'), (2, b'', message))
        self.assertEqual(run('line', SAMPLE, 'no/such.blk', WORKED), (2, SAMPLE_LINE + WORKED_LINE, message))
        self.assertEqual(run('line', 'docs'), (2, b'', 'cggtts: docs: Is a directory\n'))
        self.assertEqual(run('line', ''), (2, b'', 'cggtts: : No such file or directory\n'))
        path = self.kept('bad.blk', block({'HC': 100}))
        self.assertEqual(run('line', path, 'docs')[0], 2)
        self.assertEqual(run('line', 'docs', path)[0], 2)

    def test_standard_input_is_read_once(self):
        message = 'cggtts: -: standard input can be read only once\n'
        self.assertEqual(run('line', '-', '-', data=block()), (2, SAMPLE_LINE, message))

    def test_closed_input_and_folder_as_input(self):
        closed = subprocess.run(['/bin/sh', '-c', '"$0" line - <&-', PROGRAM], capture_output=True, check=False)
        self.assertEqual((closed.returncode, closed.stdout), (2, b''))
        self.assertEqual(closed.stderr, b'cggtts: -: Bad file descriptor\n')
        folder = subprocess.run(['/bin/sh', '-c', '"$0" line - </', PROGRAM], capture_output=True, check=False)
        self.assertEqual((folder.returncode, folder.stdout, folder.stderr), (2, b'', b'cggtts: -: Is a directory\n'))

    def test_output_that_can_not_be_written(self):
        message = 'cggtts: standard output: No space left on device\n'
        many = [SAMPLE] * 1000
        for arguments in (['line', SAMPLE], ['line', *many], ['check', SAMPLE], ['check', *many], ['--help'],
                          ['starts', '56842'], ['--version'], ['line', '-o', '-', SAMPLE]):
            with open('/dev/full', 'wb') as full:
                self.assertEqual(run(*arguments, stdout=full), (2, None, message), arguments[:2])
        closed = subprocess.run(['/bin/sh', '-c', '"$0" line "$1" >&-', PROGRAM, ROOT / SAMPLE], capture_output=True,
                                check=False)
        self.assertEqual((closed.returncode, closed.stderr), (2, b'cggtts: standard output: Bad file descriptor\n'))


class LineToFile(Scratch):
    def test_lines(self):
        out = self.folder / 'lines'
        self.assertEqual(run('line', '-o', out, SAMPLE, WORKED), (0, b'', ''))
        self.assertEqual(out.read_bytes(), SAMPLE_LINE + WORKED_LINE)
        self.assertEqual(run('line', '-o', out, SAMPLE), (0, b'', ''))
        self.assertEqual(out.read_bytes(), SAMPLE_LINE)
        self.assertEqual(os.listdir(self.folder), ['lines'])
        self.assertEqual(run('line', '-o', '-', SAMPLE), (0, SAMPLE_LINE, ''))

    def test_the_option_may_stand_anywhere(self):
        out = self.folder / 'lines'
        for arguments in ((SAMPLE, WORKED, '-o', out), (SAMPLE, '-o', out, WORKED), (SAMPLE, WORKED, '-o%s' % out),
                          ('-o', out, '--', SAMPLE, WORKED), (SAMPLE, '-o', out, '--', WORKED)):
            self.assertEqual(run('line', *arguments), (0, b'', ''), arguments)
            self.assertEqual(out.read_bytes(), SAMPLE_LINE + WORKED_LINE)
            out.unlink()
        message = 'cggtts: -o: No such file or directory\n'
        self.assertEqual(run('line', '--', SAMPLE, '-o'), (2, SAMPLE_LINE, message))
        self.assertEqual(run('line', SAMPLE, '-o', '-'), (0, SAMPLE_LINE, ''))

    def test_mode(self):
        out = self.folder / 'lines'
        run('line', '-o', out, SAMPLE, umask=0o027)
        self.assertEqual(stat.S_IMODE(out.stat().st_mode), 0o640)
        out.chmod(0o604)
        run('line', '-o', out, SAMPLE)
        self.assertEqual(stat.S_IMODE(out.stat().st_mode), 0o604)

    def test_a_refusal_or_a_failure_writes_nothing(self):
        out = self.kept('lines', b'as it was')
        bad = self.kept('bad.blk', block({'HC': 100}))
        self.assertEqual(run('line', '-o', out, SAMPLE, bad)[:2], (1, b''))
        self.assertEqual(run('line', '-o', out, SAMPLE, 'no/such.blk')[:2], (2, b''))
        self.assertEqual(out.read_bytes(), b'as it was')
        self.assertEqual(sorted(os.listdir(self.folder)), ['bad.blk', 'lines'])

    def test_a_link_is_written_through(self):
        out, link = self.kept('lines', b'as it was'), self.folder / 'link'
        link.symlink_to(out)
        self.assertEqual(run('line', '-o', link, SAMPLE), (0, b'', ''))
        self.assertTrue(link.is_symlink())
        self.assertEqual(out.read_bytes(), SAMPLE_LINE)

    def test_files_that_can_not_be_written(self):
        self.assertEqual(run('line', '-o', 'no/such/folder', SAMPLE),
                         (2, b'', 'cggtts: no/such/folder: No such file or directory\n'))
        self.assertEqual(run('line', '-o', self.folder, SAMPLE), (2, b'', 'cggtts: %s: Is a directory\n' % self.folder))
        self.assertEqual(run('line', '-o', '/dev/full', SAMPLE),
                         (2, b'', 'cggtts: /dev/full: No space left on device\n'))
        self.assertTrue(pathlib.Path('/dev/full').is_char_device())
        self.assertEqual(os.listdir(self.folder), [])

    def test_a_block_is_not_overwritten(self):
        path, link = self.kept('a.blk', block()), self.folder / 'link'
        link.symlink_to('a.blk')
        for out in (path, link):
            told = 'cggtts: line: %s is read, and would be overwritten: name another file; try cggtts --help\n' % out
            self.assertEqual(run('line', '-o', out, path), (2, b'', told))
            self.assertEqual(run('line', SAMPLE, path, '-o', out), (2, b'', told))
            with path.open('rb') as read:
                done = subprocess.run([PROGRAM, 'line', '-', '-o', out], stdin=read, capture_output=True, check=False)
            self.assertEqual((done.returncode, done.stdout, done.stderr.decode()), (2, b'', told))
        self.assertEqual(path.read_bytes(), block())


class StandardOutput(Scratch):
    """What is read is not what is written to, which the shell would have emptied."""

    def test_a_file_that_is_read(self):
        path, link = self.kept('a', WORKED_LINE), self.folder / 'link'
        link.symlink_to('a')
        for command in ('line', 'check', 'read'):
            for files in ([path], [link], [SAMPLE, path], ['--', path]):
                with path.open('ab') as behind:
                    told = 'cggtts: %s: is also standard output\n' % files[-1]
                    self.assertEqual(run(command, *files, stdout=behind), (2, None, told))
            with path.open('rb') as read, path.open('ab') as behind:
                done = subprocess.run([PROGRAM, command, '-'], stdin=read, stdout=behind, stderr=subprocess.PIPE, check=False)
            self.assertEqual((done.returncode, done.stderr), (2, b'cggtts: -: is also standard output\n'))
        with path.open('rb') as read, path.open('ab') as behind:
            done = subprocess.run([PROGRAM, 'read'], stdin=read, stdout=behind, stderr=subprocess.PIPE, check=False)
        self.assertEqual((done.returncode, done.stderr), (2, b'cggtts: -: is also standard output\n'))
        self.assertEqual(path.read_bytes(), WORKED_LINE)

    def test_the_shell_s_own_way(self):
        path = self.kept('a.blk', block())
        done = subprocess.run(['/bin/sh', '-c', '"$0" line "$1" >"$1"', PROGRAM, path], capture_output=True, check=False)
        told = 'cggtts: %s: is also standard output, and is empty now: it has to be fetched again\n' % path
        self.assertEqual((done.returncode, done.stderr.decode()), (2, told))

    def test_devices_are_no_files(self):
        with open('/dev/null', 'r+b') as nothing:
            done = subprocess.run([PROGRAM, 'read', '/dev/null'], stdin=nothing, stdout=nothing, stderr=subprocess.PIPE, check=False)
        self.assertEqual((done.returncode, done.stderr.decode()), (1, '/dev/null:1: refused 12: %s\n  it has 0 bytes\n' % MEANINGS[12]))
        self.assertEqual(run('line', SAMPLE, '-o', '/dev/null'), (0, b'', ''))


# A close that fails, as on a network disk: put before the system's own.
FAILING_CLOSE = '''
#include <errno.h>
int close(int file);
int close(int file)
{
    errno = EIO;
    return -(file > 2);
}
'''


# A signal in the midst of writing: SIGTERM, or the one whose number is in SIGNAL.
SIGNAL_IN_WRITE = '''
#include <signal.h>
#include <stdlib.h>
#include <sys/syscall.h>
#include <unistd.h>
ssize_t write(int file, const void *bytes, size_t count)
{
    static int once;
    if (file > 2 && !once++) {
        count = 50;
        syscall(SYS_write, file, bytes, count);
        const char *number = getenv("SIGNAL");
        kill(getpid(), number == NULL ? SIGTERM : atoi(number));
        return 50;
    }
    return syscall(SYS_write, file, bytes, count);
}
'''


class System(Scratch):
    def test_a_signal_leaves_no_part_behind(self):
        environment, out = self.shim(SIGNAL_IN_WRITE), self.folder / 'lines'
        self.assertEqual(run('line', '-o', out, SAMPLE, WORKED, env=environment), (-signal.SIGTERM, b'', ''))
        self.assertEqual(sorted(os.listdir(self.folder)), ['lines', 'shim.so'])
        self.assertEqual(out.read_bytes(), SAMPLE_LINE + WORKED_LINE)

    def test_a_failed_close_is_noticed(self):
        environment = self.shim(FAILING_CLOSE)
        self.assertEqual(run('line', SAMPLE, env=environment),
                         (2, b'', 'cggtts: examples/sample.blk: Input/output error\n'))
        out = self.kept('lines', b'as it was')
        self.assertEqual(run('line', '-o', out, '-', data=block(), env=environment),
                         (2, b'', 'cggtts: %s: Input/output error\n' % out))
        self.assertEqual(out.read_bytes(), b'as it was')
        self.assertEqual(sorted(os.listdir(self.folder)), ['lines', 'shim.so'])

    def test_an_endless_file_is_given_up(self):
        def little_memory():
            resource.setrlimit(resource.RLIMIT_AS, (200 << 20, 200 << 20))
        self.assertEqual(run('line', '/dev/zero', preexec_fn=little_memory),
                         (2, b'', 'cggtts: /dev/zero: Cannot allocate memory\n'))


class Check(Scratch):
    def explained(self, number, data, *explanations):
        """The block is refused with this number, and these lines say why."""
        wanted = '-: refused %d: %s\n' % (number, MEANINGS[number]) + ''.join('  %s\n' % line for line in explanations)
        status, output, errors = run('check', '-', data=data)
        # where to look in such a block is tested in test_words.py
        told = re.sub(r'(?m)^  (farthest from|no block of 15 seconds stands out).*\n', '', errors) if number in (4, 6) else errors
        self.assertEqual((status, output, told), (1, b'', wanted))

    def test_accepted(self):
        self.assertEqual(run('check', SAMPLE), (0, b'examples/sample.blk: accepted\n', ''))
        self.assertEqual(run('check', SAMPLE, '-', WORKED, data=block()),
                         (0, b'examples/sample.blk: accepted\n-: accepted\nexamples/worked.blk: accepted\n', ''))
        for n in range(4, 53):
            self.assertEqual(run('check', '-', data=block(groups=n)), (0, b'-: accepted\n', ''))

    def test_several_files(self):
        path = self.kept('bad.blk', block({'HC': 100}))
        refusal = '%s: refused 7: %s\n  HC is 100, not 0 to 99\n' % (path, MEANINGS[7])
        accepted = b'examples/sample.blk: accepted\nexamples/worked.blk: accepted\n'
        self.assertEqual(run('check', SAMPLE, path, WORKED), (1, accepted, refusal))
        failure = 'cggtts: no/such.blk: No such file or directory\n'
        self.assertEqual(run('check', 'no/such.blk', SAMPLE, path, WORKED), (2, accepted, failure + refusal))

    def test_messages_stand_in_order(self):
        path = self.kept('bad.blk', block()[:1])
        result = subprocess.run([PROGRAM, 'check', SAMPLE, path, SAMPLE], cwd=ROOT, stdout=subprocess.PIPE,
                                stderr=subprocess.STDOUT, check=False)
        self.assertEqual([text.rsplit(b':')[-1] for text in result.stdout.splitlines()],
                         [b' accepted', b' ' + MEANINGS[11].encode(), b'  it has 1 byte', b' accepted'])

    def test_length(self):
        for length in (0, 1, 2, 3):
            self.explained(11, block()[:length], 'it has %d byte%s' % (length, 's'[length == 1:]))
        following = ', as if another block followed: cggtts day takes several'
        for n, length, what in ((52, 4, '8378: 8374 missing'), (52, 8377, '8378: 1 missing'), (52, 8379, '8378: 1 too many'),
                                (52, 8381, '8378: 3 too many'), (52, 8382, '8378: 4 too many' + following),
                                (52, 100000, '8378: 91622 too many' + following), (4, 697, '698: 1 missing'),
                                (4, 699, '698: 1 too many'), (20, 3257, '3258: 1 missing'),
                                (20, 6516, '3258: 3258 too many' + following), (51, 8378, '8218: 160 too many' + following)):
            self.explained(11, (block(groups=n) * 120)[:length], 'it has %d bytes' % length,
                           'its sizes, %d and %d, make %s' % (15 * n, n, what))
        self.explained(11, block(groups=4) + block(groups=20), 'it has 3956 bytes',
                       'its sizes, 60 and 4, make 698: 3258 too many' + following)
        self.explained(11, block(groups=4) + block(groups=3), 'it has 1236 bytes', 'its sizes, 60 and 4, make 698: 538 too many')
        self.explained(11, block({'measurements size': 60, 'groups size': 4}), 'it has 8378 bytes',
                       'its sizes, 60 and 4, make 698: 7680 too many')

    def test_a_text_that_was_not_packed(self):
        text = (ROOT / 'examples' / 'sample.txt').read_bytes()
        hint = "this may be a text, which 'hireblock pack' packs"
        self.explained(1, text, hint)
        refusal = '-: refused 1: %s\n  %s\n' % (MEANINGS[1], hint)
        self.assertEqual(run('line', '-', data=text), (1, b'', refusal))
        self.explained(11, b'a=5', 'it has 3 bytes', hint)
        self.explained(1, b'a = 5\0', 'the sizes are 8289 and 8253: a track has 4 to 52 groups')

    def test_sizes(self):
        for measurements, groups, what in (
                (779, 52, 'with 52 groups go 780 measurements'), (60, 5, 'with 5 groups go 75 measurements'),
                (0, 4, 'with 4 groups go 60 measurements'), (780, 65535, 'a track has 4 to 52 groups'),
                (45, 3, 'a track has 4 to 52 groups'), (795, 53, 'a track has 4 to 52 groups'),
                (0, 0, 'a track has 4 to 52 groups'), (52, 780, 'they are exchanged'), (4, 60, 'they are exchanged'),
                (3, 45, 'with 45 groups go 675 measurements')):
            for n in (52, 7):
                self.explained(1, block({'measurements size': measurements, 'groups size': groups}, n),
                               'the sizes are %d and %d: %s' % (measurements, groups, what))
        self.explained(1, bytes(8377), 'the sizes are 0 and 0: a track has 4 to 52 groups')

    def test_limits(self):
        self.explained(2, block({'measurement 17': 10 ** 12 + 1}),
                       'measurement 17: 1000000000001 ps is beyond 1000000000000')
        self.explained(2, block({'measurement 0': -2 ** 63}),
                       'measurement 0: -9223372036854775808 ps is beyond -1000000000000')
        self.explained(2, block({'measurement 779': 2 ** 63 - 1}),
                       'measurement 779: 9223372036854775807 ps is beyond 1000000000000')
        for name in ('INT', 'CAB', 'REF', 'GD', 'relativity 0', 'ionosphere 7', 'troposphere 50', 'clock 51'):
            self.explained(2, block({name: 10 ** 10 + 1}), name + ': 10000000001 ps is beyond 10000000000')
            self.explained(2, block({name: -10 ** 10 - 1}), name + ': -10000000001 ps is beyond -10000000000')
        self.explained(2, block({'geometry 3': 2 * 10 ** 11 + 1}), 'geometry 3: 200000000001 ps is beyond 200000000000')

    def test_limits_of_short_tracks(self):
        for n in (4, 51):
            for name, limit in (('measurement %d' % (15 * n - 1), 10 ** 12), ('geometry %d' % (n - 1), 2 * 10 ** 11),
                                ('clock %d' % (n - 1), 10 ** 10), ('relativity 0', 10 ** 10)):
                self.explained(2, block({name: limit + 1}, n), '%s: %d ps is beyond %d' % (name, limit + 1, limit))
            self.explained(2, block(groups=n, measurements=[10 ** 13] * (15 * n)),
                           'measurement 0: 10000000000000 ps is beyond 1000000000000', 'and %d more' % (15 * n - 1))

    def test_figures_of_short_tracks(self):
        midpoints, wide = ', not -9999999999 to 9999999999' + OWN, ', not -99999 to 99999' + OWN
        for n in range(4, 53):
            self.explained(3, block(groups=n, measurements=[10 ** 12] * (15 * n), clock=[-51] * n),
                           'REFSV is 10000000000' + midpoints)
            self.explained(4, block(groups=n, clock=[-150000 * j for j in range(n)]), 'SRSYS is -100000' + wide)
            self.explained(4, block(groups=n, troposphere=[1500 * j for j in range(n)]),
                           'SMDT is 1000, not -999 to 999' + OWN)
            self.explained(5, block(groups=n, ionosphere=[999950] * n), 'MDIO is 10000, not 0 to 9999' + OWN)
        for n in range(4, 53, 4):
            self.explained(6, block(groups=n, clock=scattered(1234567, n)), 'DSG is about 12346, not 0 to 9999' + OWN)

    def test_first_of_several_beyond_their_limits(self):
        faults = {'clock 4': 10 ** 11, 'geometry 5': 10 ** 12, 'measurement 700': -10 ** 13}
        self.explained(2, block(faults), 'measurement 700: -10000000000000 ps is beyond -1000000000000', 'and 2 more')
        self.explained(2, block({**faults, 'GD': 10 ** 11}), 'GD: 100000000000 ps is beyond 10000000000', 'and 3 more')
        del faults['measurement 700']
        self.explained(2, block(faults), 'clock 4: 100000000000 ps is beyond 10000000000', 'and 1 more')

    def test_midpoints(self):
        limits = ', not -9999999999 to 9999999999' + OWN
        self.explained(3, block(measurements=[10 ** 12] * 780), 'REFSV is 10000000000' + limits,
                       'REFSYS is 10000000000' + limits)
        self.explained(3, block(measurements=[-10 ** 12] * 780, clock=[51] * 52), 'REFSV is -10000000000' + limits)
        self.explained(3, block(measurements=[999999999949] * 780, clock=[1] * 52), 'REFSYS is 10000000000' + limits)
        # 1000 - (INT + CAB - REF) - geometry + relativity - ionosphere - troposphere - GD, in all 1100000000000 ps
        delays = {'INT': -10 ** 10, 'CAB': -2 * 10 ** 9, 'REF': 3 * 10 ** 9, 'GD': -10 ** 9}
        self.explained(3, block(delays, measurements=[10 ** 12] * 780, geometry=[-8 * 10 ** 10] * 52,
                                relativity=[10 ** 9] * 52, ionosphere=[-2 * 10 ** 9] * 52,
                                troposphere=[-10 ** 9] * 52, clock=[-10 ** 10] * 52),
                       'REFSV is 11000000000' + limits, 'REFSYS is 10900000000' + limits)

    def test_slopes(self):
        wide, narrow = ', not -99999 to 99999' + OWN, ', not -999 to 999' + OWN
        self.explained(4, block(measurements=[10000 * t for t in range(780)]), 'SRSV is 100000' + wide,
                       'SRSYS is 100000' + wide)
        self.explained(4, block(clock=[-150000 * j for j in range(52)]), 'SRSYS is -100000' + wide)
        self.explained(4, block(troposphere=[1500 * j for j in range(52)]), 'SMDT is 1000' + narrow)
        self.explained(4, block(ionosphere=[76500 - 1500 * j for j in range(52)]), 'SMDI is -1000' + narrow)

    def test_delays(self):
        limits = ', not 0 to 9999' + OWN
        self.explained(5, block(troposphere=[-51] * 52), 'MDTR is -1' + limits)
        self.explained(5, block(ionosphere=[999950] * 52), 'MDIO is 10000' + limits)
        self.explained(5, block(troposphere=[-10000] * 52, ionosphere=[-20000] * 52), 'MDTR is -100' + limits,
                       'MDIO is -200' + limits)

    def test_scatter(self):
        self.explained(6, block(clock=scattered(999950)), 'DSG is about 10000, not 0 to 9999' + OWN)
        self.explained(6, block(clock=scattered(1234567)), 'DSG is about 12346, not 0 to 9999' + OWN)
        self.explained(6, block(clock=scattered(2 ** 32)), 'DSG is about 42949673, not 0 to 9999' + OWN)

    def test_midpoints_of_the_largest_values(self):
        """Each measurement and each correction at the limit that makes A and B largest. A block smooths to 1469 / 1105 of 10^12 ps,
        13294117647059 tenths; 27 x 10^10 ps of corrections make A 15994117647059, and the clock makes B 16094117647059."""
        limits = ', not -9999999999 to 9999999999' + OWN
        for n in range(4, 53):
            for sign in (1, -1):
                top = sign * 10 ** 10
                columns = {name: [times * top] * n for name, times in TOPS.items()}
                delays = {'INT': -top, 'CAB': -top, 'REF': top, 'GD': -top}
                self.explained(3, block(delays, n, measurements=[100 * top * (1 - 2 * (i % 15 in (0, 1, 13, 14)))
                                                                 for i in range(15 * n)], **columns),
                               'REFSV is %d' % (sign * 15994117647) + limits, 'REFSYS is %d' % (sign * 16094117647) + limits)

    def test_slopes_of_the_largest_values(self):
        """The same by the side of the mean date, without delays: A is 15594117647059 and B 15694117647059 tenths behind it, C and D
        -10^11, and the sum of the places' sizes is n^2 / 2, rounded down: S is 0 and T that much times the value."""
        for n in range(4, 53):
            side = [(2 * j > n - 1) - (2 * j < n - 1) for j in range(n)]
            columns = {name: [times * 10 ** 10 * side[j] for j in range(n)] for name, times in TOPS.items()}
            measurements = [10 ** 12 * side[i // 15] * (1 - 2 * (i % 15 in (0, 1, 13, 14))) for i in range(15 * n)]
            told = []
            for name, value, limit in (('SRSV', 15594117647059, 99999), ('SRSYS', 15694117647059, 99999),
                                       ('SMDT', -10 ** 11, 999), ('SMDI', -10 ** 11, 999)):
                slope = math.floor(fractions.Fraction(4 * (n * n // 2) * value, 10 * n * (n * n - 1)) + fractions.Fraction(1, 2))
                told.append('%s is %d, not -%d to %d' % (name, slope, limit, limit) + OWN)
            self.explained(4, block(groups=n, measurements=measurements, **columns), *told)

    def test_scatter_of_the_largest_values(self):
        """10^12 ps and its opposite in turns; and about half as much, with the midpoint and the sum far from 0."""
        for n in range(4, 53, 4):
            for wave, dsg in ([10 ** 12, -10 ** 12, -10 ** 12, 10 ** 12], 10 ** 10), ([10 ** 12, 0, 0, 10 ** 12], 5 * 10 ** 9):
                for sign in (1, -1):
                    self.explained(6, block(groups=n, measurements=[sign * wave[i // 15 % 4] for i in range(15 * n)]),
                                   'DSG is about %d, not 0 to 9999' % dsg + OWN)

    def test_figures_in_tenths(self):
        """A ps in the middle of a block is 167 / 1105 ps, and a tenth decides: 999950 - 0.4 ps are no 10000 of 0.1 ns."""
        def levels(*blocks):
            return [level + more * (i == 7) for level, more in blocks for i in range(15)]

        limits = ', not -9999999999 to 9999999999' + OWN
        for n in range(4, 53):
            # smoothed to 999999999949.6 ps, in whole ps to a tie
            accepted = run('line', '-', data=block(groups=n, measurements=levels(*[(999999999949, 4)] * n)))
            self.assertEqual((accepted[0], field(accepted[1], 'REFSV'), accepted[2]), (0, b'+9999999999', ''))
        # three times 999999999949.5 ps and once 999999999952 ps: 1000.5 ps above four times 999999999700 ps; 999 in whole ps
        self.explained(3, block(groups=4, measurements=levels(*[(999999999949, 3)] * 3, (999999999952, 0))),
                       'REFSV is 10000000000' + limits, 'REFSYS is 10000000000' + limits)

    def test_labels(self):
        for part, value, explanation in (
                ('constellation', ord('S'), 'constellation is S, not G, R, E, C or J'),
                ('constellation', 0, r'constellation is \x00, not G, R, E, C or J'),
                ('constellation', ord(' '), r'constellation is \x20, not G, R, E, C or J'),
                ('satellite', 0, 'satellite is 0, not 1 to 99'), ('satellite', 100, 'satellite is 100, not 1 to 99'),
                ('FR', 1, 'FR is 1, not 0 for G'), ('HC', 100, 'HC is 100, not 0 to 99'),
                ('FRC 0', ord('l'), 'FRC is l1C, not three of A to Z and 0 to 9'),
                ('FRC 1', ord('/'), 'FRC is L/C, not three of A to Z and 0 to 9'),
                ('FRC 2', 255, r'FRC is L1\xFF, not three of A to Z and 0 to 9'),
                ('FRC 2', ord('\\'), r'FRC is L1\x5C, not three of A to Z and 0 to 9'),
                ('MJD', 50721, 'MJD is 50721, not 50722 to 99999'),
                ('MJD', 2 ** 32 - 1, 'MJD is 4294967295, not 50722 to 99999'),
                ('ELV', 901, 'ELV is 901, not 0 to 900'), ('AZTH', 3600, 'AZTH is 3600, not 0 to 3599'),
                ('IOE', 256, 'IOE is 256, not 0 to 255 for G')):
            self.explained(7, block({part: value}), explanation)

    def test_labels_by_the_constellation(self):
        for letter, ioe, fr, explanation in (
                ('J', 256, 0, 'IOE is 256, not 0 to 255 for J'), ('E', 1000, 0, 'IOE is 1000, not 0 to 999 for E'),
                ('C', 24, 0, 'IOE is 24, not 0 to 23 for C'), ('R', 0, 24, 'IOE is 0, not 1 to 96 for R'),
                ('R', 97, 1, 'IOE is 97, not 1 to 96 for R'), ('R', 1, 0, 'FR is 0, not 1 to 24 for R'),
                ('R', 96, 25, 'FR is 25, not 1 to 24 for R'), ('J', 0, 24, 'FR is 24, not 0 for J'),
                ('E', 999, 1, 'FR is 1, not 0 for E'), ('C', 23, 255, 'FR is 255, not 0 for C')):
            self.explained(7, block({'constellation': ord(letter), 'IOE': ioe, 'FR': fr}), explanation)

    def test_ranges_are_those_of_the_library(self):
        """The last values within each range are accepted, so the messages' ranges are not too wide."""
        for letter, ioe, fr in (('G', 255, 0), ('G', 0, 0), ('J', 255, 0), ('E', 999, 0), ('C', 23, 0), ('R', 1, 1),
                                ('R', 96, 24)):
            self.assertEqual(run('check', '-', data=block({'constellation': ord(letter), 'IOE': ioe, 'FR': fr}))[0], 0)
        for part, value in (('satellite', 1), ('satellite', 99), ('HC', 99), ('ELV', 900), ('ELV', 0), ('AZTH', 3599),
                            ('FRC 0', ord('A')), ('FRC 1', ord('Z')), ('FRC 2', ord('9')), ('CL', 0)):
            self.assertEqual(run('check', '-', data=block({part: value}))[0], 0)
        self.assertEqual(run('check', '-', data=block({'MJD': 99999, 'start': 600}))[0], 0)

    def test_all_labels_are_named(self):
        self.explained(7, block({'constellation': ord('x'), 'FRC 0': 0, 'satellite': 0, 'HC': 255, 'MJD': 0, 'ELV': 65535,
                                 'AZTH': 65535, 'IOE': 65535, 'FR': 255}),
                       'constellation is x, not G, R, E, C or J', r'FRC is \x001C, not three of A to Z and 0 to 9',
                       'satellite is 0, not 1 to 99', 'HC is 255, not 0 to 99', 'MJD is 0, not 50722 to 99999',
                       'ELV is 65535, not 0 to 900', 'AZTH is 65535, not 0 to 3599')

    def test_starts(self):
        nearest = 'nearest starts of MJD 50722: before it %s, after it %s'
        first, second, last = '120 (00:02:00)', '1080 (00:18:00)', '84600 (23:30:00)'
        self.explained(8, block({'start': 121}), 'start is 121 (00:02:01)', nearest % (first, second))
        self.explained(8, block({'start': 1079}), 'start is 1079 (00:17:59)', nearest % (first, second))
        self.explained(8, block({'start': 0}), 'start is 0 (00:00:00)', nearest % ('none', first))
        self.explained(8, block({'start': 85560}), 'start is 85560 (23:46:00)', nearest % (last, 'none'))
        self.explained(8, block({'start': 86399}), 'start is 86399 (23:59:59)', nearest % (last, 'none'))
        for far in (86400, 2 ** 32 - 1):
            self.explained(8, block({'start': far}), 'start is %d, and a day has 86400 seconds' % far,
                           nearest % (last, 'none'))
        # the gap of that day
        self.explained(8, block({'MJD': 50723, 'start': 86280}), 'start is 86280 (23:58:00)',
                       'nearest starts of MJD 50723: before it 86040 (23:54:00), after it none')
        self.explained(8, block({'MJD': 50723, 'start': 85320}), 'start is 85320 (23:42:00)',
                       'nearest starts of MJD 50723: before it 84360 (23:26:00), after it 86040 (23:54:00)')


class Starts(unittest.TestCase):
    def test_by_the_rule(self):
        """All dates until the starts come again, and a date of every 997."""
        for mjd in (*range(50722, 50722 + 360), *range(50722, 100000, 997), 99998, 99999):
            self.assertEqual(run('starts', mjd), (0, ''.join(start + '\n' for start in starts(mjd)).encode(), ''), mjd)

    def test_by_hand(self):
        self.assertTrue(run('starts', 50722)[1].startswith(b'000200\n001800\n003400\n'))
        self.assertTrue(run('starts', 50723)[1].endswith(b'232600\n235400\n'))
        self.assertEqual(run('starts', '0050722'), run('starts', 50722))

    def test_beside_a_published_file(self):
        """The starts that documents 003 and 000 print are the first of their dates."""
        rows = (ROOT / 'tests' / 'published' / 'published.txt').read_text().splitlines()
        for document, mjd, count in (('003.', 56842, 4), ('000.', 57000, 1)):
            published = {row.split()[4] for row in rows if row.startswith(document)}
            self.assertEqual(run('starts', mjd)[1].decode().split()[:count], sorted(published))
        self.assertTrue(run('starts', 56842)[1].startswith(b'001400\n003000\n004600\n'))

    def test_dates_out_of_range(self):
        for mjd in ('0', '50721', '100000', '4294967295', '4294967296', '4294968018', '99999999999999999999999'):
            refusal = '%s: refused 7: %s\n  MJD is %s, not 50722 to 99999\n' % (mjd, MEANINGS[7], mjd)
            self.assertEqual(run('starts', mjd), (1, b'', refusal))


SAMPLE_COLUMNS, WORKED_COLUMNS = SAMPLE_LINE.decode()[:111], WORKED_LINE.decode()[:111]
WORKED_SHOWN = '''\
  constellation  GPS                    G
  satellite      17                     17
  CL             FF                     FF
  MJD            60600, 2024-10-17      60600
  start          13:30:00, second 48600 133000
  TRKL           780 s                  0780
  ELV            58.3 degrees           583
  AZTH           214.5 degrees          2145
  REFSV          123343.1 ns            +0001233431
  SRSV           0.9 ps/s               +00009
  REFSYS         -31.5 ns               -0000000315
  SRSYS          -4.1 ps/s              -00041
  DSG            0.3 ns                 0003
  IOE            87                     087
  MDTR           9.7 ns                 0097
  SMDT           0.5 ps/s               +005
  MDIO           20.2 ns                0202
  SMDI           -2.1 ps/s              -021
  FR             0                      00
  HC             5                      05
  FRC            L1C
  CK             8C
'''


def line_with(changes=(), columns=SAMPLE_COLUMNS):
    """A line with other texts from their columns on, and the CK of that, worked out here."""
    for column, text in changes:
        columns = columns[:column - 1] + text + columns[column - 1 + len(text):]
    return with_check(columns)


class Read(Scratch):
    def shown(self, line, *rows):
        """The line is accepted, and these rows stand among what is shown of it."""
        status, output, errors = run('read', data=line.encode('latin-1'))
        self.assertEqual((status, errors), (0, ''))
        for row in rows:
            self.assertIn(row, output.decode().splitlines())

    def refused(self, number, line, *explanations):
        wanted = '-:1: refused %d: %s\n' % (number, MEANINGS[number]) + ''.join('  %s\n' % text for text in explanations)
        self.assertEqual(run('read', data=line.encode('latin-1')), (1, b'', wanted))

    def test_a_line(self):
        shown = WORKED_SHOWN.encode()
        line = WORKED_LINE[:113]
        for end in (b'', b'\n', b'\r\n'):
            self.assertEqual(run('read', data=line + end), (0, b'-:1\n' + shown, ''))
            self.assertEqual(run('read', '-', data=line + end), (0, b'-:1\n' + shown, ''))
        path = self.kept('day', line)
        self.assertEqual(run('read', path), (0, b'%s:1\n' % str(path).encode() + shown, ''))
        self.assertEqual(run('read', data=line + b' L3B 100 %s ~\r\n'),
                         (0, b'-:1\n' + shown + b'  comment        " L3B 100 %s ~"\n', ''))

    def test_lines_of_files(self):
        day = self.kept('day', WORKED_LINE + b'G05\r\n\r\n' + SAMPLE_LINE[:113] + b'\n' + WORKED_LINE)
        status, output, errors = run('read', day, '-', data=WORKED_LINE)
        self.assertEqual(status, 1)
        self.assertEqual(re.findall(rb'(?m)^(\S+):(\d+)$', output),
                         [(str(day).encode(), b'1'), (str(day).encode(), b'4'), (str(day).encode(), b'5'), (b'-', b'1')])
        self.assertEqual(output.count(b'\n\n'), 3)
        self.assertTrue(output.endswith(b'\n\n-:1\n' + WORKED_SHOWN.encode()))
        self.assertEqual(errors, ''.join('%s:%d: refused 12: %s\n  it has %d bytes\n' % (day, number, MEANINGS[12], length)
                                         for number, length in ((2, 3), (3, 0))))

    def test_values(self):
        self.shown(line_with([(47, '-00005'), (66, '-99999'), (87, '-001'), (97, '+999')]),
                   '  SRSV           -0.5 ps/s              -00005', '  SRSYS          -9999.9 ps/s           -99999',
                   '  SMDT           -0.1 ps/s              -001', '  SMDI           99.9 ps/s              +999')
        self.shown(line_with([(35, '-9999999999'), (54, '+9999999999'), (82, '9999'), (92, '0007'), (73, '9999')]),
                   '  REFSV          -999999999.9 ns        -9999999999', '  REFSYS         999999999.9 ns         +9999999999',
                   '  MDTR           999.9 ns               9999', '  MDIO           0.7 ns                 0007',
                   '  DSG            999.9 ns               9999')
        self.shown(line_with([(5, '0A'), (26, '900'), (30, '3599'), (105, '99'), (108, '0Z9')]),
                   '  CL             0A                     0A', '  ELV            90.0 degrees           900',
                   '  AZTH           359.9 degrees          3599', '  HC             99                     99',
                   '  FRC            0Z9')
        self.shown(line_with([(8, '50723'), (14, '235400')]), '  start          23:54:00, second 86040 235400')

    def test_constellations(self):
        for letter, name in (('G', 'GPS'), ('E', 'Galileo'), ('C', 'BeiDou'), ('J', 'QZSS')):
            self.shown(line_with([(1, letter)]), '  constellation  %-22s %s' % (name, letter))
        self.shown(line_with([(1, 'R99'), (102, '24')]), '  constellation  GLONASS                R',
                   '  satellite      99                     99', '  FR             24                     24')

    def test_length(self):
        for length in (0, 1, 112, 141, 8378):
            self.refused(12, (line_with() + 'x' * 8378)[:length], 'it has %d byte%s' % (length, 's'[length == 1:]))

    def test_check(self):
        told = 'CK, columns 112 and 113, is "%s", and the columns before it give %s'
        self.refused(14, SAMPLE_COLUMNS + '27', told % ('27', '26'))
        self.refused(14, SAMPLE_COLUMNS + '\0\\', told % (r'\x00\x5C', '26'))
        self.refused(14, WORKED_COLUMNS + '8c', told % ('8c', '8C'))
        self.refused(14, SAMPLE_COLUMNS + ' 6', told % (' 6', '26'))

    def test_characters(self):
        for column, byte, what in (
                (1, 'S', '(constellation) is S, not G, R, E, C or J'), (2, ' ', '(satellite) is a blank, not a digit'),
                (4, '-', '(before CL) is -, not a blank'),
                (5, 'f', '(CL) is f, not a digit or a capital letter A to F'),
                (12, '\0', r'(MJD) is \x00, not a digit'), (35, '0', '(REFSV) is 0, not a sign'),
                (72, '\t', '(before DSG) is a tab, not a blank'), (100, '\xff', r'(SMDI) is \xFF, not a digit'),
                (110, 'c', '(FRC) is c, not a capital letter or a digit'), (111, '0', '(before CK) is 0, not a blank')):
            self.refused(13, line_with([(column, byte)]), 'column %d %s' % (column, what))
        self.refused(13, line_with([(90, 'x'), (24, '1'), (60, ' ')]) + '\7', 'column 60 (REFSYS) is a blank, not a digit')
        self.refused(13, line_with() + 'note\x7f', r'column 118 (comment) is \x7F, not a byte from 20 to 7E')
        self.refused(13, line_with([(47, '-')]) + '\x7f', 'column 47 (SRSV) is a minus before a zero, which has a plus')
        self.refused(13, line_with() + '\r', 'column 114 (comment) is a carriage return, not a byte from 20 to 7E')

    def test_a_minus_before_a_zero(self):
        for column, name in ((47, 'SRSV'), (66, 'SRSYS'), (87, 'SMDT'), (97, 'SMDI')):
            self.refused(13, line_with([(column, '-')]), 'column %d (%s) is a minus before a zero, which has a plus' % (column, name))
        self.refused(13, line_with([(35, '-0000000000'), (54, '-0000000000')]),
                     'column 35 (REFSV) is a minus before a zero, which has a plus')
        self.refused(13, line_with([(54, '-0000000000'), (21, '0781')]),
                     'column 54 (REFSYS) is a minus before a zero, which has a plus')

    def test_track_length(self):
        for n in range(4, 53):
            self.shown(line_with([(21, '%04d' % (15 * n))]), '  TRKL           %-22s %04d' % ('%d s' % (15 * n), 15 * n))
        for seconds in (0, 1, 15, 45, 59, 61, 301, 779, 781, 790, 795, 9999):
            self.refused(7, line_with([(21, '%04d' % seconds)]), 'TRKL is %d s, not a multiple of 15 from 60 to 780' % seconds)
        self.refused(7, line_with([(21, '0781'), (2, '00')]), 'satellite is 0, not 1 to 99',
                     'TRKL is 781 s, not a multiple of 15 from 60 to 780')
        self.refused(13, line_with([(21, ' 300')]), 'column 21 (TRKL) is a blank, not a digit')
        self.refused(13, line_with([(21, '+780')]), 'column 21 (TRKL) is +, not a digit')

    def test_labels(self):
        self.refused(7, line_with([(2, '00'), (78, '256'), (102, '01'), (26, '901'), (30, '3600'), (8, '50721')]),
                     'FR is 1, not 0 for G', 'IOE is 256, not 0 to 255 for G', 'satellite is 0, not 1 to 99',
                     'MJD is 50721, not 50722 to 99999', 'ELV is 901, not 0 to 900', 'AZTH is 3600, not 0 to 3599')
        self.refused(7, line_with([(1, 'R')]), 'FR is 0, not 1 to 24 for R')

    def test_starts(self):
        self.refused(8, line_with([(14, '000201')]), 'start is 121 (00:02:01)',
                     'nearest starts of MJD 50722: before it 120 (00:02:00), after it 1080 (00:18:00)')
        for text, columns, part, value, most in (('240200', '14 and 15', 'hour', 24, 23), ('006200', '16 and 17', 'minute', 62, 59),
                                                 ('000160', '18 and 19', 'second', 60, 59), ('999999', '14 and 15', 'hour', 99, 23)):
            self.refused(8, line_with([(14, text)]),
                         'columns %s, the %s of the start, are %d, not 00 to %d' % (columns, part, value, most))

    def test_files_that_can_not_be_read_or_written(self):
        message = 'cggtts: no/such.line: No such file or directory\n'
        self.assertEqual(run('read', 'no/such.line'), (2, b'', message))
        status, output, errors = run('read', 'no/such.line', '-', data=WORKED_LINE)
        self.assertEqual((status, output, errors), (2, b'-:1\n' + WORKED_SHOWN.encode(), message))
        self.assertEqual(run('read', '-', '-', data=WORKED_LINE)[::2], (2, 'cggtts: -: standard input can be read only once\n'))
        with open('/dev/full', 'wb') as full:
            self.assertEqual(run('read', data=WORKED_LINE, stdout=full),
                             (2, None, 'cggtts: standard output: No space left on device\n'))

    def test_what_line_prints_is_read(self):
        lines = run('line', SAMPLE, SHORT, WORKED)[1]
        status, output, errors = run('read', data=lines)
        self.assertEqual((status, errors), (0, ''))
        self.assertIn(b'\n  TRKL           300 s                  0300\n', output)
        self.assertTrue(output.endswith(b'-:3\n' + WORKED_SHOWN.encode()))


if __name__ == '__main__':
    unittest.main()
