#!/usr/bin/env python3
"""Runs the program bench as it is built: when it reads, how much, and what it does with what it can not write.

    python3 tests/bench/test_bench.py

Its rows are compared with crates/bench/stdout when it is proved; here it is seen that it tries each record as it comes,
ends on an input without an end, and needs little memory. The rows are those of tests/published/bench.py.
"""
import fcntl
import os
import pathlib
import resource
import select
import struct
import subprocess
import sys
import tempfile
import termios
import time
import unittest

ROOT = pathlib.Path(__file__).resolve().parent.parent.parent
sys.path[:0] = [str(ROOT / 'tests' / 'published'), str(ROOT / 'tests')]
from bench import FILL, SAMPLE, TECHNICIAN, record, rows  # noqa: E402

PROGRAM = os.environ.get('BENCH', str(ROOT / 'target' / 'bin' / 'bench'))
MEMORY = 64 << 20
SECONDS = 20
RECORD = 240
MOST = 1000
DOCUMENT_ROWS = ''.join(rows(*case) for case in TECHNICIAN).encode()


def of(name):
    """A record whose line is the sample line."""
    return record(name, SAMPLE, 0)


def said(name):
    return rows('line', name, SAMPLE).encode()


def count(records, wrong):
    return b'%d cases, %d wrong\n' % (len(TECHNICIAN) + records, wrong)


def limited():
    resource.setrlimit(resource.RLIMIT_AS, (MEMORY, MEMORY))


def started(stdin=subprocess.PIPE, stdout=subprocess.PIPE):
    return subprocess.Popen([PROGRAM], stdin=stdin, stdout=stdout, stderr=subprocess.STDOUT, preexec_fn=limited)


def printed(data):
    """What is printed of an input, and how much of it was read."""
    with tempfile.TemporaryFile() as file:
        file.write(data)
        file.seek(0)
        with started(stdin=file) as process:
            out = process.communicate(timeout=SECONDS)[0]
        assert process.returncode == 0, process.returncode
        return out, os.lseek(file.fileno(), 0, os.SEEK_CUR)


def received(process, size):
    """So many bytes of what is printed, while the program runs."""
    out = b''
    while len(out) < size and select.select([process.stdout], [], [], SECONDS)[0]:
        more = os.read(process.stdout.fileno(), size - len(out))
        if not more:
            break
        out += more
    return out


def given(process, piece):
    """Gives it a piece of its input, and waits until that is read."""
    process.stdin.write(piece)
    process.stdin.flush()
    end = time.monotonic() + SECONDS
    while struct.unpack('i', fcntl.ioctl(process.stdin, termios.FIONREAD, bytes(4)))[0] > 0:
        assert time.monotonic() < end, 'a piece is not read'
        time.sleep(0.01)


class Bench(unittest.TestCase):
    def test_records(self):
        for names in ((), ('one',), ('one', 'two', 'a name of 24 characters.')):
            self.assertEqual(printed(b''.join(map(of, names)))[0],
                             DOCUMENT_ROWS + b''.join(map(said, names)) + count(len(names), 0))

    def test_wrong_records(self):
        name = b'line     wrong'.ljust(34)
        # the line is refused; it is written, and another than it should be; it should be refused
        self.assertEqual(printed(record('wrong', SAMPLE.replace('G05', 'G00'), 0))[0],
                         DOCUMENT_ROWS + name + b'refused 7\n' + b'should be '.rjust(34)
                         + SAMPLE.replace('G05', 'G00').encode() + b'   WRONG\n' + count(1, 1))
        other = SAMPLE.replace('C 26', 'C 27').encode()
        self.assertEqual(printed(of('wrong')[:-113] + other)[0],
                         DOCUMENT_ROWS + name + SAMPLE.encode() + b'\n' + b'should be '.rjust(34) + other + b'   WRONG\n' + count(1, 1))
        for answer in (9, 255):
            self.assertEqual(printed(record('wrong', SAMPLE, answer))[0],
                             DOCUMENT_ROWS + name + b'written'.ljust(28) + b'should be refused %d, the lent line kept   WRONG\n' % answer
                             + count(1, 1))

    def test_cut_record(self):
        cut = b'line     a record is cut off         WRONG\n'
        for size in (1, 24, 126, 127, RECORD - 1):
            self.assertEqual(printed(of('cut')[:size])[0], DOCUMENT_ROWS + cut + count(1, 1))
            self.assertEqual(printed(of('whole') + of('cut')[:size])[0], DOCUMENT_ROWS + said('whole') + cut + count(2, 1))

    def test_most_records(self):
        """No byte behind the thousandth record is read."""
        for records in (MOST - 1, MOST, MOST + 1):
            names = ['record %d' % i for i in range(records)]
            tried = min(records, MOST)
            out, read = printed(b''.join(map(of, names)))
            self.assertEqual(out, DOCUMENT_ROWS + b''.join(map(said, names[:MOST])) + count(tried, 0))
            self.assertEqual(read, tried * RECORD)
        self.assertTrue(printed(of('one of many') * MOST + FILL)[0].endswith(said('one of many') + count(MOST, 0)))

    def test_input_without_an_end(self):
        """It ends, and has taken its thousand records and what a pipe holds, and not all that it was given."""
        taken = 0
        with tempfile.TemporaryFile() as out:
            with started(stdout=out) as process:
                try:
                    while taken < 16 << 20:
                        taken += os.write(process.stdin.fileno(), bytes(RECORD))
                except BrokenPipeError:
                    pass
                process.stdin.close()
                self.assertEqual(process.wait(SECONDS), 0)
            out.seek(0)
            self.assertTrue(out.read().endswith(count(MOST, MOST)))
        self.assertLess(taken, 4 << 20)

    def test_each_as_it_comes(self):
        """The documents' cases are printed before anything is read, and a record's before the next."""
        with started() as process:
            self.assertEqual(received(process, len(DOCUMENT_ROWS)), DOCUMENT_ROWS)
            for name in ('first', 'second'):
                # a read may give less than is asked for
                for piece in (of(name)[:1], of(name)[1:100], of(name)[100:]):
                    given(process, piece)
                self.assertEqual(received(process, len(said(name))), said(name))
            self.assertEqual(process.communicate(timeout=SECONDS)[0], count(2, 0))

    def test_failed_writes(self):
        """They go unnoticed, and the rows behind them are written all the same."""
        with open('/dev/full', 'wb') as full, started(stdout=full) as process:
            process.communicate(of('not seen'), timeout=SECONDS)
            self.assertEqual(process.returncode, 0)
        reader, writer = os.pipe()
        os.set_blocking(writer, False)
        filled = 0
        for size in (4096, 1):
            try:
                while True:
                    filled += os.write(writer, bytes(size))
            except BlockingIOError:
                pass
        with os.fdopen(reader, 'rb', 0) as out, started(stdout=writer) as process:
            os.close(writer)
            # once a part of a record is read, all rows of the documents' cases have met the full pipe
            given(process, of('behind them')[:100])
            while filled > 0:
                filled -= len(out.read(filled))
            process.stdin.write(of('behind them')[100:])
            process.stdin.close()
            self.assertEqual(out.read(), said('behind them') + count(1, 0))
            self.assertEqual(process.wait(SECONDS), 0)

    def test_failed_read(self):
        """It counts as the end of the input."""
        folder = os.open('/', os.O_RDONLY)
        with started(stdin=folder) as process:
            os.close(folder)
            self.assertEqual(process.communicate(timeout=SECONDS)[0], DOCUMENT_ROWS + count(0, 0))
            self.assertEqual(process.returncode, 0)


if __name__ == '__main__':
    unittest.main()
