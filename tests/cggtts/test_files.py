#!/usr/bin/env python3
"""What cggtts leaves behind when it is stopped while it writes, and when its output reaches the disk.

    python3 tests/cggtts/test_files.py
"""
import os
import re
import resource
import signal
import subprocess
import unittest

from test_cggtts import PROGRAM, ROOT, SAMPLE, SAMPLE_LINE, SIGNAL_IN_WRITE, WORKED, WORKED_LINE, Scratch, run

# What is done with files, told on standard error in its order. An error of fsync for a file (i) or a folder (o) may be set.
TOLD = '''
#define _GNU_SOURCE
#include <dlfcn.h>
#include <errno.h>
#include <stdio.h>
#include <stdlib.h>
#include <sys/stat.h>
#include <sys/syscall.h>
#include <unistd.h>
int fsync(int file)
{
    struct stat state;
    fstat(file, &state);
    const char *what = S_ISDIR(state.st_mode) ? "folder" : "file", *failing = getenv("FAILING");
    fprintf(stderr, "fsync %s\\n", what);
    if (failing != NULL && *failing == what[1]) {
        errno = EIO;
        return -1;
    }
    if (getenv("UNKNOWN") != NULL) {
        errno = EINVAL;
        return -1;
    }
    return (int)syscall(SYS_fsync, file);
}
int rename(const char *from, const char *to)
{
    int (*next)(const char *, const char *) = (int (*)(const char *, const char *))dlsym(RTLD_NEXT, "rename");
    fprintf(stderr, "rename\\n");
    return next(from, to);
}
'''
# those that can't be caught, and those that do not end a program
NOT_ENDING = {signal.SIGKILL, signal.SIGSTOP, signal.SIGTSTP, signal.SIGTTIN, signal.SIGTTOU, signal.SIGCHLD, signal.SIGCONT,
              signal.SIGURG, signal.SIGWINCH, signal.SIGXFSZ}


class Files(Scratch):
    def test_every_signal_that_can_be_caught(self):
        """It ends the program after the file is whole, and no other file is left."""
        environment, out = self.shim(SIGNAL_IN_WRITE), self.folder / 'lines'
        ending = [number for number in sorted(signal.valid_signals()) if number not in NOT_ENDING]
        self.assertGreater(len(ending), 50)
        for number in ending:
            chosen = dict(environment, SIGNAL=str(int(number)))
            out.unlink(missing_ok=True)
            self.assertEqual(run('line', '-o', out, SAMPLE, WORKED, env=chosen, preexec_fn=no_core), (-number, b'', ''))
            self.assertEqual(sorted(os.listdir(self.folder)), ['lines', 'shim.so'], number)
            self.assertEqual(out.read_bytes(), SAMPLE_LINE + WORKED_LINE)

    def test_a_limit_on_the_size(self):
        """An error of writing, as a full disk is: the file stays as it was, and no other is left."""
        def small():
            resource.setrlimit(resource.RLIMIT_FSIZE, (100, 100))
        out = self.kept('lines', b'as it was')
        for command in (('line', SAMPLE, WORKED), ('merge', 'examples/first.cggtts', 'examples/second.cggtts'),
                        ('convert', 'examples/first.cggtts')):
            self.assertEqual(run(*command, '-o', out, preexec_fn=small), (2, b'', 'cggtts: %s: File too large\n' % out))
            self.assertEqual(out.read_bytes(), b'as it was')
            with (self.folder / 'other').open('wb') as other:
                self.assertEqual(run(*command, stdout=other, preexec_fn=small)[0], 2)
            (self.folder / 'other').unlink()
            self.assertEqual(os.listdir(self.folder), ['lines'])

    def test_flushed_before_it_takes_its_place(self):
        """The file, then its name, then the folder that has the name."""
        environment, out = self.shim(TOLD), self.folder / 'lines'
        told = 'fsync file\nrename\nfsync folder\n'
        self.assertEqual(run('line', SAMPLE, '-o', out, env=environment), (0, b'', told))
        self.assertEqual(run('line', SAMPLE, '-o', out, env=dict(environment, UNKNOWN='1')), (0, b'', told))
        done = subprocess.run([PROGRAM, 'line', ROOT / SAMPLE, '-o', 'lines'], cwd=self.folder, env=environment, capture_output=True, check=True)
        self.assertEqual(done.stderr.decode(), told)
        self.assertEqual(out.read_bytes(), SAMPLE_LINE)

    def test_a_disk_that_does_not_take_it(self):
        """Nothing takes the place of the old file."""
        environment, out = self.shim(TOLD), self.kept('lines', b'as it was')
        self.assertEqual(run('line', SAMPLE, '-o', out, env=dict(environment, FAILING='i')),
                         (2, b'', 'fsync file\ncggtts: %s: Input/output error\n' % out))
        self.assertEqual(out.read_bytes(), b'as it was')
        self.assertEqual(sorted(os.listdir(self.folder)), ['lines', 'shim.so'])
        self.assertEqual(run('line', SAMPLE, '-o', out, env=dict(environment, FAILING='o')),
                         (2, b'', 'fsync file\nrename\nfsync folder\ncggtts: %s: Input/output error\n' % out))
        self.assertEqual(out.read_bytes(), SAMPLE_LINE)

    def test_the_manual_promises_no_more(self):
        page = re.sub(r'\s+', ' ', (ROOT / 'man' / 'cggtts.1').read_text())
        self.assertIn('A signal that can be caught ends the program before or after that', page)
        self.assertIn('SIGKILL', page)


def no_core():
    """No core file, and every signal as a shell leaves it: what started the tests may have had some ignored."""
    resource.setrlimit(resource.RLIMIT_CORE, (0, 0))
    for number in signal.valid_signals() - {signal.SIGKILL, signal.SIGSTOP}:
        signal.signal(number, signal.SIG_DFL)


if __name__ == '__main__':
    unittest.main()
