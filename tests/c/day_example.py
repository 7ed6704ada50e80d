#!/usr/bin/env python3
"""Runs the example examples/day.c: the lines that it writes, and its refusals, written out by hand.

    python3 tests/c/day_example.py target/day_example

The lines are those of the example day, which tools/day works out. The program's own thread is given too little stack for
trackline_day, as is any thread that is made without a size: what is accepted or refused shows that the call had enough.
"""
import pathlib
import resource
import subprocess
import sys
import tempfile

ROOT = pathlib.Path(__file__).resolve().parents[2]
sys.path.insert(0, str(ROOT / 'tests'))
from blocks import LENGTH  # noqa: E402

EXAMPLES = ROOT / 'examples'
LITTLE = 512 * 1024
USAGE = 'usage: day BLOCKS, a file of hire blocks that can be read\n'
DAY, LINES = (EXAMPLES / 'oneday.blk').read_bytes(), (EXAMPLES / 'oneday.cggtts').read_bytes()
WORKED = (EXAMPLES / 'worked.blk').read_bytes()
# the first measurement, 10^12 + 1 ps
BEYOND = WORKED[:58] + (10 ** 12 + 1).to_bytes(8, 'little') + WORKED[66:]
# what is in the file, and the status, the lines and the words that it makes
FILES = (
    (DAY, 0, LINES, ''),
    (b'', 0, b'', ''),
    (DAY[:-1], 1, b'', "block 7, counted from 0: refused 11: the block is under 4 bytes or not as long as its sizes make it\n"),
    (DAY + b'\0\0\0\0', 1, b'', "block 8, counted from 0: refused 1: the block's two sizes are not 15 n and n, n from 4 to 52\n"),
    (WORKED + WORKED, 1, b'', 'block 1, counted from 0: refused 16: the lines do not ascend by MJD, start, letter and satellite\n'),
    (BEYOND + WORKED, 1, b'', 'block 0, counted from 0: refused 2: a measurement, a correction or a delay is beyond its limit\n'),
)
# words that are no file of blocks
WORDS = ((), ('examples/no.blk',), ('examples',), ('examples/oneday.blk', 'examples/oneday.blk'))


def little_stack():
    resource.setrlimit(resource.RLIMIT_STACK, (LITTLE, LITTLE))
    resource.setrlimit(resource.RLIMIT_CORE, (0, 0))


def run(program, words):
    done = subprocess.run([str(pathlib.Path(program).resolve()), *words], capture_output=True, cwd=ROOT, preexec_fn=little_stack)
    return done.returncode, done.stdout, done.stderr.decode()


def main(program):
    if len(WORKED) != LENGTH:
        print('day_example: FAILED: examples/worked.blk is no full block', file=sys.stderr)
        return 1
    failed = 0
    with tempfile.TemporaryDirectory() as folder:
        blocks = pathlib.Path(folder) / 'set.blk'
        runs = [((str(blocks),), content, wanted) for content, *wanted in FILES] + [(words, b'', [2, b'', USAGE]) for words in WORDS]
        for words, content, wanted in runs:
            blocks.write_bytes(content)
            given = run(program, words)
            if list(given) != wanted:
                print('day_example: FAILED: %d bytes, words %r gave %r' % (len(content), words, given), file=sys.stderr)
                failed += 1
    print('day_example: %d runs, %d failed' % (len(runs), failed))
    return 1 if failed else 0


if __name__ == '__main__':
    sys.exit(main(sys.argv[1]))
