#!/usr/bin/env python3
"""Runs the example examples/delays.c: the delays that it prints, and its refusals, written out by hand.

    python3 tests/c/delays_example.py target/delays_example
"""
import pathlib
import subprocess
import sys

ROOT = pathlib.Path(__file__).resolve().parents[2]
STORE = 'examples/delays.store'
USAGE = 'usage: delays [STORE MJD], STORE has to be there and MJD to be 0 to 4294967295\n'
RUNS = (
    ((), 0, '38600 181200 76300 -8380\n38655 181200 79020 -8380\n', ''),
    ((STORE, '60600'), 0, '38600 181200 76300 -8380\n', ''),
    ((STORE, '60471'), 0, '38120 204750 76300 0\n', ''),
    ((STORE, '58848'), 1, '', 'refused 21: no entry of the store starts as early as that date\n'),
    (('examples/delays.txt', '60600'), 1, '',
     'refused 20: the store of delays is none, or a delay is beyond its limit or has no place in it\n'),
    ((STORE,), 2, '', USAGE),
    (('examples/no.store', '60600'), 2, '', USAGE),
    ((STORE, 'foo'), 2, '', USAGE),
    ((STORE, '60600x'), 2, '', USAGE),
    ((STORE, '-1'), 2, '', USAGE),
    ((STORE, ''), 2, '', USAGE),
    ((STORE, '4295027896'), 2, '', USAGE),  # 60600 modulo 2^32
    ((STORE, '4294967295'), 0, '38655 181200 79020 -8380\n', ''),
    ((STORE, '99999999999999999999999'), 2, '', USAGE),
)


def main(program):
    failed = 0
    for words, *wanted in RUNS:
        result = subprocess.run([str(pathlib.Path(program).resolve()), *words], capture_output=True, text=True, cwd=ROOT)
        if [result.returncode, result.stdout, result.stderr] != wanted:
            print('delays_example: FAILED: %s gave %r' % (' '.join(words), (result.returncode, result.stdout, result.stderr)), file=sys.stderr)
            failed += 1
    print('delays_example: %d runs, %d failed' % (len(RUNS), failed))
    return 1 if failed else 0


if __name__ == '__main__':
    sys.exit(main(sys.argv[1]))
