#!/usr/bin/env python3
"""Runs the receiver's example on tracks of several lengths; the expected lines are the sample's with another TRKL and CK.

    python3 tests/c/receiver.py target/receiver
"""
import os
import pathlib
import subprocess
import sys
import tempfile

ROOT = pathlib.Path(__file__).resolve().parents[2]

LINE = 'G05 FF 50722 000200 %s 450 1800 +0000000010 +00000 +0000000010 +00000 0000 007 0000 +000 0000 +000 00 00 L1C %s\r\n'
TOO_SHORT = 'no line: %d s were measured, and a track has 60 s or more\n'
USAGE = 'usage: receiver [SECONDS]\n'
# arguments, exit status, standard output and standard error; only whole blocks of 15 seconds count, and 52 at most
CASES = (
    ([], 0, LINE % ('0780', '26'), ''),
    (['780'], 0, LINE % ('0780', '26'), ''),
    (['900'], 0, LINE % ('0780', '26'), ''),
    (['779'], 0, LINE % ('0765', '29'), ''),
    (['307'], 0, LINE % ('0300', '1A'), ''),
    (['300'], 0, LINE % ('0300', '1A'), ''),
    (['60'], 0, LINE % ('0060', '1D'), ''),
    (['0307'], 0, LINE % ('0300', '1A'), ''),
    (['59'], 1, '', TOO_SHORT % 59),
    (['0'], 1, '', TOO_SHORT % 0),
    *((arguments, 2, '', USAGE) for arguments in (
        [''], ['five'], ['307s'], ['307 '], [' 307'], ['-307'], ['+307'], ['3e2'], ['9' * 30], ['307', '15'])),
)


# Packs tracks of 52 and of 53 groups, the second into a room that is not to be touched.
PACKING = r'''
#define main receiver
#include "examples/receiver.c"
#undef main
int main(void)
{
    static struct track track;
    static uint8_t block[TRACKLINE_BLOCK_BYTES + 4096];
    size_t full, touched = 0;
    sample(&track, 780);
    full = pack(block, &track);
    for (size_t i = TRACKLINE_BLOCK_BYTES; i < sizeof block; i++) {
        touched += block[i] != 0;
    }
    memset(block, 0, sizeof block);
    track.groups = TRACKLINE_GROUPS + 1;
    size_t over = pack(block, &track);
    for (size_t i = 0; i < sizeof block; i++) {
        touched += block[i] != 0;
    }
    printf("%zu %zu %zu\n", full, over, touched);
    return 0;
}
'''


def packing_failed():
    """Whether more than a full track is packed, or anything written for it."""
    with tempfile.TemporaryDirectory() as folder:
        program = os.path.join(folder, 'packing')
        subprocess.run([os.environ.get('CC', 'cc'), '-std=c11', '-I.', '-Iinclude', '-xc', '-', '-xnone',
                        'target/staticlib/libboundary.a', '-o', program], input=PACKING, text=True, cwd=ROOT, check=True)
        got = subprocess.run([program], capture_output=True, text=True, check=True).stdout
    if got != '8378 0 0\n':
        print('receiver: FAILED: pack gives %r' % got, file=sys.stderr)
    return got != '8378 0 0\n'


def main(program):
    failed = packing_failed()
    for arguments, *wanted in CASES:
        # no translation of line ends
        result = subprocess.run([program, *arguments], capture_output=True)
        got = [result.returncode, result.stdout.decode(), result.stderr.decode()]
        if got != wanted:
            failed += 1
            print('receiver %s: FAILED: %r, should be %r' % (' '.join(arguments), got, wanted), file=sys.stderr)
    print('receiver: %d runs and 2 packings, %d failed' % (len(CASES), failed))
    return 1 if failed else 0


if __name__ == '__main__':
    sys.exit(main(sys.argv[1]))
