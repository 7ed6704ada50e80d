#!/usr/bin/env python3
"""Runs tests/c/stack.c and compares what it measures with the figures in trackline(3) and docs/TRUST.md, and what it promises
of trackline_day, which is the header's TRACKLINE_DAY_STACK, with every document that names it.

    python3 tests/c/stack.py target/stack

A figure may be rounded or another compiler's: it may lie a tenth off what is measured here, and no more. What is
promised is tested by the program itself.
"""
import pathlib
import re
import subprocess
import sys

ROOT = pathlib.Path(__file__).resolve().parents[2]
MEASURED = r'stack: (trackline_[\w ]+?) takes (at most )?(\d+) bytes, promised (\d+)\n'
# the figures that a document gives, and the functions that each is of, in order
DOCUMENTS = (
    ('man/trackline.3', r'that gave ([\d,]+) bytes for trackline_block, ([\d,]+) for trackline_day, ([\d,]+) for trackline_merge and ([\d,]+) for trackline_view\. '
     r'It gave ([\d,]+) for trackline_line, ([\d,]+) for trackline_read, trackline_comment and trackline_down, ([\d,]+) for trackline_up, and at most ([\d,]+) for '
     r'trackline_start, trackline_path, trackline_delays and trackline_append\.',
     (('block',), ('day', 'day of one block'), ('merge',), ('view',), ('line',), ('read', 'comment', 'down'), ('up',), ('start', 'path', 'delays', 'append')), 1),
    ('docs/TRUST.md', r'`trackline_block` takes about ([\d.]+) kB', (('block',),), 1000),
    ('docs/TRUST.md', r'`trackline_day` about ([\d.]+) kB', (('day', 'day of one block'),), 1000),
)
PROMISED = r'takes up to ([\d,]+) bytes .+? trackline_day up to ([\d,]+), .+? trackline_merge and trackline_view up to ([\d,]+)\. Each other function takes up to ([\d,]+)\.'

# where documents say what trackline_day needs at most, and in what unit
DAY = (
    ('man/trackline.3', r'has to have ([\d,]+) bytes left, TRACKLINE_DAY_STACK,', 1),
    ('man/trackline.3', r'and takes up to ([\d,]+) bytes of stack, from 500,000\.', 1),
    ('man/cggtts.1', r'day needs ([\d.]+) MB of stack', 1e6),
    ('README.md', r'needs `TRACKLINE_DAY_STACK` bytes of stack, ([\d.]+) MB', 1e6),
    ('docs/TRUST.md', r'`trackline_day` about [\d.]+ kB and may take ([\d.]+) kB ', 1000),
)


def number(text):
    return float(text.replace(',', ''))


def text_of(path):
    """A document as one line, without a manual page's marks of type."""
    words = re.sub(r'(?m)^\.[A-Z]+ ', '', (ROOT / path).read_text()).split()
    return re.sub(r' ([,.;])(?= |$)', r'\1', ' '.join(words))


def main(program):
    printed = subprocess.run([program], stdout=subprocess.PIPE, text=True, cwd=ROOT)
    print(printed.stdout, end='')
    found = {name[10:]: (int(figure), int(most)) for name, _, figure, most in re.findall(MEASURED, printed.stdout)}
    if len(found) != 14 or printed.returncode:
        print('stack: FAILED: the stack was not measured, or is above what is promised', file=sys.stderr)
        return 1
    faults = []
    for path, pattern, names, unit in DOCUMENTS:
        said = re.search(pattern, text_of(path))
        figures = said.groups() if said else [''] * len(names)
        for name, figure in ((name, figure) for several, figure in zip(names, figures) for name in several):
            measured = found[name][0]
            if not figure or abs(number(figure) * unit - measured) > measured / 10:
                faults.append('%s: trackline_%s takes %d bytes, and it says %s' % (
                    path, name, measured, figure or 'nothing'))
    promised = re.search(PROMISED, text_of('man/trackline.3'))
    files = {found[name][1] for name in ('merge', 'view')}
    others = {most for name, (_, most) in found.items() if name not in ('block', 'day', 'day of one block', 'merge', 'view')}
    if not promised or [number(word) for word in promised.groups()] != [found['block'][1], found['day'][1], *files, *others]:
        faults.append('man/trackline.3 does not promise what tests/c/stack.c tests')
    for path, pattern, unit in DAY:
        said = re.search(pattern, text_of(path))
        if not said or round(number(said[1]) * unit) != found['day'][1]:
            faults.append('%s: trackline_day needs up to %d bytes, and it says %s' % (path, found['day'][1], said[0] if said else 'nothing'))
    for fault in faults:
        print('stack: FAILED: %s' % fault, file=sys.stderr)
    return 1 if faults else 0


if __name__ == '__main__':
    sys.exit(main(sys.argv[1]))
