#!/usr/bin/env python3
"""The hire block's layout stands in four places; this compares them.

    python3 tests/layout.py

tests/blocks.py has it from the paper; include/trackline.h, docs/HIRE-BLOCK.md and man/hireblock.5 must say the same. The
header's places of a line's values are those of what trackline_line is given, and those of a report, of delays and of a store document
02's. Its limits are document 01's, and its version is the Makefile's. All three say what a measurement is and have the equations and the starts' formula;
README.md and docs/TRUST.md have one table of the documents.
"""
import pathlib
import re
import sys

from blocks import AT, COLUMNS, DELAYS, LENGTH, OF
from papers import FIRST_MJD, FR, IOE, LAST_MJD, RANGES

ROOT = pathlib.Path(__file__).resolve().parent.parent
# the header's names for the most of some fields
MOST = {'SATELLITE': 'SAT', 'HC': 'HC', 'ELV': 'ELV', 'AZTH': 'AZTH', 'MIDPOINT': 'REFSV', 'SLOPE': 'SRSV', 'DELAY_SLOPE': 'SMDT',
        'DELAY': 'MDTR', 'DSG': 'DSG'}
# the limits, as documents 01 and 02 have them
LIMITS = {'MOST_MEASUREMENT': 10 ** 12, 'MOST_GEOMETRY': 2 * 10 ** 11, 'MOST_CORRECTION': 10 ** 10, 'MOST_COORDINATE': 5 * 10 ** 10,
          'FIRST_MJD': FIRST_MJD, 'LAST_MJD': LAST_MJD, 'LEAST_SATELLITE': RANGES['SAT'][0], **{'MOST_' + name: RANGES[MOST[name]][1] for name in MOST},
          **{'MOST_IOE_' + letter: IOE[letter][1] for letter in IOE}, 'LEAST_IOE_R': IOE['R'][0], 'LEAST_FR_R': FR['R'][0], 'MOST_FR_R': FR['R'][1]}
# a store of delays, as document 02 has it: version and count of 16 bits, starts of 32, and 3 or 4 delays an entry
STORE = {'STORE_MOST_ENTRIES': 1000, 'STORE_AT_VERSION': 0, 'STORE_WIDTH_VERSION': 2, 'STORE_AT_COUNT': 2, 'STORE_WIDTH_COUNT': 2,
         'STORE_AT_STARTS': 4, 'STORE_WIDTH_START': 4, 'STORE_GROUP_1': 3, 'STORE_GROUP_2': 4, 'STORE_MOST_BYTES': 2 + 2 + 1000 * (4 + 4 * 8)}
STORE_BYTES = {'STORE_BYTES_1': lambda n: 2 + 2 + n * (4 + 3 * 8), 'STORE_BYTES_2': lambda n: 2 + 2 + n * (4 + 4 * 8)}
# the equation A, term by term, as document 000 has it
SIGNS = {'INT': -1, 'CAB': -1, 'REF': 1, 'geometry': -1, 'relativity': 1, 'ionosphere': -1, 'troposphere': -1, 'GD': -1}
# the numbers of a common view's report, as document 02 names them in order
REPORT = ['PAIRS', 'SUM', 'SMALLEST', 'LARGEST']


def paper(n=52):
    """First byte and width by the header's name of each part, in a track of n blocks."""
    parts = {name.upper().replace(' ', '_'): place for name, place in AT.items() if not name.startswith('FRC')}
    parts['FRC'] = (AT['FRC 0'][0], 3)
    parts.update({name: (at, 8) for name, at in DELAYS.items()})
    parts['MEASUREMENTS'] = (58, OF['measurements'](n) * 8)
    parts['GROUPS'] = (OF['groups at'](n), n * 40)
    return parts


def in_group():
    return {name.upper(): (at, 8) for name, at in COLUMNS.items()}


def lines_kept():
    """So many lines the crate of a day keeps at most."""
    code = (ROOT / 'crates' / 'day' / 'src' / 'lib.rt').read_text()
    return int(re.search(r'(?m)^const MANY: usize = (\d+);$', code).group(1))


def wrong_in_header(text):
    found = {name: int(value) for name, value in re.findall(r'(?m)^#define TRACKLINE_(\w+) (\d+)\b', text)}
    wanted = {'AT_' + name: at for name, (at, _) in paper().items()}
    wanted.update({'IN_GROUP_' + name: at for name, (at, _) in in_group().items()})
    wanted.update({'WIDTH_' + name: width for name, (at, width) in paper().items() if at < 26})
    wanted.update({'WIDTH_PS': 8, 'WIDTH_GROUP': 40, 'MEASUREMENTS': 780, 'LEAST_GROUPS': 4, 'GROUPS': 52,
                   'BLOCK_BYTES': LENGTH, 'LINE_BYTES': 113, 'LONGEST_LINE': 140, 'FILE_LINE_BYTES': 115, 'OLD_BYTES': 103, 'LONGEST_OLD': 128,
                   'FILE_MOST_LINES': 10000, 'DAY_KEPT': lines_kept(), 'DAY_STACK': 1200000, **LIMITS, **STORE})
    version = re.search(r'(?m)^VERSION := (.*)$', (ROOT / 'Makefile').read_text()).group(1)
    wanted.update(zip(('VERSION_MAJOR', 'VERSION_MINOR', 'VERSION_PATCH'), map(int, version.split('.'))))
    if re.findall(r'(?m)^#define TRACKLINE_VERSION "(.*)"$', text) != [version]:
        return [('VERSION', version)]
    return sorted(set(wanted.items()) ^ set(found.items())) + wrong_by_blocks(text, found)


def wrong_by_blocks(text, found):
    """The header's formulas over n, for every n; for 52 they give what stands for a full track."""
    formulas = dict(re.findall(r'(?m)^#define TRACKLINE_(\w+)_OF\(n\) \(([\d +*()n]+)\)$', text))
    names = {'BLOCK_BYTES': 'bytes', 'MEASUREMENTS': 'measurements', 'AT_GROUPS': 'groups at'}
    wrong = sorted((set(names) | set(STORE_BYTES)) ^ set(formulas))
    for name in set(STORE_BYTES) & set(formulas):
        if any(eval(formulas[name], {'n': n}) != STORE_BYTES[name](n) for n in range(1001)):
            wrong.append((name, formulas[name]))
    for name in set(names) & set(formulas):
        values = [eval(formulas[name], {'n': n}) for n in range(4, 53)]
        if values != [OF[names[name]](n) for n in range(4, 53)] or values[-1] != found.get(name):
            wrong.append((name, formulas[name]))
    return wrong


def wrong_in_values(text):
    given = re.search(r'trackline_line\((.*?)\);', text, re.S).group(1)
    names = [name.upper() for name in re.findall(r' (\w+)(?:,|$)', given)][:23]
    found = re.findall(r'(?m)^    TRACKLINE_VALUE_(\w+),$', text)
    report = re.findall(r'(?m)^    TRACKLINE_REPORT_(\w+)\b', text)
    wrong = [] if found == names and len(found) == 23 else [('values', found)]
    delays = re.findall(r'(?m)^    TRACKLINE_DELAYS_(\w+)\b', text)
    wrong += [] if delays == ['INT', 'CAB', 'REF', 'GD', 'NUMBERS'] else [('delays', delays)]
    return wrong + ([] if report == REPORT + ['NUMBERS'] else [('report', report)])


def number(text, n):
    """3, or 15n x 8, or (57 + 120n)."""
    formula = re.sub(r'×|\\\(mu', '*', text)
    return eval(re.sub(r'(?<=\d)n', '*n', formula), {'n': n})


def wrong_in_rows(rows):
    """Rows of (bytes, width, name): for every n the same parts, and each ends where its width says."""
    wrong = set()
    for n in range(4, 53):
        found = []
        for span, width, name in rows:
            first, _, last = span.replace('\\', '').partition('-')
            if number(last or first, n) - number(first, n) + 1 != number(width, n):
                found.append((name, span, width))
            found.append((name, (number(first, n), number(width, n))))
        wrong |= set(found) ^ (set(paper(n).items()) | set(in_group().items()))
    return sorted(wrong, key=str)


def wrong_in_lengths(text):
    """The table of the last two parts for some n: the fewest, the short sample's and the most."""
    cell = r'[ |\t]+'
    rows = re.findall(r'(?m)^\|? ?' + cell.join([r'(\d+)', r'(\d+) and (\d+)', r'(\d+)\\?-(\d+)', r'(\d+)\\?-(\d+)', r'(\d+)']),
                      text)
    wanted = []
    for n in (4, 20, 52):
        first, after = OF['groups at'](n), OF['bytes'](n)
        wanted.append((n, OF['measurements'](n), n, 58, first - 1, first, after - 1, after))
    return [] if [tuple(map(int, row)) for row in rows] == wanted else [('lengths', rows)]


def plain(text):
    """In one line, a manual page's signs and a header's stars as they are read."""
    for escaped, sign in (('\\-', '-'), ('\\(aq', "'"), ('\n * ', '\n')):
        text = text.replace(escaped, sign)
    return ' '.join(text.split())


def wrong_in_words(text):
    """What stands in the header, in hireblock(5) and in HIRE-BLOCK.md: the measurement, UTC, the equations and the starts."""
    words, wrong = plain(text), []
    for needed in ('A measurement is a pseudorange divided by the speed of light, in ps.', 'UTC second start + i', 'B = A + clock',
                   '1436 minutes'):
        if needed not in words:
            wrong.append(('not there', needed))
    equation = re.search(r'A = smoothed ([^=]*?) B = ', words)
    if not equation or signs_of(equation.group(1)) != SIGNS:
        wrong.append(('equation', equation and equation.group(1)))
    starts = re.search(r'minute (2 \+ 16 ?\(i - 1\) - 4 ?\((?:MJD|mjd) - 50722\)), brought into 0 to 1435', words)
    return wrong if starts else wrong + [('starts', 'no formula')]


def signs_of(terms):
    """The sign of each term, with brackets taken apart."""
    found, outer = {}, 1
    for sign, bracket, name, close in re.findall(r'([+-]?) ?(\(?)([A-Za-z]+)(\)?)', terms):
        if bracket:
            outer = -1 if sign == '-' else 1
        found[name] = (outer if not bracket else 1) * (-1 if sign == '-' else 1)
        outer = 1 if close else outer
    return found


def documents_of(text):
    """The rows of the table that tells which document is which."""
    return re.findall(r'(?m)^\| (000|003|004|01|02) \| (.*) \|$', text)


def main():
    read = lambda name: (ROOT / name).read_text()  # noqa: E731
    faults = {
        'include/trackline.h': [part for wrong in (wrong_in_header, wrong_in_values)
                                for part in wrong(read('include/trackline.h'))],
        'docs/HIRE-BLOCK.md': wrong_in_rows(re.findall(r'(?m)^\| ([\d(][^|]*?) \| ([^|]+) \| `(\w+)` \|',
                                                       read('docs/HIRE-BLOCK.md')))
        + wrong_in_lengths(read('docs/HIRE-BLOCK.md')),
        'man/hireblock.5': wrong_in_rows(re.findall(r'(?m)^([\d(][^\t]*)\t([^\t]+)\t([A-Z_]+)\t',
                                                    read('man/hireblock.5')))
        + wrong_in_lengths(read('man/hireblock.5')),
    }
    for name in faults:
        faults[name] += wrong_in_words(read(name))
    papers = [documents_of(read(name)) for name in ('README.md', 'docs/TRUST.md')]
    if papers[0] != papers[1] or [row[0] for row in papers[0]] != ['000', '003', '004', '01', '02']:
        faults['README.md'] = [('documents', papers)]
    for name, wrong in faults.items():
        for part in wrong:
            print('layout: %s: %s' % (name, part), file=sys.stderr)
    print('layout: %d parts in %d places, %d wrong' % (len(paper()) + len(in_group()), len(faults),
                                                       sum(map(len, faults.values()))))
    return 1 if any(faults.values()) else 0


if __name__ == '__main__':
    sys.exit(main())
