#!/usr/bin/env python3
"""What Line and the reader should answer to the published lines, and their columns in our form, worked out from
published.txt.

    python3 tests/published/expected.py            print it
    python3 tests/published/expected.py --bench    write what the program bench reads and should print (crates/bench)
    python3 tests/published/expected.py --check    compare it with expected.txt and with what stands in crates/bench, test
                                                   the checksums printed in 003, and the counts in docs/evidence/tests.md

A second way beside the plain Rust implementation, which is compared with expected.txt too (tests/reference).
"""
import pathlib
import re
import sys

sys.dont_write_bytecode = True
HERE = pathlib.Path(__file__).resolve().parent
sys.path.insert(0, str(HERE.parent))
import bench  # noqa: E402
from papers import FIELDS, LENGTHS, checksum, is_start, line_of, ranges_of, second_of  # noqa: E402

BENCH = HERE.parent.parent / 'crates' / 'bench'
TESTS = HERE.parent.parent / 'docs' / 'evidence' / 'tests.md'
NAMES = [name for name, _, _ in FIELDS] + ['CK']
# what the reader takes columns 1 to 111 for, and what it does not take though each character is allowed;
# written by hand, so that a wrong papers.py is noticed
COLUMNS = re.compile('[GRECJ]d{2} [0-9A-F]{2} d{5} d{6} d{4} d{3} d{4} sd{10} sd{5} sd{10} sd{5} d{4} d{3} d{4} sd{3} d{4} '
                     'sd{3} d{2} d{2} [A-Z0-9]{3} '.replace('d', '[0-9]').replace('s', '[+-]'))
MINUS_ZERO = re.compile('-0+ ')
HEADER = """# Made by expected.py from published.txt. For each published line: Line's answer, the reader's answer to the
# columns, and the columns in our form, as published and, where another date and start are put in, with those. Line writes
# them where its answer is 0.
"""


def read():
    """Name, printed fields and fields put in of each published line."""
    for row in (HERE / 'published.txt').read_text().splitlines():
        if row.strip() and not row.startswith('#'):
            name, rest = row.split(':', 1)
            printed, put = rest.split('|')
            fields = dict(zip(NAMES, printed.split()))
            assert len(printed.split()) == len(NAMES), row
            yield name, fields, dict(word.split('=') for word in put.split())


def completed(fields, put):
    """The printed fields with the missing ones put in."""
    missing = {name: value for name, value in put.items() if fields[name] == '-' or name == 'SAT'}
    return {**fields, **missing}


def values(fields):
    """The fields up to FRC, the satellite without its letter."""
    number, cl, *numbers, code = (fields[name] for name, _, _ in FIELDS)
    return [int(number[1:]), int(cl, 16), *map(int, numbers), code]


def text(fields):
    return line_of(fields['SAT'][0], values(fields))


def answer(fields):
    n, ranges = dict(zip(NAMES, values(fields))), ranges_of(fields['SAT'][0])
    code = set(n['FRC']) <= set('ABCDEFGHIJKLMNOPQRSTUVWXYZ0123456789')

    def beyond(*names):
        return any(not ranges[name][0] <= n[name] <= ranges[name][1] for name in names)

    tests = [(7, not code or n['TRKL'] not in LENGTHS or beyond('SAT', 'IOE', 'FR', 'HC', 'MJD', 'ELV', 'AZTH')),
             (8, not is_start(n['MJD'], second_of(fields['STTIME'].zfill(6)))),
             (3, beyond('REFSV', 'REFSYS')),
             (4, beyond('SRSV', 'SRSYS', 'SMDT', 'SMDI')),
             (5, beyond('MDTR', 'MDIO')),
             (6, beyond('DSG'))]
    return next((refusal for refusal, fails in tests if fails), 0)


def reading(fields):
    """The reader's answer to the columns: beyond their characters it judges labels and start as Line does."""
    columns = text(fields)
    if not COLUMNS.fullmatch(columns[:111]) or MINUS_ZERO.search(columns):
        return 13
    return answer(fields)


def forms():
    """Name and forms of each line: its fields as published, and where they are others with what is put in."""
    for name, fields, put in read():
        published = completed(fields, put)
        given = {**published, **put}
        yield name, {'published': published, **({'put in': given} if given != published else {})}


def expected():
    def row(kind, fields):
        return '  %s%d %2d  %s\n' % (kind.ljust(11), answer(fields), reading(fields), text(fields))

    records = [name + '\n' + ''.join(row(*form) for form in kinds.items()) for name, kinds in forms()]
    return HEADER + '\n' + ''.join(records)


def lines():
    """The cases of Line for the program bench: name, line and answer."""
    for name, kinds in forms():
        for kind, fields in kinds.items():
            yield '%s %s' % (name, kind), text(fields), answer(fields)


def bench_files():
    """What stands in crates/bench beside the code."""
    cases = list(lines())
    return {BENCH / 'stdin': bench.stdin(cases), BENCH / 'stdout': bench.stdout(cases).encode()}


def misfits():
    """Lines of document 003 whose printed checksum is not that of their columns, which are ours up to SMDI behind a blank."""
    for name, fields, _ in read():
        if name.startswith('003.'):
            columns = ''.join(' ' + fields[column].rjust(last - first + 1) for column, first, last in FIELDS[:17]) + ' '
            if checksum(columns) != fields['CK'].replace('O', '0'):
                yield name


def counts():
    """What docs/evidence/tests.md says of the published lines and of bench."""
    names, cases, technician = [name for name, _ in forms()], len(list(lines())), len(bench.TECHNICIAN)
    old = [name for name, kinds in forms() if 'put in' in kinds]
    whole = [name for name, _, answer in lines() if name.endswith(' published') and answer == 0]
    put_in = [name for name, _, answer in lines() if name.endswith(' put in') and answer == 0]
    assert all(name.startswith('004.') for name in old) and len(whole) + len(old) == len(names) and len(put_in) == len(old)
    return ('%d lines as published, %d accepted whole; the %d of document 004 with a legal date too (one of 765 s): %d cases' % (len(names), len(whole), len(old), cases),
            '%d cases: %d of documents 01 and 02, %d of published lines; 0 wrong' % (technician + cases, technician, cases))


def check():
    bad = list(misfits())
    same = expected() == (HERE / 'expected.txt').read_text()
    differ = [path.name for path, content in bench_files().items() if path.read_bytes() != content]
    missing = [count for count in counts() if count not in TESTS.read_text()]
    print('published: expected.txt %s, bench %s, checksums of 003 %s, counts in docs/evidence/tests.md %s' % (
        'agrees' if same else 'DIFFERS', 'DIFFERS: %s' % differ if differ else 'agrees',
        'do NOT fit: %s' % bad if bad else 'fit', 'lack: %s' % missing if missing else 'agree'))
    return 0 if same and not differ and not bad and not missing else 1


def main():
    if sys.argv[1:] == ['--check']:
        return check()
    if sys.argv[1:] == ['--bench']:
        for path, content in bench_files().items():
            path.write_bytes(content)
        return 0
    print(expected(), end='')
    return 0


if __name__ == '__main__':
    sys.exit(main())
