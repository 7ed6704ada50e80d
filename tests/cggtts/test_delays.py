#!/usr/bin/env python3
"""Runs cggtts delays, append and store: what they print and write, their messages and their exit statuses, byte for byte.

    python3 tests/cggtts/test_delays.py

Stores are made here by struct, from document 02's layout; what is in force is found here by trying every entry, and messages are
written out by hand. Dates of the calendar are those of Python's datetime.
"""
import datetime
import os
import random
import stat
import unittest

from test_cggtts import ROOT, Scratch, run
from blocks import packed_store as packed

MEANINGS = {20: 'the store of delays is none, or a delay is beyond its limit or has no place in it',
            21: 'no entry of the store starts as early as that date',
            22: "the date is not later than the store's last, or the store has 1000 entries"}
NAMES = ('INT', 'CAB', 'REF', 'GD ')
EXAMPLE, TEXT = 'examples/delays.store', 'examples/delays.txt'


def date(mjd):
    return (datetime.date(1858, 11, 17) + datetime.timedelta(mjd)).isoformat()


def dated(mjd):
    return 'MJD %d (%s)' % (mjd, date(mjd))


def told(number, name, *rows):
    return ''.join(['%s: refused %d: %s\n' % (name, number, MEANINGS[number])] + ['  %s\n' % row for row in rows])


def outside(name, mjd):
    return 'cggtts: %s: MJD %d is taken, though no line has it: theirs are 50722 to 99999\n' % (name, mjd)


THREE = ((58849, 1, 2, 3, 4), (60000, -5, 10 ** 10, 0, -10 ** 10), (60001, 7, 8, 9, 0))


class Delays(Scratch):
    def printed(self, entries, mjd, version=2):
        """What is printed of the entry in force, found by trying every one."""
        k = max(k for k, entry in enumerate(entries) if entry[0] <= mjd)
        until = 'to ' + dated(entries[k + 1][0] - 1) if k + 1 < len(entries) else 'on, as no later one is kept'
        delays = list(entries[k][1:]) if version == 2 else [*entries[k][1:4], 0]
        rows = ['# delays on %s: entry %d of %d, in force from %s %s' % (dated(mjd), k + 1, len(entries), dated(entries[k][0]), until)]
        return ''.join(row + '\n' for row in rows + ['%s = %d' % pair for pair in zip(NAMES, delays)]).encode()

    def test_in_force(self):
        for version in 1, 2:
            store = self.kept('store', packed(version, *THREE))
            for mjd in (58849, 58850, 59999, 60000, 60001, 60002, 99999):
                wanted = (0, self.printed(THREE, mjd, version), '')
                self.assertEqual(run('delays', store, mjd), wanted)
                self.assertEqual(run('delays', store, date(mjd)), wanted)
                self.assertEqual(run('delays', '-', mjd, data=store.read_bytes()), wanted)

    def test_by_hand(self):
        self.assertEqual(run('delays', EXAMPLE, '2024-10-17'), (0, b'''\
# delays on MJD 60600 (2024-10-17): entry 4 of 5, in force from MJD 60472 (2024-06-11) to MJD 60809 (2025-05-14)
INT = 38600
CAB = 181200
REF = 76300
GD  = -8380
''', ''))

    def test_many_stores(self):
        pick = random.Random(9)
        for _ in range(30):
            starts = sorted(pick.sample(range(50722, 51000), pick.randrange(1, 30)))
            entries = [(start, *(pick.randrange(-10 ** 10, 10 ** 10 + 1) for _ in range(4))) for start in starts]
            store = self.kept('store', packed(2, *entries))
            mjd = pick.randrange(starts[0], 51010)
            self.assertEqual(run('delays', store, mjd), (0, self.printed(entries, mjd), ''))

    def test_too_early(self):
        store = self.kept('store', packed(2, *THREE))
        rows = 'MJD 58848 (2019-12-31) is before the first: entry 1 of 3, from MJD 58849 (2020-01-01) on'
        self.assertEqual(run('delays', store, 58848), (1, b'', told(21, store, rows)))
        empty = self.kept('empty', packed(1))
        self.assertEqual(run('delays', empty, 58848), (1, b'', told(21, empty, 'it has no entry')))
        rows = 'MJD 6060 (1875-06-21) is before the first: entry 1 of 3, from MJD 58849 (2020-01-01) on'
        self.assertEqual(run('delays', store, 6060), (1, b'', told(21, store, rows)))

    def test_dates_that_no_line_has(self):
        entries = [(0, 1, 2, 3, 4)]
        store = self.kept('store', packed(2, *entries))
        for mjd in (0, 50721, 100000):
            self.assertEqual(run('delays', store, mjd), (0, self.printed(entries, mjd), outside(store, mjd)))
        for mjd in (50722, 99999):
            self.assertEqual(run('delays', store, mjd), (0, self.printed(entries, mjd), ''))
        status, output, errors = run('delays', store, 2 ** 32 - 1)
        self.assertEqual((status, errors), (0, outside(store, 2 ** 32 - 1)))
        self.assertIn(b'# delays on MJD 4294967295 (', output)

    def test_refused_stores(self):
        late = 'entry %d of 3, from %s on: the entry before it starts on %s, and each has to start later than that'
        far = 'entry %d of 3, from %s on: %s is %d ps, beyond %d'
        good = packed(2, *THREE)
        spoilt = lambda k, place, value: packed(2, *([*e[:place], value, *e[place + 1:]] if i == k else e for i, e in enumerate(THREE)))  # noqa: E731
        for data, *rows in (
                (b'', 'it has 0 bytes, and the shortest store has 4'),
                (b'\0', 'it has 1 byte, and the shortest store has 4'),
                (b'\3' + good[1:], 'its version is 3, and there are 1 and 2'),
                (b'\0' + good[1:], 'its version is 0, and there are 1 and 2'),
                ((ROOT / 'examples/sample.blk').read_bytes(), 'its version is 780, and there are 1 and 2: it may be a hire block'),
                (packed(2, *((k, 0, 0, 0, 0) for k in range(1001))), 'its count is 1001, and a store has at most 1000 entries'),
                (good[:-1], 'it has 111 bytes, and version 2 with 3 entries makes 112: 1 missing'),
                (good + b'\0\0', 'it has 114 bytes, and version 2 with 3 entries makes 112: 2 too many'),
                (b'\1' + good[1:], 'it has 112 bytes, and version 1 with 3 entries makes 88: 24 too many'),
                (b'\1\0\1\0', 'it has 4 bytes, and version 1 with 1 entry makes 32: 28 missing'),
                ((ROOT / TEXT).read_bytes(), "it may be a text, which 'cggtts store TEXT -o STORE' makes a store of"),
                (spoilt(1, 0, 58849), late % (2, dated(58849), dated(58849))),
                (spoilt(2, 0, 59999), late % (3, dated(59999), dated(60000))),
                (spoilt(0, 1, 10 ** 10 + 1), far % (1, dated(58849), 'INT', 10 ** 10 + 1, 10 ** 10)),
                (spoilt(1, 3, -10 ** 10 - 1), far % (2, dated(60000), 'REF', -10 ** 10 - 1, -10 ** 10)),
                (spoilt(2, 4, -2 ** 63), far % (3, dated(60001), 'GD', -2 ** 63, -10 ** 10)),
                (packed(2, (5, 1, 2, 10 ** 11, 2 ** 63 - 1), (5, 0, 0, 0, 0)),
                 'entry 1 of 2, from MJD 5 (1858-11-22) on: REF is 100000000000 ps, beyond 10000000000', 'and 2 more')):
            store = self.kept('store', data)
            wanted = (1, b'', told(20, store, *rows))
            self.assertEqual(run('delays', store, 60000), wanted)
            self.assertEqual(run('delays', store, 0), wanted)
            self.assertEqual(run('store', '--show', store), wanted)
            self.assertEqual(run('append', store, 70000, 1, 2, 3, '-o', self.folder / 'longer'), wanted)
            self.assertFalse((self.folder / 'longer').exists())

    def test_wrong_use(self):
        store = self.kept('store', packed(2, *THREE))
        no_date = "cggtts: delays: '%s' is neither an MJD nor a date yyyy-mm-dd\n"
        no_store = "cggtts: delays: '%s' is no date that a store can have: MJD 0 (1858-11-17) to 4294967295\n"
        for words, errors in (((), 'cggtts: delays: no file; try cggtts --help\n'),
                              ((store,), 'cggtts: delays: no MJD or date; try cggtts --help\n'),
                              ((store, 60000, 1), "cggtts: delays: '1' is one word too many; try cggtts --help\n"),
                              ((store, 'today'), no_date % 'today'), ((store, '2024-02-30'), no_date % '2024-02-30'),
                              ((store, '-1'), no_date % '-1'), ((store, '6e4'), no_date % '6e4'), ((store, ''), no_date % ''),
                              ((store, '1858-11-16'), no_store % '1858-11-16'),
                              ((store, 2 ** 32), no_store % 2 ** 32), ((store, '9' * 30), no_store % ('9' * 30)),
                              ((store, '-o', 'x', 60000), "cggtts: delays: no option '-o'; try cggtts --help\n")):
            self.assertEqual(run('delays', *words), (2, b'', errors))
        missing = self.folder / 'missing'
        self.assertEqual(run('delays', missing, 60000), (2, b'', 'cggtts: %s: No such file or directory\n' % missing))


class Append(Scratch):
    def test_one_more(self):
        for version in 1, 2:
            store, longer = self.kept('store', packed(version, *THREE)), self.folder / 'longer'
            for words, new in (((61000, 1, -2, 3), (61000, 1, -2, 3, 0)), (('2025-11-21', '+1', -2, 3, 0), (61000, 1, -2, 3, 0)),
                               ((60002, 10 ** 10, -10 ** 10, '-0', '00'), (60002, 10 ** 10, -10 ** 10, 0, 0))):
                left_out = ', as it is left out' if len(words) == 4 else ''
                told = 'INT %d, CAB %d, REF %d, GD %d' % new[1:] + left_out
                wanted = (0, b'', 'cggtts: %s: entry 4 of 4, from %s on: %s\n' % (longer, dated(new[0]), told))
                self.assertEqual(run('append', store, *words, '-o', longer), wanted)
                self.assertEqual(longer.read_bytes(), packed(version, *THREE, new))
                self.assertEqual(run('append', store, *words, '-o', '-'), (0, packed(version, *THREE, new), ''))
                self.assertEqual(store.read_bytes(), packed(version, *THREE))
        with_gd = (61000, 1, 2, 3, -4)
        self.assertEqual(run('append', store, *with_gd, '-o', '-'), (0, packed(2, *THREE, with_gd), ''))

    def test_the_same_store(self):
        store = self.kept('store', packed(2))
        os.chmod(store, 0o640)
        entries = []
        for k in range(1, 6):
            entries.append((60000 + k, k, -k, 0, 10 * k))
            self.assertEqual(run('append', store, *entries[-1], '-o', store)[:2], (0, b''))
            self.assertEqual(store.read_bytes(), packed(2, *entries))
        self.assertEqual(stat.S_IMODE(store.stat().st_mode), 0o640)
        self.assertEqual(os.listdir(self.folder), ['store'])

    def test_refused_and_nothing_written(self):
        limit = '%s is %s ps, beyond %s10000000000'
        full = packed(2, *((k, 0, 0, 0, 0) for k in range(1000)))
        huge = '9' * 40
        for data, words, number, *rows in (
                (packed(2, *THREE), (60001, 1, 2, 3), 22,
                 'MJD 60001 (2023-02-26) is not later than the last: entry 3 of 3, from MJD 60001 (2023-02-26) on'),
                (packed(2, *THREE), ('1900-01-01', 1, 2, 3), 22,
                 'MJD 15020 (1900-01-01) is not later than the last: entry 3 of 3, from MJD 60001 (2023-02-26) on'),
                (full, (60000, 1, 2, 3), 22, 'it has 1000 entries, and a store has no more'),
                (packed(2, *THREE), (61000, 10 ** 10 + 1, 2, 3), 20, limit % ('INT', 10 ** 10 + 1, '')),
                (packed(2, *THREE), (61000, 1, '-' + huge, 3, huge), 20, limit % ('CAB', '-' + huge, '-'), limit % ('GD', huge, '')),
                (packed(2, *THREE), (61000, 1, 2, '+9223372036854775808'), 20, limit % ('REF', '+9223372036854775808', '')),
                (packed(2, *THREE), (61000, -2 ** 63, 2 ** 63 - 1, 0), 20, limit % ('INT', -2 ** 63, '-'), limit % ('CAB', 2 ** 63 - 1, '')),
                (packed(1, *THREE), (61000, 1, 2, 3, -4), 20, 'GD is -4 ps, and an entry of version 1 has none: it reads as 0'),
                (packed(1, *THREE), (60001, 1, 2, 3, 4), 20, 'GD is 4 ps, and an entry of version 1 has none: it reads as 0')):
            store = self.kept('store', data)
            for output in store, self.folder / 'longer':
                self.assertEqual(run('append', store, *words, '-o', output), (1, b'', told(number, store, *rows)))
            self.assertEqual(store.read_bytes(), data)
            self.assertEqual(os.listdir(self.folder), ['store'])

    def test_dates_that_no_line_has(self):
        store = self.kept('store', packed(2))
        self.assertEqual(run('append', store, 7, 1, 2, 3, 4, '-o', '-'), (0, packed(2, (7, 1, 2, 3, 4)), outside(store, 7)))
        for mjd, asked in ((20260201, '; is it 2026-02-01?'), (20240229, '; is it 2024-02-29?'), (20260230, ''), (18581116, ''), (120260201, '')):
            wanted = outside(store, mjd).replace('\n', asked + '\n')
            self.assertEqual(run('append', store, mjd, 1, 2, 3, 4, '-o', '-'), (0, packed(2, (mjd, 1, 2, 3, 4)), wanted))

    def test_wrong_use(self):
        store = self.kept('store', packed(2, *THREE))
        for words, reason in (((), 'no file'), ((store,), 'the MJD or date is missing'), ((store, 61000), 'INT is missing'),
                              ((store, 61000, 1), 'CAB is missing'), ((store, 61000, 1, -2), 'REF is missing'),
                              ((store, 61000, 1, 2, 3), 'no -o and the store to be written, which may be the same'),
                              ((store, 61000, 1, 2, 3, 4, 5, '-o', store), "'5' is one word too many"),
                              ((store, 61000, 1.5, 2, 3, '-o', store), "INT is '1.5', and not a whole number of ps"),
                              ((store, 61000, 1, 'two', 3, '-o', store), "CAB is 'two', and not a whole number of ps"),
                              ((store, 61000, 1, 2, '0x3', '-o', store), "REF is '0x3', and not a whole number of ps"),
                              ((store, 61000, 1, 2, 3, '-', '-o', store), "GD is '-', and not a whole number of ps")):
            self.assertEqual(run('append', *words), (2, b'', 'cggtts: append: %s; try cggtts --help\n' % reason))
        self.assertEqual(run('append', store, 'x', 1, 2, 3, '-o', store),
                         (2, b'', "cggtts: append: 'x' is neither an MJD nor a date yyyy-mm-dd\n"))
        self.assertEqual(store.read_bytes(), packed(2, *THREE))

    def test_unwritable(self):
        store = self.kept('store', packed(2, *THREE))
        gone = self.folder / 'gone' / 'store'
        self.assertEqual(run('append', store, 61000, 1, 2, 3, '-o', gone), (2, b'', 'cggtts: %s: No such file or directory\n' % gone))


class Store(Scratch):
    def made(self, text):
        store = self.folder / 'made'
        answer = run('store', '-', '-o', store, data=text if isinstance(text, bytes) else text.encode())
        return answer, store.read_bytes() if store.exists() else None

    def test_the_example(self):
        self.assertEqual(run('store', TEXT, '-o', '-'), (0, (ROOT / EXAMPLE).read_bytes(), ''))

    def test_ways_to_write(self):
        for text, wanted in (('version 1\n', packed(1)), ('version 2', packed(2)),
                             ('60000 1 2 3', packed(1, (60000, 1, 2, 3))), ('60000 1 2 3 4\n', packed(2, (60000, 1, 2, 3, 4))),
                             ('\ufeff60000\t+1 -2  3 4 # why\r\n\r\n2023-02-26 5 6 7 8\r\n', packed(2, (60000, 1, -2, 3, 4), (60001, 5, 6, 7, 8))),
                             ('  version 1 # old\n060000 01 2 3\n#60001 1 2 3\n60002 -0 0 0', packed(1, (60000, 1, 2, 3), (60002, 0, 0, 0)))):
            self.assertEqual(self.made(text), ((0, b'', ''), wanted))
            os.remove(self.folder / 'made')

    def test_no_row(self):
        reason = "cggtts: -: has no row; for a store without an entry write 'version 1' or 'version 2'\n"
        for text in ('', '\n', '# nothing\n\n'):
            self.assertEqual(self.made(text), ((1, b'', reason), None))

    def test_no_entry_is_lost(self):
        made = self.folder / 'made'
        for kept, text, lost in ((THREE, '58849 1 2 3 4\n60000 1 2 3 4\n', 'entry 3 of 3, from %s on' % dated(60001)),
                                 (THREE, '58849 1 2 3\n60001 1 2 3\n', 'entry 2 of 3, from %s on' % dated(60000)),
                                 (THREE, 'version 2\n', 'entry 1 of 3, from %s on' % dated(58849))):
            made.write_bytes(packed(2, *kept))
            errors = ('cggtts: %s: has %s, and the text has not: nothing is written\n' % (made, lost)
                      + "  'cggtts store --show' shows it as a text; if the entry is to go, remove the store first\n")
            self.assertEqual(self.made(text), ((1, b'', errors), packed(2, *kept)))
        for old in (b'', b'some text', packed(1, *THREE), packed(2), packed(2, *THREE)[:-1]):
            made.write_bytes(old)
            rows = ''.join('%d 1 2 3\n' % start for start in (58849, 59000, 60000, 60001))
            self.assertEqual(self.made(rows), ((0, b'', ''), packed(1, *((start, 1, 2, 3) for start in (58849, 59000, 60000, 60001)))))

    def test_a_thousand_rows(self):
        rows = ['%d %d 0 0 0\n' % (60000 + k, k) for k in range(1001)]
        self.assertEqual(self.made(''.join(rows[:1000])), ((0, b'', ''), packed(2, *((60000 + k, k, 0, 0, 0) for k in range(1000)))))
        os.remove(self.folder / 'made')
        wanted = told(22, '-:1001', 'it has 1000 entries, and a store has no more')
        self.assertEqual(run('store', '-', '-o', self.folder / 'made', data=''.join(rows).encode()), (1, b'', wanted))

    def test_every_fault_is_named(self):
        text = self.kept('text', b'''\
# faults
60000 1 2 3 4
someday 1 2 3 4
60001 1 2 3
60001 1 2 3 4 5 6 7
60001 1 2 3.5 x
60000 1 2 3 4
60001 1 99999999999999999999 3 -10000000001
60002 1 2 3 4
4294967296 1 2 3 4
1858-11-16 1 2 3 4
version 1
''')
        four = 'cggtts: %s:%d: an entry of version 2 is a date and four delays, INT CAB REF GD, in all rows alike\n'
        no_store = "cggtts: %s:%d: '%s' is no date that a store can have: MJD 0 (1858-11-17) to 4294967295\n"
        wanted = ("cggtts: %s:3: 'someday' is neither an MJD nor a date yyyy-mm-dd\n" % text + four % (text, 4) + four % (text, 5)
                  + "cggtts: %s:6: '3.5' is not a whole number of ps\ncggtts: %s:6: 'x' is not a whole number of ps\n" % (text, text)
                  + told(22, '%s:7' % text, 'MJD 60000 (2023-02-25) is not later than the last: entry 1 of 1, from MJD 60000 (2023-02-25) on',
                         'that entry stands in line 2')
                  + told(20, '%s:8' % text, 'CAB is 99999999999999999999 ps, beyond 10000000000', 'GD is -10000000001 ps, beyond -10000000000')
                  + no_store % (text, 10, '4294967296') + no_store % (text, 11, '1858-11-16')
                  + "cggtts: %s:12: 'version' has to stand before every entry, and once\n" % text)
        self.assertEqual(run('store', text, '-o', self.folder / 'made'), (1, b'', wanted))
        self.assertEqual(os.listdir(self.folder), ['text'])

    def test_versions(self):
        either = 'an entry is a date and three or four delays, INT CAB REF or INT CAB REF GD, in all rows alike'
        for text, reason in (('version 3\n', 'version is 1 or 2'), ('version\n', 'version is 1 or 2'), ('version 2 2', 'version is 1 or 2'),
                             ('version 1\n\nversion 1\n', "'version' has to stand before every entry, and once"),
                             ('version 1\n60000 1 2 3 0', 'an entry of version 1 is a date and three delays, INT CAB REF, in all rows alike'),
                             ('60000', either), ('60000 1 2', either), ('60000 1 2 3 4 5', either),
                             ('version 2\n60000 1 2', 'an entry of version 2 is a date and four delays, INT CAB REF GD, in all rows alike')):
            line = 1 + text.rstrip('\n').count('\n')
            self.assertEqual(self.made(text), ((1, b'', 'cggtts: -:%d: %s\n' % (line, reason)), None))

    def test_dates_that_no_line_has(self):
        for count, more in ((1, ''), (20, ''), (21, '  and 1 more\n'), (59, '  and 39 more\n')):
            text = ''.join('%d 1 2 3 4\n' % (6000 + k) for k in range(count)) + '60000 5 6 7 8\n'
            entries = [(6000 + k, 1, 2, 3, 4) for k in range(count)] + [(60000, 5, 6, 7, 8)]
            remarks = ''.join(outside('-:%d' % (k + 1), 6000 + k) for k in range(min(count, 20))) + more
            self.assertEqual(self.made(text), ((0, b'', remarks), packed(2, *entries)))
            os.remove(self.folder / 'made')
            refused = "cggtts: -:%d: 'x' is not a whole number of ps\n" % (count + 2)
            self.assertEqual(self.made(text + '60001 1 2 x 4\n'), ((1, b'', refused), None))

    def test_many_faults(self):
        status, output, errors = run('store', '-', '-o', self.folder / 'made', data=b'x\n' * 30)
        self.assertEqual((status, output, errors.count('\n'), errors[-15:]), (1, b'', 21, '\n  and 10 more\n'))

    def test_no_text(self):
        reason = "cggtts: %s: has bytes of 0, and so is no text; 'cggtts store --show' shows a store as a text\n" % EXAMPLE
        self.assertEqual(run('store', EXAMPLE, '-o', self.folder / 'made'), (1, b'', reason))

    def test_shown(self):
        for version, heading, rows in ((1, '# from MJD          INT          CAB          REF, in ps\n',
                                        '58849                 1            2            3   # 2020-01-01\n'
                                        '60000                -5  10000000000            0   # 2023-02-25\n'),
                                       (2, '# from MJD          INT          CAB          REF           GD, in ps\n',
                                        '58849                 1            2            3            4   # 2020-01-01\n'
                                        '60000                -5  10000000000            0 -10000000000   # 2023-02-25\n')):
            store = self.kept('store', packed(version, *THREE[:2]))
            text = ('version %d\n' % version + heading + rows).encode()
            self.assertEqual(run('store', '--show', store), (0, text, ''))
            self.assertEqual(run('store', store, '--show', '-o', self.folder / 'text'), (0, b'', ''))
            self.assertEqual((self.folder / 'text').read_bytes(), text)
            self.assertEqual(self.made(text), ((0, b'', ''), store.read_bytes()))
            os.remove(self.folder / 'made')

    def test_round_trips(self):
        pick = random.Random(3)
        for count in (0, 1, 2, 30, 1000):
            for version in 1, 2:
                starts = sorted(pick.sample(range(50722, 100000), count))
                data = packed(version, *((start, *(pick.randrange(-10 ** 10, 10 ** 10 + 1) for _ in range(4))) for start in starts))
                status, text, errors = run('store', '--show', '-', data=data)
                self.assertEqual((status, errors), (0, ''))
                self.assertEqual(self.made(text), ((0, b'', ''), data))
                os.remove(self.folder / 'made')

    def test_wrong_use(self):
        text = self.kept('text', b'60000 1 2 3 4\n')
        for words, reason in (((), 'no file'), ((text,), 'no -o and the store to be written'), ((text, text), "'%s' is one word too many" % text),
                              ((text, '-o', text), '%s is read, and would be overwritten: name another file' % text), ((text, '--hide'), "no option '--hide'")):
            self.assertEqual(run('store', *words), (2, b'', 'cggtts: store: %s; try cggtts --help\n' % reason))
        self.assertEqual(text.read_bytes(), b'60000 1 2 3 4\n')


class Help(unittest.TestCase):
    def test_help(self):
        for name, words in (('delays', b'cggtts delays STORE MJD | yyyy-mm-dd'), ('append', b'cggtts append STORE MJD INT CAB REF [GD] -o OUT'),
                            ('store', b'cggtts store TEXT -o STORE | --show STORE [-o TEXT]')):
            for asked in ((name, '--help'), ('help', name), ('--help',)):
                status, output, errors = run(*asked)
                self.assertEqual((status, errors), (0, ''))
                self.assertIn(words, output)


if __name__ == '__main__':
    unittest.main()
