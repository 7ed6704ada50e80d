#!/usr/bin/env python3
"""Runs cggtts convert: the lines that it writes, those that it names, its counts and its exit statuses.

    python3 tests/cggtts/test_convert.py

Published files are made and read by publishing.py, without the library; places and reasons are written out by hand.
"""
import random
import re
import subprocess
import unittest

from publishing import HEADER, HEADING, columns_of, filled, header, taken
from papers import FIELDS, SIGNED, ranges_of, start_minutes, with_check
from test_cggtts import MEANINGS, PROGRAM, ROOT, Scratch, run
from test_merge import A, B, D, E, F, LINES, NO_HEADER, advised, by_keys, ended

SUMMARY = re.compile(r'cggtts: read (\d+) lines?: (\d+) header, (\d+) empty, (\d+) data(?:, CKSUM wrong or missing in (\d+) headers?)?; (.*); '
                     r'of the data lines (\d+) with other fills, (\d+) with a comment, (\d+) with another FRC put in'
                     r'(?:, (\d+) of version 01 with HC and FRC put in)?')
WRITTEN = re.compile(r'(\d+) written, (\d+) equal to a written one, (\d+) left out')
# SAT to SMDI, FR, HC and FRC of a line
VALUES = (5, 'FF', 57000, 600, 780, 494, 2568, -103408, 28, -35, 7, 8, 38, 106, -11, 57, -9, 0, 0, 'L1C')
TAKEN = 'G05 FF 57000 000600 0780 494 2568 -0000103408 +00028 -0000000035 +00007 0008 038 0106 -011 0057 -009 00 00 L1C '


def published():
    """What document 000 and 003 print of each line, by its name: the fields up to FRC, '-' for what is lost, and CK."""
    rows = (ROOT / 'tests' / 'published' / 'published.txt').read_text().splitlines()
    return {row.split(': ')[0]: row.split(': ')[1].split(' |')[0].split() for row in rows if re.match(r'00\d\.', row)}


def expected():
    """The published lines in our form, as tests/published/expected.py makes them."""
    text = (ROOT / 'tests' / 'published' / 'expected.txt').read_text()
    return dict(re.findall(r'(?m)^(00\d\.[\d.]+)\n  published +0 +0  (.*)$', text))


def counts(errors):
    """The numbers of the closing sentence by their names; what is written is missing where nothing is."""
    rows = [SUMMARY.fullmatch(row) for row in errors.splitlines()]
    match, = [row for row in rows if row]
    read, head, empty, data, wrong, end, fills, comments, codes, old = match.groups()
    found = {'read': int(read), 'header': int(head), 'empty': int(empty), 'data': int(data), 'wrong': int(wrong or 0),
             'fills': int(fills), 'comments': int(comments), 'codes': int(codes), 'old': int(old or 0)}
    written = WRITTEN.fullmatch(end)
    if written:
        found.update(zip(('written', 'equal', 'left'), map(int, written.groups())))
    return found, end


def named(errors):
    """File, line, column and reason of each line that is named."""
    return [(name, int(line), int(column), reason)
            for name, line, column, reason in re.findall(r'(?m)^(.*):(\d+): column (\d+): (.*)$', errors)]


def every(errors):
    """The same, and for a header that is named each of its lines."""
    rows = named(errors)
    for name, _, column, reason in named(errors):
        found = re.search(r'the header, lines (\d+) to (\d+)', reason)
        rows += [(name, line, column, reason) for line in (range(int(found.group(1)), int(found.group(2)) + 1) if found else ())]
    return rows


class Converted(Scratch):
    def converted(self, data, lines, *options, **wanted):
        """The file is taken, these lines are written, and the sentence has these counts; others are 0."""
        status, output, errors = run('convert', '-', *options, data=data)
        self.assertEqual((status, output, named(errors)), (0, lines, []))
        found, _ = counts(errors)
        zero = dict.fromkeys(('header', 'empty', 'wrong', 'fills', 'comments', 'codes', 'old', 'equal', 'left'), 0)
        self.assertEqual(found, {**zero, 'read': found['read'], 'data': found['data'], 'written': lines.count(b'\n'), **wanted})
        self.assertEqual(found['read'], found['header'] + found['empty'] + found['data'])
        self.assertEqual(found['data'], found['written'] + found['equal'] + found['left'])
        self.assertEqual(run('merge', '-', '/dev/null', data=output), (0, output, ''))

    def test_the_published_lines_of_000(self):
        """As they are printed, blanks and all, below the header as it is printed."""
        rows, ours = published(), expected()
        names = ['000.1.1', '000.1.2', '000.1.3']
        lines = []
        for name in names:
            satellite, *texts = (text if text != '-' else '0' for text in rows[name][:-1])
            lines.append(with_check(columns_of(satellite[0], [satellite[1:], *texts])))
        self.assertTrue(lines[0].startswith('G 6 FF 57000 000600  780 185  754     -234764   -125         -36    -52   26  57  252  -36   64  +25  0  0'))
        wanted = ''.join(ours[name] + '\r\n' for name in names).encode()
        for end in ('\n', '\r\n'):
            text = ''.join(line + end for line in header() + lines)
            self.converted(text.encode(), wanted, header=17, empty=1, fills=3)
            self.converted(b'\xef\xbb\xbf' + text.encode()[:-len(end)], wanted, header=17, empty=1, fills=3)

    def test_the_example_s_own_lines(self):
        """Line files pass through as they are, merged and in order."""
        week = (ROOT / 'examples' / 'week.cggtts').read_bytes()
        self.converted(week, week)
        shuffled = week.splitlines(keepends=True)
        random.Random(3).shuffle(shuffled)
        self.converted(b''.join(shuffled), week)
        self.converted(week.replace(b'\r', b''), week)
        status, output, errors = run('convert', 'examples/first.cggtts', 'examples/second.cggtts')
        self.assertEqual((status, output), (0, week))
        both = sum((ROOT / 'examples' / name).read_bytes().count(b'\n') for name in ('first.cggtts', 'second.cggtts'))
        found, _ = counts(errors)
        self.assertEqual((found['read'], found['written'], found['equal']), (both, week.count(b'\n'), both - week.count(b'\n')))

    def test_fills(self):
        """Each field filled in each way that its numbers may be, one at a time and all at once."""
        wanted = with_check(TAKEN).encode() + b'\r\n'
        self.converted(wanted, wanted)
        for choice in range(4):
            text = with_check(filled('G', VALUES, lambda ways, choice=choice: ways[choice % len(ways)]))
            self.converted(text.encode() + b'\n', wanted, fills=int(text.encode() != wanted[:113]))
        for first, last, text in ((2, 3, ' 5'), (5, 6, 'ff'), (14, 19, '   600'), (21, 24, '+780'), (26, 28, '494'), (35, 45, '    -103408'),
                                  (47, 52, '    28'), (47, 52, '000028'), (47, 52, '   +28'), (66, 71, '     7'), (73, 76, '  +8'),
                                  (78, 80, '+38'), (102, 103, '+0'), (102, 103, '-0'), (105, 106, ' 0')):
            text = with_check(TAKEN[:first - 1] + text + TAKEN[last:])
            self.converted(text.encode() + b'\n', wanted, fills=int(text[:111] != TAKEN))

    def test_zeros(self):
        """A minus before a zero is a zero, which has a plus in our lines."""
        wanted = with_check(TAKEN.replace('+00028', '+00000')).encode() + b'\r\n'
        for text in ('    -0', '-00000', '     0', '+00000', '    +0', '000000'):
            line = with_check(TAKEN.replace('+00028', text)).encode() + b'\n'
            self.converted(line, wanted, fills=int(text != '+00000'))

    def test_small_letters_in_ck(self):
        line = next(line for line in LINES if re.search(rb'[A-F].?\r', line))
        self.converted(line[:111] + line[111:].lower(), line, fills=1)

    def test_comments(self):
        for comment, count in ((b'', 0), (b'   ', 0), (b' caf\xe9', 1), (b'x' * 27, 1), (b'\x00\x1b', 1), (b'x' + b' ' * 500, 1), (b'\r', 1)):
            self.converted(A[:113] + comment + b'\r\n', A, comments=count)

    def test_empty_lines_and_ends(self):
        self.converted(b'\n\r\n  \t\n' + A + b'\n\n' + B[:113] + b'\n\x1a', A + B, empty=6)

    def test_headers(self):
        body = b''.join(LINES)
        for lines, heading in ((HEADER, HEADING), (HEADER[:1], ()), (HEADER[:11] + ('INT DLY = 53.9 ns (GPS C1)     CAL_ID = 1nnn-yyyy', 'CAB DLY = 237.0 ns')
                                                                     + HEADER[12:], HEADING), (HEADER, HEADING[:1]),
                               (HEADER[:11] + ('TOT DLY = 100.0 ns (GPS C1)',) + HEADER[13:], HEADING),
                               (HEADER + ('a line of the laboratory\'s own', 'CAF\xc9 = 7'), HEADING),
                               (('GGTTS GPS DATA FORMAT VERSION = 01',) + HEADER[1:], HEADING)):
            head = header(lines, heading)
            text = ''.join(line + '\n' for line in head).encode('latin-1')
            self.converted(text + body, body, header=len(head) - 1, empty=1)
            self.converted(A + text + body + text.replace(b'\n', b'\r\n') + A, body, header=2 * len(head) - 2, empty=2, equal=2)
        self.converted(''.join(line + '\n' for line in HEADING).encode() + body, body, header=2)

    def test_equal_lines_once(self):
        blanks = A[:4] + A[4:].replace(b' 0', b'  ', 3)
        blanks = with_check(blanks[:111].decode()).encode() + b'\r\n'
        self.converted(B + A + B + blanks + A, A + B, equal=3, fills=int(blanks != A))

    def test_another_code(self):
        lines = [with_check(TAKEN[:107] + code + ' ').encode() + b'\n' for code in (' E1', 'B1i', 'L1C')]
        for line, option, new in ((lines[0], ' E1=E1C', 'E1C'), (lines[1], 'B1i=B1I', 'B1I'), (lines[2], 'L1C=L1P', 'L1P')):
            wanted = with_check(TAKEN[:107] + new + ' ').encode() + b'\r\n'
            self.converted(line, wanted, '--frc', option, codes=1)
            self.converted(line, wanted, '--frc=' + option, codes=1)
            self.converted(line, wanted, '--frc', 'x1x=AAA', '--frc', option, codes=1)


class Named(Scratch):
    def told(self, column, reason, line, *before):
        """A line among others is named by its place; nothing is written, and with --skip the others are."""
        text = b''.join(line if isinstance(line, bytes) else line.encode('latin-1') for line in (A, *before, line)) + b'\r\n' + B
        path, out, number = self.kept('file', text), self.folder / 'out', text.count(b'\n')
        place = '%s:%d: column %d: %s\n' % (path, number - 1, column, reason)
        status, output, errors = run('convert', path, '-o', out)
        self.assertEqual((status, output, errors[:errors.index('cggtts: read')]), (1, b'', place))
        found, end = counts(errors)
        self.assertEqual(end, "nothing is written, as 1 can't be taken; --skip goes on without them")
        self.assertFalse(out.exists())
        status, output, errors = run('convert', '--skip', path, '-o', out)
        self.assertEqual((status, output, errors[:errors.index('cggtts: read')]), (0, b'', place))
        found, _ = counts(errors)
        self.assertEqual((found['data'], found['written'], found['left']), (3, 2, 1))
        self.assertEqual(out.read_bytes(), A + B)
        out.unlink()

    def changed(self, first, text):
        """The line with another text from a column on."""
        return with_check(TAKEN[:first - 1] + text + TAKEN[first - 1 + len(text):])

    def test_ck(self):
        line = with_check(TAKEN)
        self.told(112, 'CK is "%s?", and the columns before it give %s: the line was changed after it was written' % (line[111], line[111:]),
                  line[:112] + '?')
        self.told(112, r'CK is " \x09", and the columns before it give %s: the line was changed after it was written' % line[111:],
                  line[:111] + ' \t')
        for column in (1, 3, 5, 9, 15, 35, 40, 60, 90, 100, 105, 109):
            other = line[:column - 1] + chr(ord(line[column - 1]) ^ 1) + line[column:]
            self.assertIn('CK is "%s"' % line[111:], self.reason_of(other))

    def reason_of(self, line):
        (_, _, _, reason), = named(run('convert', '-', data=line.encode('latin-1'))[2])
        return reason

    def test_two_frequencies(self):
        """The lines of document 000's second example, whose first seven columns its extraction has apart."""
        rows = published()
        for name, measured in (('000.2.1', ('23', '-1', '29')), ('000.2.2', ('131', '-9', '37')), ('000.2.3', ('9999', '9999', '999')),
                               ('000.2.4', ('63', '4', '21'))):
            satellite, *texts = rows[name][:-1]
            columns = columns_of(satellite[0], [satellite[1:], *texts[:16]])[:101]
            columns += '%4s %4s %3s %2s %2s %3s ' % (*measured, texts[16].replace('-', '-1'), *texts[17:])
            self.assertEqual(len(columns), 125)
            self.told(102, 'a line of two frequencies (MSIO, SMSI, ISG), which has columns that ours has not', with_check(columns))
            self.told(102, 'a line of two frequencies (MSIO, SMSI, ISG), which has columns that ours has not', with_check(columns) + ' noted')
            self.told(126, 'a line of two frequencies (MSIO, SMSI, ISG), whose CK is not right either', columns + '??')

    def test_version_02(self):
        """Older ones of 02; those of version 01 have a test of their own."""
        for letter in ' 1':
            self.told(1, 'a line of version 02, which has no letter of a constellation', self.changed(1, letter))

    def test_nines(self):
        for name, first, last in FIELDS:
            if name in ('SAT', 'CL', 'MJD', 'HC', 'FRC'):
                continue
            field = {'STTIME': 'start'}.get(name, name)
            for sign in ('9', '+', '-', ' ') if name in SIGNED else ('9',):
                self.told(first, '%s is nines, which stand for missing data' % field, self.changed(first, sign + '9' * (last - first)))

    def test_nines_that_are_numbers(self):
        """Where a field may well have them, and where a digit is another or a blank."""
        for letter, first, text in (('E', 78, '999'), ('G', 2, '99'), ('G', 105, '99'), ('G', 35, '+9999999998'), ('G', 54, '-0999999999'),
                                    ('G', 47, '+99989'), ('G', 66, '-09999'), ('G', 87, '+099'), ('G', 97, '-899'), ('G', 73, '0999'), ('G', 82, '9990')):
            line = self.changed(first, text)
            line = with_check(letter + line[1:111])
            self.assertEqual(run('convert', '-', data=line.encode())[:2], (0, line.encode() + b'\r\n'))

    def test_glonass_channels(self):
        for text, value in (('-7', -7), ('-1', -1), (' 0', 0), ('00', 0)):
            line = with_check('R' + self.changed(102, text)[1:111])
            self.told(102, "FR is %d, a GLONASS channel below 1, which our line can't hold" % value, line)
        for text in ('+1', ' 2', '24', '01'):
            self.assertEqual(run('convert', '-', data=with_check('R' + self.changed(102, text)[1:111]).encode())[0], 0)

    def test_codes(self):
        for code in (' E1', 'B1i', 'L1 ', '   ', 'l1c'):
            self.told(108, "FRC is '%s', not three of A to Z and 0 to 9; --frc '%s=NEW' puts NEW in its place" % (code, code),
                      self.changed(108, code))
        self.told(108, r"FRC is 'L\xE9C', not three of A to Z and 0 to 9; --frc 'L\xE9C=NEW' puts NEW in its place", self.changed(108, 'L\xe9C'))

    def test_limits(self):
        for first, text, reason in (
                (1, 'S', 'the constellation is S, not G, R, E, C or J'), (2, '00', 'satellite is 0, not 1 to 99 for G'),
                (5, 'G0', 'CL is not two hexadecimal digits'),
                (5, '  ', 'CL is not two hexadecimal digits'), (8, '50721', 'MJD is 50721, not 50722 to 99999 for G'),
                (14, '240000', 'start is 240000, which is no time of a day'), (14, '006000', 'start is 006000, which is no time of a day'),
                (14, '000700', 'no track of MJD 57000 starts at 00:07:00'), (21, ' 781', 'TRKL is 781 s, not a multiple of 15 from 60 to 780'),
                (21, '0045', 'TRKL is 45 s, not a multiple of 15 from 60 to 780'), (26, '901', 'ELV is 901, not 0 to 900 for G'),
                (26, ' -5', 'ELV is -5, not 0 to 900 for G'), (30, '3600', 'AZTH is 3600, not 0 to 3599 for G'),
                (30, '  -1', 'AZTH is -1, not 0 to 3599 for G'),
                (35, '12345678901', 'REFSV is 12345678901, not -9999999999 to 9999999999 for G'),
                (47, '100000', 'SRSV is 100000, not -99999 to 99999 for G'), (73, '  -1', 'DSG is -1, not 0 to 9999 for G'),
                (78, '256', 'IOE is 256, not 0 to 255 for G'), (78, ' -1', 'IOE is -1, not 0 to 255 for G'),
                (82, '  -1', 'MDTR is -1, not 0 to 9999 for G'), (87, '1000', 'SMDT is 1000, not -999 to 999 for G'),
                (102, ' 1', 'FR is 1, not 0 to 0 for G'), (105, '-1', 'HC is -1, not 0 to 99 for G')):
            self.told(first, reason, self.changed(first, text))

    def test_characters(self):
        for first, text, column, reason in (
                (2, '  ', 3, 'satellite has a blank where a digit belongs'),
                (35, '     1 2345', 41, 'REFSV has a blank where a digit belongs'), (47, '- 0028', 48, 'SRSV has a blank where a digit belongs'),
                (35, '123        ', 38, 'REFSV has a blank where a digit belongs'), (8, '57O00', 10, 'MJD has O where a digit belongs'),
                (47, '   +-5', 51, 'SRSV has - where a digit belongs'), (47, '     +', 52, 'SRSV has + where a digit belongs'),
                (25, '\t', 25, r'\x09 stands where a blank parts TRKL from what follows'),
                (8, '+5700', 8, 'MJD has + where a digit belongs'), (46, '5', 46, '5 stands where a blank parts REFSV from what follows')):
            self.told(column, reason, self.changed(first, text))

    def test_lines_that_are_none(self):
        reason = "neither a header's line nor a data line"
        for line in ('hello', 'X', 'x', '# G05', 'REF = UTC(ABC)', 'CKSUM = 00', '\x00' * 200, 'GGTTS', 'SAT', 'hhmmss 5', HEADING[1] + '1', HEADING[1] + '  11 '):
            self.told(1, reason, line)
        line = with_check(TAKEN)
        self.told(1, reason, line[1:])
        self.told(1, reason, line.replace(' ', '\t'))
        for length in (12, 50, 111, 112):
            self.told(len(line[:length]) + 1, 'the line ends here, and a data line has 113 columns', line[:length])

    def test_lines_that_are_joined(self):
        """A lost line end: no part of a data line is taken for a comment or for a header."""
        line = with_check(TAKEN)
        behind = 'another data line begins behind CK'
        for other in (line, line[:12], ' ' + line[:20], 'x' + line):
            self.told(114, behind, line + other)
        lone = "carriage return alone ends no line: tr '\\r' '\\n' puts line feeds in their place"
        self.told(114, lone, line + '\r' + line)
        self.told(1, lone, '\r'.join(header() + [line]))
        self.told(141, 'the line goes on, and a comment ends at column 140', line + 'x' * 28)
        for place in [place for place, text in enumerate(header()) if text]:
            lines = header()
            lines[place] += line
            status, output, errors = run('convert', '-', '--skip', data='\n'.join(lines + [A.decode()]).encode())
            self.assertEqual((status, output), (0, A))
            self.assertIn(place + 1, [number for _, number, _, _ in every(errors)])

    def test_a_data_line_within_a_header(self):
        """It is taken, or named where it is joined to another, though CKSUM sums it too."""
        line = with_check(TAKEN)
        for text, output, numbers in ((line, line.encode() + b'\r\n', [*range(1, 6), *range(7, 17)]),
                                      ('LAB = ' + line, b'', range(1, 17))):
            lines = header(HEADER[:5] + (text,) + HEADER[5:])
            status, written, errors = run('convert', '-', '--skip', data='\n'.join(lines).encode())
            self.assertEqual((status, written), (0 if output else 1, output))
            self.assertEqual({number for _, number, _, _ in every(errors)}, set(numbers))

    def test_cksum(self):
        lines, body = header(), b''.join(LINES)
        right = lines[14][-2:]
        changed = 'CKSUM is not %s, the sum of the header, lines 1 to 15, which was changed after that' % right
        missing = 'the header, lines %d to %d, has no CKSUM'
        for text, number, column, reason in (
                (lines[:14] + ['CKSUM = %02X' % (int(right, 16) ^ 1)] + lines[15:], 15, 1, changed),
                (lines[:14] + ['CKSUM = '] + lines[15:], 15, 1, changed), (lines[:14] + ['CKSUM = %sx' % right] + lines[15:], 15, 1, changed),
                (lines[:14] + lines[15:], 1, 1, missing % (1, 15)), (lines[:1], 1, 1, missing % (1, 1)),
                (['', ''] + lines[:9] + lines[16:], 3, 1, missing % (3, 11))):
            data = ''.join(line + '\n' for line in text).encode() + body
            status, output, errors = run('convert', '-', data=data)
            self.assertEqual((status, output, named(errors)), (1, b'', [('-', number, column, reason)]))
            self.assertEqual(counts(errors)[1], 'nothing is written, as CKSUM is not right in 1 header; --skip takes its data lines all the same')
            status, output, errors = run('convert', '--skip', '-', data=data)
            self.assertEqual((status, output, named(errors)), (0, body, [('-', number, column, reason)]))
            self.assertEqual(counts(errors)[0]['wrong'], 1)
        small = ''.join(line + '\n' for line in lines[:14] + ['CKSUM = ' + right.lower()] + lines[15:]).encode()
        self.assertEqual(run('convert', '-', data=small + body)[:2], (0, body))

    def test_two_headers_and_a_line(self):
        """What --skip does with a wrong CKSUM, and what with a line."""
        wrong = ''.join(line + '\n' for line in header()[:14] + ['CKSUM = ??']).encode()
        for data, why, rest in ((wrong + A + wrong, 'CKSUM is not right in 2 headers', 'takes their data lines all the same'),
                                (wrong + A + b'x', "1 can't be taken and CKSUM is not right in 1 header",
                                 "goes on without the former, and takes the header's data lines"),
                                (wrong + A + wrong + b'x\ny', "2 can't be taken and CKSUM is not right in 2 headers",
                                 "goes on without the former, and takes the headers' data lines")):
            status, output, errors = run('convert', '-', data=data)
            self.assertEqual((status, output, counts(errors)[1]), (1, b'', 'nothing is written, as %s; --skip %s' % (why, rest)))
            self.assertEqual(run('convert', '--skip', '-', data=data)[:2], (0, A))

    def test_nothing_to_write(self):
        """Without a line that is taken a file stays as it was, and none is made."""
        out, line = self.kept('out', b'as it was'), with_check(TAKEN)
        for data in (b'', b'\xef\xbb\xbf', b'\n\n', '\n'.join(header()).encode(), b'\x1f\x8b', b'hello\n', line[:112].encode(),
                     '\r'.join(header() + [line]).encode(), self.changed(54, '+9999999999').encode()):
            for options in ((), ('--skip',)):
                for path in (out, self.folder / 'new'):
                    status, output, errors = run('convert', '-', *options, '-o', path, data=data)
                    self.assertEqual((status, output, counts(errors)[1]), (1, b'', 'nothing is written, as no data line is taken'))
                self.assertEqual(run('convert', '-', *options, data=data)[:2], (1, b''))
        self.assertEqual((out.read_bytes(), (self.folder / 'new').exists()), (b'as it was', False))

    def test_every_line_is_named(self):
        """A file of another kind: as many names as lines, and a packed one once."""
        text = (ROOT / 'README.md').read_bytes()
        status, output, errors = run('convert', '-', data=text)
        self.assertEqual((status, output), (1, b''))
        found, _ = counts(errors)
        self.assertEqual(len(named(errors)), found['data'])
        self.assertEqual(found['read'], text.count(b'\n'))
        self.assertEqual(named(run('convert', '-', data=b'\x1f\x8b' + bytes(range(256)) * 4)[2]),
                         [('-', 1, 1, 'a gzip file, which has to be unpacked first')])

    def test_lines_that_differ(self):
        """15 with both places, whatever files they are of; --skip does not choose between them."""
        other, third = (ended(50722, '001800', 'E01', [change]) for change in ((35, '+0000000011'), (108, 'L1P')))
        one, two = self.kept('one', A + D + E + D), self.kept('two', b'\n' + F + other + B + third)
        told = ''.join('%s:2: refused 15: %s\n  %s:%d has MJD 50722, start 001800, E01 too, and is another from column %d on (%s)\n'
                       '  %s is %s in %s:2 and %s in %s:%d\n'
                       % (one, MEANINGS[15], two, line, column, name, name, value, one, other_value, two, line)
                       for line, column, name, value, other_value in ((3, 45, 'REFSV', '+0000000010', '+0000000011'),
                                                                      (5, 110, 'FRC', 'L1C', 'L1P')))
        for options in ((), ('--skip',)):
            status, output, errors = run('convert', one, two, *options, '-o', self.folder / 'out')
            self.assertEqual((status, output, errors[:errors.index('cggtts: read')]), (1, b'', told))
            self.assertEqual(counts(errors)[1], 'nothing is written, as 2 differ from another of the same keys')
            self.assertFalse((self.folder / 'out').exists())


class Use(Scratch):
    def test_wrong_use(self):
        form = "'%s' is neither OLD=NEW nor XYZ, three characters each, those of NEW and XYZ A to Z or 0 to 9"
        for arguments, reason in (((), 'no file'), (('-o', 'x'), 'no file'), (('a', '--frc'), '--frc without OLD=NEW or XYZ'),
                                  (('a', '--frc', 'l1c'), form % 'l1c'), (('a', '--frc', 'L1'), form % 'L1'),
                                  (('a', '--frc', 'L1C', '--frc=L1P'), '--frc XYZ twice'), (('a', '--hc'), '--hc without a number'),
                                  (('a', '--hc', '1', '--hc=1'), '--hc twice'), (('a', '--hc', '100'), "'100' is no HC, which is 0 to 99"),
                                  (('a', '--hc', '-1'), "'-1' is no HC, which is 0 to 99"), (('a', '--hc='), "'' is no HC, which is 0 to 99"),
                                  (('a', '--hc', '1x'), "'1x' is no HC, which is 0 to 99"),
                                  (('a', '--frc', 'E1=E1C'), form % 'E1=E1C'), (('a', '--frc', ' E1=e1c'), form % ' E1=e1c'),
                                  (('a', '--frc', ' E1-E1C'), form % ' E1-E1C'), (('a', '--frc', ' E1=E1CC'), form % ' E1=E1CC'),
                                  (('a', '--frc= E1=E1C', '--frc= E1=E1D'), "--frc twice for ' E1'"),
                                  (('a', '--skipped'), "no option '--skipped'"), (('a', '--pairs'), "no option '--pairs'"),
                                  (('a', *('--frc=A%02d=L1C' % i for i in range(33))), 'more than 32 times --frc')):
            self.assertEqual(run('convert', *arguments), (2, b'', 'cggtts: convert: %s; try cggtts --help\n' % reason))
        for command in ('line', 'read', 'merge', 'view'):
            for option in ('--skip', '--frc'):
                self.assertEqual(run(command, 'a', option), (2, b'', "cggtts: %s: no option '%s'; try cggtts --help\n" % (command, option)))
        self.assertIn(b'cggtts convert FILE.. [-o LINES] [--skip] [--frc OLD=NEW].. [--hc N --frc XYZ]', run('convert', '--help')[1])

    def test_what_is_read_is_not_written_to(self):
        """Header and comments would be lost with the original."""
        path = self.kept('file', A)
        self.assertEqual(run('convert', path, '-o', path), (2, b'', 'cggtts: convert: %s is read, and would be overwritten: name another file; try cggtts --help\n' % path))
        with path.open('ab') as behind:
            self.assertEqual(run('convert', path, stdout=behind), (2, None, 'cggtts: %s: is also standard output\n' % path))
        self.assertEqual(path.read_bytes(), A)
        with path.open('wb') as empty:
            self.assertEqual(run('convert', path, stdout=empty),
                             (2, None, 'cggtts: %s: is also standard output, and is empty now: it has to be fetched again\n' % path))

    def test_files_that_can_not_be_read_or_written(self):
        out = self.kept('out', b'as it was')
        self.assertEqual(run('convert', 'examples/first.cggtts', 'no/such', '-o', out), (2, b'', 'cggtts: no/such: No such file or directory\n'))
        self.assertEqual(run('convert', 'examples/first.cggtts', '-o', '/dev/full'), (2, b'', 'cggtts: /dev/full: No space left on device\n'))
        self.assertEqual(run('convert', '-', '-', data=A)[::2], (2, 'cggtts: -: standard input can be read only once\n'))
        self.assertEqual(out.read_bytes(), b'as it was')

    def test_standard_output_that_fails(self):
        """Nothing is called written that was not: a full disk, and a limit of 512 bytes on a file's size."""
        with open('/dev/full', 'wb') as full:
            self.assertEqual(run('convert', 'examples/first.cggtts', stdout=full),
                             (2, None, 'cggtts: standard output: No space left on device\n'))
        done = subprocess.run(['sh', '-c', 'ulimit -f 1; exec "$0" convert "$1" > "$2"', PROGRAM, ROOT / 'examples' / 'week.cggtts',
                               self.folder / 'short'], stderr=subprocess.PIPE, check=False)
        self.assertEqual((done.returncode, done.stderr), (2, b'cggtts: standard output: File too large\n'))

    def test_the_papers_command(self):
        """That of the messages and of the papers, on a file with a header, comments and blanks."""
        for paper, form in (('docs/REFUSALS.md', '    %s\n'), ('docs/COMMON-VIEW.md', '    %s\n'), ('man/cggtts.1', '    %s\n'), ('README.md', '| `%s` |\n')):
            text = (ROOT / paper).read_text().replace('\\-', '-')
            self.assertIn(form % 'cggtts convert FILE -o LINES', text.replace('$ ', ''), paper)
            self.assertNotIn('CEGJR][0-9]', text, paper)
        self.kept('FILE', '\n'.join(header() + [line.decode('latin-1')[:113] + ' x' for line in LINES]).encode())
        done = subprocess.run([PROGRAM, 'convert', 'FILE', '-o', 'LINES'], cwd=self.folder, capture_output=True, check=False)
        self.assertEqual((done.returncode, (self.folder / 'LINES').read_bytes()), (0, b''.join(LINES)))


class Read(Scratch):
    def test_a_header(self):
        """It is told once, and what follows is read."""
        data = '\n'.join(header()).encode() + b'\n' + A + B
        for begin in (b'', b'\xef\xbb\xbf'):
            path = self.kept('file', begin + data)
            status, output, errors = run('read', path)
            told = '%s:1: refused 12: %s\n  it is the first of a header\'s lines, up to line 18\n' % (path, MEANINGS[12])
            self.assertEqual((status, errors), (1, told + ''.join('  %s\n' % row for row in advised(NO_HEADER, path))))
            self.assertEqual(re.findall(rb'(?m)^\S.*:(\d+)$', output), [b'19', b'20'])

    def test_a_header_that_is_not_right(self):
        """Its title is told, and every other line is refused or shown by itself."""
        told = '-:1: refused 12: %s\n' % MEANINGS[12] + ''.join('  %s\n' % row for row in advised(NO_HEADER, '-'))
        self.assertEqual(run('read', data=b'CGGTTS\n'), (1, b'', told))
        lines = header()
        lines[8] += 'x'
        status, output, errors = run('read', data='\n'.join(lines).encode() + b'\n' + A)
        self.assertEqual(status, 1)
        self.assertEqual(re.findall(r'(?m)^-:(\d+): refused', errors), [str(number) for number in range(1, 19)])
        self.assertTrue(output.startswith(b'-:19\n'))


class Generated(Scratch):
    """Ten thousand files with all kinds of damage: every data line is written or named, and the counts add up."""

    FILES, RUNS, CODES, SUPPLIED = 100, 100, {' E1': 'E1C', 'B1i': 'B1I'}, (7, 'L1P')
    # no two letters have a satellite in common, as lines of version 01 have no letter
    KEYS = [(mjd, minute, letter, satellite + place) for mjd in (57000, 57001)
            for minute in start_minutes(mjd)
            for place, letter in enumerate('CEGJR') for satellite in (1, 6, 11, 40, 95)]

    def line(self, pick, key):
        """A data line of these keys, with fills, values and a code by chance."""
        mjd, minute, letter, satellite = key
        ranges = ranges_of(letter)
        clock = minute // 60 * 10000 + minute % 60 * 100
        values = (satellite, pick.choice(('FF', '0A', ' 8')), mjd, clock, pick.choice((780, 60, 765)), pick.randrange(901), pick.randrange(3600),
                  pick.randrange(-10 ** 9, 10 ** 9), pick.randrange(-999, 999), pick.randrange(-999, 999), pick.choice((0, 5, -7)), pick.randrange(99),
                  pick.randrange(ranges['IOE'][0], ranges['IOE'][1] + 1), pick.randrange(999), pick.randrange(-99, 99), pick.randrange(999), 0,
                  pick.randrange(ranges['FR'][0], ranges['FR'][1] + 1), pick.randrange(100), pick.choice(('L1C', 'L1C', 'E5Q', ' E1', 'B1i', 'b1 ')))
        return with_check(filled(letter, values, pick.choice))

    def damaged(self, pick, line):
        """The line, which may have a fault, whose CK may be made to fit."""
        place = pick.randrange(len(line))
        other = chr(pick.choice((32, 48, 57, 65, 9, 0, 13, 255, pick.randrange(256))))
        other = ' ' if other == '\n' else other
        return pick.choice((
            lambda: line, lambda: line, lambda: line, lambda: line + pick.choice((' noted', 'x' * 27, 'x' * 28, '   ')),
            lambda: line[:place], lambda: line[place:], lambda: line[:place] + other + line[place + 1:], lambda: line[:place] + line[place + 1:],
            lambda: line[:place] + other + line[place:], lambda: with_check((line[:place] + other + line[place + 1:])[:111]),
            lambda: with_check(line[:81] + '9999' + line[85:111]), lambda: line[:111] + line[111:].lower(), lambda: ' ' + line,
            lambda: with_check(line[:111] + ' ' * 14), lambda: self.old(pick, line), lambda: self.old(pick, line), lambda: line.replace(' ', '\t'),
            lambda: with_check(line[:34] + line[34:111].replace('0', ' ', 1)), lambda: with_check(line[:111].replace('+', ' ')),
            lambda: line[:40] + line[41] + line[40] + line[42:]))()

    def old(self, pick, line):
        """The line in the form of version 01, which may have a fault or a comment."""
        columns = ' ' + line[1:101]
        place = pick.randrange(1, len(columns))
        return pick.choice((
            lambda: with_check(columns), lambda: with_check(columns) + pick.choice((' noted', 'x' * 25, 'x' * 26, ' ' * 30, '\xe9')),
            lambda: with_check(columns).lower(), lambda: with_check('1' + columns[1:]), lambda: with_check(columns + ' 480  -37  18 '),
            lambda: with_check(columns[:place] + pick.choice(' 0+-9A\t') + columns[place + 1:]), lambda: with_check(columns)[:-1],
            lambda: columns + '??', lambda: with_check(columns) + with_check(columns)))()

    def header_lines(self, pick):
        """A header, which may be right, or cut, or lack a line, or have one too many, or none."""
        lines = header()
        place = pick.randrange(len(lines))
        return pick.choice((lambda: [], lambda: [], lambda: lines, lambda: lines, lambda: lines[:place], lambda: lines[place:],
                            lambda: lines[:place] + lines[place + 1:], lambda: lines[:place] + ['of our own'] + lines[place:],
                            lambda: lines[:place] + [lines[place][:-1]] + lines[place + 1:], lambda: lines + lines,
                            lambda: header(HEADER + ('OWN = 1', 'x')), lambda: [HEADER[0]]))()

    def file(self, pick, keys):
        """The bytes of a file, and the numbers of the lines that data lines stand in, wholly or in part."""
        pieces = [(line, False) for line in self.header_lines(pick)]
        for key in keys:
            pieces.append((self.damaged(pick, self.line(pick, key)), True))
            pieces += [('', False)] * (pick.random() < 0.1) + [pieces[-1]] * (pick.random() < 0.1)
            pieces += [(line, False) for line in self.header_lines(pick)] if pick.random() < 0.02 else []
        ends = pick.choice((('\n',), ('\r\n',), ('\n', '\r\n'), ('\n', '\n', '\n', '')))
        text, data = pick.choice(('', '', '\xef\xbb\xbf')), set()
        for piece, is_data in pieces:
            if is_data and piece.strip(' \t'):
                data.add(text.count('\n') + 1)
            text += piece + pick.choice(ends)
        return text.encode('latin-1'), data

    def expected(self, text):
        """The lines of ours that stand in a file, each with its number, by the reader of these tests."""
        lines = text.removeprefix(b'\xef\xbb\xbf').decode('latin-1').split('\n')
        found = ((number, taken(line.removesuffix('\r'), self.CODES, self.SUPPLIED)) for number, line in enumerate(lines, 1))
        return {number: line for number, line in found if line}

    def check(self, files, status, output, errors):
        """Every data line is written, as it is read here, or named; nothing else is written, and the counts add up."""
        written, left = output.decode().split('\r\n')[:-1], {}
        for name, number, _, _ in every(errors):
            left.setdefault(name, []).append(number)
        wanted = set()
        for name, (text, data) in files.items():
            lines = self.expected(text)
            wanted.update(lines.values())
            self.assertEqual(data - set(left.get(str(name), ())) - set(lines), set(), (name, text))
            self.assertEqual(set(left.get(str(name), ())) & set(lines), set(), (name, text))
        self.assertEqual((status, sorted(written, key=lambda line: by_keys(line.encode()))), (0, written))
        self.assertEqual(set(written), wanted)
        self.assertEqual(len(written), len(wanted))
        found, _ = counts(errors)
        self.assertEqual(found['read'], found['header'] + found['empty'] + found['data'])
        self.assertEqual(found['data'], found['written'] + found['equal'] + found['left'])
        self.assertEqual((found['written'], found['left']), (len(written), len(named(errors)) - found['wrong']))
        self.assertEqual(found['read'], sum(len((text.removeprefix(b'\xef\xbb\xbf') + b'x').split(b'\n')) - (text.removeprefix(b'\xef\xbb\xbf')[-1:] in (b'\n', b''))
                                            for text, _ in files.values()))
        return found

    def test_ten_thousand_files(self):
        pick, sums = random.Random(26), {}
        options = ['--skip', '--hc=%d' % self.SUPPLIED[0], '--frc', self.SUPPLIED[1], *('--frc=%s=%s' % pair for pair in self.CODES.items())]
        for _ in range(self.RUNS):
            keys = iter(pick.sample(self.KEYS, 5 * self.FILES))
            files = {}
            for i in range(self.FILES):
                text, data = self.file(pick, [next(keys) for _ in range(pick.randrange(1, 5))])
                files[self.kept('f%d' % i, text)] = text, data
            found = self.check(files, *run('convert', *options, *files))
            sums = {name: sums.get(name, 0) + count for name, count in found.items()}
        self.assertGreater(min(sums.values()), 500, sums)
        self.assertEqual(run('convert', *options[1:], *files)[:2], (1, b''))


if __name__ == '__main__':
    unittest.main()
