#!/usr/bin/env python3
"""Runs cggtts down and up, and convert on files of version 01: the lines that they write, their messages and exit statuses.

    python3 tests/cggtts/test_version01.py

Lines of either form are made here by their columns; places and reasons are written out by hand. What is had of the lines that
documents 003 and 004 print goes on through read, merge and view.
"""
import gzip
import random
import re
import unittest

from publishing import HEADER, columns_of, filled, header, taken
from papers import FIELDS, checksum, field, with_check
from test_cggtts import MEANINGS, ROOT, SAMPLE_COLUMNS, SAMPLE_LINE, Scratch, WORKED_LINE, line_with, run
from test_convert import counts, expected, named, published
from test_merge import ended, sorted_lines

OLD_SAMPLE = b' 05 FF 50722 000200 0780 450 1800 +0000000010 +00000 +0000000010 +00000 0000 007 0000 +000 0000 +000 1F\r\n'
OLD_WORKED = b' 17 FF 60600 133000 0780 583 2145 +0001233431 +00009 -0000000315 -00041 0003 087 0097 +005 0202 -021 80\r\n'
# the two lines that head the columns of version 01
HEADING = ('PRN CL  MJD  STTIME TRKL ELV AZTH   REFSV      SRSV     REFGPS    SRGPS  DSG IOE MDTR SMDT MDIO SMDI CK',
           '             hhmmss  s  .1dg .1dg    .1ns     .1ps/s     .1ns    .1ps/s .1ns     .1ns.1ps/s.1ns.1ps/s')
OLD_HEADER = header(('GGTTS GPS DATA FORMAT VERSION = 01',) + HEADER[1:], HEADING)
UP = ('--hc', '0', '--frc', 'L1C')
WEEK = 'examples/week.cggtts'


def old_with(*changes):
    """The sample in the old form with other texts from their columns on, and the CK of that."""
    return line_with(changes, OLD_SAMPLE.decode()[:101]).encode()


def lowered(line):
    """A line of ours in the old form, by its columns."""
    return with_check(' ' + line.decode()[1:101]).encode() + b'\r\n'


def raised(old, hc, frc):
    """The other way round."""
    return with_check('G' + old.decode()[1:101] + '00 %02d %s ' % (hc, frc)).encode() + b'\r\n'


def of_gps(lines):
    return [line for line in lines.splitlines(keepends=True) if line.startswith(b'G')]


def down_told(lines, comments, hc, frc, left=None):
    """The sentence below so many lines that came down; HC and FRC that all of them have, or None."""
    rest = '' if left is None else ', %d of other constellations left out' % left
    if hc is None or frc is None:
        what = 'HC and FRC are dropped: HC is %s in all lines, FRC is %s in all lines' % (
            'not the same' if hc is None else '%02d' % hc, 'not the same' if frc is None else frc)
    else:
        what = 'HC %02d and FRC %s are dropped, and cggtts up --hc %d --frc %s puts them in again' % (hc, frc, hc, frc)
    return 'cggtts: %d line%s of version 01 written%s, %d comment%s dropped; %s\n' % (lines, 's'[lines == 1:], rest, comments, 's'[comments == 1:], what)


def up_told(lines, comments, hc=0, frc='L1C'):
    return 'cggtts: %d line%s written with HC %02d and FRC %s, %d comment%s dropped\n' % (
        lines, 's'[lines == 1:], hc, frc, comments, 's'[comments == 1:])


def unordered(place, more=''):
    """The remark on a line that does not ascend."""
    return '  a remark: %s does not follow the line before by MJD, start and satellite%s; cggtts convert puts lines in order\n' % (place, more)


def same_keys(place, other, more='', why='cggtts convert writes equal lines once, and refuses others with 15'):
    return '  a remark: %s has the MJD, start and satellite of %s%s; %s\n' % (place, other, more, why)


EMPTIED = 'it is empty, and so has no line'


class Down(Scratch):
    def test_lines_by_hand(self):
        self.assertEqual(run('down', '-', data=SAMPLE_LINE), (0, OLD_SAMPLE, down_told(1, 0, 0, 'L1C')))
        self.assertEqual(run('down', '-', data=WORKED_LINE), (0, OLD_WORKED, down_told(1, 0, 5, 'L1C')))
        self.assertEqual(run('down', '-', data=SAMPLE_LINE + WORKED_LINE), (0, OLD_SAMPLE + OLD_WORKED, down_told(2, 0, None, 'L1C')))

    def test_hc_and_frc_each_by_itself(self):
        for hc, frc, told in (('00', 'L1C', (0, 'L1C')), ('31', 'L1C', (None, 'L1C')), ('00', 'L1P', (0, None)), ('31', 'L1P', (None, None))):
            other = line_with([(105, hc), (108, frc)], WORKED_LINE.decode()[:111]).encode()
            self.assertEqual(run('down', '-', data=SAMPLE_LINE + other), (0, OLD_SAMPLE + OLD_WORKED, down_told(2, 0, *told)))

    def test_line_ends_and_comments(self):
        line = SAMPLE_LINE[:113]
        for data, lines, comments in ((line, 1, 0), (line + b'\n', 1, 0), (line + b'\r', 1, 0), (line + b' noted\n' + line + b'x' * 27, 2, 2),
                                      (line + b'\r\n' + line + b' \n', 2, 1)):
            told = down_told(lines, comments, 0, 'L1C') + (same_keys('-:2', '-:1') if lines == 2 else '')
            self.assertEqual(run('down', '-', data=data), (0, OLD_SAMPLE * lines, told))

    def test_files_in_their_order(self):
        one, other, out = self.kept('one', WORKED_LINE), self.kept('other', SAMPLE_LINE * 2), self.folder / 'out'
        told = down_told(4, 0, None, 'L1C') + unordered('%s:1' % other) + same_keys('%s:2' % other, '%s:1' % other, ', and 1 more line has those of another')
        for arguments in ((one, other, '-', '-o', out), ('-o', out, one, other, '-'), (one, '-o%s' % out, '--', other, '-')):
            self.assertEqual(run('down', *arguments, data=SAMPLE_LINE), (0, b'', told))
            self.assertEqual(out.read_bytes(), OLD_WORKED + OLD_SAMPLE * 3)
        self.assertEqual(run('down', one, other, '-', '-o', '-', data=SAMPLE_LINE), (0, out.read_bytes(), told))

    def test_the_week(self):
        week = (ROOT / WEEK).read_bytes()
        lines = of_gps(week)
        self.assertGreater(len(lines), 50)
        told = down_told(len(lines), 0, None, 'L1C', week.count(b'\n') - len(lines))
        self.assertEqual(run('down', WEEK, '--gps'), (0, b''.join(map(lowered, lines)), told))
        self.assertEqual(run('down', '-', data=b''.join(lines)), (0, b''.join(map(lowered, lines)), down_told(len(lines), 0, None, 'L1C')))

    def test_two_codes_of_one_satellite(self):
        """Their old lines have the same keys: the first such line is named, wherever the other stands, with both codes."""
        other = line_with([(108, 'L1P')], WORKED_LINE.decode()[:111]).encode() + b'\r\n'
        why = 'their FRC, L1P and L1C, is dropped, and nothing tells the two codes apart'
        told = down_told(2, 0, 5, None) + same_keys('-:2', '-:1', why=why)
        self.assertEqual(run('down', '-', data=WORKED_LINE + other), (0, OLD_WORKED * 2, told))
        told = down_told(4, 0, None, None) + unordered('-:3') + same_keys('-:3', '-:1', ', and 1 more line has those of another')
        self.assertEqual(run('down', '-', data=SAMPLE_LINE + WORKED_LINE + SAMPLE_LINE + other), (0, (OLD_SAMPLE + OLD_WORKED) * 2, told))
        one, two = self.kept('one', WORKED_LINE), self.kept('two', other)
        self.assertEqual(run('down', one, two)[2], down_told(2, 0, 5, None) + same_keys('%s:1' % two, '%s:1' % one, why=why))

    def test_no_line_is_left(self):
        """Nothing is written, and a file that stands is not emptied."""
        none, out = self.kept('none', b''), self.kept('out', OLD_SAMPLE)
        remark = 'cggtts: %s: a remark: %s\n' % (none, EMPTIED)
        others = ended(50722, '000200', 'R05') + ended(50722, '000200', 'R06')
        for arguments, data, told in ((('down', none), b'', remark + 'cggtts: down: nothing is written, as there is no line\n'),
                                      (('up', none, *UP), b'', remark + 'cggtts: up: nothing is written, as there is no line\n'),
                                      (('down', none, '--gps', '-'), others[:115],
                                       remark + 'cggtts: down: nothing is written, as no line is left: 1 of other constellations is left out\n'),
                                      (('down', '--gps', '-'), others, 'cggtts: down: nothing is written, as no line is left: 2 of other constellations are left out\n')):
            self.assertEqual(run(*arguments, data=data), (1, b'', told))
            self.assertEqual(run(*arguments, '-o', out, data=data), (1, b'', told))
            self.assertEqual(run(*arguments, '-o', self.folder / 'new', data=data), (1, b'', told))
            self.assertEqual((out.read_bytes(), (self.folder / 'new').exists()), (OLD_SAMPLE, False))
        self.assertEqual(run('down', none, '-', data=SAMPLE_LINE), (0, OLD_SAMPLE, remark + down_told(1, 0, 0, 'L1C')))


class Refused(Scratch):
    def refused(self, number, line, *told, arguments=('down',), place=1, more=b''):
        """The line, behind others, is refused with this number and these rows, and nothing is written."""
        path, out = self.kept('a', more + line + b'\n'), self.kept('out', b'as it was')
        rows = ''.join('  %s\n' % row for row in told)
        message = '%s:%d: refused %d: %s\n%s' % (path, place, number, MEANINGS[number], rows)
        self.assertEqual(run(*arguments, path, '-o', out), (1, b'', message))
        self.assertEqual(run(*arguments, path), (1, b'', message))
        self.assertEqual(out.read_bytes(), b'as it was')

    def mended(self, what='convert puts fills and line ends right, and leaves comments out', options=''):
        """The rows of the command that mends the file."""
        return ('%s; this makes a line file of it:' % what, '  cggtts convert %s%s -o LINES' % (self.folder / 'a', options))

    def refused_up(self, number, line, *told, advice=False, **more):
        rows = ('convert puts fills right and leaves comments out; this makes a line file of it:', '  cggtts convert %s --hc 0 --frc L1C -o LINES' % (self.folder / 'a'))
        self.refused(number, line, *told, *(rows if advice else ()), arguments=('up', *UP), **more)

    def test_down(self):
        self.refused(12, SAMPLE_LINE[:112], 'it has 112 bytes')
        self.refused(12, SAMPLE_LINE[:113] + b'x' * 28, 'it has 141 bytes', place=3, more=SAMPLE_LINE * 2)
        self.refused(14, SAMPLE_LINE[:111] + b'27', 'CK, columns 112 and 113, is "27", and the columns before it give 26')
        self.refused(13, line_with([(2, ' 5')]).encode(), 'column 2 (satellite) is a blank, not a digit', *self.mended())
        self.refused(13, line_with([(105, ' 0')]).encode(), 'column 105 (HC) is a blank, not a digit', *self.mended())
        self.refused(13, line_with([(2, ' x')]).encode(), 'column 2 (satellite) is a blank, not a digit')
        self.refused(13, SAMPLE_LINE[:113] + b'\xe9', r'column 114 (comment) is \xE9, not a byte from 20 to 7E', *self.mended())
        self.refused(13, line_with([(97, '-000')]).encode(), 'column 97 (SMDI) is a minus before a zero, which has a plus', *self.mended())
        code = 'convert puts NEW, three of A to Z and 0 to 9, in the place of its FRC'
        self.refused(13, line_with([(108, ' L1')]).encode(), 'column 108 (FRC) is a blank, not a capital letter or a digit', *self.mended(code, " --frc ' L1=NEW'"))
        self.refused(13, line_with([(108, 'L1\t')]).encode(), 'column 110 (FRC) is a tab, not a capital letter or a digit')
        self.refused(7, line_with([(78, '256')]).encode(), 'IOE is 256, not 0 to 255 for G')
        self.refused(8, line_with([(14, '246000')]).encode(), 'columns 14 and 15, the hour of the start, are 24, not 00 to 23')
        self.refused(25, ended(50722, '000200', 'R05')[:113], 'its letter is R, of GLONASS; --gps leaves such lines out')
        self.refused(25, ended(50722, '000200', 'E05')[:113] + b' noted', 'its letter is E, of Galileo; --gps leaves such lines out')

    def test_gps_leaves_no_other_refusal_out(self):
        for letter, place, more in (('R', 1, b''), ('G', 2, ended(50722, '000200', 'J05'))):
            line = line_with([(1, letter), (26, '901'), (102, '01' if letter == 'R' else '00')]).encode()
            self.refused(7, line, 'ELV is 901, not 0 to 900', arguments=('down', '--gps'), place=place, more=more)

    def test_up(self):
        self.refused_up(12, OLD_SAMPLE[:102], 'it has 102 bytes')
        self.refused_up(12, OLD_SAMPLE[:103] + b'x' * 26, 'it has 129 bytes', place=2, more=OLD_SAMPLE)
        self.refused_up(14, OLD_SAMPLE[:101] + b'1f', 'CK, columns 102 and 103, is "1f", and the columns before it give 1F')
        self.refused_up(14, OLD_SAMPLE[:101] + b'OF', 'CK, columns 102 and 103, is "OF", and the columns before it give 1F')
        self.refused_up(13, old_with((1, '0')), 'column 1 (before satellite) is 0, not a blank')
        self.refused_up(13, old_with((5, 'ff')), 'column 5 (CL) is f, not a digit or a capital letter A to F', advice=True)
        self.refused_up(13, old_with((97, ' 0+0')), 'column 97 (SMDI) is a blank, not a sign')
        self.refused_up(13, old_with((101, '0')), 'column 101 (before CK) is 0, not a blank')
        self.refused_up(13, old_with((35, '-0000000000')), 'column 35 (REFSV) is a minus before a zero, which has a plus', advice=True)
        self.refused_up(13, OLD_SAMPLE[:103] + b'a\tb', 'column 105 (comment) is a tab, not a byte from 20 to 7E', advice=True)
        for changes, told in (([(2, '00')], ['satellite is 0, not 1 to 99']), ([(8, '48877')], ['MJD is 48877, not 50722 to 99999']),
                              ([(78, '256'), (30, '3600')], ['IOE is 256, not 0 to 255 for G', 'AZTH is 3600, not 0 to 3599']),
                              ([(21, '0781')], ['TRKL is 781 s, not a multiple of 15 from 60 to 780'])):
            self.refused_up(7, old_with(*changes), *told)
        self.refused_up(8, old_with((14, '006000')), 'columns 16 and 17, the minute of the start, are 60, not 00 to 59')
        status, output, errors = run('up', '-', *UP, data=old_with((14, '000300')))
        self.assertEqual((status, output, errors.splitlines()[0]), (1, b'', '-:1: refused 8: ' + MEANINGS[8]))
        self.assertIn('00:02:00', errors)
        self.assertIn('00:18:00', errors)

    def test_the_advice_is_given_once(self):
        lines = [line_with([(2, ' 5')]).encode() + b'\r\n'] * 2
        told = '%s:%d: refused 13: %s\n  column 2 (satellite) is a blank, not a digit\n'
        path = self.kept('a', b''.join(lines))
        advice = ''.join('  %s\n' % row for row in self.mended())
        self.assertEqual(run('down', path), (1, b'', told % (path, 1, MEANINGS[13]) + advice + told % (path, 2, MEANINGS[13])))
        self.assertEqual(run('convert', path)[:2], (0, SAMPLE_LINE))

    def test_empty_lines(self):
        empty = 'convert leaves empty lines out'
        self.refused(12, b'', 'it has 0 bytes', *self.mended(empty), place=2, more=SAMPLE_LINE)
        self.refused(12, b'   ', 'it has 3 bytes', *self.mended(empty), place=2, more=SAMPLE_LINE)
        self.refused_up(12, b'', 'it has 0 bytes', *self.mended(empty, ' --hc 0 --frc L1C'), place=2, more=OLD_SAMPLE)
        self.assertEqual(run('convert', self.folder / 'a', *UP)[:2], (0, SAMPLE_LINE))

    def test_carriage_return_alone(self):
        """The cause is told, and what tr makes of the file is taken."""
        told = r"its lines end with carriage return alone: tr '\r' '\n' puts line feeds in their place"
        ours, old = SAMPLE_LINE[:113] + b'\r' + WORKED_LINE[:113] + b'\r', OLD_SAMPLE[:103] + b'\r' + OLD_WORKED[:103] + b'\r'
        self.refused(12, ours, told)
        self.refused_up(12, old, told)
        self.assertEqual(run('read', '-', data=ours), (1, b'', '-:1: refused 12: %s\n  %s\n' % (MEANINGS[12], told)))
        self.assertEqual(run('down', '-', data=ours.replace(b'\r', b'\n'))[:2], (0, OLD_SAMPLE + OLD_WORKED))
        self.assertEqual(run('up', '-', *UP, data=old.replace(b'\r', b'\n'))[0], 0)

    def test_every_refused_line(self):
        """Up to 20 of a file with their reasons, and then how many more there are; advice is given once."""
        lines = [ended(50722, '000200', 'E%02d' % satellite) for satellite in range(1, 24)]
        for count, more in ((20, ''), (21, '  and 1 more line is refused\n'), (23, '  and 3 more lines are refused\n')):
            told = ''.join('-:%d: refused 25: %s\n  its letter is E, of Galileo%s\n' % (
                place, MEANINGS[25], '; --gps leaves such lines out' if place == 2 else '') for place in range(2, 22))
            self.assertEqual(run('down', '-', data=b''.join([SAMPLE_LINE, *lines[:count]])), (1, b'', told + more))

    def test_two_files(self):
        """Both are looked at, and a file that can't be read counts more."""
        one, other = self.kept('one', SAMPLE_LINE[:50]), self.kept('other', SAMPLE_LINE + b'\n')
        told = ''.join('%s:%d: refused 12: %s\n  it has %d bytes\n' % (path, line, MEANINGS[12], length)
                       for path, line, length in ((one, 1, 50), (other, 2, 0)))
        told += '  convert leaves empty lines out; this makes a line file of it:\n    cggtts convert %s -o LINES\n' % other
        self.assertEqual(run('down', one, other), (1, b'', told))
        self.assertEqual(run('down', one, 'no/such', other), (2, b'', told.replace(str(other), 'cggtts: no/such: No such file or directory\n%s' % other, 1)))

    def test_lines_of_the_other_form(self):
        self.refused(12, OLD_SAMPLE[:103], 'it is a line of version 01 already')
        self.refused_up(14, SAMPLE_LINE[:113], 'it is a line of ours already, with the letter G')
        self.refused_up(12, SAMPLE_LINE[:113] + b'x' * 20, 'it is a line of ours already, with the letter G')

    def test_what_is_none_of_lines(self):
        for data, told in (((ROOT / 'examples' / 'sample.blk').read_bytes(), "it is a hire block, which 'cggtts check' and 'cggtts line' take"),
                           (gzip.compress(SAMPLE_LINE * 9), 'it is a gzip file: unpack it first, as by gunzip')):
            path = self.kept('a', data)
            for arguments in (('down', path), ('up', path, *UP)):
                status, output, errors = run(*arguments)
                self.assertEqual((status, output), (1, b''))
                self.assertRegex(errors, r'^%s:1: refused 1[24]: [^\n]*\n  %s\n$' % (re.escape(str(path)), re.escape(told)))

    def test_headers(self):
        """Neither takes one; the command is said that does."""
        for arguments, lines, what, command in (
                (('down',), header() + [SAMPLE_LINE.decode()], 'the file begins with a header, and a line file has data lines alone', ''),
                (('up', *UP), OLD_HEADER + [OLD_SAMPLE.decode()], 'the file begins with a header, and lines are taken alone', ' --hc 0 --frc L1C')):
            path = self.kept('a', '\n'.join(lines).encode())
            told = '%s:1: refused 12: %s\n  %s; this makes a line file of it:\n    cggtts convert %s%s -o LINES\n' % (path, MEANINGS[12], what, path, command)
            self.assertEqual(run(*arguments, path), (1, b'', told))
            self.assertEqual(run('convert', path, *UP)[:2], (0, SAMPLE_LINE))

    def test_headers_of_version_01(self):
        """Wherever such a file is given, the command has HC and FRC, and works with both put in."""
        ours = self.kept('ours', SAMPLE_LINE)
        for lines in (OLD_HEADER, ['\ufeff' + OLD_HEADER[0], *OLD_HEADER[1:]], HEADING):
            path = self.kept('a', '\n'.join([*lines, OLD_SAMPLE.decode()]).encode())
            rows = ('  the file begins with a header of version 01, and a line file has data lines of ours alone; this makes a line file of it:\n'
                    '    cggtts convert %s --hc N --frc XYZ -o LINES\n' % path)
            for arguments in (('merge', path, ours), ('view', ours, path), ('read', path)):
                status, output, errors = run(*arguments)
                self.assertEqual((status, output), (1, b''))
                self.assertIn(rows, errors)
            self.assertEqual(run('down', path), (1, b'', '%s:1: refused 12: %s\n  it is version 01 already\n' % (path, MEANINGS[12]) + rows))
            words = re.search('cggtts (convert .*) -o LINES', rows).group(1).replace('--hc N --frc XYZ', '--hc 0 --frc L1C').split()
            self.assertEqual(run(*words)[:2], (0, SAMPLE_LINE))
        for title in ('CGGTTS GPS/GLONASS DATA FORMAT VERSION = 02', HEADER[0], 'CGGTTS DATA FORMAT VERSION = 01 and more'):
            path = self.kept('a', '\n'.join(header((title,) + HEADER[1:]) + [SAMPLE_LINE.decode()]).encode())
            self.assertIn('    cggtts convert %s -o LINES\n' % path, run('merge', path, ours)[2])

    def test_blank_fill(self):
        """13, literally; the command that takes such files is said once."""
        lines = [with_check(filled(' ', row, lambda ways: ways[1])[:101]) for row in ((5, 'FF', 57000, '000600', 780, 494, 2568, -103408, 28, -35, 7, 8, 38, 106,
                                                                                    -11, 57, -9, 0, 0, 'L1C'),) * 2]
        path = self.kept('a', '\n'.join(lines).encode())
        told = '%s:%d: refused 13: %s\n  column 2 (satellite) is a blank, not a digit\n'
        advice = '  convert puts fills right and leaves comments out; this makes a line file of it:\n    cggtts convert %s --hc 0 --frc L1C -o LINES\n' % path
        self.assertEqual(run('up', path, *UP), (1, b'', told % (path, 1, MEANINGS[13]) + advice + told % (path, 2, MEANINGS[13])))
        self.assertEqual(run('convert', path, *UP)[:2], (0, taken(lines[0], supplied=(0, 'L1C')).encode() + b'\r\n'))


class Use(Scratch):
    def test_wrong_use(self):
        for arguments, reason in ((('down',), 'down: no file'), (('up', *UP), 'up: no file'), (('down', 'a', '--hc', '1'), "down: no option '--hc'"),
                                  (('down', 'a', '--frc', 'L1C'), "down: no option '--frc'"), (('up', 'a', '--gps'), "up: no option '--gps'"),
                                  (('up', 'a'), 'up: --hc N is needed, as lines of version 01 have none'),
                                  (('up', 'a', '--frc', 'L1C'), 'up: --hc N is needed, as lines of version 01 have none'),
                                  (('up', 'a', '--hc', '1'), 'up: --frc XYZ is needed, as lines of version 01 have none'),
                                  (('up', 'a', '--hc'), 'up: --hc without a number'), (('up', 'a', '--frc'), 'up: --frc without XYZ'),
                                  (('up', 'a', *UP, *UP), 'up: --hc twice'), (('up', 'a', '--frc=L1C', '--frc=L1C'), 'up: --frc twice'),
                                  (('convert', 'a', '--hc', '1'), 'convert: --frc XYZ is needed, as lines of version 01 have none'),
                                  (('convert', 'a', '--hc', '1', '--frc', 'L1C=L1P'), 'convert: --frc XYZ is needed, as lines of version 01 have none'),
                                  (('convert', 'a', '--frc', 'L1C'), 'convert: --hc N is needed, as lines of version 01 have none'),
                                  *((('up', 'a', '--hc', '1', '--frc', word), "up: '%s' is no FRC, which is three of A to Z and 0 to 9" % word)
                                    for word in ('', 'L1', 'L1CC', 'L1C=L1P', 'l1c', ' E1'))):
            self.assertEqual(run(*arguments), (2, b'', 'cggtts: %s; try cggtts --help\n' % reason), arguments)

    def test_what_no_line_can_have(self):
        """One answer in both, whatever the files are; what a line can have is taken."""
        for command in ('up', 'convert'):
            for hc in ('', 'x', '1.0', '1 ', '0x1', '--', '100', '256', '-1', '9' * 30):
                told = "cggtts: %s: '%s' is no HC, which is 0 to 99; try cggtts --help\n" % (command, hc)
                self.assertEqual(run(command, 'no/such', '--hc', hc, '--frc', 'L1C'), (2, b'', told))
                self.assertEqual(run(command, '--frc=L1C', '--hc=' + hc, '/dev/null'), (2, b'', told))
            for hc in ('0', '00', '7', '+7', '99'):
                self.assertEqual(run(command, '-', '--hc', hc, '--frc', '9ZA', data=OLD_SAMPLE)[:2], (0, raised(OLD_SAMPLE, int(hc), '9ZA')))
            self.assertEqual(run(command, '/dev/null', '--hc', '0', '--frc', 'l1c')[0], 2)

    def test_help(self):
        for command, words in (('down', b'cggtts down LINES.. [-o OLD] [--gps]'), ('up', b'cggtts up OLD.. --hc N --frc XYZ [-o LINES]')):
            status, output, errors = run(command, '--help')
            self.assertEqual((status, errors), (0, ''))
            self.assertIn(words, output)

    def test_what_is_read_is_not_written_to(self):
        for command, data in ((('down',), SAMPLE_LINE), (('up', *UP), OLD_SAMPLE)):
            path = self.kept('file', data)
            told = 'cggtts: %s: %s is read, and would be overwritten: name another file; try cggtts --help\n' % (command[0], path)
            self.assertEqual(run(*command, path, '-o', path), (2, b'', told))
            with path.open('ab') as behind:
                self.assertEqual(run(*command, path, stdout=behind), (2, None, 'cggtts: %s: is also standard output\n' % path))
            self.assertEqual(path.read_bytes(), data)

    def test_output_that_fails(self):
        for command, data in ((('down',), SAMPLE_LINE), (('up', *UP), OLD_SAMPLE)):
            self.assertEqual(run(*command, '-', '-o', '/dev/full', data=data), (2, b'', 'cggtts: /dev/full: No space left on device\n'))
            self.assertEqual(run(*command, '-', '-o', 'no/such/file', data=data)[0], 2)
            with open('/dev/full', 'wb') as full:
                self.assertEqual(run(*command, '-', data=data, stdout=full), (2, None, 'cggtts: standard output: No space left on device\n'))


class Up(Scratch):
    def test_lines_by_hand(self):
        self.assertEqual(run('up', '-', *UP, data=OLD_SAMPLE), (0, SAMPLE_LINE, up_told(1, 0)))
        self.assertEqual(run('up', '-', '--hc', '5', '--frc', 'L1C', data=OLD_WORKED), (0, WORKED_LINE, up_told(1, 0, 5)))
        for data, lines, comments in ((OLD_SAMPLE[:103], 1, 0), (OLD_SAMPLE[:103] + b' \n', 1, 1), (OLD_SAMPLE[:103] + b'x' * 25, 1, 1)):
            self.assertEqual(run('up', '-', *UP, data=data), (0, SAMPLE_LINE * lines, up_told(lines, comments)))

    def test_the_order_stays(self):
        """Either way a remark where merge would refuse the file, and convert puts it right."""
        lines = [lowered(ended(mjd, clock, satellite)) for mjd, clock, satellite in
                 ((50722, '000200', 'G01'), (50722, '000200', 'G02'), (50722, '001800', 'G01'), (50723, '001400', 'G01'))]
        new = [raised(line, 0, 'L1C') for line in lines]
        for places, told in (((0, 1, 2, 3), ''), ((1, 0, 2, 3), unordered('-:2')), ((0, 0, 1), same_keys('-:2', '-:1')),
                             ((0, 2, 1, 0), unordered('-:3', ', and 1 more line does not either') + same_keys('-:4', '-:1')),
                             ((3, 2, 1, 0), unordered('-:2', ', and 2 more lines do not either'))):
            status, output, errors = run('up', '-', *UP, data=b''.join(lines[i] for i in places))
            self.assertEqual((status, output, errors), (0, b''.join(new[i] for i in places), up_told(len(places), 0) + told))
            self.assertEqual(run('merge', '-', '/dev/null', data=output)[0], 1 if told else 0)
            self.assertEqual(run('convert', '-', data=output)[:2], (0, sorted_lines(output)))
            self.assertEqual(run('down', '-', data=output), (0, b''.join(lines[i] for i in places), down_told(len(places), 0, 0, 'L1C') + told))

    def test_there_and_back(self):
        """Down and up with the HC and FRC that were dropped restores the lines; up and down the old ones."""
        pick = random.Random(12)
        lines = [pick.choice(of_gps((ROOT / WEEK).read_bytes())).decode() for _ in range(300)]
        for hc, frc in ((0, 'L1C'), (99, 'Z9A')):
            data = b''.join(with_check(line[:104] + '%02d %s ' % (hc, frc)).encode() + b'\r\n' for line in lines)
            status, old, errors = run('down', '-', data=data)
            self.assertEqual((status, old, errors.splitlines(keepends=True)[0]),
                             (0, b''.join(map(lowered, data.splitlines())), down_told(300, 0, hc, frc)))
            command = re.search(r'cggtts (up --hc \d+ --frc \w+) puts', errors).group(1).split()
            self.assertEqual(run(*command, '-', data=old)[:2], (0, data))
            other = run('up', '-', '--hc', '7', '--frc', 'ABC', data=old)[1]
            self.assertEqual(run('down', '-', data=other)[:2], (0, old))


def printed(names, changes=None):
    """The lines of a document as they are printed, in the columns of 004, with the printed CK or, where something is changed, a right one."""
    lines, rows = [], published()
    for name in names:
        satellite, *texts, _, _, _, check = rows[name]
        columns = columns_of(' ', [satellite, *texts])[:101]
        for column, text in (changes or {}).get(name, ()):
            columns = columns[:column - 1] + text + columns[column - 1 + len(text):]
        lines.append(with_check(columns) if changes else columns + check)
    return lines


class Converted(Scratch):
    NAMES_003 = ['003.%d' % i for i in range(1, 34)]
    PUT_IN = {'004.1': [(8, '50722 021000')], '004.2': [(8, '50722 034600')], '004.3': [(8, '50723 105400')], '004.4': [(8, '50723 115800')]}
    MISSING = 'a line of version 01, which has no HC and FRC: --hc N and --frc XYZ put them in; HC is 0 where it is not known'

    def goes_on(self, path, lines):
        """The line file is read whole, merged with nothing as it is, and each of its lines is a pair of a view of it with itself."""
        status, output, errors = run('read', path, '--csv')
        self.assertEqual((status, errors, output.count(b'\n')), (0, '', len(lines) + 1))
        self.assertEqual(run('merge', path, '/dev/null'), (0, b''.join(lines), ''))
        shifted = [with_check(line.decode()[:53] + '%+011d' % (int(field(line, 'REFSYS')) + 7) + line.decode()[64:111]).encode() + b'\r\n' for line in lines]
        status, output, errors = run('view', path, self.kept('shifted', b''.join(shifted)))
        self.assertEqual((status, errors), (0, ''))
        self.assertRegex(output.decode(), r'pairs +%d\n +sum +-%d x 0.1 ns\n +smallest +-7 x .*\n +largest +-7 x ' % (len(lines), 7 * len(lines)))

    def test_the_file_of_003(self):
        """Its 33 lines with their printed CK, blanks and all; in three of them the scan has the letter O for 0."""
        ours = expected()
        wanted = [ours[name].encode() + b'\r\n' for name in self.NAMES_003]
        lines, out = printed(self.NAMES_003), self.folder / 'lines'
        wrong = [place for place, line in enumerate(lines) if 'O' in line[101:]]
        self.assertEqual(len(wrong), 3)
        for end in ('\n', '\r\n'):
            right = [line[:101] + line[101:].replace('O', '0') for line in lines]
            path = self.kept('file', ''.join(line + end for line in OLD_HEADER + right).encode())
            status, output, errors = run('convert', path, *UP, '-o', out)
            self.assertEqual((status, output, out.read_bytes()), (0, b'', b''.join(wanted)))
            found, _ = counts(errors)
            self.assertEqual((found['data'], found['written'], found['old'], found['fills'], found['comments']), (33, 33, 33, 33, 0))
            self.goes_on(out, wanted)
        path = self.kept('file', ''.join(line + '\n' for line in OLD_HEADER + lines).encode())
        status, output, errors = run('convert', path, *UP, '--skip', '-o', out)
        told = [(str(path), len(OLD_HEADER) + place + 1, 102, 'CK of version 01 is "O%s", and the columns before it give 0%s: the line was changed after it was written'
                 % (lines[place][-1], lines[place][-1])) for place in wrong]
        self.assertEqual((status, output, named(errors)), (0, b'', told))
        self.assertEqual(out.read_bytes(), b''.join(line for place, line in enumerate(wanted) if place not in wrong))

    def test_the_lines_of_004(self):
        """With a date and start of the schedule put in, and with the comments that are printed behind CK."""
        text = (ROOT / 'tests' / 'published' / 'expected.txt').read_text()
        ours = dict(re.findall(r'(?m)^(004\.\d)\n  published .*\n  put in +0 +0  (.*)$', text))
        wanted = [ours[name].encode() + b'\r\n' for name in self.PUT_IN]
        lines, out = printed(self.PUT_IN, self.PUT_IN), self.folder / 'lines'
        comments = ('hello', '', '', 'receiv. out of operation')
        path = self.kept('file', ''.join(line + '\n' for line in OLD_HEADER + [line + comment for line, comment in zip(lines, comments)]).encode())
        status, output, errors = run('convert', path, *UP, '-o', out)
        self.assertEqual((status, output, out.read_bytes()), (0, b'', b''.join(wanted)))
        found, _ = counts(errors)
        self.assertEqual((found['data'], found['written'], found['old'], found['fills'], found['comments']), (4, 4, 4, 4, 2))
        self.goes_on(out, wanted)
        # as they are printed, their dates are older than the schedule
        early = ''.join(with_check(line[:101]) + '\n' for line in printed(self.PUT_IN))
        status, output, errors = run('convert', '-', *UP, data=early.encode())
        self.assertEqual([row[2:] for row in named(errors)], [(8, 'MJD is %d, not 50722 to 99999 for G' % mjd) for mjd in (48877, 48877, 48878, 48878)])

    def test_without_hc_or_frc(self):
        """The first of a file is named with what it lacks, the others are counted, and left out by --skip; lines of ours are taken."""
        path, out = self.kept('file', OLD_SAMPLE + WORKED_LINE), self.kept('out', b'as it was')
        for lines, more in ((OLD_SAMPLE, ''), (OLD_SAMPLE * 2, '  so is 1 more line of this file\n'), (OLD_SAMPLE * 3, '  so are 2 more lines of this file\n')):
            path.write_bytes(WORKED_LINE + lines)
            for options in ((), ('--frc', 'L1C=L1P')):
                status, output, errors = run('convert', path, *options, '-o', out)
                self.assertEqual((status, output, out.read_bytes()), (1, b'', b'as it was'))
                rows, last = errors[:errors.index('cggtts: read')], errors[errors.index('cggtts: read'):]
                self.assertEqual(rows, '%s:2: column 1: %s\n' % (path, self.MISSING) + more)
                self.assertIn('nothing is written, as %d can\'t be taken' % lines.count(b'\n'), last)
        status, output, errors = run('convert', path, '-', path, data=OLD_WORKED[:101] + b'81\n')
        self.assertEqual([row[:3] for row in named(errors)], [(str(path), 2, 1), ('-', 1, 102), (str(path), 2, 1)])
        path.write_bytes(OLD_SAMPLE + WORKED_LINE)
        self.assertEqual(run('convert', path, '--skip')[:2], (0, WORKED_LINE))
        self.assertEqual(run('convert', path, *UP)[:2], (0, SAMPLE_LINE + WORKED_LINE))
        self.assertEqual(run('convert', path, *UP, '--frc', 'L1C=L1P')[:2], (0, SAMPLE_LINE + line_with([(108, 'L1P')], WORKED_LINE.decode()[:111]).encode() + b'\r\n'))

    def told(self, column, reason, line):
        status, output, errors = run('convert', '-', *UP, data=line)
        self.assertEqual((status, output, named(errors)), (1, b'', [('-', 1, column, reason)]), line)

    def test_lines_that_are_named(self):
        for changes, column, reason in (([(2, '  ')], 3, 'satellite has a blank where a digit belongs'), ([(2, '00')], 2, 'satellite is 0, not 1 to 99 for G'),
                                        ([(54, '+9999999999')], 54, 'REFSYS is nines, which stand for missing data'), ([(78, '256')], 78, 'IOE is 256, not 0 to 255 for G'),
                                        ([(21, ' 781')], 21, 'TRKL is 781 s, not a multiple of 15 from 60 to 780'), ([(21, '-780')], 21, 'TRKL is -780 s, not a multiple of 15 from 60 to 780'),
                                        ([(101, '0')], 101, '0 stands where a blank parts SMDI from what follows'),
                                        ([(14, '000300')], 14, 'no track of MJD 50722 starts at 00:03:00'), ([(1, '1')], 1, '1 stands where a line of version 01 has a blank')):
            self.told(column, reason, old_with(*changes))
        self.told(129, 'the line goes on, and a comment ends at column 128', OLD_SAMPLE[:103] + b'x' * 26)
        self.told(104, 'another data line begins behind CK', OLD_SAMPLE[:103] + OLD_SAMPLE)
        for length in (12, 60, 102):
            self.told(length + 1, 'the line ends here, and a data line of version 01 has 103 columns', OLD_SAMPLE[:length])
            self.told(length + 1, 'the line ends here, and a data line has 113 columns', SAMPLE_LINE[:length])
        for line in (b'G' + OLD_SAMPLE[1:], old_with((1, 'G')), b'G' + OLD_SAMPLE[1:103] + b' noted', b'G' + OLD_SAMPLE[1:103] + b'x' * 20):
            self.told(1, 'G stands where a line of version 01 has a blank', line)
        self.told(112, 'CK is "27", and the columns before it give 26: the line was changed after it was written', SAMPLE_LINE[:111] + b'27')
        for comment in (b'', b' noted', b'xxxxxxxxxx', b'x xx xxx xxxx'):
            self.told(102, 'CK of version 01 is "1E", and the columns before it give 1F: the line was changed after it was written', OLD_SAMPLE[:101] + b'1E' + comment)
        measured = 'a line of version 01 with a measured ionosphere (MSIO, SMSI, ISG), which has columns that ours has not'
        self.told(102, measured, with_check(OLD_SAMPLE.decode()[:101] + ' 480  -37  18 ').encode() + b'hello')

    def test_two_forms_by_one_ck(self):
        """A line of version 02 whose FR is by chance the CK of version 01: a person has to tell."""
        reason = 'CK is right as that of version 01 and as that of version 02: a person has to tell which'
        columns = old_with((35, '+0999999999 +09999 +0999999999 +09992')).decode()[:101]
        self.assertEqual(checksum(columns), '00')
        self.told(1, reason, with_check(columns + '00 00 L1C ').encode())
        self.assertEqual(run('convert', '-', *UP, data=with_check(columns).encode())[0], 0)

    def test_fills(self):
        """Each field filled in each way that its numbers may be; small letters in CL and CK."""
        values = (5, 'FF', 57000, 600, 780, 494, 2568, -103408, 28, -35, 7, 8, 38, 106, -11, 57, -9, 0, 0, 'L1C')
        letters = 0
        for choice in range(4):
            columns = filled(' ', values, lambda ways, choice=choice: ways[choice % len(ways)])[:101]
            line = with_check(columns)
            wanted = taken(line, supplied=(42, 'L5Q')).encode() + b'\r\n'
            small = columns + line[101:].lower()
            letters += small != line
            for text in (line, with_check(columns.lower()), small, line + ' ' * 40):
                self.assertEqual(run('convert', '-', '--hc', '42', '--frc', 'L5Q', data=text.encode())[:2], (0, wanted), text)
        self.assertGreater(letters, 0)
        self.assertEqual(len(FIELDS), len(values))


if __name__ == '__main__':
    unittest.main()
