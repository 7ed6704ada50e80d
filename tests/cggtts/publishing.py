"""Files as laboratories publish them, made and read here without the library, for the tests of cggtts convert."""
import pathlib
import re
import sys

sys.path.insert(0, str(pathlib.Path(__file__).resolve().parent.parent))
from papers import FIELDS, LENGTHS, SIGNED, checksum, is_start, line_of, ranges_of  # noqa: E402

UNSIGNED = ('SAT', 'MJD', 'STTIME')
HEADING = ('SAT CL  MJD  STTIME TRKL ELV AZTH   REFSV      SRSV     REFSYS    SRSYS  DSG IOE MDTR SMDT MDIO SMDI FR HC FRC CK',
           '             hhmmss  s  .1dg .1dg    .1ns     .1ps/s     .1ns    .1ps/s .1ns     .1ns.1ps/s.1ns.1ps/s')
HEADER = ('CGGTTS     GENERIC DATA FORMAT VERSION = 2E', 'REV DATE = 2014-02-20', 'RCVR = RRRRRRRR', 'CH = 12', 'IMS = 99999', 'LAB = ABC',
          'X = +4027881.79 m (GPS)', 'Y = +306998.67 m (GPS)', 'Z = +4919499.36 m (GPS)', 'FRAME = ITRF', 'COMMENTS = NO COMMENTS',
          'SYS DLY = 237.0 ns (GPS C1)     CAL_ID = 1nnn-yyyy', 'REF DLY = 149.6 ns', 'REF = UTC(ABC)')


def header(lines=HEADER, heading=HEADING):
    """The lines of a header with its CKSUM, and the two that head the columns."""
    text = ''.join(lines) + 'CKSUM = '
    return [*lines, 'CKSUM = ' + checksum(text), '', *heading]


def columns_of(letter, texts):
    """Columns 1 to 111 of these texts, each at the right end of its field, filled with blanks."""
    columns = list(letter + ' ' * 110)
    for (_, first, last), text in zip(FIELDS, texts):
        columns[first - 1:last] = text.rjust(last - first + 1)
    return ''.join(columns)


def filled(letter, values, pick):
    """Columns 1 to 111 of these numbers and texts, with the fills that pick chooses."""
    texts = []
    for (name, first, last), value in zip(FIELDS, values):
        width = last - first + 1
        if isinstance(value, str):
            texts.append(value)
        elif name in SIGNED:
            texts.append(pick(('%+0*d' % (width, value), '%+d' % value, '%d' % value, '%0*d' % (width, value))))
        else:
            texts.append(pick(('%0*d' % (width, value), '%d' % value)))
    return columns_of(letter, texts)


def number_in(name, letter, text):
    """The number in a field's columns, or None where there is none or nines stand for it."""
    known = name in ('SAT', 'MJD', 'HC') or (name, letter) == ('IOE', 'E')
    digits = text[1:] if name in SIGNED and text[0] in '+- ' else text
    if set(digits) == {'9'} and not known:
        return None
    return int(text) if re.fullmatch(r' *\d+' if name in UNSIGNED else r' *[+-]?\d+', text) else None


def limits_of(name, letter):
    return ranges_of(letter).get(name, (-9999, 999999))


def values_in(line, codes, fields=FIELDS):
    """The values of a line's fields by their names, or None where one can't be had."""
    found = {}
    for name, first, last in fields:
        text = line[first - 1:last]
        if name == 'CL':
            found[name] = int(text, 16) if re.fullmatch('[ 0-9A-Fa-f][0-9A-Fa-f]', text) else None
        elif name == 'FRC':
            text = codes.get(text, text)
            found[name] = text if re.fullmatch('[A-Z0-9]{3}', text) else None
        else:
            found[name] = number_in(name, line[0], text)
        if line[last] != ' ' or found[name] is None:
            return None
    return found


def in_limits(letter, found):
    """Whether every value is one that our line can hold, its start among them."""
    clock = found['STTIME']
    hour, minute, second = clock // 10000, clock // 100 % 100, clock % 100
    return (all(low <= found[name] <= high for name, (low, high) in
                ((name, limits_of(name, letter)) for name, _, _ in FIELDS if name not in ('CL', 'FRC')))
            and found['TRKL'] in LENGTHS and hour < 24 and minute < 60 and second < 60
            and is_start(found['MJD'], 3600 * hour + 60 * minute + second))


def ours(letter, found):
    """The line of the values in our form."""
    return line_of(letter, [found[name] for name, _, _ in FIELDS])


# SAT, CL and MJD at the beginning of a data line of any version, anywhere in a text
BEGINS = re.compile(r'[A-Za-z0-9 ][A-Za-z0-9 ][0-9] [A-Za-z0-9 ][0-9A-Fa-f] [0-9]{5}')


def check_fits(line, columns):
    """Whether the two digits behind so many columns are their sum."""
    check = line[columns:columns + 2]
    return check.upper() == checksum(line[:columns])


def taken_up(line, supplied):
    """The same of a line of version 01, with this HC and FRC."""
    line = line[:103] + line[103:].rstrip(' ')
    found = values_in(line, {}, FIELDS[:17]) if len(line) <= 128 and not BEGINS.search(line[103:]) else None
    if not found:
        return None
    found.update(FR=0, HC=supplied[0], FRC=supplied[1])
    return ours('G', found) if in_limits('G', found) else None


def taken(line, codes=None, supplied=None):
    """The line of ours that a published line, without its line end, is taken for, or None."""
    if line[:1] == ' ' and check_fits(line, 101) and not any(check_fits(line, columns) for columns in (111, 115, 125)):
        return taken_up(line, supplied) if supplied else None
    line = line[:113] + line[113:].rstrip(' ')
    if not check_fits(line, 111):
        return None
    if line[0] not in 'GRECJ' or len(line) > 140 or BEGINS.search(line[113:]):
        return None
    found = values_in(line, codes or {})
    return ours(line[0], found) if found and in_limits(line[0], found) else None
