"""What the papers say of starts, lines and checksums, for the tests: each thing once, with its clause.

Written from documents 01, 02 and 000. Nothing here is taken from the crates, from cggtts or from a tool, so that a test that
compares them with it can fail. The hire block's layout stands in blocks.py.
"""

# ---- document 01, "Start times", with the repeat after 1436 minutes of document 02, Job 2

FIRST_MJD, LAST_MJD = 50722, 99999


def start_minutes(mjd):
    """The minutes of the day at which its 89 tracks start, in their order."""
    return sorted((2 + 16 * (i - 1) - 4 * (mjd - FIRST_MJD)) % 1436 for i in range(1, 90))


def is_start(mjd, second):
    return second % 60 == 0 and second // 60 in start_minutes(mjd)


def starts(mjd):
    """The starts of the day as they stand in columns 14 to 19, hhmmss."""
    return ['%02d%02d00' % divmod(minute, 60) for minute in start_minutes(mjd)]


def second_of(text):
    """hhmmss as a second of the day."""
    return 3600 * int(text[:2]) + 60 * int(text[2:4]) + int(text[4:])


# ---- document 01, "The line's columns", with the names of document 000, 3.5

# name, first and last column; column 1 has the letter of the constellation, and CK stands behind the last
FIELDS = (('SAT', 2, 3), ('CL', 5, 6), ('MJD', 8, 12), ('STTIME', 14, 19), ('TRKL', 21, 24), ('ELV', 26, 28), ('AZTH', 30, 33),
          ('REFSV', 35, 45), ('SRSV', 47, 52), ('REFSYS', 54, 64), ('SRSYS', 66, 71), ('DSG', 73, 76), ('IOE', 78, 80),
          ('MDTR', 82, 85), ('SMDT', 87, 90), ('MDIO', 92, 95), ('SMDI', 97, 100), ('FR', 102, 103), ('HC', 105, 106), ('FRC', 108, 110))
PLACES = {name: slice(first - 1, last) for name, first, last in FIELDS}
SIGNED = ('REFSV', 'SRSV', 'REFSYS', 'SRSYS', 'SMDT', 'SMDI')
# the least and the most; those of the numbers are refusals 3 to 6 in "Each operation and its refusals, in order"
RANGES = {'SAT': (1, 99), 'MJD': (FIRST_MJD, LAST_MJD), 'ELV': (0, 900), 'AZTH': (0, 3599), 'HC': (0, 99),
          'REFSV': (-9999999999, 9999999999), 'SRSV': (-99999, 99999), 'REFSYS': (-9999999999, 9999999999), 'SRSYS': (-99999, 99999),
          'DSG': (0, 9999), 'MDTR': (0, 9999), 'SMDT': (-999, 999), 'MDIO': (0, 9999), 'SMDI': (-999, 999)}
IOE = {'R': (1, 96), 'C': (0, 23), 'G': (0, 255), 'J': (0, 255), 'E': (0, 999)}
FR = {'R': (1, 24), 'C': (0, 0), 'G': (0, 0), 'J': (0, 0), 'E': (0, 0)}
# TRKL: 15n with n from 4 to 52 (document 02, Job 3)
LENGTHS = range(60, 781, 15)


def ranges_of(letter):
    """The least and the most of each number in a line of that constellation."""
    return {**RANGES, 'IOE': IOE[letter], 'FR': FR[letter]}


def field(line, name):
    """What stands in the columns of a field."""
    return line[PLACES[name]]


def line_of(letter, values):
    """The line of these values, in the order of the fields: single spaces, zeros on the left, every sign written."""
    texts = []
    for (name, first, last), value in zip(FIELDS, values):
        form = {'CL': '%0*X', 'FRC': '%*s'}.get(name, '%+0*d' if name in SIGNED else '%0*d')
        texts.append(form % (last - first + 1, value))
    columns = letter + ' '.join(texts) + ' '
    assert len(columns) == 111, columns
    return with_check(columns)


# ---- CK in "The line's columns"; document 000, 3.2, has the same sum for a header

def checksum(text):
    """The sum of the bytes modulo 256, two hexadecimal digits in capitals."""
    return '%02X' % (sum(text.encode('latin-1')) % 256)


def with_check(columns):
    """The columns with their CK behind them."""
    return columns + checksum(columns)
