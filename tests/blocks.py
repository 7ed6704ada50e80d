"""Hire blocks and stores of delays for tests, byte by byte from the layouts in the papers; nothing here is shared with the tools."""
import struct

from papers import with_check

LENGTH = 8378
# of a track of n blocks of 15 seconds, n from 4 to 52: its bytes, its measurements, and where its corrections begin
OF = {'bytes': lambda n: 58 + 160 * n, 'measurements': lambda n: 15 * n, 'groups at': lambda n: 58 + 120 * n}
# where each part stands, and how many bytes it has
AT = {'measurements size': (0, 2), 'groups size': (2, 2), 'constellation': (4, 1), 'satellite': (5, 1), 'CL': (6, 1),
      'FR': (7, 1), 'HC': (8, 1), 'FRC 0': (9, 1), 'FRC 1': (10, 1), 'FRC 2': (11, 1), 'MJD': (12, 4), 'start': (16, 4),
      'ELV': (20, 2), 'AZTH': (22, 2), 'IOE': (24, 2)}
DELAYS = {'INT': 26, 'CAB': 34, 'REF': 42, 'GD': 50}
COLUMNS = {'geometry': 0, 'relativity': 8, 'ionosphere': 16, 'troposphere': 24, 'clock': 32}

# the lines of the blocks in examples/, written out by hand
SAMPLE_LINE = (b'G05 FF 50722 000200 0780 450 1800 +0000000010 +00000 +0000000010 +00000 0000 007 0000 +000 0000 +000 '
               b'00 00 L1C 26\r\n')
WORKED_LINE = (b'G17 FF 60600 133000 0780 583 2145 +0001233431 +00009 -0000000315 -00041 0003 087 0097 +005 0202 -021 '
               b'00 05 L1C 8C\r\n')
SHORT_LINE = (b'G23 FF 60600 134600 0300 103 3021 +0001203805 -00039 -0000000112 -00089 0004 041 0558 +267 0390 +073 '
              b'00 07 L1C 92\r\n')
# the last digits of REFSYS and DSG are those of tenths of a ps
CHANGED_LINE = (b'G17 FF 60600 133000 0780 583 2145 +0001233431 +00009 -0000000314 -00041 0002 087 0097 +005 0202 -021 '
                b'00 05 L1C 8A\r\n')


def put(block, part, value):
    """A part of the block: a label or a size by its name, a delay, `measurement i`, or a column and its group.

    How many groups there are goes by the block's length.
    """
    if part in AT:
        at, width = AT[part]
        block[at:at + width] = value.to_bytes(width, 'little')
        return
    name, _, place = part.partition(' ')
    if part in DELAYS:
        at = DELAYS[part]
    elif name == 'measurement':
        at = 58 + 8 * int(place)
    else:
        at = OF['groups at']((len(block) - 58) // 160) + 40 * int(place) + COLUMNS[name]
    struct.pack_into('<q', block, at, value)


def block(changes=(), groups=52, **lists):
    """The sample's block: every measurement 1000, no corrections. Then whole lists, then single parts are changed."""
    made = bytearray(OF['bytes'](groups))
    labels = {'measurements size': 15 * groups, 'groups size': groups, 'constellation': ord('G'), 'satellite': 5, 'CL': 255,
              'FRC 0': ord('L'), 'FRC 1': ord('1'), 'FRC 2': ord('C'), 'MJD': 50722, 'start': 120, 'ELV': 450,
              'AZTH': 1800, 'IOE': 7}
    for part, value in labels.items():
        put(made, part, value)
    for i, value in enumerate(lists.pop('measurements', [1000] * (15 * groups))):
        put(made, 'measurement %d' % i, value)
    for name, values in lists.items():
        for j, value in enumerate(values):
            put(made, '%s %d' % (name, j), value)
    for part, value in dict(changes).items():
        put(made, part, value)
    return bytes(made)


def line(columns):
    """A line as it is printed: 111 columns, a space among them at the end, the checksum and the line end."""
    assert len(columns + ' ') == 111, columns
    return with_check(columns + ' ').encode() + b'\r\n'


def packed_store(version, *entries):
    """A store of delays by document 02's layout, whatever its entries are: each its start and its delays."""
    wide = 3 if version == 1 else 4
    parts = [struct.pack('<HH', version, len(entries))] + [struct.pack('<I', start) for start, *_ in entries]
    return b''.join(parts + [struct.pack('<%dq' % wide, *delays[:wide]) for _, *delays in entries])


def scattered(size, groups=52):
    """Values size, -size, -size, size, .. whose mean and slope are 0 where their number is a multiple of 4."""
    return [size, -size, -size, size] * (groups // 4)
