"""What the program bench reads (crates/bench/stdin) and what it should print (crates/bench/stdout)."""
import struct

from papers import second_of

FILL = b'.'
SAMPLE = ('G05 FF 50722 000200 0780 450 1800 +0000000010 +00000 +0000000010 +00000 0000 007 0000 +000 0000 +000 '
          '00 00 L1C 26')
# Document 01, "What the technician tries", without what is marked P, and some refusals of "Each operation and its refusals,
# in order"; the starts are those of document 02, Job 2, the counts of Fit and Scatter those of Job 3, and values are in tenths
# of a ps, as in Job 8. Document 01 leaves out the value of fifteen equal measurements, the slope of 52 equal values, and the
# midpoint of 3440 in the last place (3440 / 52000).
TECHNICIAN = [
    ('smooth', '10^12 everywhere', 'value 10000000000000'),
    ('smooth', 'last 10^12 + 1', 'refused 2'),
    ('smooth', '14 measurements', 'refused 1'),
    ('smooth', '16 measurements', 'refused 1'),
    ('fit', 'all -510', 'midpoint -1 slope 0'),
    ('fit', 'last value 3440', 'midpoint 0 slope 0'),
    ('fit', 'last 2 x 10^13 + 1', 'refused 2'),
    ('fit', '3 values', 'refused 1'),
    ('fit', '53 values', 'refused 1'),
    ('scatter', 'a = 1500', 'DSG 2'),
    ('scatter', 'a = 9999500', 'refused 6'),
    ('scatter', 'a = 2^32', 'refused 6'),
    ('scatter', '3 values', 'refused 1'),
    ('scatter', '53 values', 'refused 1'),
    ('start', 'MJD 50722, 120', 'accepted'),
    ('start', 'MJD 50722, 84600', 'accepted'),
    ('start', 'MJD 50722, 85560', 'refused 8'),
    ('start', 'MJD 50723, 840', 'accepted'),
    ('start', 'MJD 50723, 86040', 'accepted'),
    ('start', 'MJD 50723, 86280', 'refused 8'),
    ('start', 'MJD 50723, 120', 'refused 8'),
    ('start', 'MJD 56842, 840', 'accepted'),
    ('start', 'MJD 56842, 120', 'refused 8'),
    ('line', 'lent 112 bytes', 'refused 9'),
    ('line', 'lent 112 bytes', 'bytes kept 112'),
    ('line', 'lent 114 bytes', SAMPLE),
    ('line', 'lent 114 bytes, the last', 'bytes kept 1'),
]


def record(case, line, answer):
    """A case of Line for the program: its name, its labels and numbers by the columns of its line, the answer, and what 113
    lent bytes then hold."""
    (sat, cl, mjd, time, trkl, elv, azth, refsv, srsv, refsys, srsys, dsg, ioe, mdtr, smdt, mdio, smdi, fr, hc, frc,
     _) = line.split(' ')
    labels = struct.pack('<BBBBB3sIIHHH', ord(sat[0]), int(sat[1:]), int(cl, 16), int(fr), int(hc), frc.encode(),
                         int(mjd), second_of(time), int(elv), int(azth), int(ioe))
    # the ten numbers in their fixed order
    numbers = [int(n) for n in (refsv, srsv, refsys, srsys, mdtr, smdt, mdio, smdi, dsg, trkl)]
    after = line.encode() if answer == 0 else FILL * 113
    packed = case.ljust(24).encode() + labels + struct.pack('<10qB', *numbers, answer) + after
    assert len(packed) == 240, case
    return packed


def rows(operation, case, reply):
    """The rows of a case that goes right."""
    start = operation.ljust(9) + case.ljust(25)
    if len(reply) == 113:
        return '%s%s\n%s%s\n' % (start, reply, 'should be '.rjust(34), reply)
    return '%s%sshould be %s\n' % (start, reply.ljust(28), reply)


def stdin(lines):
    """What bench reads: the cases of Line, each its name, the line and the answer."""
    return b''.join(record(*line) for line in lines)


def stdout(lines):
    """What bench should print."""
    replies = [('line', case, 'refused %d' % answer if answer else line) for case, line, answer in lines]
    cases = TECHNICIAN + replies
    return ''.join(rows(*case) for case in cases) + '%d cases, 0 wrong\n' % len(cases)
