"""What docs/COMMON-VIEW.md says with figures, for `tools/roof check`; tools/prose.py holds the document against it.

Every figure is made anew from the blocks of tools/roof. A world has the module of tools/roof, and of both receivers the blocks,
the lines and the report on them. Runs are in code blocks; tests/cggtts/test_view.py runs them.
"""
import collections
import decimal
from fractions import Fraction

from prose import decimals

World = collections.namedtuple('World', 'tool blocks lines report')

# the last rounding of a REFSYS, and what is promised of it, in 0.1 ns
ROUNDING, PROMISE = Fraction(1, 2), Fraction(5005, 10000)
# how long a signal takes in cable, in ns a metre
CABLE = Fraction(505, 100)
# digits that are no figures: a unit, and refusals
NAMES = ('0.1 ns', 'below refusal 18')


def world(tool):
    """What the figures are made from; tool is the module of tools/roof."""
    blocks = {receiver: tool.blocks_of(receiver) for receiver in 'ab'}
    lines = {receiver: tool.lines_of(found) for receiver, found in blocks.items()}
    return World(tool, blocks, lines, tool.Report(lines['a'], lines['b']))


def tenths(units):
    return '%.1f' % (Fraction(units, 10))


SETTINGS = (
    'From {hour}:00 on MJD {mjd} they recorded every third start for {hours} hours',
    'a piece that delays by {extra} ps, which is about {metres} m of cable',
    '| INT, entered | {int_a} | {int_b} |',
    '| CAB, entered | {cab_a} | {cab_b} |',
    '| antenna cable, as it is | {cable_a} | {cable_b} |',
    '| REF, entered | {ref_a} | {ref_b} |',
)


def settings(world):
    tool = world.tool
    entered = {'%s_%s' % (name.lower(), receiver): tool.DELAYS[receiver][name] for name in ('INT', 'CAB', 'REF') for receiver in 'ab'}
    return {'hour': tool.FROM // 60, 'mjd': tool.FIRST_DAY, 'hours': tool.MINUTES // 60, 'extra': tool.EXTRA,
            'metres': decimals(Fraction(tool.EXTRA, 1000) / CABLE, 1), **entered,
            'cable_a': tool.CABLES['a'], 'cable_b': tool.CABLES['b']}


SKY = (
    'gains {rate} ps/s',
    'off by up to {broadcast} ns',
    'runs from {first} to {last} ns in the lines of A',
    'up to {second} ns from second to second, and up to {track} ns',
    'There are {tracks} tracks. {only_a} of them only A saw, {only_b} only B.',
    'One B lost after {lost} s, so that its TRKL is {lost_trkl} where that of A is {full_trkl}',
    'One satellite set after {set} s',
)


def sky(world):
    tool, seen = world.tool, [blocks for _, blocks in world.tool.seen()]
    rate, = {Fraction(track.refsys(10 ** 6) - track.refsys(0), 10 ** 6) for track, _ in tool.seen()}
    lost, = [15 * b for a, b in seen if 0 < b < a]
    values = sorted(tool.refsys_of(world.lines['a']).values())
    return {'rate': decimals(rate), 'broadcast': decimals(Fraction(tool.ALWAYS_OFF + tool.TRACK_OFF, 1000)),
            'first': tenths(values[0]), 'last': tenths(values[-1]), 'second': decimals(Fraction(tool.SECOND_NOISE, 1000)),
            'track': decimals(Fraction(tool.TRACK_NOISE, 1000)), 'tracks': len(seen), 'only_a': sum(b == 0 for _, b in seen),
            'only_b': sum(a == 0 for a, _ in seen), 'lost': lost, 'lost_trkl': '%04d' % lost, 'full_trkl': '%04d' % (15 * tool.FULL),
            'set': next(15 * a for a, b in seen if a == b < tool.FULL)}


SHOWN = (
    'larger than that of A by {sum}/{pairs} x 0.1 ns, about {mean} ns',
    'The piece of cable is {extra} ns. The mean is off by {off} ns',
    'The {pairs} differences have a standard deviation of {deviation} ns, so that their mean has a standard uncertainty of {uncertainty} ns',
    'REFSYS of A alone covers {covered} ns, the differences cover {differences} ns',
    '{cable} instead of {entered},',
    '{pairs} pairs, sum {right_sum}, smallest {right_smallest}, largest {right_largest}',
    'Every difference is higher by {moved}.',
)


def shown(world):
    tool, report = world.tool, world.report
    values, extra = sorted(tool.refsys_of(world.lines['a']).values()), Fraction(tool.EXTRA, 1000)
    right = tool.Report(world.lines['a'], tool.lines_of(tool.blocks_of('b', CAB=tool.CABLES['b'])))
    moved, = {right.pairs[key] - value for key, value in report.pairs.items()}
    assert right.number == report.number
    return {'sum': -report.sum, 'pairs': report.number, 'mean': decimals(-report.mean, 3), 'extra': decimals(extra),
            'off': decimals(abs(report.mean + extra), 3), 'deviation': '%.2f' % report.deviation,
            'uncertainty': '%.2f' % (report.deviation / decimal.Decimal(report.number).sqrt()),
            'covered': tenths(values[-1] - values[0]), 'differences': tenths(report.largest - report.smallest),
            'cable': tool.CABLES['b'], 'entered': tool.DELAYS['b']['CAB'], 'moved': moved,
            'right_sum': right.sum, 'right_smallest': right.smallest, 'right_largest': right.largest}


EXACTNESS = (
    'to 0.001 ns, the nearest: off by at most 0.0005 ns',
    'or the program ends with 2',
    'to 0.000001 of a day, {day} s',
    'to 0.1 of a pixel',
    'by at most {rounding} of 0.1 ns',
    'what is written is within {promise} of 0.1 ns',
    'a difference is within {difference} ns',
    'have the mean {mean} ns, which is {apart} ns from that of the lines',
    'A file may have up to {most} lines. A longer one is refused with 19',
)


def exactness(world):
    one, other = (exact_refsys(world.tool, world.blocks[receiver]) for receiver in 'ab')
    report = world.report
    mean = sum(one[key] - other[key] for key in report.pairs) / (10 * report.number)
    assert abs(mean - report.mean) <= 2 * PROMISE / 10
    return {'day': decimals(Fraction(86400, 10 ** 6)), 'rounding': decimals(ROUNDING), 'promise': decimals(PROMISE),
            'difference': decimals(2 * PROMISE / 10), 'mean': decimals(mean, 5), 'apart': decimals(abs(mean - report.mean), 4), 'most': 10000}


def exact_refsys(tool, files):
    """The exact least-squares REFSYS of each block, by what makes a pair."""
    found = {}
    for data in files.values():
        track = tool.lastdigit.Track(data)
        text = tool.lastdigit.line_text(track.labels, tool.lastdigit.numbers(track))
        found[text[7:12], text[13:19], text[:3], text[20:24]] = tool.lastdigit.ExactFit(track.exact['B']).midpoint
    return found


PARTS = ((SETTINGS, settings), (SKY, sky), (SHOWN, shown), (EXACTNESS, exactness))
ROWS = ()
