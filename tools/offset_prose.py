"""What docs/SHARED-OFFSET.md says with figures, for `tools/offset check`; tools/prose.py holds the document against it.

Every figure is made anew; tool is the module of tools/offset. Runs are in code blocks; tests/cggtts/test_offset.py runs them.
"""
import math
from fractions import Fraction

from prose import decimals
from roof_prose import PROMISE

# the step that drops out, in ps, and two that do not
UNIT, HALF, TEN = 100, 50, 10
# what is added in the rows of the tables: to the two tracks, and to the roof
ADDED, ON_THE_ROOF = (0, 1, 10, 50, 99, 100, 300, -50, -200), (0, 10, 50, 23700)
# the order in which the document adds up what is taken off a measurement
TAKEN_OFF = (('INT', 1), ('CAB', 1), ('REF', -1), ('GD', 1), ('geometry', 1), ('relativity', -1), ('ionosphere', 1),
             ('troposphere', 1), ('clock', -1))
# a cable whose delay the receiver rounds second by second, and one entered in CAB of receiver one only, in ps
ROUNDED, ENTERED_ONCE = Fraction(201, 2), 300
# digits that are no figures: a unit, and refusals
NAMES = ('0.1 ns', 'which is refusal 2, or REFSYS ten digits, which is 3.', 'one file with both is refused with 16')


RULES = (
    'a whole multiple of {unit} ps, which is {ns} ns',
    'with k × {unit} ps added to every measurement; k is any whole number, also one below 0',
    'n {span} s blocks, n from {least} to {full},',
    'the fifteen weights add up to {weights}, so the weighted sum moves by {weights} × {unit}k.',
    'The smoothed value moves by exactly {tenths}k tenths of a ps',
    'so A and B move by {tenths}k.',
    'has the place 2j - (n - 1).',
    'the places add up to 0',
    'S moves by n × {tenths}k. A midpoint is the nearest to S / {tenths}n, and (S + {tenths}nk) / {tenths}n is S / {tenths}n + k.',
    'needs the {unit}.',
    '## Two tracks on which {half} ps change a digit, and {ten} ps too',
    '{half} ps move S / {tenths}n by half a unit.',
    'With {half} in place of {unit} the proofs fail',
    'and with {ten} ps too',
    '{ten} ps move S by {ten_tenths}n, and a unit takes {tenths}n.',
)


def rules(tool):
    digit = tool.lastdigit
    assert len(digit.WEIGHTS) == 15 and Fraction(HALF, UNIT) == Fraction(1, 2)
    assert all(sum(2 * j - (n - 1) for j in range(n)) == 0 for n in range(digit.LEAST, digit.FULL + 1))
    return {'unit': UNIT, 'half': HALF, 'ten': TEN, 'ns': decimals(Fraction(UNIT, 1000)), 'span': digit.SPAN, 'least': digit.LEAST,
            'full': digit.FULL, 'weights': sum(digit.WEIGHTS), 'tenths': UNIT * digit.STEPS, 'ten_tenths': TEN * digit.STEPS}


REAL = (
    'with {once} ps the tracks below have {entered_once} instead of {plain};',
    'One of {delay} ps adds {floor} to some measurements and {ceiling} to others.',
    'a smoothed value then moves by {below} to {above} ps.',
    'a difference goes from -1 to 1',
)


def real(tool):
    digit = tool.lastdigit
    least, most = math.floor(ROUNDED), math.ceil(ROUNDED)
    # a smoothed value before it is rounded moves between these, the weights of one sign with the one and the rest with the other
    below, above = (Fraction(sum(w * (least if (w > 0) == first else most) for w in digit.WEIGHTS), sum(digit.WEIGHTS))
                    for first in (True, False))
    one, two = fits(tool, 0)
    return {'once': ENTERED_ONCE, 'entered_once': one.midpoint - fits(tool, ENTERED_ONCE)[1].midpoint, 'plain': one.midpoint - two.midpoint,
            'delay': decimals(ROUNDED), 'floor': least, 'ceiling': most,
            'below': decimals(Fraction(math.floor(digit.STEPS * below), digit.STEPS)),
            'above': decimals(Fraction(math.ceil(digit.STEPS * above), digit.STEPS))}


def fits(tool, shift, kind='B'):
    """The fits of both receivers with so many ps more."""
    return [tool.lastdigit.Track(tool.block(receiver, shift)).fit(kind) for receiver in tool.VALUES]


def midpoint(fit):
    """S / 1000n, before it is rounded."""
    return Fraction(fit.s, fit.midpoints)


def tracks_of(tool):
    return [tool.lastdigit.Track(tool.block(receiver, 0)) for receiver in tool.VALUES]


EXAMPLE = (
    'for {seconds} s, {n} blocks of {span} s.',
    'In each {span} s block all {span} measurements are the same',
    'S moves by {moves} times as many tenths. REFSYS is the nearest to S / {over}:',
    '{one} lies below the tie at {tie}, and {half} ps carry it over. {two} has its tie behind it, and with {half} ps it is still nearest to {stayed}.',
    '{half} ps are no threshold: here 1 ps does it, and 99 do not.',
    'What S / {over} of the one has over that of the other is {exact} in every row; {nearer} is the nearer figure.',
    'SRSYS stays {slope_one} for one and {slope_two} for two, and DSG is {dsg} for both.',
    'The clock is {clock} ps, so each A is {more} more than its B.',
    'S / {over} of A is {a} for receiver one, so REFSV is {refsv}. With {half} ps it is {a_moved}: REFSV stays',
    'with {first}, {second} and {third} ps more.',
)


def example(tool):
    (one, two), (moved, stayed), track = fits(tool, 0), fits(tool, HALF), tracks_of(tool)[0]
    every = [fits(tool, shift) for shift in ADDED]
    exact, = {midpoint(a) - midpoint(b) for a, b in every}
    tie = math.floor(midpoint(one)) + Fraction(1, 2)
    assert midpoint(one) < tie <= midpoint(moved) and two.midpoint == stayed.midpoint
    assert abs(moved.midpoint - stayed.midpoint - exact) < abs(one.midpoint - two.midpoint - exact)
    assert {(a.slope, b.slope, a.dsg, b.dsg) for a, b in every} == {(one.slope, two.slope, one.dsg, one.dsg)}
    a, a_moved = fits(tool, 0, 'A')[0], fits(tool, HALF, 'A')[0]
    assert a.midpoint == a_moved.midpoint and one.midpoint != moved.midpoint
    clock, shifts = tool.CORRECTIONS['clock'], dict(zip(('first', 'second', 'third'), tool.SHIFTS[1:], strict=True))
    return {'seconds': tool.lastdigit.SPAN * track.n, 'n': track.n, 'span': tool.lastdigit.SPAN, 'moves': one.steps * one.n, 'over': one.midpoints,
            'one': decimals(midpoint(one), 4), 'two': decimals(midpoint(two), 4), 'tie': decimals(tie), 'half': HALF, 'stayed': stayed.midpoint,
            'exact': decimals(exact, 4), 'nearer': moved.midpoint - stayed.midpoint, 'slope_one': one.slope, 'slope_two': two.slope, 'dsg': one.dsg,
            'clock': clock, 'more': -clock, 'a': decimals(midpoint(a), 4), 'a_moved': decimals(midpoint(a_moved), 4), 'refsv': a.midpoint, **shifts}


def values(tool):
    """The two tables of the tracks: what is taken off a measurement, and B."""
    one, two = tracks = tracks_of(tool)
    assert one.n == two.n and all(len(set(track.block(j))) == 1 for track in tracks for j in range(one.n))
    for receiver, track in zip(tool.VALUES, tracks):
        terms = [sign * track.term(name, 0) for name, sign in TAKEN_OFF]
        assert track.steps * (track.measurements[0] - sum(terms)) == track.rounded['B'][0]
        yield '| %s | %d%s = %d |' % (
            receiver, terms[0], ''.join(' %s %d' % ('-' if term < 0 else '+', abs(term)) for term in terms[1:]), sum(terms))
    yield '| %d s block | receiver one |' % len(one.block(0))
    for j in range(one.n):
        yield '| %d | %d | %d | %d | %d |' % (j, one.block(j)[0], one.rounded['B'][j], two.block(j)[0], two.rounded['B'][j])
    yield '| S | | %d | | %d |' % tuple(sum(track.rounded['B']) for track in tracks)


def added(tool):
    """The table of what is added to both."""
    divisor, differences = fits(tool, 0)[0].midpoints, {}
    yield '| added | S of one | S / %d | REFSYS | S of two | S / %d | REFSYS | difference |' % (divisor, divisor)
    for shift in ADDED:
        one, two = fits(tool, shift)
        parts = [part for fit in (one, two) for part in (fit.s, decimals(midpoint(fit), 4), fit.midpoint)]
        differences[shift] = one.midpoint - two.midpoint
        yield '| %d | %s | %d |' % (shift, ' | '.join(map(str, parts)), differences[shift])
    assert all(differences[shift] == differences[0] for shift in ADDED if shift % UNIT == 0)
    assert differences[1] == differences[TEN] == differences[HALF] != differences[0] == differences[99]


OTHERS = (
    'S / {tenths}n goes from some x to x + c.',
    'not above x + 1/2.',
    'by q at least and by q + 1 at most',
    'by q or by q + 1, and a difference moves by -1, 0 or 1.',
    'by at most 1 too',
    'within {twice} of 0.1 ns of it, twice the {promise} of each.',
    'scatter by {deviation} ns, with its {pairs} pairs and the sum {sum}:',
    'differences that are 1 more | 1 less |',
    'Over all offsets from 1 to {last} ps this sum moves by {least} to {most}, the mean by {mean} ns at most.',
)


def others(tool):
    roof = Roof(tool)
    sums = [roof.moved_sum(shift) for shift in range(1, UNIT)]
    return {'tenths': UNIT * tool.lastdigit.STEPS, 'twice': decimals(2 * PROMISE), 'promise': decimals(PROMISE), 'last': UNIT - 1,
            'deviation': '%.2f' % roof.before.deviation, 'pairs': roof.before.number, 'sum': roof.before.sum,
            'least': '%+d' % min(sums), 'most': '%+d' % max(sums),
            'mean': decimals(Fraction(max(map(abs, sums)), 10 * roof.before.number), 3)}


def on_the_roof(tool):
    """The table of the roof's report with something added."""
    roof = Roof(tool)
    for shift in ON_THE_ROOF:
        after = roof.report(shift)
        moves = [after.pairs[key] - value for key, value in roof.before.pairs.items()]
        assert set(moves) <= {-1, 0, 1} and sum(moves) == roof.moved_sum(shift)
        yield '| %d ps | %d | %d | %d | %d | %d | %s |' % (
            shift, moves.count(1), moves.count(-1), after.sum, after.smallest, after.largest, '%d/%d' % (after.sum, after.number))


class Roof:
    """The roof's blocks, the report on them, and S of B with the number of its values by what makes a pair."""

    def __init__(self, tool):
        self.tool, self.files = tool, [tool.roof.blocks_of(receiver) for receiver in 'ab']
        self.before = self.report(0)
        self.totals = [totals_of(tool, blocks) for blocks in self.files]

    def report(self, shift):
        tool = self.tool
        return tool.roof.Report(*(tool.roof.lines_of({name: tool.shifted(data, shift) for name, data in blocks.items()}) for blocks in self.files))

    def moved_sum(self, shift):
        """By how much the sum of the report moves, from the sums S alone."""
        digit = self.tool.lastdigit
        one, two = ({key: digit.nearest(s + n * digit.STEPS * shift, UNIT * digit.STEPS * n) for key, (s, n) in total.items()}
                    for total in self.totals)
        return sum(one[key] - two[key] for key in self.before.pairs) - self.before.sum


def totals_of(tool, blocks):
    found = {}
    for name, data in blocks.items():
        (key,), values_of = tool.roof.refsys_of(tool.roof.lines_of({name: data})), tool.lastdigit.Track(data).rounded['B']
        found[key] = sum(values_of), len(values_of)
    return found


PARTS = ((RULES, rules), (REAL, real), (EXAMPLE, example), (OTHERS, others))
ROWS = (values, added, on_the_roof)
