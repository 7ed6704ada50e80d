"""What docs/LAST-DIGIT.md says with figures, for `tools/lastdigit --check`; tools/prose.py holds the document against it.

Every figure is made anew from the rules' constants and the three tracks. A world has the module of tools/lastdigit, the worked
track, the short one, and the bytes of the one that changed.
"""
import collections
import math
import re
import struct
from fractions import Fraction

from prose import decimals

World = collections.namedtuple('World', 'tool track short changed')

# the rounding of a smoothed value, in steps, and the last rounding, in units
HALF = Fraction(1, 2)
# what document 01 asked of midpoints and of DSG, and of the slopes of a full track
DOCUMENT_01, SLOPES_01 = Fraction(51, 100), Fraction(52, 100)
# the block and the residual that the document follows
FOLLOWED = 20
# the values B of a track whose DSG comes near its bound, in tenths of a ps
FAR_SCATTER = (-552, 612, 416, 226, -412, -616, 550)
# what counts the tracks whose lines moved, in the sources alone, and the heading of the document's table of them
COUNTED, COUNTED_HEADING = 'tests/reference/src/tests/steps.rs', '| blocks | tracks | lines |'
# digits that are no figures
NAMES = ('document 000, equations 1 and 2', 'Document 000, in its conclusion,', 'read them beside document 000.', 'Before version 1.4.0',
         'those of document 02, Job 8:')


# ---- the formulas of the track

def check_formulas(rows, track):
    """How many figures the formulas of the measurements and the corrections have, and what is wrong with them."""
    found = dict(pair for row in rows for pair in re.findall(r'([a-z]+) += (.+?)(?:\s{3,}|$)', row))
    wanted = {'measurement': track.measurements, **track.columns}
    noise = found.pop('noise', '0')
    faults = ['no formula of the %s' % name for name in wanted if name not in found]
    for name, formula in found.items():
        numbers = list(wanted.get(name, ()))
        times = range(len(numbers)) if name == 'measurement' else range(7, 15 * len(numbers), 15)
        try:
            rule, extra = compiled(formula), compiled(noise)
            values = [eval(rule, {'t': t, 'j': t // 15, 'noise': eval(extra, {'t': t})}) for t in times]
        except (SyntaxError, NameError):
            values = None
        if values != numbers or not numbers:
            faults.append('the formula of the %s does not give the numbers of the block' % name)
    return len(re.findall(r'\d+', ' '.join(rows))), faults


def compiled(formula):
    """A formula of whole numbers, t, j and noise, as the document writes it."""
    text = formula.replace('mod', '%').replace('²', '**2').replace('³', '**3')
    text = re.sub(r'(\d) ?(?=[tj])', r'\1*', text)
    if re.search(r'[^-+*%()\d tj]', text.replace('noise', '')):
        raise SyntaxError(formula)
    return compile(text, 'formula', 'eval')


# ---- the bounds, which hold for every track

BOUNDS = (
    'makes one value of {span} measurements, in tenths of a picosecond: at most {step} ps off',
    'makes midpoints in 0.1 ns and slopes in 0.1 ps/s: at most {half} of the unit off',
    'and from their squares DSG in 0.1 ns',
    'of a track of n blocks of {span} seconds, n from {least} to {full}, it is proved',
    '| REFSV, REFSYS, MDTR, MDIO | {midpoint} (0.1 ns) | the last rounding, {half}, and a mean of errors of {step} ps, {share} |',
    '| SRSV, SRSYS, SMDT, SMDI | {half} + n/({steps}(n² - 1)) (0.1 ps/s) |',
    '| DSG | {dsg} (0.1 ns) | half a unit to the tie, and {apart} ps between two root mean squares |',
    'they are off by the last rounding alone, at most {half}.',
    'x from {first} to {last} |',
    '| midpoint and slope | P / 100d and 10Q / d of the least line',
    '`steps`, the parts of a picosecond that are kept, is {steps}.',
    "The weighted sum over {weights} is the parabola's middle value",
    'The weights are symmetric, {middle} - {falling}x², with sum {weights} and second moment {moment}.',
    'A and B are still within {step} ps of the exact ones',
    'Errors of at most {step} ps have a mean of at most {step} ps, {share} of the unit, however many there are.',
    '| With the {half} of the last rounding: {midpoint}. |',
    'It holds for any number of values from 2 up; Track takes {least} to {full}.',
    'Midpoints keep their {midpoint} and DSG its {dsg} whatever n is.',
)


def bounds(world):
    tool = world.tool
    weights, share = tool.WEIGHTS, HALF / (100 * tool.STEPS)
    assert tool.promise('midpoint', tool.FULL) == HALF + share
    return {'span': tool.SPAN, 'least': tool.LEAST, 'full': tool.FULL, 'steps': tool.STEPS, 'half': decimals(HALF),
            'step': decimals(HALF / tool.STEPS), 'share': decimals(share), 'apart': decimals(2 * HALF / tool.STEPS),
            'midpoint': near(tool, 'midpoint'), 'dsg': near(tool, 'DSG'),
            'first': -(len(weights) // 2), 'last': len(weights) // 2, 'weights': sum(weights),
            'middle': weights[7], 'falling': weights[7] - weights[8],
            'moment': sum(x * x * w for x, w in zip(range(-7, 8), weights))}


def near(tool, kind):
    """What is promised of a midpoint or of DSG, whatever the number of blocks."""
    return decimals(tool.promise(kind, tool.FULL))


SLOPE = (
    '2j - (n - 1). In its unit the slope is 4T / ({steps}n(n² - 1)); for {full} values T / {divisor}.',
    'magnitudes add up to at most n² / {magnitudes}.',
    'So errors of half a tenth move T by at most n² / {moved} tenths, and the slope by n/({steps}(n² - 1)).',
    'With the {half} of the last rounding: {half} + n/({steps}(n² - 1)), for a full track {half} + {full} / {over}.',
    'From {since} blocks on it is within {thousandths}.',
    '{dsg} for slopes would be false',
)


def slope(world):
    tool = world.tool
    n, steps = tool.FULL, tool.STEPS
    sizes = sum(abs(2 * j - (n - 1)) for j in range(n))
    promised = tool.promise('slope', n)
    assert promised == HALF + Fraction(n, steps * (n * n - 1))
    thousandths = tool.rounded_up(promised, 3)
    return {'half': decimals(HALF), 'full': n, 'steps': steps, 'divisor': Fraction(steps * n * (n * n - 1), 4), 'dsg': near(tool, 'DSG'),
            'magnitudes': Fraction(n * n, sizes), 'moved': n * n / (sizes * HALF), 'over': steps * (n * n - 1), 'thousandths': thousandths,
            'since': next(k for k in range(2, n) if tool.rounded_up(tool.promise('slope', k), 3) == thousandths)}


SCATTER = (
    'Σ(ρ - e)² ≤ n / {quarter}.',
    'Σ(r - ρ)² ≤ n / {quarter}.',
    'in the mean square, r is within {apart} ps of e.',
    'For every c: c Σu² ≤ (c + 1) Σw² + c (c + 1) Σ(u - w)².',
    'DSG is d where n({unit}d - {tie})² ≤ Σr² < n({unit}d + {tie})²; it is 0 below n × {tie}².',
    'c is the tie, {unit}d + {tie}. It gives Σe² ≤ n(c + 1)².',
    'From below, d from 1 up: u is r, w is e, and c is {unit}d - {below}, one less than the tie.',
    'So the root of M is within {reach} ps of 100d ps, {dsg} of the unit.',
    'A DSG of 0 has only the upper promise: M is at most {reach}².',
)


def scatter(world):
    # the thresholds stand at half a unit, and two roundings of half a tenth move a root mean square by a tenth at most
    tool = world.tool
    tie, apart = tool.root(Fraction(tool.threshold(1, 1))), 2 * HALF / tool.STEPS
    reach = Fraction(tie) / tool.STEPS + apart
    assert tool.promise('DSG', tool.FULL) == reach / 100 and tool.threshold(2, 1) == (2 * 100 * tool.STEPS - tie) ** 2
    return {'quarter': 1 / HALF ** 2, 'apart': decimals(apart), 'unit': 100 * tool.STEPS, 'tie': int(tie), 'below': int(tie) + 1,
            'reach': decimals(reach), 'dsg': near(tool, 'DSG')}


# ---- how near tracks come to the bounds

REACHED = (
    '| midpoint | {midpoint} | {midpoint_off} | any n blocks alike: all {low} ps, but {high} in the middle; REFSYS is {refsys} |',
    '| slope, full track | {slope} | {slope_off} | the track of {full} blocks below: SRSYS is {srsys}, exactly {srsys_exact} |',
    '| DSG | {dsg} | {dsg_off} | {blocks} blocks, B = {values} tenths; DSG is {written}, exactly {dsg_exact} |',
    'every smoothed value is rounded by {most}/{weights} of a tenth, the most there is',
    'As {most}/{weights} is less than a half',
)


def reached(world):
    tool, weights = world.tool, sum(world.tool.WEIGHTS)
    most = max(min(tool.STEPS * w % weights, -tool.STEPS * w % weights) for w in range(weights))
    # the tie of a midpoint of 1: the exact value lies farthest below it
    low, high = alike(tool, Fraction(tool.STEPS * 50) - Fraction(most, weights))
    tracks = [block_of(([low] * 7 + [high] + [low] * 7) * n, tool) for n in range(tool.LEAST, tool.FULL + 1)]
    assert {(track.fit('B').midpoint, tool.ExactFit(track.exact['B']).midpoint) for track in tracks} == {
        (tracks[0].fit('B').midpoint, tool.ExactFit(tracks[0].exact['B']).midpoint)}
    refsys, exact = tracks[0].fit('B').midpoint, tool.ExactFit(tracks[0].exact['B']).midpoint
    srsys, slope_exact = farthest(tool.FULL, tool)
    far = far_scatter(tool, most)
    dsg, dsg_exact = far.fit('B').dsg, Fraction(tool.ExactFit(far.exact['B']).root) / 100
    offs = [abs(refsys - exact), abs(srsys - slope_exact), abs(dsg - dsg_exact)]
    promised = [tool.promise(kind, n) for kind, n in (('midpoint', 4), ('slope', tool.FULL), ('DSG', far.n))]
    assert all(HALF < off <= bound for off, bound in zip(offs, promised))
    assert srsys - slope_exact > tool.promise('DSG', tool.FULL)
    return {'midpoint': near(tool, 'midpoint'), 'slope': tool.rounded_up(promised[1], 5), 'dsg': near(tool, 'DSG'), 'full': tool.FULL,
            'midpoint_off': tool.places(offs[0], 6), 'slope_off': tool.places(offs[1], 6), 'dsg_off': tool.places(offs[2], 6),
            'low': low, 'high': high, 'refsys': refsys, 'srsys': srsys, 'srsys_exact': tool.places(slope_exact, 6),
            'blocks': far.n, 'values': ', '.join(map(str, FAR_SCATTER)), 'written': dsg, 'dsg_exact': tool.places(dsg_exact, 6),
            'most': most, 'weights': weights}


def alike(tool, tenths):
    """Fourteen measurements and the middle one of a block whose exact smoothed value is so many tenths."""
    weighted = tenths * sum(tool.WEIGHTS) / tool.STEPS
    assert weighted.denominator == 1
    more = int(weighted) * pow(tool.WEIGHTS[7], -1, sum(tool.WEIGHTS)) % sum(tool.WEIGHTS)
    low = (int(weighted) - tool.WEIGHTS[7] * more) // sum(tool.WEIGHTS)
    return low, low + more


def far_scatter(tool, most):
    """The track whose B are FAR_SCATTER, each rounded away from the line as far as can be."""
    off, measurements = Fraction(most, sum(tool.WEIGHTS)), []
    for value in FAR_SCATTER:
        low, high = alike(tool, value - (off if value > 0 else -off))
        measurements += [low] * 7 + [high] + [low] * 7
    track = block_of(measurements, tool)
    assert tuple(track.rounded['B']) == FAR_SCATTER
    return track


def block_of(measurements, tool):
    """The numbers of a block whose labels, delays and corrections are 0."""
    n = len(measurements) // tool.SPAN
    return tool.Track(bytes(58) + struct.pack('<%dq' % len(measurements), *measurements) + bytes(5 * 8 * n))


def slope_distance(measurements, tool):
    """The slope that the rules give, and the exact one."""
    track = block_of(measurements, tool)
    assert track.fit('A').slope == track.fit('B').slope
    return track.fit('B').slope, tool.ExactFit(track.exact['B']).slope


def tilted(n, raised, higher):
    """Every smoothed value is rounded away from 0, to the side that tilts the line, and one block lies some tenths higher: an
    even number of them, as 221 ps in the middle are 334 tenths without a rounding."""
    more = next(k for k in range(5) if (334 * k - higher) % 10 == 0)
    blocks = [[(higher - 334 * more) // 10 * (j == raised)] * 15 for j in range(n)]
    for j, block in enumerate(blocks):
        block[7] += 177 * ((2 * j > n - 1) - (2 * j < n - 1)) + 221 * more * (j == raised)
    return [value for block in blocks for value in block]


def farthest(n, tool):
    """The track of n blocks of tests/reference/src/worst.rs: its slope is rounded to the side of the tilt, from as near a
    tie as it can be. The slope that the rules give, and the exact one."""
    low, raised = block_of(tilted(n, 0, 0), tool).fit('B'), (n + 1) // 2
    # 4T over the slope's divisor is to lie at the tie or just above it; half of the divisor moves it by two whole ones
    higher = min(range(0, low.slopes // 2, 2),
                 key=lambda c: (8 * (low.t + low.place(raised) * c) - low.slopes) % (2 * low.slopes))
    return slope_distance(tilted(n, raised, higher), tool)


def over_blocks(world):
    """The table of the slope's promise, a row for some numbers of blocks."""
    tool = world.tool
    yield '| mean date, second | n/(%d(n² - 1)) | promised |' % tool.STEPS
    for n in (4, 5, 6, 8, 10, 13, 20, 26, 39, 52):
        written, exact = farthest(n, tool)
        off, promised = abs(written - exact), tool.promise('slope', n)
        assert HALF < off <= promised, n
        yield '| %d | %04d | %s | %s | %s | %s |' % (
            n, tool.SPAN * n, decimals(mean_date(n)), tool.rounded_up(promised - HALF, 5).ljust(7, '0'),
            tool.rounded_up(promised, 5).ljust(7, '0'), tool.places(off, 5))
    falling = [tool.promise('slope', n) for n in range(tool.LEAST, tool.FULL + 1)]
    assert falling == sorted(falling, reverse=True)


def mean_date(n):
    return Fraction(sum(7 + 15 * j for j in range(n)), n)


BEFORE = (
    'the bounds were {earlier} for midpoints and DSG, and {half} + n/(n² - 1) for slopes: from {since} blocks on {slopes}.',
    'A midpoint from whole picoseconds is within {midpoint}, less than was promised',
)


def before(world):
    """The bounds that were promised when values were whole ps."""
    tool = world.tool
    assert all(tool.promise(kind, n) <= tool.promise(kind, n, 1) for kind in ('midpoint', 'slope', 'DSG')
               for n in range(tool.LEAST, tool.FULL + 1))
    assert max(tool.promise(kind, 52, 1) for kind in ('midpoint', 'DSG')) <= DOCUMENT_01
    return {'earlier': decimals(DOCUMENT_01), 'half': decimals(HALF), 'slopes': decimals(SLOPES_01),
            'since': next(k for k in range(2, 1000) if tool.promise('slope', k, 1) <= SLOPES_01),
            'midpoint': decimals(tool.promise('midpoint', tool.FULL, 1))}


# ---- the worked track

WORKED = (
    'At second t, from 0 to {seconds}, in ps',
    'For block j, from 0 to {blocks}, whose middle is second t = 7 + 15j',
    'with INT = {INT}, CAB = {CAB}, REF = {REF} and GD = {GD}.',
    'Promises of more than 0.5 are {needed} there.',
    '### Smoothing: block {followed}, seconds {first} to {last}',
    'solve {zeroth}p + {second}r = Σm, {second}q = Σxm and {second}p + {fourth}r = Σx²m',
    'Its fraction is {rest}/1105, and {steps} times as much leaves {tenths}/1105 of a tenth',
)


def worked(world):
    track, tool = world.track, world.tool
    fit, exact = track.fit('B'), tool.ExactFit(track.exact['B'])
    distances = {'midpoint': abs(fit.midpoint - exact.midpoint), 'DSG': abs(fit.dsg - Fraction(exact.root) / 100)}
    needed = all(HALF < distance <= tool.promise(kind, fit.n) for kind, distance in distances.items())
    rest = track.weighted(FOLLOWED) % 1105
    assert track.exact_smoothed[FOLLOWED] % 1 == Fraction(rest, 1105)
    zeroth, second, fourth = (sum(x ** k for x in range(-7, 8)) for k in (0, 2, 4))
    return {'seconds': tool.SPAN * track.n - 1, 'blocks': track.n - 1, 'needed': 'needed' if needed else 'NOT needed',
            **{name: track.given[name] for name in ('INT', 'CAB', 'REF', 'GD')},
            'followed': FOLLOWED, 'first': 15 * FOLLOWED, 'last': 15 * FOLLOWED + 14,
            'zeroth': zeroth, 'second': second, 'fourth': fourth,
            'rest': rest, 'steps': track.steps, 'tenths': track.steps * track.weighted(FOLLOWED) % 1105}


def side(value, tie):
    return 'above' if value > tie else 'below' if value < tie else 'on'


FITTED = (
    'The {n} values B, j = 0 first, {row} a row, in 0.1 ps',
    'T the sum of (2j - {last}) times the value',
    'The nearest whole number to n / d is the floor of (2n + d) / 2d',
    'S / {over} lies {ours} the tie at {tie}, by {missing} tenth in S, so REFSYS is {refsys}. The exact midpoint lies {theirs} the tie: '
    'the errors of the {n} smoothed values have moved the mean by {moved} ps',
    'So the distance is {more} than {half}; it is {within} {reach}, as promised.',
    'A tie itself would have gone up, to {up}.',
)


def fitted(world):
    tool, fit, exact = world.tool, world.track.fit('B'), world.tool.ExactFit(world.track.exact['B'])
    n, tie = fit.n, math.floor(exact.midpoint) + HALF
    share, reach = Fraction(fit.s, fit.midpoints), tool.promise('midpoint', n)
    distance = abs(fit.midpoint - exact.midpoint)
    return {'n': n, 'row': n // 4, 'last': n - 1, 'over': fit.midpoints, 'ours': side(share, tie), 'theirs': side(exact.midpoint, tie),
            'tie': decimals(tie), 'missing': abs(fit.s - fit.midpoints * tie), 'refsys': fit.midpoint, 'up': math.ceil(tie),
            'moved': tool.places(abs(Fraction(fit.s, tool.STEPS * n) - exact.p), 6),
            'more': 'more' if distance > HALF else 'NOT more', 'half': decimals(HALF), 'within': side(distance, reach), 'reach': decimals(reach)}


SCATTERED = (
    '({squares} B - {share} S - (2j - {last}) T) / {squares}. Here {squares} = n(n² - 1) / 3 for n = {n}, and {share} = {squares} / {n}.',
    'One residual, that of block {followed}',
    'the residual from rounded values is nearer to {residual}, the exact one nearer to {nearer}.',
    'All residuals, in 0.1 ps',
    "The program's root mean square lies {ours} the tie at {tie} ps and the exact one {theirs} it.",
    'They are less than {differ} ps apart, where {apart} ps are allowed.',
    'Midpoints and DSG in 0.1 ns, slopes in 0.1 ps/s',
    'S / {midpoints}, T / {slopes} or the root of Q / {n}',
)


def scattered(world):
    tool, fit, exact = world.tool, world.track.fit('B'), world.tool.ExactFit(world.track.exact['B'])
    n, ours, theirs = fit.n, fit.root(), exact.root
    tie = tool.root(Fraction(tool.threshold(fit.dsg, n), n)) / fit.steps
    # the squares of the places 2j - (n - 1) add up to this, and so T over it is the slope for one step of a place
    squares = sum((2 * j - (n - 1)) ** 2 for j in range(n))
    assert Fraction(n * (n * n - 1), 3) == squares
    exact_one = fit.steps * exact.residuals[FOLLOWED]
    nearer = tool.nearest(exact_one.numerator, exact_one.denominator)
    assert nearer != fit.residuals[FOLLOWED]
    return {'squares': squares, 'share': Fraction(squares, n), 'last': n - 1, 'n': n, 'followed': FOLLOWED,
            'residual': fit.residuals[FOLLOWED], 'nearer': nearer, 'tie': int(tie), 'ours': side(ours, tie), 'theirs': side(theirs, tie),
            'differ': tool.rounded_up(Fraction(abs(ours - theirs)), 2), 'apart': decimals(2 * HALF / fit.steps),
            'midpoints': fit.midpoints, 'slopes': Fraction(fit.slopes, 4)}


# ---- the short track, and what it changes

SHORT = (
    'has {n} blocks: the satellite sets after {seconds} s.',
    'T / {divisor} lies {ours} the tie at {tie} and the exact slope {theirs} it.',
    'So SRSYS is {distance} of its unit from the exact one.',
    'That is {over} the {full_slope} of a full track and {within} {half} + {n} / {denominator}, under {promised}, which is promised of it',
    'second 7.5n - 0.5 of the track: second {first_date} for {least} blocks, second {full_date} for {full}.',
    "At the worked track's {rate} ps/s the two are {ns} ns apart",
    's / 15 · √(12 / (n(n² - 1))) ps/s.',
    'For {scatter} ps that is {full_doubt} ps/s with {full} blocks and {least_doubt} ps/s with {least}; '
    'roundings move it by {full_rounding} and {least_rounding} ps/s.',
    "two of the n values' freedoms",
    '√(n / (n - 2)) times DSG: {full_times} times for {full} blocks, {least_times} times for {least}.',
)


def short(world):
    tool, fit, exact = world.tool, world.short.fit('B'), world.tool.ExactFit(world.short.exact['B'])
    n, tie = fit.n, math.floor(exact.slope) + HALF
    distance, promised, full = abs(fit.slope - exact.slope), tool.promise('slope', n), tool.promise('slope', tool.FULL)
    return {'n': n, 'seconds': tool.SPAN * n, 'divisor': Fraction(fit.slopes, 4), 'tie': decimals(tie), 'half': decimals(HALF),
            'ours': side(Fraction(4 * fit.t, fit.slopes), tie), 'theirs': side(exact.slope, tie), 'distance': tool.places(distance, 6),
            'full_slope': tool.rounded_up(full, 5), 'over': side(distance, Fraction(tool.rounded_up(full, 5))),
            'within': side(distance, promised), 'denominator': tool.STEPS * (n * n - 1), 'promised': tool.rounded_up(promised, 5),
            **short_uses(tool, world.track.fit('B'))}


def short_uses(tool, fit):
    """What a metrologist has to know of short tracks; the rate and the scatter are those of the worked one."""
    least, full = tool.LEAST, tool.FULL
    rate, scatter_of = abs(Fraction(fit.slope, 10)), int(fit.root())
    # the least line's slope of n values that scatter by s: s over the root of the sum of the squared seconds
    doubt = {n: scatter_of / tool.root(sum((7 + 15 * j - mean_date(n)) ** 2 for j in range(n))) for n in (least, full)}
    return {'least': least, 'full': full, 'first_date': decimals(mean_date(least)), 'full_date': decimals(mean_date(full)),
            'rate': decimals(rate), 'ns': tool.places(rate * (mean_date(full) - mean_date(least)) / 1000, 1), 'scatter': scatter_of,
            'full_doubt': tool.places(doubt[full], 2), 'least_doubt': tool.places(doubt[least], 1),
            'full_rounding': tool.places(tool.promise('slope', full) / 10, 3), 'least_rounding': tool.places(tool.promise('slope', least) / 10, 3),
            'full_times': tool.places(tool.root(Fraction(full, full - 2)), 2), 'least_times': tool.places(tool.root(Fraction(least, least - 2)), 2)}


# ---- the track that changed

CHANGED = (
    'In whole ps its REFSYS was {was} and its DSG {dsg_was}; in tenths they are {now} and {dsg_now}.',
    'the exact midpoint lies {midpoint_side} the tie at {tie}, and the exact root mean square {root_side} {root_tie} ps.',
    'Rounded to whole ps the values lie {was_side} {tie} and {was_root_side} {root_tie}:',
    'The old figures were {old_midpoint} and {old_dsg} of a unit off, within their {earlier}; the new ones are {new_midpoint} and {new_dsg} off.',
    "the worked track's REFSYS was {worked_was}, {worked_off} off, and is {worked_now}.",
)


def changed(world):
    tool, root_tie = world.tool, 250
    old, new = (tool.Track(world.changed, steps) for steps in (1, tool.STEPS))
    was, now, exact = old.fit('B'), new.fit('B'), tool.ExactFit(new.exact['B'])
    tie = math.floor(exact.midpoint) + HALF
    assert {name for name, value in tool.numbers(old).items() if value != tool.numbers(new)[name]} == {'REFSYS', 'DSG'}
    worked_was, worked_now, worked_exact = both_ways(tool)
    off = {name: tool.places(abs(value), 6) for name, value in (
        ('old_midpoint', was.midpoint - exact.midpoint), ('old_dsg', was.dsg - Fraction(exact.root) / 100),
        ('new_midpoint', now.midpoint - exact.midpoint), ('new_dsg', now.dsg - Fraction(exact.root) / 100),
        ('worked_off', worked_was - worked_exact))}
    return {'was': was.midpoint, 'dsg_was': was.dsg, 'now': now.midpoint, 'dsg_now': now.dsg, 'tie': decimals(tie), 'root_tie': root_tie,
            'midpoint_side': side(exact.midpoint, tie), 'root_side': side(exact.root, root_tie),
            'was_side': side(Fraction(was.s, was.midpoints), tie), 'was_root_side': side(was.root(), root_tie),
            'earlier': decimals(DOCUMENT_01), 'worked_was': worked_was, 'worked_now': worked_now, **off}


def both_ways(tool):
    """REFSYS of a track that is nearer to the exact figure in whole ps: before, now, and exactly."""
    data = (tool.ROOT / 'examples/worked.blk').read_bytes()
    was, now = (tool.Track(data, steps).fit('B').midpoint for steps in (1, tool.STEPS))
    exact = tool.ExactFit(tool.Track(data).exact['B']).midpoint
    assert abs(was - exact) < abs(now - exact)
    return was, now, exact


IN_SMALL = (
    'all {low} ps, but {high} in the middle of each block.',
    '{low} × 1105 + {more} × {weight} = {weighted}, which over 1105 is {exact} ps.',
    'In whole ps that is {whole}, so S / 100n is {tie}, a tie, and REFSYS was 1.',
    'In tenths it is {tenths}, so S / 1000n is {now} and REFSYS is 0.',
)


def in_small(world):
    """A track whose blocks are all alike, so that the number of blocks drops out."""
    tool, low, high = world.tool, 49, 53
    weighted = low * sum(tool.WEIGHTS) + (high - low) * tool.WEIGHTS[7]
    whole, tenths = tool.nearest(weighted, 1105), tool.nearest(tool.STEPS * weighted, 1105)
    for n in range(tool.LEAST, tool.FULL + 1):
        values = [low + (high - low) * (i == 7) for i in range(15)] * n
        assert block_of(values, tool).fit('B').midpoint == 0 and block_of(values, tool).rounded['B'] == [tenths] * n
        assert tool.Fit([whole] * n, 1).midpoint == 1
    return {'low': low, 'high': high, 'more': high - low, 'weight': tool.WEIGHTS[7], 'weighted': weighted,
            'exact': tool.places(Fraction(weighted, 1105), 6), 'whole': whole, 'tie': decimals(Fraction(whole, 100)),
            'tenths': tenths, 'now': decimals(Fraction(tenths, 1000))}


HOW_FAR = (
    'across its limit: 3, 4 or 6, by one unit',
    'at most {midpoint} apart for a midpoint and {dsg} for a DSG. For a slope of {least} blocks it is {slope}: all below 2.',
    'whose noise is at most 1 to 10 ns either way',
)


def how_far(world):
    """How far the last digit of any track can move."""
    tool = world.tool
    most = {kind: DOCUMENT_01 + tool.promise(kind, tool.FULL) for kind in ('midpoint', 'DSG')}
    most['slope'] = max(tool.promise('slope', n) + tool.promise('slope', n, 1) for n in range(tool.LEAST, tool.FULL + 1))
    assert max(most.values()) < 2
    return {'midpoint': decimals(most['midpoint']), 'dsg': decimals(most['DSG']), 'least': tool.LEAST,
            'slope': tool.rounded_up(most['slope'], 5)}


# ---- how often a line moved

def table_of_shares(world):
    tool = world.tool
    rows = (str(tool.FULL), '%d to %d, as many of each' % (tool.LEAST, tool.FULL), str(tool.LEAST))
    for blocks, counts in zip(rows, shares(tool), strict=True) if counted_here(tool) else ():
        yield '| %s | %s |' % (blocks, ' | '.join(tool.spaced(count) for count in counts))


def shares(tool):
    """Of how many seeded tracks how many lines and figures differ, as tests/reference counts them: full ones, all lengths, the shortest."""
    text = (tool.ROOT / COUNTED).read_text()
    found = re.findall(r'Seen \{ tracks: ([\d_]+), changed: ([\d_]+), figures: \[([\d, _]+)\]', text)
    return [[int(number) for number in (tracks, changed, *figures.split(','))] for tracks, changed, figures in found]


def counted_here(tool):
    """Whether the count of the shares is there: it is no part of an installation."""
    return (tool.ROOT / COUNTED).is_file()


def without_shares(prose):
    """The prose without the rows of the table of shares, and how many there are."""
    first = next((k + 2 for k, row in enumerate(prose) if row.startswith(COUNTED_HEADING)), len(prose))
    last = next((k for k in range(first, len(prose)) if not prose[k].startswith('|')), len(prose))
    return prose[:first] + prose[last:], last - first


PARTS = ((BOUNDS, bounds), (SLOPE, slope), (SCATTER, scatter), (REACHED, reached), (BEFORE, before), (WORKED, worked), (FITTED, fitted),
         (SCATTERED, scattered), (SHORT, short), (CHANGED, changed), (IN_SMALL, in_small), (HOW_FAR, how_far))
ROWS = (over_blocks, table_of_shares)
