"""The picture of docs/LAST-DIGIT.md, as SVG: measurements, values, line, residuals, and where the next digit begins.

Drawn by `tools/lastdigit --svg FILE` from the figures that tool works out. It is laid out for the worked track, whose
REFSYS and DSG lie next to a tie.
"""
from fractions import Fraction

WIDTH, HEIGHT = 960, 1152
LEFT, RIGHT = 90, 930
BLUE, RED, GREY, PALE = '#0057a8', '#c8400a', '#9a9a9a', '#f1e3d6'
STYLE = ('text{font-family:Helvetica,Arial,"Liberation Sans","DejaVu Sans",sans-serif;font-size:14px;fill:#000}'
         '.head{font-size:16px;font-weight:bold}.small{font-size:13px}')
SECONDS = 780


def text(x, y, content, anchor='middle', kind='', colour='#000'):
    return '<text x="%.1f" y="%.1f" text-anchor="%s" class="%s" style="fill:%s">%s</text>' % (
        x, y, anchor, kind, colour, content.replace('-', '\u2212'))


def words(x, y, content, anchor='start', kind=''):
    """Text whose hyphens are no minus signs."""
    return '<text x="%.1f" y="%.1f" text-anchor="%s" class="%s">%s</text>' % (x, y, anchor, kind, content)


def stroke(x1, y1, x2, y2, colour='#000', width=1.0, dash=''):
    return '<line x1="%.2f" y1="%.2f" x2="%.2f" y2="%.2f" stroke="%s" stroke-width="%.1f"%s/>' % (
        x1, y1, x2, y2, colour, width, ' stroke-dasharray="%s"' % dash if dash else '')


def dot(x, y, radius, colour):
    return '<circle cx="%.2f" cy="%.2f" r="%.1f" fill="%s"/>' % (x, y, radius, colour)


def box(x1, y1, x2, y2, fill, edge='none'):
    return '<rect x="%.2f" y="%.2f" width="%.2f" height="%.2f" fill="%s" stroke="%s"/>' % (
        x1, y1, x2 - x1, y2 - y1, fill, edge)


class Axes:
    """A panel over the seconds of the track, its values between a lower and an upper end."""

    def __init__(self, top, bottom, low, high, step):
        self.top, self.bottom, self.low, self.high, self.step = top, bottom, low, high, step

    def x(self, second):
        return LEFT + (RIGHT - LEFT) * float(second) / SECONDS

    def y(self, value):
        return self.bottom - (self.bottom - self.top) * float(value - self.low) / (self.high - self.low)

    def draw(self, unit):
        yield box(LEFT, self.top, RIGHT, self.bottom, 'none', '#000')
        for value in range(self.low, self.high + 1, self.step):
            yield stroke(LEFT - 5, self.y(value), LEFT, self.y(value))
            yield text(LEFT - 9, self.y(value) + 5, str(value), 'end')
        for second in range(0, SECONDS + 1, 60):
            yield stroke(self.x(second), self.bottom, self.x(second), self.bottom + 5)
            if second % 120 == 0:
                yield text(self.x(second), self.bottom + 20, str(second))
        middle = (self.top + self.bottom) / 2
        yield '<g transform="rotate(-90 28 %.1f)">%s</g>' % (middle, words(28, middle, unit, 'middle'))
        yield words((LEFT + RIGHT) / 2, self.bottom + 40, 'second of the track', 'middle')


def correction(track, j):
    """What turns the smoothed value of a block into its B, in ps."""
    return Fraction(track.rounded['B'][j] - track.smoothed[j], track.steps)


def corrected(track, second):
    """One measurement with the corrections carried to its second by a parabola through three blocks."""
    j = min(max(second // 15, 1), 50)
    x = Fraction(second - 7 - 15 * j, 15)
    before, here, after = (correction(track, k) for k in (j - 1, j, j + 1))
    carried = here + x * (after - before) / 2 + x * x * (after - 2 * here + before) / 2
    return track.measurements[second] + carried


def values_panel(track, exact):
    points = [corrected(track, second) / 1000 for second in range(SECONDS)]
    low, high = int(min(points) // 1), int(-(-max(points) // 1))
    axes = Axes(52, 400, low, high, 1)
    yield words(LEFT, 38, 'Measurements, smoothed values and the least line', kind='head')
    yield from axes.draw('B in ns')
    yield from (dot(axes.x(second), axes.y(point), 1.3, GREY) for second, point in enumerate(points))
    ends = [(t, (exact.p + exact.q * t) / 1000) for t in (Fraction(-779, 2), Fraction(781, 2))]
    (t1, y1), (t2, y2) = ends
    middle = Fraction(779, 2)
    yield stroke(axes.x(t1 + middle), axes.y(y1), axes.x(t2 + middle), axes.y(y2), RED, 2)
    values = enumerate(track.rounded['B'])
    yield from (dot(axes.x(7 + 15 * j), axes.y(Fraction(b, 1000 * track.steps)), 3.4, BLUE) for j, b in values)
    yield from midpoint_mark(axes, exact)
    yield from legend(RIGHT - 330, 74)


def midpoint_mark(axes, exact):
    x, y = axes.x(Fraction(779, 2)), axes.y(exact.p / 1000)
    yield stroke(x, axes.bottom, x, y, '#000', 1, '3 3')
    yield words(x + 8, axes.bottom - 12, 'midpoint, second 389.5')


def legend(x, y):
    rows = (('one-second measurement, corrected', lambda h: dot(x, h, 2, GREY)),
            ('smoothed and corrected value B', lambda h: dot(x, h, 3.4, BLUE)),
            ('least line through the values', lambda h: stroke(x - 12, h, x + 12, h, RED, 2)))
    for k, (label, mark) in enumerate(rows):
        yield mark(y + 20 * k)
        yield words(x + 20, y + 20 * k + 5, label)


def residuals_panel(fit, exact):
    residuals = [Fraction(r, fit.steps) for r in fit.residuals]
    reach = 300 * (1 + max(map(abs, residuals)) // 300)
    axes = Axes(494, 644, -reach, reach, 300)
    yield words(LEFT, 480, 'Residuals of B from the line, enlarged', kind='head')
    for sign in (1, -1):
        y = axes.y(sign * exact.root)
        yield stroke(LEFT, y, RIGHT, y, RED, 1.2, '6 4')
    yield from axes.draw('residual in ps')
    yield stroke(LEFT, axes.y(0), RIGHT, axes.y(0))
    for j, r in enumerate(residuals):
        x = axes.x(7 + 15 * j)
        yield stroke(x, axes.y(0), x, axes.y(r), BLUE, 2)
        yield dot(x, axes.y(r), 2.6, BLUE)
    yield words(RIGHT, 480, 'dashed: plus and minus the root mean square', 'end')


class Strip:
    """A number line between two ends."""

    def __init__(self, top, height, low, high):
        self.top, self.bottom, self.low, self.high = top, top + height, low, high

    def x(self, value):
        return LEFT + (RIGHT - LEFT) * float((value - self.low) / (self.high - self.low))


def whole_strip(strip, tie, unit, below, written, name):
    """The digits on both sides of the tie, each over its whole range."""
    yield box(LEFT, strip.top, RIGHT, strip.bottom, '#fff', '#000')
    yield stroke(strip.x(tie), strip.top, strip.x(tie), strip.bottom, '#000', 2)
    for k, side in ((below, -1), (below + 1, 1)):
        label = '%s %d%s' % (name, k, ', as in the line' if k == written else '')
        yield text(strip.x(tie + side * unit / 2), strip.top + 19, label)
    yield text(LEFT + 6, strip.top + 19, '%g' % float(strip.low), 'start', 'small', '#555')
    yield text(RIGHT - 6, strip.top + 19, '%g' % float(strip.high), 'end', 'small', '#555')


def zoom(strip, detail):
    """Lines from the part of the upper strip to the ends of the lower one."""
    for end, x in ((detail.low, LEFT), (detail.high, RIGHT)):
        yield stroke(strip.x(end), strip.bottom, x, detail.top, GREY, 1, '4 3')


def detail_strip(detail, tie, band, ticks, shape, unit):
    yield box(LEFT, detail.top, RIGHT, detail.bottom, '#fff', 'none')
    yield box(detail.x(tie - band), detail.top, detail.x(tie + band), detail.bottom, PALE)
    yield box(LEFT, detail.top, RIGHT, detail.bottom, 'none', '#000')
    yield stroke(detail.x(tie), detail.top - 8, detail.x(tie), detail.bottom, '#000', 2)
    for tick in ticks:
        yield stroke(detail.x(tick), detail.bottom, detail.x(tick), detail.bottom + 5)
        yield text(detail.x(tick), detail.bottom + 20, shape % float(tick))
    yield words(RIGHT, detail.bottom + 39, unit, 'end')


def marks(detail, decides, exact, labels):
    """The figure that decides and the exact one, each with its label on its own side."""
    for value, colour, label, up in ((decides, BLUE, labels[0], True), (exact, RED, labels[1], False)):
        x, y = detail.x(value), detail.top + (16 if up else 42)
        side = 1 if value == max(decides, exact) else -1
        yield stroke(x, detail.top, x, detail.bottom, colour, 2)
        yield dot(x, y, 4, colour)
        yield text(x + 12 * side, y + 5, label, 'start' if side > 0 else 'end', '', colour)


def digit_panel(top, name, written, tie, unit, band, figures, labels, shape, axis):
    """One figure's tie: the digits beside it, and the place of the two figures under a glass."""
    strip = Strip(top + 14, 28, tie - unit, tie + unit)
    detail = Strip(top + 74, 56, tie - band * 6 / 5, tie + band * 6 / 5)
    yield words(LEFT, top, '%s: where the next digit begins' % name, kind='head')
    yield from whole_strip(strip, tie, unit, int((tie - unit / 2) / unit), written, name)
    yield from zoom(strip, detail)
    yield from detail_strip(detail, tie, band, [tie + k * band / 2 for k in (-2, -1, 0, 1, 2)], shape, axis)
    yield from marks(detail, figures[0], figures[1], labels)


def nearest_tie(value, unit):
    """The half unit that lies nearest."""
    return (value // unit) * unit + unit / 2


def refsys_panel(fit, exact):
    decides, tie = Fraction(fit.s, fit.midpoints), nearest_tie(exact.midpoint, Fraction(1))
    labels = ('S / %d = %.6f' % (fit.midpoints, float(decides)), 'exact: %.6f' % float(exact.midpoint))
    yield from digit_panel(726, 'REFSYS', fit.midpoint, tie, Fraction(1), Fraction(1, 200 * fit.steps),
                           (decides, exact.midpoint), labels, '%.5f', '0.1 ns')


def dsg_panel(fit, exact):
    decides, root = Fraction(fit.root()), Fraction(exact.root)
    tie = nearest_tie(root, Fraction(100))
    labels = ('root of Q / %d: %.4f' % (fit.n, float(decides)), 'exact root mean square: %.4f' % float(root))
    yield from digit_panel(930, 'DSG', fit.dsg, tie, Fraction(100), Fraction(1, fit.steps), (decides, root), labels, '%.2f',
                           'ps')


def note():
    yield box(LEFT, 1115, LEFT + 26, 1131, PALE)
    yield words(LEFT + 34, 1128, 'As far as the roundings before the last can move the figure: '
                'an exact figure in here may be written either way.')


def draw(track, fit, exact):
    parts = [box(0, 0, WIDTH, HEIGHT, '#fff')]
    for panel in (values_panel(track, exact), residuals_panel(fit, exact), refsys_panel(fit, exact),
                  dsg_panel(fit, exact), note()):
        parts += panel
    size = (WIDTH, HEIGHT, WIDTH, HEIGHT)
    head = '<svg xmlns="http://www.w3.org/2000/svg" width="%d" height="%d" viewBox="0 0 %d %d">' % size
    title = '<title>The worked track: measurements, values, line, residuals, and the ties of REFSYS and DSG</title>'
    return '\n'.join([head, title, '<style>%s</style>' % STYLE] + parts + ['</svg>']) + '\n'
