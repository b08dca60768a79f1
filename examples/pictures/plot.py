"""Plots of plain tables: a table is a list of series, each with its name, its colours and its points."""
from canvas import INK, MUTED, RULE, width_of
from math import ceil, floor, log10


class Series:
    def __init__(self, name, colours, points):
        self.name, self.colours, self.points = name, colours, sorted(points)


class Frame:
    """A rectangle of the picture, and the scales that lead into it: both axes begin at or below the least value, the upright one at 0."""

    def __init__(self, left, top, width, height, series, small=False):
        self.left, self.top, self.width, self.height, self.small = left, top, width, height, small
        xs = sorted({x for one in series for x, _ in one.points})
        self.across, self.least, self.most = xs, xs[0], max(xs[-1], xs[0] + 1)
        self.upright = steps(max(y for one in series for _, y in one.points), 3 if small else 5)

    def x(self, value):
        return self.left + self.width * (value - self.least) / (self.most - self.least)

    def y(self, value):
        return self.top + self.height * (1 - value / self.upright[-1])


def steps(most, count):
    """Round numbers from 0 to at least `most`, about so many."""
    rough = max(most, 1e-9) / count
    power = 10.0 ** floor(log10(rough))
    step = next(power * factor for factor in (1, 2, 2.5, 5, 10) if power * factor >= rough)
    return [step * i for i in range(ceil(most / step - 1e-9) + 1)] if most else [0, 1]


def shown(value):
    return f"{value:,.0f}" if value == round(value) else f"{value:g}"


def ticks(canvas, frame, values):
    """Those values of the x axis whose numbers have room."""
    size, end = (9 if frame.small else 11), float("-inf")
    for value in values:
        half = width_of(shown(value), size) / 2
        if frame.x(value) - half > end + 6:
            canvas.text(frame.x(value), frame.top + frame.height + size + 6, shown(value), anchor="middle", size=size, colour=MUTED)
            end = frame.x(value) + half


def axes(canvas, frame):
    size = 9 if frame.small else 11
    for value in frame.upright:
        y = frame.y(value)
        canvas.line(frame.left, y, frame.left + frame.width, y, RULE, 1)
        canvas.text(frame.left - 6, y + size / 3, shown(value), anchor="end", size=size, colour=MUTED)
    ticks(canvas, frame, frame.across)


def curves(canvas, frame, series):
    for one in series:
        places = [(frame.x(x), frame.y(y)) for x, y in one.points]
        canvas.path("M" + "L".join(f"{x:.1f} {y:.1f}" for x, y in places), stroke=one.colours[1], width=2)
        for x, y in places:
            canvas.circle(x, y, 2.6 if frame.small else 3.6, one.colours[1])


def plot(canvas, frame, series, across, upright):
    """One plot with its axes named."""
    axes(canvas, frame)
    curves(canvas, frame, series)
    canvas.text(frame.left - 40, frame.top - 16, upright, size=12, bold=True, colour=INK)
    canvas.text(frame.left + frame.width / 2, frame.top + frame.height + 44, across, size=12, bold=True, anchor="middle", colour=INK)


def panels(canvas, top, tables, columns, step=132):
    """Small plots beside each other, each under its name, all with their own scale."""
    wide = (canvas.width - 56) / columns
    for i, (name, series) in enumerate(tables):
        left, y = 28 + wide * (i % columns), top + step * (i // columns)
        frame = Frame(left + 52, y + 16, wide - 92, step - 60, series, small=True)
        canvas.text(left + 6, y, name, size=11, bold=True)
        axes(canvas, frame)
        curves(canvas, frame, series)
