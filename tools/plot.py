"""A column of a table over another as a picture in SVG: a circle where there are lines, as large as they are many.

A column of numbers makes an axis of numbers; any other column has a place for each of its words.
"""
import collections

import command
from command import xml

WIDTH, HEIGHT = 640, 400  # of the field, in pixels
LEFT, TOP, BELOW, RIGHT = 190, 50, 60, 40
RADIUS_MIN, RADIUS_MAX = 2.5, 14
TICKS = 6
MARGIN = 0.03  # of an axis of numbers, at both ends
WORDS_MAX = 40  # places of an axis of words
LETTERS_MAX = 28
STEPS = (1, 2, 5, 10)


class Axis:
    """Where each value of a column stands, from 0 to 1."""

    def __init__(self, values):
        self.values = values
        self.is_numbers = all(is_number(value) for value in values)
        if self.is_numbers:
            numbers = [float(value) for value in values]
            self.low, self.high = min(numbers, default=0), max(numbers, default=0)
            self.ticks = ticks(self.low, self.high)
            self.low, self.high = min([self.low, *self.ticks]), max([self.high, *self.ticks])
        else:
            self.words = sorted(set(values))
            self.ticks = self.words

    def at(self, value):
        if not self.is_numbers:
            return (self.words.index(value) + 0.5) / len(self.words)
        return MARGIN + (1 - 2 * MARGIN) * (float(value) - self.low) / (self.high - self.low) if self.high > self.low else 0.5

    def text(self, tick):
        return f'{tick:,.10g}' if self.is_numbers else tick[:LETTERS_MAX]


def is_number(value):
    text = str(value)
    return text.isascii() and text.isdecimal() and len(text) <= command.DIGITS_MAX


def ticks(low, high):
    """Round numbers from one to the other."""
    if high <= low:
        return [low]
    rough = (high - low) / TICKS
    size = 10 ** (len(str(int(rough))) - 1) if rough >= 1 else 1
    step = next((size * factor for factor in STEPS if size * factor >= rough), size * STEPS[-1])
    first = int(low // step) * step
    return [first + step * at for at in range(int((high - first) / step) + 1) if first + step * at >= low]


def column(head, lines, name):
    if name not in head:
        raise command.Refusal(f'there is no column {name}; here is {", ".join(head)}', command.WRONG_WORDS)
    at = head.index(name)
    return [str(line[at]) if at < len(line) else '' for line in lines]


def svg_of(head, lines, names, title):
    """The lines of a picture of `X,Y`."""
    x_name, sign, y_name = names.partition(',')
    if not sign:
        raise command.Refusal(f'{names}: no X,Y', command.WRONG_WORDS)
    points = collections.Counter(zip(column(head, lines, x_name), column(head, lines, y_name)))
    x, y = Axis([point[0] for point in points]), Axis([point[1] for point in points])
    for axis, name in ((x, x_name), (y, y_name)):
        if not axis.is_numbers and len(axis.words) > WORDS_MAX:
            raise command.Refusal(f'{name} has {len(axis.words)} words, and a picture has room for {WORDS_MAX}')
    return head_of(f'{title}: {y_name} over {x_name}', len(lines)) + axes(x, y, x_name, y_name) + circles(points, x, y) + ['</svg>']


def across(axis, value):
    return LEFT + WIDTH * axis.at(value)


def down(axis, value):
    return TOP + HEIGHT * (1 - axis.at(value))


def head_of(title, count):
    width, height = LEFT + WIDTH + RIGHT, TOP + HEIGHT + BELOW
    return [f'<svg xmlns="http://www.w3.org/2000/svg" width="{width}" height="{height}" viewBox="0 0 {width} {height}" '
            'font-family="DejaVu Sans, Verdana, sans-serif" font-size="11">',
            f'<title>{xml(title)}</title>', f'<rect width="{width}" height="{height}" fill="#fff"/>',
            f'<text x="{LEFT}" y="24" font-weight="bold">{xml(title)}</text>',
            f'<text x="{LEFT + WIDTH}" y="24" text-anchor="end">{count:,} played</text>',
            f'<rect x="{LEFT}" y="{TOP}" width="{WIDTH}" height="{HEIGHT}" fill="none" stroke="#999"/>']


def axes(x, y, x_name, y_name):
    lines = []
    for tick in x.ticks:
        at = across(x, tick)
        lines += [f'<line x1="{at:.1f}" y1="{TOP}" x2="{at:.1f}" y2="{TOP + HEIGHT}" stroke="#ddd"/>',
                  f'<text x="{at:.1f}" y="{TOP + HEIGHT + 18}" text-anchor="middle">{xml(x.text(tick))}</text>']
    for tick in y.ticks:
        at = down(y, tick)
        lines += [f'<line x1="{LEFT}" y1="{at:.1f}" x2="{LEFT + WIDTH}" y2="{at:.1f}" stroke="#ddd"/>',
                  f'<text x="{LEFT - 8}" y="{at + 4:.1f}" text-anchor="end">{xml(y.text(tick))}</text>']
    return lines + [f'<text x="{LEFT + WIDTH / 2:.0f}" y="{TOP + HEIGHT + 42}" text-anchor="middle" font-weight="bold">{xml(x_name)}</text>',
                    f'<text x="{LEFT - 8}" y="{TOP - 12}" text-anchor="end" font-weight="bold">{xml(y_name)}</text>']


def circles(points, x, y):
    """The most on top of all the others."""
    most = max(points.values(), default=1)
    return [f'<circle cx="{across(x, value):.1f}" cy="{down(y, other):.1f}" r="{max(RADIUS_MIN, RADIUS_MAX * (count / most) ** 0.5 * crowd(x)):.1f}" '
            f'fill="#0b57d0" fill-opacity="0.6"><title>{xml(f"{value}, {other}: {count:,}")}</title></circle>'
            for (value, other), count in sorted(points.items(), key=lambda point: point[1])]


def crowd(axis):
    """Smaller circles where many stand beside one another."""
    return min(1.0, WIDTH / (2 * RADIUS_MAX * max(1, len(set(axis.values)))))
