"""How late frames were, as a picture: a strip of bars for each message, all of one kind on one axis with round numbers."""
import math
from collections import namedtuple
from fractions import Fraction

from ..telling import decimal, some
from .drawing import HEAD, box, label, width_of

# A message: its name, its values in bit times or cycles, how a value is shown, what a value is, and lines by their names:
# the deadline, the worst case and the bound, where they are known.
Picture = namedtuple("Picture", "name values shown what lines")
# The place for names at the left, the width of the axis, the place at the right, and the heights of a strip, of the
# heading of a kind, and of its axis.
LEFT, WIDE, RIGHT, HIGH, HEADING, AXIS = 190, 600, 180, 22, 44, 30
# About so many marks an axis has, and so many bars a strip at most.
MARKS, BARS = 8, 62
COLOURS = {"deadline": "#c33", "worst": "#36c", "bound": "#36c"}


def round_up(value):
    """The least of 1, 2 and 5 times a power of ten that is not below a value above 0."""
    power = Fraction(10) ** math.floor(math.log10(value))
    return next(it * power for it in (1, 2, 5, 10, 20) if it * power >= value)


class Axis:
    """The axis of the strips of one kind: up to a round number that all values fit. A unit has so many bit times, or is one
    cycle. A line that is far beyond all values is not drawn."""

    def __init__(self, pictures, unit):
        self.unit = unit
        most = max((it for picture in pictures for it in picture.values), default=0)
        lines = [it for picture in pictures for it in picture.lines.values() if it is not None and it <= 2 * most]
        most = max([most, *lines, 1])
        self.step = max(round_up(Fraction(most) / unit / MARKS), 1 if unit == 1 else Fraction(1, 1000))
        self.top = math.ceil(Fraction(most) / unit / self.step) * self.step * unit
        self.bar = max(round_up(self.top / unit / BARS) * unit, 1)

    def x(self, value):
        """The place of a value."""
        return LEFT + float(value / self.top) * WIDE

    def marks(self):
        """The round numbers, each with its place."""
        for place in range(math.floor(self.top / self.unit / self.step) + 1):
            yield self.x(place * self.step * self.unit), decimal(place * self.step, 6)


def bars_of(values, axis):
    """By the place of a bar: the least and the greatest value that it may have, and how many it has."""
    counts = {}
    for value in values:
        place = math.floor(max(0, value) / axis.bar)
        counts[place] = counts.get(place, 0) + 1
    for place, count in sorted(counts.items()):
        yield place, math.ceil(place * axis.bar), math.ceil((place + 1) * axis.bar) - 1, count


def fitting(name, room):
    """A name, cut where it has no room."""
    if width_of(name) <= room:
        return name
    while name and width_of(f"{name}..") > room:
        name = name[:-1]
    return f"{name}.."


def strip(picture, axis, y):
    """The strip of a message."""
    told = label(8, y + HIGH - 7, fitting(picture.name, LEFT - 16))
    told += f'<line x1="{LEFT}" y1="{y + HIGH - 2}" x2="{LEFT + WIDE}" y2="{y + HIGH - 2}" stroke="#bbb"/>\n'
    bars = list(bars_of(picture.values, axis))
    most = max((count for *_, count in bars), default=1)
    for place, low, high, count in bars:
        x, end = axis.x(place * axis.bar), axis.x((place + 1) * axis.bar)
        tall = max(1.0, count * (HIGH - 6) / most)
        title = f"{picture.shown(low)}: {count}" if low == high else f"{picture.shown(low)} to {picture.shown(high)}: {count}"
        told += box(x, y + HIGH - 2 - tall, end - x, tall, "#9d9", title)
    beyond = []
    for name, value in picture.lines.items():
        if value is None:
            continue
        if value > axis.top:
            beyond.append(f"{name} {picture.shown(value)}")
            continue
        dashes = "" if name == "deadline" else ' stroke-dasharray="3 2"'
        told += (f'<line x1="{axis.x(value):.1f}" y1="{y}" x2="{axis.x(value):.1f}" y2="{y + HIGH - 2}" '
                 f'stroke="{COLOURS[name]}" stroke-width="1.5"{dashes}><title>{name} {picture.shown(value)}</title></line>\n')
    return told + label(LEFT + WIDE + 8, y + HIGH - 7, fitting("; ".join([some(len(picture.values), "frame"), *beyond]),
                                                              RIGHT - 10), 8)


def group(what, pictures, axis, y):
    """The strips of one kind with their axis."""
    told = label(8, y + 16, what, 11)
    x = LEFT
    names = [name for name in COLOURS if any(picture.lines.get(name) is not None for picture in pictures)]
    for name in names:
        dashes = "" if name == "deadline" else ' stroke-dasharray="3 2"'
        told += f'<line x1="{x}" y1="{y + 30}" x2="{x + 22}" y2="{y + 30}" stroke="{COLOURS[name]}" stroke-width="1.5"{dashes}/>\n'
        told += label(x + 28, y + 33, name)
        x += 28 + width_of(name) + 20
    y += HEADING
    foot, free = y + len(pictures) * HIGH, 0
    for at, text in axis.marks():
        told += f'<line x1="{at:.1f}" y1="{y}" x2="{at:.1f}" y2="{foot + 3}" stroke="#ddd"/>\n'
        left = at - width_of(text, 8) / 2
        if left >= free:
            told += label(left, foot + 13, text, 8)
            free = left + width_of(text, 8) + 6
    for row, picture in enumerate(pictures):
        told += strip(picture, axis, y + row * HIGH)
    return told


def histogram(pictures, kbits, put):
    """Strips of all messages; those whose values are the same thing stand together, on one axis."""
    kinds = {}
    for picture in pictures:
        kinds.setdefault(picture.what, []).append(picture)
    high = sum(HEADING + AXIS + HIGH * len(some_pictures) for some_pictures in kinds.values()) + 8
    put(HEAD.format(LEFT + WIDE + RIGHT, high))
    put("<title>Histograms</title>\n")
    y = 4
    for what, some_pictures in kinds.items():
        unit = Fraction(1) if kbits is None or what.endswith("cycles") else Fraction(kbits)
        put(group(what, some_pictures, Axis(some_pictures, unit), y))
        y += HEADING + AXIS + HIGH * len(some_pictures)
    put("</svg>\n")
