"""The region of a grid that is accepted, as SVG: told by colours and hatches, and as a table in words."""
import html
import itertools
from fractions import Fraction

from .alike import together
from .reasons import kind_of
from .said import axis_name, label, lines_along, wide_axes, with_unit

# What a picture paints by the first word of what is said of a point: a colour, and the lines on it in a square of 6 by 6.
KINDS = {"accepted": ("#8d8", ""), "miss": ("#e99", "M0 6L6 0M-1 1L1 -1M5 7L7 5"), "horizon": ("#fd8", "M0 3H6"),
         "refused file": ("#ddd", "M1 1H2M4 4H5"), "malformed": ("#cbe", "M0 0L6 6M-1 5L1 7M5 -1L7 1"),
         "passed": ("#bcd", "M3 0V6"), "no bound": ("#8cf", "M0 1.5H6M0 4.5H6"), "late bound": ("#bdf", "M0 1.5H6"),
         "no room": ("#eee", "M1 1H2M4 1H5M1 4H2M4 4H5"), "no table": ("#fff", "M3 3H4")}
OTHER = ("#cdd", "M0 3H6M3 0V6")
# A row, the front of the picture, what is left for the words after a row, and a letter at most, all in pixels.
HIGH, TOP, BEHIND, LETTER = 15, 44, 110, 6.2


def runs_of(line):
    """The values of a line that stand side by side with one kind of answer: kind, first and last place, and the first
    answer."""
    runs = []
    for place, said in enumerate(line.values()):
        if runs and runs[-1][0] == kind_of(said):
            runs[-1][2] = place
        else:
            runs.append([kind_of(said), place, place, said])
    return runs


def best_of(names, found):
    """The point that is marked: of those that are accepted, the first one with the least window, and of these with the
    least deadline; None where none is accepted."""
    keys = [names.index(name) for name in ("window", "deadline", "deadline_ms") if name in names]
    good = [point for point, said in found.items() if said.accepted]
    return min(good, key=lambda point: [point[at] for at in keys], default=None)


def is_even(values):
    """Whether the values of an axis are numbers of one distance."""
    return len(values) > 2 and not isinstance(values[0], str) and \
        len({other - one for one, other in itertools.pairwise(values)}) == 1


def round_ticks(first, last, most):
    """Round numbers from the first one to the last one, at most so many and one: multiples of 1, 2 or 5 times a power of
    ten, and of 1 at least where all are whole."""
    is_whole = all(Fraction(it).denominator == 1 for it in (first, last))
    step = next(step for step in (Fraction(10) ** power * digit for power in range(0 if is_whole else -6, 12)
                                  for digit in (1, 2, 5)) if step * most >= last - first)
    return [step * place for place in range(-(-first // step), last // step + 1)]


def number(value):
    """A number of an axis as text."""
    value = Fraction(value)
    return str(value.numerator) if value.denominator == 1 else f"{float(value):.6f}".rstrip("0")


def ticks_of(values, wide):
    """The ticks of an axis so many pixels wide: the place of each, counted from the first value in steps of the grid, and
    its text. Round ones where the values have one distance; else some of the values."""
    most = max(1, int(wide // 45))
    if is_even(values):
        ticks = round_ticks(values[0], values[-1], most)
        if len(ticks) > 1:
            return [((tick - values[0]) / (values[1] - values[0]), number(tick)) for tick in ticks]
    every = -(-len(values) // most)
    return [(at, str(value)) for at, value in enumerate(values) if at % every == 0]


def least_of(line, axis):
    """What is accepted along a line, in words."""
    good = [value for value, said in line.items() if said.accepted]
    if not good:
        return f"none of {min(line)} to {max(line)}"
    return f"{good[0]}" if axis in ("window", "deadline", "deadline_ms") else f"{good[0]} to {good[-1]}"


def in_words(names, found, axis):
    """The region as lines in words."""
    texts = {rest: least_of(line, axis) for rest, line in lines_along(names, found, axis).items()}
    front = "least" if axis in ("window", "deadline", "deadline_ms") else "accepted"
    return together(names, texts, [name for name in wide_axes(names, found) if name != axis], f"{front} {axis_name(axis)}")


class Picture:
    """A picture of a grid: a row for each point of the other axes, along one axis. Texts go to `put`."""

    def __init__(self, names, found, put):
        self.names, self.found, self.put = names, found, put
        wide = wide_axes(names, found)
        self.axis = next((name for name in ("window", "deadline", *names) if name in wide), names[-1])
        self.narrow = [name for name in names if name not in wide]
        self.lines = lines_along(names, found, self.axis)
        self.values = list(dict.fromkeys(sorted(point[names.index(self.axis)] for point in found)))
        self.place = {value: at for at, value in enumerate(self.values)}
        self.step = max(1.0, min(24.0, 720 / len(self.values)))
        self.labels = [label(names, rest, (self.axis, *self.narrow)) for rest in self.lines]
        self.left = 12 + LETTER * max(len(text) for text in self.labels)
        self.words, self.best = in_words(names, found, self.axis), best_of(names, found)
        self.right, self.bottom = self.left + len(self.values) * self.step, TOP + len(self.lines) * HIGH

    def text(self, x, y, text, more=""):
        """A text at a place."""
        self.put(f'<text x="{x:.1f}" y="{y:.0f}"{more}>{html.escape(text)}</text>\n')

    def begin(self):
        """The frame, the hatches, and the region in words for those who hear it."""
        wide = max(self.right + BEHIND, 8 + LETTER * max(len(line) for line in self.words))
        high = self.bottom + 54 + len(self.words) * HIGH
        self.put(f'<svg xmlns="http://www.w3.org/2000/svg" viewBox="0 0 {wide:.0f} {high}" width="{wide:.0f}" '
                 f'height="{high}" font-family="sans-serif" font-size="11" fill="#000" role="img">\n'
                 f"<title>Which points are accepted</title>\n<desc>{html.escape('; '.join(self.words))}</desc>\n<defs>\n")
        for at, kind in enumerate(self.kinds()):
            colour, lines = KINDS.get(kind, OTHER)
            self.put(f'<pattern id="ftt-{at}" width="6" height="6" patternUnits="userSpaceOnUse"><path d="M0 0H6V6H0Z" '
                     f'fill="{colour}"/><path d="{lines}" stroke="#333" stroke-width="0.8"/></pattern>\n')
        self.put('</defs>\n<rect width="100%" height="100%" fill="#fff"/>\n')

    def kinds(self):
        """The kinds of answers that there are: their numbers."""
        return {kind: at for at, kind in enumerate(dict.fromkeys(kind_of(said) for said in self.found.values()))}

    def head(self):
        """What the picture shows, and what its hatches mean."""
        others = ", ".join(with_unit(name) for name in self.names if name not in (self.axis, *self.narrow))
        good = sum(it.accepted for it in self.found.values())
        self.text(8, 16, f"{len(self.found)} points, {good} accepted; along: {with_unit(self.axis)}"
                         f"{'; a row: ' + others if others else ''}")
        for kind, at in self.kinds().items():
            self.put(f'<rect x="{8 + at * 92}" y="24" width="10" height="10" fill="url(#ftt-{at})" stroke="#333" '
                     'stroke-width="0.5"/>')
            self.text(22 + at * 92, 33, kind)
        if self.best is not None:
            x = 8 + len(self.kinds()) * 92
            self.mark(x + 5, 29)
            self.text(x + 14, 33, f"the best one: {label(self.names, self.best, self.narrow) or 'the only point'}")

    def mark(self, x, y):
        """The sign of the best point."""
        self.put(f'<circle cx="{x:.1f}" cy="{y:.1f}" r="4.5" fill="#fff" stroke="#000" stroke-width="2"/>\n')

    def rows(self):
        """The region."""
        kinds = self.kinds()
        for row, (text, (rest, line)) in enumerate(zip(self.labels, self.lines.items())):
            y, keys = TOP + row * HIGH, list(line)
            self.text(8, y + 11, text)
            for kind, first, last, said in runs_of(line):
                x = self.left + self.place[keys[first]] * self.step
                right = self.left + (self.place[keys[last]] + 1) * self.step
                why = "" if said.accepted else f": {html.escape(said.why)}"
                self.put(f'<rect x="{x:.1f}" y="{y + 1}" width="{right - x:.1f}" height="{HIGH - 2}" '
                         f'fill="url(#ftt-{kinds[kind]})"><title>{keys[first]} to {keys[last]}: {kind}{why}</title></rect>\n')
            good = [value for value, said in line.items() if said.accepted]
            self.text(self.right + 6, y + 11, f"least {good[0]}" if good else "none")
            at = self.names.index(self.axis)
            if self.best is not None and self.best[:at] + (None,) + self.best[at + 1:] == rest:
                self.mark(self.left + (self.place[self.best[at]] + 0.5) * self.step, y + HIGH / 2)

    def scale(self):
        """The axis below the region, and its name."""
        self.put(f'<path d="M{self.left:.1f} {self.bottom}H{self.right:.1f}" stroke="#000"/>\n')
        for at, text in ticks_of(self.values, self.right - self.left):
            x = self.left + (float(at) + 0.5) * self.step
            self.put(f'<line x1="{x:.1f}" y1="{self.bottom}" x2="{x:.1f}" y2="{self.bottom + 4}" stroke="#000"/>')
            self.text(x, self.bottom + 16, text, ' text-anchor="middle"')
        self.text((self.left + self.right) / 2, self.bottom + 30, with_unit(self.axis), ' text-anchor="middle"')

    def draw(self):
        """All of it."""
        self.begin()
        self.head()
        self.rows()
        self.scale()
        for at, line in enumerate(self.words):
            self.text(8, self.bottom + 50 + at * HIGH, line)
        self.put("</svg>\n")


def draw(names, found, put):
    """The region as SVG: a row for each point of the other axes, along one axis."""
    Picture(names, found, put).draw()
