"""A list of messages from a recording of a plain CAN bus: identifiers, lengths, periods, jitter and least distances.

What a recording can't tell is left open: who sends a message, its deadline, and what it is called. The recording goes by
lines, so it may have any length.
"""
import csv
import io
from collections import namedtuple
from fractions import Fraction

from ..faults import Refused, Unread
from ..limits import FIRST_ASYNC, LAST_ASYNC, LAST_ID
from ..log.fast import OTHER, reader
from ..log.reading import Progress, blocks_of, size_of, text_of
from ..log.recording import LINE, interface_of, kind_of, other_form
from ..log.rows import NoLog
from ..telling import decimal, shown, some

# So many sends are needed to tell a period, and so great a part of the gaps has to be near a multiple of it.
LEAST, NEAR = 8, Fraction(19, 20)
# A gap is near a multiple of the period where it is off by at most this part of the period.
OFF = Fraction(3, 10)
# Periods that people choose, times a power of ten; and how far a measured one may be off, as a part of it.
USUAL, SNAP = (1, 1.2, 1.25, 1.4, 1.5, 1.6, 2, 2.5, 3, 4, 5, 6, 7, 7.5, 8), Fraction(1, 100)
HEAD = ("name", "sender", "length", "period", "id", "kind", "#frames", "#measured_ms", "#jitter_ms", "#least_ms",
        "#lost", "#lengths")

# So many gaps are looked at for a first guess of a period, and a hull keeps at most so many points.
GAPS, POINTS = 512, 4_096
MILLIS = 1_000_000

# What the sends of an identifier tell: the period by a line through them, how far they are off it from first to last,
# how many are missing, whether nearly all gaps are near a multiple of it, and the least gap. Times in milliseconds.
Fitted = namedtuple("Fitted", "period jitter lost is_cyclic least")


class Hull:
    """The upper side of the convex hull of points that come from left to right: of no line that is added to their heights
    does another point become the highest. With a sign of -1 it is the lower side."""

    def __init__(self, sign):
        self.sign, self.points = sign, []

    def add(self, x, y):
        """A point more."""
        points, y = self.points, self.sign * y
        while len(points) > 1:
            (first, low), (second, high) = points[-2:]
            if (high - low) * (x - first) > (y - low) * (second - first):
                break
            points.pop()
        points.append((x, y))
        if len(points) > POINTS:
            # The points of such a hull lie close to a curve.
            points[1:-1] = points[1:-1:2]

    def highest(self, slope):
        """The greatest height above a line of this slope through the origin."""
        return max(y - self.sign * slope * x for x, y in self.points)


class Sends:
    """The sends of one identifier, one after the other: times in nanoseconds. Of a long recording the first gaps give the
    guess of the period, and nothing is kept but sums and hulls."""

    def __init__(self):
        self.many, self.first, self.last, self.least, self.sizes = 0, None, None, None, set()
        self.waiting, self.twice = [], None
        # The number of the last send by the guess, and the sums of the line.
        self.place = self.near = self.of_place = self.of_time = self.of_both = self.of_squares = 0
        self.above, self.below = Hull(1), Hull(-1)

    def add(self, nanos, size):
        """A send more."""
        self.sizes.add(size)
        self.many += 1
        if self.first is None:
            self.first = self.last = nanos
            self.waiting.append(nanos)
            return
        gap = max(0, nanos - self.last)
        self.least = gap if self.least is None or gap < self.least else self.least
        self.last += gap
        if self.waiting is None:
            self.fit(gap)
        else:
            self.waiting.append(self.last)
            if len(self.waiting) > GAPS:
                self.guess()

    def gaps(self):
        """The gaps between the sends that wait."""
        return [later - time for time, later in zip(self.waiting, self.waiting[1:])]

    def guess(self):
        """Takes twice the median of the gaps so far for the guess of twice the period, and fits what waits."""
        gaps = self.gaps()
        ordered, half = sorted(gaps), len(gaps) // 2
        self.twice = ordered[half] + ordered[-1 - half]
        self.waiting, self.last = None, self.first
        self.above.add(0, 0)
        self.below.add(0, 0)
        for gap in gaps:
            self.last += gap
            if self.twice:
                self.fit(gap)

    def fit(self, gap):
        """Takes a gap into the line."""
        if not self.twice:
            return
        times, rest = divmod(4 * gap + self.twice, 2 * self.twice)
        times -= rest == 0 and times % 2
        self.near += 4 * gap > self.twice and abs(2 * gap - times * self.twice) * OFF.denominator <= OFF.numerator * self.twice
        self.place += times if times > 1 else 1
        place, time = self.place, self.last - self.first
        self.of_place += place
        self.of_time += time
        self.of_both += place * time
        self.of_squares += place * place
        self.above.add(place, time)
        self.below.add(place, time)

    def fitted(self):
        """What they tell; None where they are too few."""
        if self.many < LEAST:
            return None
        if self.waiting is not None:
            self.guess()
        least = Fraction(self.least, MILLIS)
        if not self.twice:
            return Fitted(Fraction(0), Fraction(0), 0, False, least)
        period = Fraction(self.many * self.of_both - self.of_place * self.of_time,
                          self.many * self.of_squares - self.of_place ** 2)
        jitter = self.above.highest(period) + self.below.highest(period)
        return Fitted(period / MILLIS, jitter / MILLIS, self.place + 1 - self.many, self.near >= NEAR * (self.many - 1), least)


def usual(period):
    """The usual period that is near a measured one; else the measured one, in microseconds and rounded down, so that no
    promise gets weaker."""
    known = (Fraction(str(it)) * Fraction(10) ** power for power in range(-1, 5) for it in USUAL)
    near = min(known, key=lambda it: abs(it - period))
    return near if abs(near - period) <= SNAP * period else Fraction(int(period * 1000), 1000)


def row_of(identifier, sends):
    """The row of an identifier."""
    lengths, found = sorted(sends.sizes), sends.fitted()
    is_cyclic = found is not None and found.is_cyclic
    if is_cyclic:
        period = usual(found.period)
    else:
        period = Fraction((sends.least or 0) // 1000, 1000) or None
    measured = ["", "", "", ""] if found is None else [
        decimal(found.period) if is_cyclic else "", decimal(found.jitter) if is_cyclic else "", decimal(found.least),
        found.lost if is_cyclic else ""]
    return [f"m{identifier:03x}", "unknown", lengths[-1], "" if period is None else decimal(period),
            f"{identifier:#05x}", "sync" if is_cyclic else "async", sends.many, *measured, "/".join(map(str, lengths))]


def notes_of(rows):
    """What is said of the rows: what was found, and what nobody can know from a recording."""
    kinds = [row[HEAD.index("kind")] for row in rows]
    yield (f"{some(len(rows), 'identifier')}: {kinds.count('sync')} with a period, {kinds.count('async')} without one, "
           "of which `period` is the least distance that was seen")
    yield "left open: senders (all are `unknown`), deadlines, and names. Fill them in"
    mixed = [row[0] for row in rows if "/" in row[-1]]
    if mixed:
        yield f"several lengths, of which the greatest is taken: {', '.join(mixed)}"
    low = [row[0] for row in rows if row[5] == "async" and not FIRST_ASYNC <= int(row[4], 16) <= LAST_ASYNC]
    if low:
        yield (f"asynchronous, with identifiers outside of {FIRST_ASYNC:#x} to {LAST_ASYNC:#x}: {', '.join(low)}. "
               "--renumber gives them others, or write polled with a deadline")


class Reader:
    """Reads the sends of a recording of candump -L, by identifiers of 11 bits, and counts what is left out."""

    def __init__(self, path, interface):
        self.path, self.interface, self.found, self.left = path, interface, {}, {}

    def read(self, file):
        """Reads a file."""
        size = size_of(file)
        fast, progress = reader(size), Progress("frames read", size, "fttmodel")
        for block, place, line in blocks_of(file, self.path):
            self.interface = self.interface or interface_of(block)
            if fast is None or self.interface is None:
                for at, text in enumerate(text_of(block, self.path, line).split("\n"), line):
                    if text and not text.isspace():
                        self.take(text.strip(), at)
            else:
                self.compiled(fast, block, line)
            progress.step(sum(it.many for it in self.found.values()), place)
        progress.end()

    def compiled(self, fast, block, line):
        """The lines of a block by the compiled readers, which leave those of other forms."""
        for nanos, identifier, _, data, at in fast.recorded(block, line, self.interface, True)[0]:
            if identifier != OTHER:
                self.add(identifier, nanos, len(data))
            else:
                self.take(text_of(block[nanos:block.index(b"\n", nanos)], self.path, at).strip(), at)

    def add(self, identifier, nanos, size):
        """A send more."""
        sends = self.found.get(identifier)
        if sends is None:
            sends = self.found[identifier] = Sends()
        sends.add(nanos, size)

    def take(self, line, place):
        """Takes a line."""
        match = LINE.fullmatch(line)
        if match is None:
            raise Refused(f"{self.path}:{place}: {shown(line, 60)} is no line of candump -L.")
        seconds, part, where, identifier, data, _ = match.groups()
        self.interface = self.interface or where
        kind = f"frames of other interfaces than {self.interface}" if where != self.interface else kind_of(identifier, data)
        if kind is None and int(identifier, 16) > LAST_ID:
            kind = "identifiers above 0x7ff"
        if kind is not None:
            self.left[kind] = self.left.get(kind, 0) + 1
        else:
            self.add(int(identifier, 16), int(seconds + part.ljust(9, "0")), len(data) // 2)


def list_of(path, interface):
    """The text of the list of a recording, and what is said of it."""
    read = Reader(path, interface)
    try:
        with open(path, "rb") as file:
            why = other_form(file.read(512), path)
            if why is not None:
                raise Refused(why)
            file.seek(0)
            read.read(file)
    except OSError as fault:
        raise Unread(f"{path}: {fault.strerror or fault}. Is it the right path?") from fault
    except NoLog as fault:
        raise Refused(str(fault)) from fault
    if not read.found:
        raise Refused(f"{path}: there is no data frame with an identifier of 11 bits.")
    rows = [row_of(identifier, sends) for identifier, sends in sorted(read.found.items())]
    out = io.StringIO()
    writer = csv.writer(out, lineterminator="\n")
    writer.writerow(HEAD)
    writer.writerows(rows)
    told = [f"left out: {many} of {what}" for what, many in sorted(read.left.items())]
    return out.getvalue(), told + list(notes_of(rows))
