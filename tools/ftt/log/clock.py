"""The clock of a recorder against that of the bus: which trigger is that of which cycle, and one line through all."""
import collections
import operator
import statistics

from ..frames import INTERMISSION
from ..limits import CYCLE, TRIGGERS
from ..telling import some
from .recording import back_by
from .rows import NoLog

# A trigger whose byte 0 goes on from that of the one before is taken for that cycle where it is no further off.
NEAR = 0.75
# What a recorder's clock may run off where nothing is said: parts per million.
PPM = 200


def starts_in(frames, kbits, has_starts, origin=None):
    """The start of each frame in microseconds since the end, or the start, of the first one of the recording, as the
    recorder's clock has it. Its nanoseconds are the origin; without one, those of the first frame."""
    if not frames:
        return []
    bit, first = 1000 / float(kbits), frames[0].nanos if origin is None else origin
    if has_starts:
        return [(frame.nanos - first) / 1000 for frame in frames]
    return [(frame.nanos - first) / 1000 - (frame.length - INTERMISSION) * bit for frame in frames]


def in_order(frames, tolerance):
    """Refuses a recording whose times go back by more than noise does."""
    nanos = [frame.nanos for frame in frames]
    steps = list(map(operator.sub, nanos[1:], nanos))
    if steps and min(steps) < -tolerance * 1000:
        place = next(place for place, step in enumerate(steps, 1) if step < -tolerance * 1000)
        raise NoLog(f"line {frames[place].line}: {back_by(frames[place - 1], frames[place])}")


def triggers_in(frames):
    """The places of the first trigger frames."""
    return [place for place, frame in enumerate(frames) if frame.identifier == TRIGGERS[0]]


def cycle_by(frames, starts, kbits):
    """The length of a cycle in bit times, by the distances of triggers whose numbers follow each other."""
    places = triggers_in(frames)
    gaps = [(starts[place] - starts[before]) / ((frames[place].data[0] - frames[before].data[0]) % 256)
            for before, place in zip(places, places[1:])
            if frames[place].data and frames[before].data and frames[place].data[0] != frames[before].data[0]]
    if not gaps:
        raise NoLog("the recording has fewer than two triggers: give the length of a cycle with --cycle")
    length = round(statistics.median(gaps) * float(kbits) / 1000)
    if not CYCLE[0] <= length <= CYCLE[1]:
        raise NoLog(f"by the distance of the triggers a cycle has {some(length, 'bit time')}, and it has {CYCLE[0]} to "
                    f"{CYCLE[1]}: is {float(kbits):g} kbit/s the right rate? Else give its length with --cycle")
    return length


def numbers_of(frames, starts, cycle, before=None):
    """The cycle of each trigger, counted from the first one of the recording, by its time; cycle is in microseconds. Byte
    0 helps, as far as it goes with the time: a trigger that is late by half a cycle is told from a missing one. The trigger
    in front of these is given by its number, start and byte, and the last one of them is given back so."""
    numbers = []
    for place in triggers_in(frames):
        byte = frames[place].data[0] if frames[place].data else None
        if before is None:
            numbers.append(0)
        else:
            number, last, its = before
            ahead = (starts[place] - last) / cycle
            further = max(0, round(ahead))
            if byte is not None and its is not None:
                ahead_by_byte = (byte - its) % 256
                ahead_by_byte += 256 * max(0, round((ahead - ahead_by_byte) / 256))
                # After a long pause the clock may be off by more.
                if abs(ahead_by_byte - ahead) < NEAR + ahead * PPM / 1e6:
                    further = ahead_by_byte
            numbers.append(number + further)
        before = numbers[-1], starts[place], byte
    return numbers, before


def votes_of(frames, numbers):
    """The cycle of the first trigger modulo 256, as each trigger has it in byte 0: how often."""
    return collections.Counter((frames[place].data[0] - number) % 256
                               for place, number in zip(triggers_in(frames), numbers) if frames[place].data)


def residue_of(votes):
    """The one that most triggers have."""
    return votes.most_common(1)[0][0] if votes else 0


def base_of(rests, tolerance):
    """Where most of some values lie close together, and how many do: their median. Of equally many the least ones are
    taken, since a bus may be late and never early."""
    rests, first, best = sorted(rests), 0, (0, 0)
    for last, rest in enumerate(rests):
        while rest - rests[first] > tolerance:
            first += 1
        if last + 1 - first > best[1] - best[0]:
            best = first, last + 1
    return statistics.median(rests[best[0]:best[1]]), best[1] - best[0]


class Clock:
    """A line through the triggers that are on time. The rate is the recorder's microseconds in one of the bus, and base
    the recorder's time of cycle 0. A rate that is further off than it may be is taken only where the triggers stand on
    no other line."""

    def __init__(self, numbers, times, cycle, tolerance, ppm=PPM):
        self.cycle, self.rate, self.is_off = cycle, 1.0, False
        seen = dict(reversed(list(zip(numbers, times))))
        numbers = sorted(seen)
        times = [seen[number] for number in numbers]
        half, most = len(numbers) // 2, ppm / 1e6
        if half:
            pairs = [(times[at + half] - times[at]) / (numbers[at + half] - numbers[at])
                     for at in range(len(numbers) - half)]
            measured = statistics.median(pairs) / cycle
            self.rate = min(max(measured, 1 - most), 1 + most)
        self.base, near = self.line(numbers, times, tolerance)
        if half and measured != self.rate and near < len(numbers) / 2:
            clipped, self.rate = (self.rate, self.base), measured
            self.base, by_measured = self.line(numbers, times, tolerance)
            self.is_off = by_measured > max(2 * near, len(numbers) * 3 / 4)
            if not self.is_off:
                self.rate, self.base = clipped

    def line(self, numbers, times, tolerance):
        """The base of the line with the rate, and how many triggers are on it."""
        return base_of([time - number * self.cycle * self.rate for number, time in zip(numbers, times)], tolerance)

    def bus(self, time):
        """A time of the recorder, in microseconds of the bus since the start of cycle 0."""
        return (time - self.base) / self.rate

    def ppm(self):
        """How fast the recorder's clock runs, in parts per million."""
        return (self.rate - 1) * 1e6
