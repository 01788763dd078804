"""Exact times of a recording with noise: by the order of the frames, their lengths, and where the bus sends them."""
import collections
import csv

from ..limits import TRIGGERS
from ..telling import some
from . import clock as clocks
from .own import Log
from .rows import NoLog, is_slot

COLUMNS = ("line", "frame", "start", "moved_us")


class Snapped:
    """The exact starts of the frames of a recording, in bit times since that of the first trigger. A trigger starts
    with its cycle, a second one after it, the frame of a slot with its window or after the one in front. That of a
    request starts where a log has it, or after the one in front, or else where it was recorded."""

    def __init__(self, words):
        self.words, self.reach, self.bit = words, float(words.snap), 1000 / float(words.kbits)
        self.log = None if words.calls is None else Log(words.calls)
        self.origin = self.behind = self.length = self.before = self.first = self.own = None
        self.frames, self.times, self.cycle_of = [], [], {}
        self.starts, self.moves, self.rates = [], [], []
        self.offs, self.farthest, self.many = collections.Counter(), 0.0, 0
        # The first line of what would move too far, and of what has no exact time, and how many there are.
        self.far, self.loose = [None, 0], [None, 0]
        self.free = self.begin = self.opens = 0
        self.file = open(words.moved, "w", encoding="utf-8", newline="") if words.moved is not None else None
        self.table = None if self.file is None else csv.writer(self.file, lineterminator="\n")
        if self.table is not None:
            self.table.writerow(COLUMNS)

    def take(self, frames):
        """The exact starts of some frames more, which begin with a trigger."""
        words = self.words
        if self.origin is None:
            self.origin, self.first = frames[0].nanos, frames[0].data[0] if frames[0].data else 0
        clocks.in_order(frames if self.behind is None else [self.behind, *frames], self.reach)
        self.behind, self.frames = frames[-1], frames
        times = clocks.starts_in(frames, words.kbits, words.starts, self.origin)
        if self.length is None:
            self.length = words.cycle or (self.log.length() if self.log else None) or clocks.cycle_by(
                frames, times, words.kbits)
        cycle = self.length * self.bit
        numbers, self.before = clocks.numbers_of(frames, times, cycle, self.before)
        triggers = clocks.triggers_in(frames)
        clock = clocks.Clock(numbers, [times[it] for it in triggers], cycle, self.reach)
        self.rates.append((clock.rate, len(numbers)))
        self.times, self.cycle_of = [clock.bus(time) for time in times], dict(zip(triggers, numbers))
        self.starts, self.moves = [], []
        for place in range(len(frames)):
            self.place(place)
        self.many += len(frames)
        for frame, start, moved in zip(frames, self.starts, self.moves):
            self.offs[int(abs(moved) * 10 + 0.5)] += 1
            self.farthest = max(self.farthest, abs(moved))
            if self.table is not None:
                self.table.writerow((frame.line, f"{frame.identifier:03x}", start, f"{moved:.1f}"))
        return self.starts

    def place(self, place):
        """Takes the start of a frame."""
        frame = self.frames[place]
        if frame.identifier == TRIGGERS[0]:
            if len(frame.data) != 8:
                raise NoLog(f"line {frame.line}: a trigger has eight bytes")
            self.begin = self.cycle_of[place] * self.length
            self.opens = self.begin + self.length - int.from_bytes(frame.data[1:3], "big")
            self.own = None
            start = self.begin
        elif frame.identifier == TRIGGERS[1]:
            start = self.free
        elif is_slot(frame.identifier):
            start = max(self.opens, self.free)
        else:
            start = self.asked(place)
        if start < self.free or abs(start * self.bit - self.times[place]) > self.reach:
            self.note(self.far, frame)
            start = max(round(self.times[place] / self.bit), self.free)
        self.starts.append(start)
        self.moves.append(start * self.bit - self.times[place])
        self.free = start + frame.length

    @staticmethod
    def note(noted, frame):
        """Notes a frame: the line of the first one, and how many there are."""
        noted[0] = noted[0] or frame.line
        noted[1] += 1

    def own_starts(self):
        """By identifier and data, the starts of the frames that the log has in this cycle, since that of the cycle. Each
        list has the last one first."""
        if self.own is None:
            self.own, number = {}, self.begin // self.length + self.first
            cycle = None if self.log is None else self.log.at(number)
            for start, _, identifier, data in reversed(cycle.frames) if cycle is not None else ():
                self.own.setdefault((identifier, data), []).append(start - number * self.length)
        return self.own

    def asked(self, place):
        """The start of a frame of a request."""
        frame, measured = self.frames[place], self.times[place] / self.bit
        starts = self.own_starts().get((frame.identifier, frame.data))
        if starts:
            start = starts.pop() + self.begin
            if abs(start - measured) * self.bit <= self.reach and start >= self.free:
                return start
        if abs(self.free - measured) * self.bit <= self.reach:
            return self.free
        self.note(self.loose, frame)
        return max(round(measured), self.free)

    def off(self, place):
        """What the frame at a place is moved by, where they stand in the order of that."""
        for tenths in sorted(self.offs):
            place -= self.offs[tenths]
            if place < 0:
                return tenths / 10
        return 0.0

    def tell(self, note):
        """Says how far frames were moved, and which were not."""
        if self.file is not None:
            self.file.close()
        half, most = self.off(self.many // 2), self.off(min(self.many - 1, self.many * 99 // 100))
        ppm = (sum(rate * many for rate, many in self.rates) / sum(many for _, many in self.rates) - 1) * 1e6
        note(f"{some(self.many, 'frame')} moved to exact times: a half by {half:.1f} us or less, 99 % by {most:.1f} "
             f"us, all by {self.farthest:.1f} us at most. The recorder's clock runs off by {ppm:+.0f} ppm")
        if self.loose[1]:
            note(f"{some(self.loose[1], 'frame')} of requests, the first in line {self.loose[0]}, stand where they "
                 "were recorded: neither --calls nor the frame in front tells their exact time")
        if self.far[1]:
            note(f"{some(self.far[1], 'frame')}, the first in line {self.far[0]}, would move by more than "
                 f"{self.reach:g} us, and stand where they were recorded")
