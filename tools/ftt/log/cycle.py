"""A recorded cycle beside that of the run: its triggers, its window, and the frames of slots."""
import collections

from ..frames import INTERMISSION, worst
from ..limits import FEW_SLOTS, FIRST_ASYNC, FIRST_SLOT, LENGTH, TRIGGERS
from ..masks import mask_of, slots_of
from .asked import Sent
from .rows import is_slot


class Window:
    """The synchronous window in microseconds of the bus: when it opens at the earliest and at the latest, and when it
    ends. The two differ where the trigger is late, or has another window than the run."""

    def __init__(self, begins, cycle, widths):
        opens = [begin + cycle - width for begin in begins for width in widths]
        self.low, self.high, self.shut = min(opens), max(opens), max(begins) + cycle


class Compared:
    """A cycle: its number from the first recorded one, the run's, and the places of its frames. What is wrong goes
    to the comparison."""

    def __init__(self, whole, number, own, places, is_last):
        self.whole, self.number, self.own, self.places = whole, number, own, places
        self.frames = [whole.frames[it] for it in places]
        self.counts = collections.Counter(frame.identifier for frame in self.frames)
        self.begin = number * whole.cycle
        self.told = whole.told_by(places)
        # What the run sends in slots: the data by identifiers, or None where they are not known.
        if whole.run.has_frames:
            self.due = {it[2]: it[3] for it in own.frames if is_slot(it[2])}
        else:
            self.due = {FIRST_SLOT + slot: None for slot in slots_of(f"{own.mask:x}")}
        self.order, self.next, self.passed = sorted(self.due), 0, {}
        self.seen, self.window = set(), None
        # What the window may still be late by, in microseconds, and the trigger.
        self.spare, self.spare_of_trigger = whole.reserve * whole.bit, whole.turnaround * whole.bit
        self.end_of_due = self.last_due() if is_last else float("inf")

    def last_due(self):
        """Of the last recorded cycle: the greatest identifier of a slot that is told to be missing."""
        return max((it for it in self.counts if is_slot(it)), default=0)

    def add(self, kind, frame, **more):
        """A finding in this cycle."""
        self.whole.add(self.number, kind, frame, **more)

    def look(self):
        """Looks at all frames in the order of the recording, and then at what is missing."""
        self.opened([self.begin])
        for place, frame in zip(self.places, self.frames):
            self.whole.foreign_until = max(self.whole.foreign_until, self.whole.busy.get(place, 0.0))
            if frame.identifier == TRIGGERS[0]:
                self.trigger(place, frame)
            elif frame.identifier == TRIGGERS[1] and self.whole.run.slots > FEW_SLOTS:
                self.second(place, frame)
            elif FIRST_SLOT <= frame.identifier < FIRST_SLOT + self.whole.run.slots:
                self.slot(place, frame)
            else:
                self.other(place, frame)
            self.seen.add(frame.identifier)
        self.missing()

    def opened(self, begins):
        """Takes the window, by the run's width and that of the trigger, from these starts of the cycle."""
        widths = {width for width in (self.own.width, self.told[1] if self.told else None) if width is not None}
        bit = self.whole.bit
        self.window = Window(begins, self.whole.cycle, [(width + self.whole.reserve) * bit for width in widths or {0}])

    def placed(self, place, frame, low, high):
        """How far a frame starts before or after where it is due, in microseconds; 0 within the tolerance. The bus is
        busy up to its end then."""
        whole, start, lasts = self.whole, self.whole.times[place], frame.length * self.whole.bit
        if low < whole.chain:
            low, high = whole.chain, max(high, whole.chain)
        if high < whole.foreign_until:
            high = whole.foreign_until
        off = start - high if start > high else start - low if start < low else 0.0
        if abs(off) <= whole.tolerance:
            whole.offs[int(abs(off) * 10 + 0.5)] += 1
            whole.chain = start - off + lasts
            return 0.0
        whole.chain = max(whole.chain, start + lasts)
        return off

    def again(self, place, frame):
        """A frame that is there once more. A recorder may have it twice with one time, and then it takes no time of the
        bus."""
        whole = self.whole
        if whole.times[place] >= whole.chain - whole.tolerance:
            whole.chain = whole.times[place] + frame.length * whole.bit
        # On a disturbed bus a frame comes again with the same data where its sender alone saw an error.
        is_copy = any(it.identifier == frame.identifier and it.data == frame.data for it in self.frames if it is not frame)
        if whole.is_disturbed and is_copy:
            whole.twice += 1
        else:
            self.add("doubled", frame.identifier, line=frame.line, seen=self.counts[frame.identifier])

    def off(self, off, frame):
        """A frame that is late or early."""
        if off:
            self.add("late" if off > 0 else "early", frame.identifier, line=frame.line, by=abs(off))

    def trigger(self, place, frame):
        """The first trigger frame."""
        if TRIGGERS[0] in self.seen:
            self.again(place, frame)
            return
        was_free = self.whole.chain
        self.off(self.placed(place, frame, self.begin, self.begin + self.spare_of_trigger), frame)
        start = self.whole.times[place]
        if abs(start - self.begin) > self.whole.tolerance or was_free > self.begin + self.whole.tolerance:
            self.opened([self.begin, start])
        if self.told is None:
            self.add("length", TRIGGERS[0], line=frame.line, own=8, seen=len(frame.data))
            return
        self.cycle_of(frame)
        if self.own.width not in (self.told[1], None):
            self.add("window", TRIGGERS[0], line=frame.line, own=self.own.width + self.whole.reserve,
                     seen=self.told[1] + self.whole.reserve)
        self.flags(frame, (1 << FEW_SLOTS) - 1)

    def second(self, place, frame):
        """The second trigger frame."""
        if TRIGGERS[1] in self.seen:
            self.again(place, frame)
            return
        lost = 0 if TRIGGERS[0] in self.seen else worst(LENGTH) * self.whole.bit
        self.off(self.placed(place, frame, self.begin, self.begin + lost + self.spare_of_trigger), frame)
        if len(frame.data) != 8:
            self.add("length", TRIGGERS[1], line=frame.line, own=8, seen=len(frame.data))
        else:
            self.cycle_of(frame)
            if self.told:
                self.flags(frame, (1 << self.whole.run.slots) - (1 << FEW_SLOTS))

    def cycle_of(self, frame):
        """Byte 0 of a trigger."""
        own = (self.number + self.whole.begin) % 256
        if frame.data[0] != own:
            self.add("cycle", frame.identifier, line=frame.line, own=own, seen=frame.data[0])

    def flags(self, frame, among):
        """The flags of a trigger, among those that it has."""
        own, seen = self.own.mask & among, self.told[0] & among
        if own != seen:
            self.add("flags", frame.identifier, line=frame.line, own=mask_of(own), seen=mask_of(seen))

    def is_flagged(self, identifier):
        """Whether the recorded trigger flags a slot. Where it is not there, the run's does."""
        slot = identifier - FIRST_SLOT
        is_told = self.told and self.counts[TRIGGERS[slot >= FEW_SLOTS]]
        return (self.told[0] if is_told else self.own.mask) >> slot & 1

    def slot(self, place, frame):
        """The frame of a slot."""
        identifier = frame.identifier
        if identifier in self.seen:
            self.again(place, frame)
            return
        if identifier not in self.due and not self.is_flagged(identifier):
            self.add("stray", identifier, line=frame.line)
        if identifier in self.whole.run.polled:
            self.whole.asks.lines[self.number + self.whole.begin, identifier] = frame.line
        off = self.turn(place, frame)
        behind = self.whole.times[place] + (frame.length - INTERMISSION) * self.whole.bit - self.window.shut
        if behind > self.whole.tolerance:
            self.add("past", identifier, line=frame.line, by=behind)
        else:
            self.off(off, frame)
        self.content(frame)

    def turn(self, place, frame):
        """How far the frame of a slot is off. The slots are sent in their order; one that others were sent in front of
        is late from there on. Where a slot in front is missing, it may have been sent all the same."""
        if self.next < len(self.order) and self.order[self.next] == frame.identifier and not self.passed:
            self.next += 1
            return self.within_spare(place, frame, self.window.high)
        lost = 0.0
        while self.next < len(self.order) and self.order[self.next] < frame.identifier:
            ahead = self.order[self.next]
            self.next += 1
            if ahead not in self.seen:
                self.passed[ahead] = max(self.whole.chain, self.window.high)
                if not self.counts[ahead]:
                    lost += self.lasts(ahead)
        off = self.within_spare(place, frame, max(self.whole.chain, self.window.high) + lost)
        if frame.identifier in self.passed:
            return max(off, self.whole.times[place] - self.passed[frame.identifier])
        return off

    def within_spare(self, place, frame, high):
        """How far the frame of a slot is off, which may be late by what is left of the reserve."""
        due = max(high, self.whole.chain)
        off = self.placed(place, frame, self.window.low, due + self.spare)
        self.spare = min(self.spare, max(0.0, self.spare - (self.whole.times[place] - due)))
        return off

    def lasts(self, identifier):
        """How long a frame of the run lasts at most, in microseconds."""
        data = self.due[identifier]
        size = self.whole.run.lengths.get(identifier - FIRST_SLOT, 8) if data is None else len(data)
        return worst(size) * self.whole.bit

    def content(self, frame):
        """The data of the frame of a slot."""
        whole, own = self.whole, self.due.get(frame.identifier)
        if not whole.run.has_frames:
            size = whole.run.lengths[frame.identifier - FIRST_SLOT]
            if len(frame.data) != size:
                self.add("length", frame.identifier, line=frame.line, own=size, seen=len(frame.data))
        elif own is None:
            return
        elif len(own) != len(frame.data):
            self.add("length", frame.identifier, line=frame.line, own=len(own), seen=len(frame.data))
        elif whole.words.any_data:
            return
        elif frame.identifier in whole.run.polled:
            if any(frame.data):
                whole.rides[frame.identifier].append(Sent(self.number + whole.begin, frame.data, frame.line))
        elif own != frame.data:
            self.add("payload", frame.identifier, line=frame.line, own=own.hex(), seen=frame.data.hex())

    def other(self, place, frame):
        """A frame of a request, or one that the run doesn't have."""
        whole, identifier = self.whole, frame.identifier
        start, end = whole.times[place], whole.times[place] + frame.length * whole.bit
        inside = end - INTERMISSION * whole.bit - self.window.high
        if identifier >= FIRST_ASYNC and (identifier in whole.run.asked or whole.words.requests == "any"):
            whole.requests[identifier].append(Sent(self.number + whole.begin, frame.data, frame.line))
            if inside > whole.tolerance:
                self.add("inside", identifier, line=frame.line, by=inside)
        else:
            whole.foreign[f"{identifier:03x}"] += 1
            whole.foreign_inside += inside > whole.tolerance
        if identifier not in self.seen or start >= whole.chain - whole.tolerance:
            whole.chain = max(whole.chain, start) + frame.length * whole.bit

    def missing(self):
        """What the run sends in this cycle and the recording does not have."""
        whole = self.whole
        if not self.counts[TRIGGERS[0]]:
            self.add("missing", TRIGGERS[0])
        is_last = self.end_of_due != float("inf")
        if whole.run.slots > FEW_SLOTS and not self.counts[TRIGGERS[1]] and not (is_last and len(self.frames) == 1):
            self.add("missing", TRIGGERS[1])
        for identifier in self.order:
            if not self.counts[identifier] and identifier <= self.end_of_due and self.is_flagged(identifier):
                self.add("missing", identifier)
