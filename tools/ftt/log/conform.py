"""Whether a recording is that of a run, with a clock that is not perfect: what is wrong, frame by frame.

The recording is read part by part, of a thousand triggers each, and the run beside it. So a recording may have any length:
only what is wrong is kept. Each part has a line of its own through its triggers, so a clock may wander.
"""
import collections
import sys

from ..frames import INTERMISSION, worst
from ..limits import FEW_SLOTS, FIRST_ASYNC, FIRST_SLOT, LENGTH, TRIGGERS
from ..telling import listed, some
from . import clock as clocks
from .asked import Sent
from .cycle import Compared
from .findings import KINDS, Finding, Found, write_csv, write_json
from .own import SECOND_LOOK, Sampled, place_in, run_in
from .reading import Progress
from .recording import Recording, parts_of, tell_left
from .requests import Requests
from .rows import Names

# What a frame may be off where nothing is said: microseconds.
TOLERANCE = 50
# So much of the looked at triggers has to fit the place where a recording is taken to begin.
LEAST_FIT = 0.5
# How far frames are off is counted in tenths of a microsecond.
TENTHS = 10
# Whether cycles without a fault are looked at in a short way first. The checks try both.
IS_SHORT = True


class Numbered:
    """The cycles of a recording, part by part: their numbers from the first trigger on, and what their triggers say."""

    def __init__(self, run, words):
        self.run, self.words = run, words
        self.tolerance, self.bit = float(words.tolerance), 1000 / float(words.kbits)
        # A disturbed bus: how many bit times earlier windows open, and by how many triggers may be late.
        self.is_disturbed = (words.reserve, words.turnaround) != (None, None)
        self.reserve, self.turnaround = words.reserve or 0, words.turnaround or 0
        self.origin = self.length = self.cycle = self.before = self.behind = None
        self.votes = collections.Counter()
        self.part, self.frames, self.starts = None, [], []
        self.numbers, self.upper, self.triggers, self.times = [], None, {}, []

    def number(self, part):
        """Takes the next part: the start of each frame, and the number of each trigger."""
        self.part, self.frames = part, part.frames
        if self.origin is None:
            self.origin = part.frames[0].nanos
        frames = part.frames if part.following is None else [*part.frames, part.following]
        clocks.in_order(frames if self.behind is None else [self.behind, *frames], self.tolerance)
        self.behind = part.frames[-1]
        starts = clocks.starts_in(frames, self.words.kbits, self.words.starts, self.origin)
        if not self.run.has_frames:
            self.run.learn(part.frames)
        if self.length is None:
            self.length = self.words.cycle or self.run.length() or clocks.cycle_by(part.frames, starts, self.words.kbits)
            self.cycle = self.length * self.bit
        self.starts = starts[:len(part.frames)]
        self.numbers, self.before = clocks.numbers_of(part.frames, self.starts, self.cycle, self.before)
        self.upper = float("inf")
        if part.following is not None:
            (self.upper,), _ = clocks.numbers_of(frames[-1:], starts[-1:], self.cycle, self.before)
        self.votes += clocks.votes_of(part.frames, self.numbers)

    def told_by(self, places):
        """The flags and the window of a recorded cycle; None where its trigger is not there."""
        frames = [self.frames[it] for it in places[:3]]
        if not frames or frames[0].identifier != TRIGGERS[0] or len(frames[0].data) != 8:
            return None
        data, mask = frames[0].data, int.from_bytes(frames[0].data[3:], "little")
        second = next((it.data for it in frames if it.identifier == TRIGGERS[1] and len(it.data) == 8), None)
        if second is not None and self.run.slots > FEW_SLOTS:
            mask |= int.from_bytes(second[1:], "little") << FEW_SLOTS
        return mask, int.from_bytes(data[1:3], "big") - self.reserve

    def clocked(self, ppm):
        """The line of the clock through the triggers of this part, and the times of the bus."""
        places = clocks.triggers_in(self.frames)
        clock = clocks.Clock(self.numbers, [self.starts[it] for it in places], self.cycle, self.tolerance, ppm)
        self.triggers = dict(zip(places, self.numbers))
        self.times = [(start - clock.base) / clock.rate for start in self.starts]
        return clock

    def parted(self):
        """The places of the frames by cycles, counted from the first trigger. Where triggers are missing, the time of
        a frame says its cycle."""
        cycles = {}
        following = dict(zip(self.triggers, [*self.numbers[1:], self.upper]))
        # In this time of a cycle only its first trigger frame is sent, and what is there is late.
        late = worst(LENGTH) * self.bit
        for first, end in zip(self.triggers, [*list(self.triggers)[1:], len(self.frames)]):
            current, upper = self.triggers[first], following[first]
            if upper <= current + 1:
                cycles.setdefault(current, []).extend(range(first, end))
                continue
            cycles.setdefault(current, []).append(first)
            begin = max(self.times[first], current * self.cycle)
            for place in range(first + 1, end):
                middle = self.times[place] + self.frames[place].length * self.bit / 2
                number = min(current + max(0, int((middle - late - begin) // self.cycle)), upper - 1)
                cycles.setdefault(number, []).append(place)
        return cycles

    def sampled(self, cycles, sample):
        """Adds what the triggers and the slots of this part say to a sample."""
        for number, places in cycles.items():
            told = self.told_by(places)
            if told is not None:
                sample.told.add((number, told))
            for it in places:
                if FIRST_SLOT <= self.frames[it].identifier < FIRST_ASYNC:
                    sample.sent.add((number, self.frames[it].identifier, self.frames[it].data))


def place_of(run, found, words, first, cycles):
    """Where in the run a recording begins, by the first part of it, and how well that fits. Where this part does not
    tell, all of it is read for that. The place is None where it fits none."""
    sample = Sampled()
    first.sampled(cycles, sample)
    place = place_in(run, clocks.residue_of(first.votes), sample)
    is_told = place.begin is not None and place.equal == 1 and place.fit >= LEAST_FIT * min(sample.told.many, SECOND_LOOK)
    if not first.part.is_last and not is_told:
        found.again()
        whole, sample = Numbered(run, words), Sampled()
        for part in parts_of(found):
            whole.number(part)
            whole.clocked(float(words.ppm))
            whole.sampled(whole.parted(), sample)
        place = place_in(run, clocks.residue_of(whole.votes), sample)
        found.again()
    return place


class Comparison(Numbered):
    """A recording beside a run. Times are microseconds of the bus since the start of the first recorded cycle."""

    def __init__(self, run, found, words):
        super().__init__(run, words)
        self.found, self.findings, self.waiting, self.foreign = found, Found(), [], collections.Counter()
        self.offs = collections.Counter()
        self.rides = self.requests = self.asks = self.clock = self.begin = self.place = None
        self.foreign_inside = self.outside = self.compared = self.last = self.many = 0
        # The frames that came once more on a disturbed bus.
        self.twice = 0
        self.rates, self.is_off_told, self.told_to, self.early = [], False, -1, 0
        self.busy, self.triggers_of = {}, {}
        # Up to when the bus is busy with the frames in front, and with those that were left out.
        self.chain = self.foreign_until = float("-inf")

    def compare(self):
        """Compares the whole recording."""
        progress, parts = Progress("cycles compared"), parts_of(self.found)
        part = next(parts)
        self.take(part)
        cycles = self.parted()
        self.place = place_of(self.run, self.found, self.words, self, cycles)
        self.begin = self.place.begin
        if self.begin is None or self.place.fit < LEAST_FIT * self.place.looked:
            return self.tell_place(part)
        if self.found.is_again:
            # The recording is read anew, from its first part on.
            parts = parts_of(self.found)
            next(parts)
        self.found.rely()
        self.asks = Requests(self)
        self.requests = self.rides = self.asks.seen
        while True:
            self.look(cycles)
            progress.step(self.last)
            if part.is_last:
                break
            part = next(parts)
            self.take(part)
            cycles = self.parted()
        progress.end()
        return None

    def tell_place(self, part):
        """Says that the recording fits no place."""
        fits = f"{self.place.fit} of {some(self.place.looked, 'trigger')}"
        self.findings.add(Finding(None, "place", None, what=(
            f"The recording fits no place of {self.run.what}: at best {fits} have its flags and its window. Are the "
            "files and the rate right?")))
        self.begin, self.early = None, part.early

    def take(self, part):
        """Takes the next part, with its clock."""
        self.number(part)
        before, self.clock = self.clock, None
        clock = self.clocked(float(self.words.ppm))
        self.early, self.many = part.early, self.many + len(part.frames)
        self.rates.append((clock.rate, len(self.numbers)))
        if clock.is_off and not self.is_off_told:
            self.is_off_told = True
            self.waiting.append(Finding(None, "clock", None, by=None, what=(
                f"The recorder's clock runs off by {clock.ppm():+.0f} ppm, which is more than "
                f"{float(self.words.ppm):g}. Is {float(self.words.kbits):g} kbit/s the right rate?")))
        if before is not None:
            self.look_at_step(before, clock)
        self.clock = clock
        self.take_busy(part)

    def look_at_step(self, before, clock):
        """Finds that the triggers of this part do not go on where those of the part before it have ended."""
        time = self.numbers[0] * self.cycle
        step = clock.base + time * clock.rate - before.base - time * before.rate
        # On a disturbed bus most triggers of a part may be late.
        if abs(step) > self.tolerance + self.turnaround * self.bit and self.numbers[0] - self.told_to < 2:
            number = self.numbers[0] + self.begin
            self.waiting.append(Finding(number, "clock", None, by=abs(step), what=(
                f"Cycle {number}: from about here on the triggers come {abs(step):.0f} us "
                f"{'later' if step > 0 else 'earlier'} than those before.")))

    def take_busy(self, part):
        """When the bus is busy with frames that were left out: by the place of the frame after them, the end of the
        last one. Where times are starts, that is not known."""
        self.busy = {}
        if not self.words.starts:
            for place, nanos in part.busy:
                end = (nanos - self.origin) / 1000 + INTERMISSION * self.bit
                self.busy[place] = self.clock.bus(end)

    def tell(self, cycle, kind, frame, **more):
        """A finding in a cycle of the run."""
        self.waiting.append(Finding(cycle, kind, frame, **more))

    def add(self, number, kind, frame, **more):
        """A finding in a cycle of the recording."""
        self.tell(number + self.begin, kind, frame, **more)

    def look(self, cycles):
        """Looks at the cycles of a part."""
        self.last = max(cycles)
        self.gaps(cycles)
        for number, places in cycles.items():
            own = self.run.at(number + self.begin)
            if own is None:
                self.outside += 1
                continue
            self.compared += 1
            is_last = self.part.is_last and number == self.last
            if is_last or not IS_SHORT or not self.is_usual(number, own, places):
                Compared(self, number, own, places, is_last).look()
        self.told_to = self.last
        cut = self.asks.look(self.last + self.begin, self.part.is_last)
        told = [it for it in self.waiting if it.cycle is None or it.cycle <= cut]
        self.waiting = [it for it in self.waiting if it.cycle is not None and it.cycle > cut]
        self.findings.take(told)

    def flags_of(self, own):
        """The bytes of triggers after the first one, by the flags and the window of a cycle of the run."""
        key = own.mask, own.width
        if key not in self.triggers_of:
            few = (own.width + self.reserve).to_bytes(2, "big") + (own.mask & (1 << FEW_SLOTS) - 1).to_bytes(5, "little")
            self.triggers_of[key] = few, (own.mask >> FEW_SLOTS).to_bytes(7, "little")
        return self.triggers_of[key]

    @staticmethod
    def off_by(start, low, high):
        """How far a frame starts before or after the times that it may start at, in microseconds."""
        return start - high if start > high else start - low if start < low else 0.0

    def is_usual(self, number, own, places):
        """Whether a cycle has no fault at all, as Compared would say. Its frames are taken then, and otherwise nothing
        is."""
        run, frames, times, bit, most = self.run, self.frames, self.times, self.bit, self.tolerance
        if own.width is None or own.width + self.reserve > 0xFFFF or run.polled or self.busy and not self.busy.keys().isdisjoint(places):
            return False
        begin, chain, offs, asked, more = number * self.cycle, self.chain, [], [], []
        first, byte = frames[places[0]], (number + self.begin) % 256
        if chain > begin + most or self.foreign_until > begin or first.identifier != TRIGGERS[0]:
            return False
        for at, rest in enumerate(self.flags_of(own)[:1 + (run.slots > FEW_SLOTS)]):
            if at == len(places):
                return False
            _, identifier, length, data, _ = frames[places[at]]
            start, due = times[places[at]], chain if chain > begin else begin
            off = self.off_by(start, due, max(due, begin + self.turnaround * bit))
            if identifier != at or len(data) != 8 or data[0] != byte or data[1:] != rest or not -most <= off <= most:
                return False
            offs.append(off)
            chain = start - off + length * bit
        if not -most <= times[places[0]] - begin <= most:
            return False
        shut, waiting = begin + self.cycle, iter(own.slots())
        # On a disturbed bus a window opens earlier, and its frames may be late by what is left of the reserve.
        spare = self.reserve * bit
        opens, is_any = shut - own.width * bit - spare, self.words.any_data or not run.has_frames
        for place in places[at + 1:]:
            _, identifier, length, data, line = frames[place]
            start = times[place]
            if identifier < FIRST_ASYNC:
                wanted = next(waiting, None)
                if wanted is None or identifier != wanted[0]:
                    return False
                if data != wanted[1] and (not is_any or len(data) != (
                        run.lengths[identifier - FIRST_SLOT] if wanted[1] is None else len(wanted[1]))):
                    return False
                due = chain if chain > opens else opens
                off = self.off_by(start, due, due + spare)
                if not -most <= off <= most or start + (length - INTERMISSION) * bit - shut > most:
                    return False
                offs.append(off)
                chain, spare = start - off + length * bit, min(spare, max(0.0, spare - (start - due)))
            elif start < chain - most or start + (length - INTERMISSION) * bit - opens > most:
                return False
            else:
                if self.words.requests == "any" or identifier in run.asked:
                    asked.append((identifier, Sent(number + self.begin, data, line)))
                else:
                    more.append(identifier)
                chain = (chain if chain > start else start) + length * bit
        if next(waiting, None) is not None:
            return False
        self.chain = chain
        for off in offs:
            self.offs[int((off if off > 0 else -off) * TENTHS + 0.5)] += 1
        for identifier, sent in asked:
            self.requests[identifier].append(sent)
        for identifier in more:
            self.foreign[f"{identifier:03x}"] += 1
        return True

    def gaps(self, cycles):
        """Finds cycles of which nothing is there."""
        number = self.told_to + 1
        while number < self.last:
            first = number
            while number not in cycles:
                number += 1
            many = number - first
            if many > 1:
                self.tell(first + self.begin, "missing", TRIGGERS[0], what=(
                    f"Cycles {first + self.begin} to {number - 1 + self.begin}: nothing is there, neither trigger nor "
                    "frame."))
            elif many:
                self.add(first, "missing", TRIGGERS[0], what=(
                    f"Cycle {first + self.begin}: the trigger is missing, and all that {self.run.what} sends in it."))
            number += 1

    def is_cut(self, number, start):
        """Whether the recording ends before a frame of the run, by its start in bit times since that of the cycle."""
        return self.part.is_last and number == self.last and \
            self.times[-1] - number * self.cycle < start * self.bit - self.tolerance

    def ppm(self):
        """How fast the recorder's clock runs, on average, in parts per million."""
        return (sum(rate * many for rate, many in self.rates) / sum(many for _, many in self.rates) - 1) * 1e6

    def off(self, part):
        """The least value that at least so many percent of what frames are off do not exceed, as a list of them has it."""
        many = sum(self.offs.values())
        place = min(many - 1, many * part // 100)
        for off in sorted(self.offs):
            place -= self.offs[off]
            if place < 0:
                return off / TENTHS
        return 0.0

    def facts(self):
        """What is said of the comparison as a whole, by names."""
        return {
            "first_cycle": self.begin, "last_cycle": self.begin + self.last, "compared": self.compared,
            "outside_of_the_run": self.outside, "equal_places": self.place.equal, "cycle_bit_times": self.length,
            "ppm": round(self.ppm(), 1), "tolerance_us": self.tolerance, "frames": self.many,
            "off_us": {name: self.off(part) for name, part in (("p50", 50), ("p99", 99), ("greatest", 100))},
            "requests_off_cycles": self.asks.lag, "foreign": dict(sorted(self.foreign.items())),
            "foreign_in_windows": self.foreign_inside,
            **({"reserve": self.reserve, "turnaround": self.turnaround, "sent_again": self.twice} if self.is_disturbed else {}),
            "left_out": {kind: many for kind, many in self.found.left.items() if many},
            "other_interfaces": self.found.others,
        }

    def said(self):
        """What is said of the comparison as a whole, as lines."""
        facts, run = self.facts(), self.run.what
        off = {name: f"{value:.0f}" for name, value in facts["off_us"].items()}
        lines = [f"cycles {facts['first_cycle']} to {facts['last_cycle']} of {run}: {self.compared} compared",
                 f"clock of the recorder: {facts['ppm']:+.0f} ppm; frames are off by {off['p50']} us or less for a "
                 f"half of them, {off['p99']} us for 99 %, {off['greatest']} us at most"]
        if self.place.equal > 1:
            lines.append(f"begin: the recording fits {self.place.equal} places of {run} alike; the first is taken")
        if self.outside:
            lines.append(f"outside: {some(self.outside, 'cycle')} that {run} does not have, not compared")
        if self.asks.lag:
            lines.append(f"requests: sent up to {some(self.asks.lag, 'cycle')} off those of {run}")
        if self.is_disturbed:
            lines.append(f"disturbed bus: windows open {self.reserve} bit times earlier, triggers may be late by "
                         f"{self.turnaround}; {some(self.twice, 'frame')} came once more")
        foreign = [f"{many} of {identifier}" for identifier, many in facts["foreign"].items()]
        foreign += [f"{many} of {kind}" for kind, many in facts["left_out"].items()]
        if foreign:
            inside = f"; {self.foreign_inside} touch a synchronous window" if self.foreign_inside else ""
            lines.append(f"foreign frames: {listed(foreign)}{inside}")
        return lines


def sentences(whole, names, shown):
    """All that is said: the whole, the first findings, or all, and how many there are."""
    yield from whole.said() if whole.begin is not None else ()
    findings = whole.findings
    for it in findings.first(shown):
        yield it.said(names, whole.run.what)
    if shown is not None and findings.many > shown:
        yield f".. {findings.many - shown} more; --all shows them"
    if findings.many:
        kinds = ", ".join(f"{findings.kinds[kind]} {kind}" for kind in KINDS if findings.kinds[kind])
        yield f"{some(findings.many, 'finding')}: {kinds}"
    else:
        yield f"no finding: the recording is that of {whole.run.what}, within {whole.tolerance:g} us"


def conform(words, put, note):
    """Compares a recording with a run, and writes what is wrong. Whether something is."""
    names, run = Names(words.names), run_in(words.own)
    found = Recording(words.log, words)
    whole = Comparison(run, found, words)
    whole.compare()
    tell_left(found, whole.early, note)
    forms = {"csv": lambda put: write_csv(whole.findings, names, run.what, put),
             "json": lambda put: write_json(whole.findings, {} if whole.begin is None else whole.facts(), names, run.what,
                                            put)}
    for form, write in forms.items():
        path = getattr(words, form)
        if path is not None and path != "-":
            with open(path, "w", encoding="utf-8", newline="\n") as file:
                write(file.write)
    told = [write for form, write in forms.items() if getattr(words, form) == "-"]
    if told:
        told[0](put)
    for line in sentences(whole, names, None if words.all else words.show):
        (sys.stderr.write if told else put)(f"{line}\n")
    return whole.findings.many > 0
