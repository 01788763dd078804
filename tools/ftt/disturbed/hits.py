"""Disturbances of a run: the worst that a budget allows, and some at named or random times."""
from ..frames import INTERMISSION
from ..limits import FIRST_ASYNC, FIRST_SLOT
from .budget import FLAGS, QUICKEST, RECOVERY
from .bus import Cut, Quiet

# The bits before the intermission in which a hit lets some receivers have the frame all the same.
LAST_BITS = 2


def some_of(rng, nodes):
    """Some of the nodes, or none, or all."""
    return [node for node in nodes if rng.random() < 0.5]


class Worst(Quiet):
    """In each cycle, the first attempts at triggers are cut, `retries` of them, and the longest frame of the window is cut
    `errors` times; and asynchronous frames with a probability. All in the last bit before the intermission, with the
    longest recovery. Of a cut trigger some nodes have the frame, where `heard` says so."""

    def __init__(self, errors, retries, share, rng, recovery=RECOVERY, heard=False, any_trigger=False):
        self.errors, self.retries, self.share, self.rng = errors, retries, share, rng
        self.recovery, self.heard, self.any_trigger = recovery, heard, any_trigger
        self.cycle, self.cut_triggers, self.cut_slots, self.longest = -1, 0, 0, 0

    def of_cycle(self, cycle):
        """How many hits a cycle gets in its window and of its triggers."""
        return self.errors, self.retries

    def begin(self, bus, cycle):
        """Begins a cycle: which of its frames is the longest?"""
        self.cycle, self.cut_triggers, self.cut_slots = cycle, 0, 0
        silent, length = bus.rules.silent, bus.plan.length
        self.longest = max((length(FIRST_SLOT + slot, size, cycle) for slot, size in bus.plan.flags[cycle].items()
                            if (cycle, slot) not in silent), default=0)

    def attempt(self, bus, cycle, start, identifier, length):
        if cycle != self.cycle:
            self.begin(bus, cycle)
        errors, retries = self.of_cycle(cycle)
        last = length - INTERMISSION - 1
        if identifier < FIRST_SLOT:
            if self.cut_triggers == retries or self.any_trigger and self.rng.random() < 0.3:
                return None
            self.cut_triggers += 1
            bit = last - self.rng.randrange(LAST_BITS) if self.heard else last
            heard = some_of(self.rng, [it for it in bus.nodes if it is not None]) if self.heard else ()
            return Cut(bit, self.recovery, heard)
        if identifier < FIRST_ASYNC:
            if length < self.longest or self.cut_slots == errors:
                return None
            self.cut_slots += 1
            return Cut(last, self.recovery)
        return Cut(last, self.recovery) if self.share and self.rng.random() < self.share else None


class Chosen(Worst):
    """The same, with numbers of hits for each cycle."""

    def __init__(self, hits, share, rng, **more):
        super().__init__(0, 0, share, rng, **more)
        self.of_each = hits

    def of_cycle(self, cycle):
        return self.of_each[cycle]


class Noise(Quiet):
    """Disturbed bit times, whatever is on the bus then."""

    def __init__(self, times, rng, most=RECOVERY):
        self.times, self.rng, self.most, self.place = sorted(times), rng, most, 0

    def take(self, low, high):
        """The next disturbed time from `low` to below `high`, or None."""
        times, place = self.times, self.place
        while place < len(times) and times[place] < low:
            place += 1
        self.place = place
        if place < len(times) and times[place] < high:
            self.place += 1
            return times[place]
        return None

    def recovery(self):
        """After how many bit times the bus is free again."""
        most = self.most
        return self.rng.choice([QUICKEST, QUICKEST + FLAGS[1] - FLAGS[0], most, self.rng.randint(QUICKEST, most)])

    def idle(self, cycle, low, high):
        at = self.take(low, high)
        return None if at is None else (at, 7 + self.recovery())

    def attempt(self, bus, cycle, start, identifier, length):
        at = self.take(start, start + length)
        if at is None:
            return None
        bit = at - start
        is_last = length - INTERMISSION - LAST_BITS <= bit < length - INTERMISSION
        heard = some_of(self.rng, [it for it in bus.nodes if it is not None]) if is_last and identifier < FIRST_SLOT else ()
        return Cut(bit, self.recovery(), heard)

    def again(self, high):
        if self.place < len(self.times) and self.times[self.place] < high:
            self.place += 1
            return self.times[self.place - 1], self.recovery()
        return None
