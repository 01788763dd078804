"""Random systems on a disturbed bus, for tools/check-faults: each with a table, requests and a budget."""
from fttcan_reference import Change, Entry, Master, System

from ftt.disturbed.budget import EXTRA, OF_TRIGGER, cost
from ftt.disturbed.bus import Bus, Plan, Rules
from ftt.disturbed.clocks import Clock
from ftt.disturbed.kept import broken, is_within, lost
from ftt.frames import worst

FIRST_SLOT = 0x100
NODES = ("a", "b", "c")
# The least length of a frame of so many data bytes, with its intermission and no stuff bit.
SHORTEST = 47


def table_of(rng, window, cycles, slots):
    """A table by the admission of tools/reference: its entries, and by cycle the flagged slots with their data bytes."""
    policy, fill = rng.choice(("rm", "dm", "edf")), rng.choice(("prefix", "skip"))
    master = Master(System(0, 0, window, len(NODES), slots, policy, fill, 300, {}))
    for slot in rng.sample(range(slots), rng.randint(1, 8)):
        period = rng.choice((1, 1, 2, 3, 4))
        entry = Entry(slot, 0, rng.randint(0, 8), rng.randint(0, 3), period, rng.randint(1, period), rng.randint(0, 255))
        master.submit(Change(1, 0, [("add", slot, entry)]))
    flags = [{slot: it[0].entry.length for slot, it in master.open()[2].items()} for _ in range(cycles)]
    return master.table, flags


class Faulted:
    """A random system, and what its budget is for."""

    def __init__(self, rng, number=0):
        self.rng, self.number = rng, number
        self.cycles, self.triggers = rng.randint(3, 6), rng.choice((1, 1, 2))
        slots = 40 if self.triggers == 1 else 96
        self.errors, self.retries = rng.randint(0, 3), rng.randint(0, 2)
        self.window = rng.randint(55, 700)
        self.table, self.flags = table_of(rng, self.window, self.cycles, slots)
        self.longest = max((size for flags in self.flags for size in flags.values()), default=0)
        self.cost = cost(self.longest)
        self.reserve = self.errors * self.cost
        self.turnaround = self.retries * OF_TRIGGER + rng.choice((0, 0, 17, 200))
        self.slack = rng.choice((0, 1, 28, 29, 60, 200, 1000))
        self.is_worst = rng.random() < 0.6
        self.owners = {FIRST_SLOT + slot: rng.choice(NODES) for flags in self.flags for slot in flags}
        self.owners |= {it: rng.choice(NODES) for it in rng.sample(range(0x200, 0x7F0), rng.randint(0, 4))}
        self.requests = [(rng.random(), it, rng.randint(0, 8)) for it in self.owners if it >= 0x200
                         for _ in range(rng.randint(1, 5))]
        self.lengths = {}

    def length(self, identifier, size, cycle):
        """The length of a frame: the worst, or any that so many data bytes may have."""
        if self.is_worst:
            return 55 + 10 * size
        key = identifier, size, cycle
        if key not in self.lengths:
            self.lengths[key] = self.rng.randint(SHORTEST + 8 * size, worst(size))
        return self.lengths[key]

    def plan(self, more=0, turnaround=None, owners=None):
        """What is to be sent, in cycles with room for so much more than planned and reserved."""
        turnaround = self.turnaround if turnaround is None else turnaround
        cycle = 135 * self.triggers + turnaround + self.window + self.reserve + self.slack + more
        requests = [(int(at * cycle * self.cycles), it, size) for at, it, size in self.requests]
        return Plan(cycle, turnaround, self.triggers, self.flags, owners or self.owners, requests, self.length)

    def has_longest(self):
        """The cycles that flag a frame of the longest kind."""
        return [cycle for cycle, flags in enumerate(self.flags) if self.longest in flags.values()]

    def run(self, hits, plan=None, clock=Clock, **rules):
        """A run with the reserve of the system, and these rules."""
        order = self.rng.choice(("least", "least", self.rng.choice))
        rules = {"reserve": self.reserve, "guard": EXTRA, "order": order} | rules
        return Bus(plan or self.plan(), Rules(**rules), hits, clock).run()


def broken_in(bus, cycles=None):
    """The cycles, among these, that do not keep what they should: each with the first thing."""
    cycles = range(len(bus.plan.flags)) if cycles is None else cycles
    found = ((cycle, next(broken(bus, cycle), None)) for cycle in cycles)
    return [(cycle, what) for cycle, what in found if what is not None]


def within(bus, reserve):
    """The cycles that keep the budget."""
    return [cycle for cycle in range(len(bus.plan.flags)) if is_within(bus, cycle, reserve, lost(bus, cycle))]


def unserved(table, bus):
    """The instances whose last cycle was run, without exactly one frame in their cycles; and how many were looked at."""
    count, bad = 0, []
    frames = {}
    for cycle, sent in enumerate(bus.sent):
        for it in sent:
            frames.setdefault(it.identifier - FIRST_SLOT, []).append(cycle)
    for placed in table:
        entry = placed.entry
        release = placed.origin + entry.phase
        while release + entry.deadline <= len(bus.sent):
            count += 1
            if sum(release <= cycle < release + entry.deadline for cycle in frames.get(entry.slot, ())) != 1:
                bad.append((entry.slot, release))
            release += entry.period
    return count, bad


class Offered:
    """What is offered at a time by the definition: it is worked out from the frames that began before, and from nothing
    that the simulator keeps."""

    def __init__(self, plan, reserve, guard):
        self.plan, self.reserve, self.guard = plan, reserve, guard
        # The start of the last frame of an identifier, and how many it had.
        self.last, self.sent = {}, {}
        self.requests = {}
        for at, identifier, size in sorted(plan.requests):
            self.requests.setdefault(identifier, []).append((at, size))

    def at(self, time):
        """The identifiers that are offered at a time."""
        plan = self.plan
        cycle = time // plan.cycle
        begin, flags = cycle * plan.cycle, plan.flags[cycle]
        window = begin + plan.cycle - sum(map(worst, flags.values())) - self.reserve
        opened = begin + 135 * plan.triggers + plan.turnaround
        if time < opened:
            yield from (it for it in range(plan.triggers) if self.last.get(it, -1) < begin)
        if time >= window:
            yield from (FIRST_SLOT + slot for slot in flags if self.last.get(FIRST_SLOT + slot, -1) < begin)
        elif time >= opened:
            for identifier, waiting in self.requests.items():
                count = self.sent.get(identifier, 0)
                if count < len(waiting) and waiting[count][0] <= time:
                    if time + worst(waiting[count][1]) + self.guard <= window:
                        yield identifier

    def begins(self, identifier, time):
        """A frame begins that is sent whole."""
        self.last[identifier] = time
        self.sent[identifier] = self.sent.get(identifier, 0) + 1


def unlike_definition(bus, guard):
    """Why a run is no trace of the definition, bit time by bit time: a frame was not offered, frames overlap, or something was
    offered at a time that lies within no frame and within no outage. At most one such thing; and how many offers there were."""
    offered, plan = Offered(bus.plan, bus.rules.reserve, guard), bus.plan
    frames = {it.start: it for sent in bus.sent for it in sent}
    ends = sorted((it.start + it.span, it.start) for outages in bus.outages for it in outages)
    taken = bytearray(plan.cycle * len(plan.flags) + 1000)
    for end, start in ends:
        taken[start:end] = b"\1" * (end - start)
    free, offers = 0, 0
    for time in range(plan.cycle * len(plan.flags)):
        found = list(offered.at(time))
        offers += len(found)
        if time in frames:
            it = frames[time]
            if it.identifier not in found or time < free:
                return offers, [(time // plan.cycle, f"at {time} {it.identifier:#05x} began, which is not offered or overlaps")]
            offered.begins(it.identifier, time)
            free = time + it.length
        if found and time >= free and not taken[time]:
            return offers, [(time // plan.cycle, f"at {time} {found[0]:#05x} is offered, and the bus is idle")]
    return offers, []
