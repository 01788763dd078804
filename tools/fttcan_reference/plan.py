"""The plan of a table, and a master."""
import heapq
import math

from .types import Certificate, Verdict
from .bus import slots_in, worst
from .table import applied, broken_rule, sendable


class Planning:
    """The plan of a table, cycle by cycle, from a first cycle and the slots that are pending before it."""

    def __init__(self, system, table, start, pending):
        self.system, self.cycle = system, start
        # By slot: the key of its pending instance, its worst length, release and last cycle.
        self.pending = {}
        for slot, (placed, _, release) in sendable(table, start - 1).items() if start else ():
            if slot in pending:
                self.pending[slot] = self.instance(placed.entry, release)
        # The next releases.
        self.coming = []
        for place, placed in enumerate(table):
            first = placed.origin + placed.entry.phase
            if first < start:
                first += -(-(start - first) // placed.entry.period) * placed.entry.period
            heapq.heappush(self.coming, (first, place, placed))

    def instance(self, entry, release):
        """What the plan has to know of an instance."""
        first = {"rm": entry.period, "dm": entry.deadline, "edf": release + entry.deadline}[self.system.policy]
        return ((first, entry.priority, entry.slot), worst(entry.length), release, release + entry.deadline - 1)

    def take(self):
        """The slots that the filling takes, in the order of the key."""
        taken, room = [], self.system.window
        for slot, (_, cost, _, _) in sorted(self.pending.items(), key=lambda it: it[1][0]):
            if cost <= room:
                taken.append(slot)
                room -= cost
            elif self.system.fill == "prefix":
                break
        return taken

    def step(self):
        """Plans the next cycle: its set of slots, and the first miss in it, if there is one, as slot and release."""
        while self.coming and self.coming[0][0] <= self.cycle:
            release, place, placed = heapq.heappop(self.coming)
            if placed.end is None or release < placed.end:
                self.pending[placed.entry.slot] = self.instance(placed.entry, release)
                heapq.heappush(self.coming, (release + placed.entry.period, place, placed))
        taken = self.take()
        for slot in taken:
            del self.pending[slot]
        missed = min(((slot, it[2]) for slot, it in self.pending.items() if it[3] == self.cycle), default=None)
        self.cycle += 1
        return sum(1 << slot for slot in taken), missed


def walk(system, table, start, pending):
    """Follows the plan of a table up to the first repeat, the first miss, or the horizon."""
    planning, masks, seen = Planning(system, table, start, pending), [], {}
    bound = max([start] + [placed.origin + placed.entry.phase if placed.end is None
                           else placed.end + placed.entry.deadline - 1 for placed in table])
    common = math.lcm(*(placed.entry.period for placed in table if placed.end is None))
    while True:
        cycle = planning.cycle
        if cycle >= bound:
            state = frozenset(planning.pending), cycle % common
            if state in seen:
                return Verdict("accepted", (seen[state], cycle - seen[state]), masks, table)
            seen[state] = cycle
        if cycle == start + system.horizon:
            return Verdict("horizon", (start, system.horizon), masks, table)
        mask, missed = planning.step()
        masks.append(mask)
        if missed:
            return Verdict("miss", (*missed, cycle), masks, table)


class Master:
    """The master: its table, the next cycle, and the slots that are pending before it."""

    def __init__(self, system):
        self.system, self.table, self.next, self.masks = system, [], 0, []
        self.planning = Planning(system, [], 0, ())
        # The slots that are pending before each cycle, from that of the last acceptance to the next one.
        self.before = {0: set()}

    def submit(self, change, start=None):
        """The verdict on a change, which is made where it is accepted. It is planned from the next cycle on, or from an
        earlier one after the last acceptance."""
        broken = broken_rule(self.system, self.table, change)
        if broken:
            return Verdict("malformed", [each for each in broken if each is not None], [], None)
        if change.start < self.next:
            return Verdict("passed", (change.start, self.next), [], None)
        start = self.next if start is None else start
        verdict = walk(self.system, applied(self.table, change), start, self.before[start])
        if verdict.word == "accepted":
            self.table = verdict.table
            pending = self.before[self.next]
            self.before = {self.next: pending}
            self.planning = Planning(self.system, self.table, self.next, pending)
        return verdict

    def open(self):
        """Opens the next cycle: its number, its set of slots, and what may be sent in it by slot."""
        cycle, sent = self.next, sendable(self.table, self.next)
        mask, _ = self.planning.step()
        self.masks.append(mask)
        self.next += 1
        self.before[self.next] = set(self.planning.pending)
        return cycle, mask, {slot: sent[slot] for slot in slots_in(mask)}

    def certificate(self):
        """The plan from cycle 0 on, up to the first repeat of the plan from the next cycle on."""
        verdict = walk(self.system, self.table, self.next, set(self.planning.pending))
        first, length = verdict.fields
        masks = self.masks + verdict.masks
        return Certificate(0, 0, first, length, masks[:first + length])
