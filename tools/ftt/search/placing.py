"""The entries that a steps file leaves, and their plan from phases: a plain simulation, by which a search is quick. What
it finds counts for nothing before the program has accepted it."""
import bisect
import math
from collections import namedtuple

from ..rows import records_of
from ..steps import CHANGES, ENTRY, key_of, slot_in, width_of

# A live entry: its slot, the worst length of its frame in bit times, its origin, phase, period and deadline in cycles,
# its priority, and the place of its row among the rows.
Message = namedtuple("Message", "slot cost origin phase period deadline priority row")


def worst(length):
    """The worst length of a frame of so many bytes, in bit times."""
    return 55 + 10 * length


def fields_of(text):
    """The rows of a steps file, each as its fields."""
    return [[field.decode("utf-8", "surrogateescape") for field in record.fields]
            for record in records_of(text.encode("utf-8", "surrogateescape"))]


def messages_of(text):
    """The live entries after the last change of a steps file that the program takes, by their slots."""
    live, start = {}, 0
    for place, row in enumerate(fields_of(text)):
        key = key_of(row)
        if key is None or key[-1] not in CHANGES or len(row) != width_of(key):
            continue
        start = start if key[0] == "and" else int(row[2])
        at = slot_in(row)
        old = live.pop(int(row[at] if at else row[-1]), None)
        if at:
            slot, _, length, phase, period, deadline, priority = map(int, row[at:])
            origin = start + old.deadline - 1 if old and key[-1] == "change" else start
            live[slot] = Message(slot, worst(length), origin, phase, period, deadline, priority, place)
    return [live[slot] for slot in sorted(live)]


def with_phases(text, phases):
    """The steps with these phases by slots, each in the last row that adds or changes its slot."""
    rows = fields_of(text)
    for it in messages_of(text):
        if it.slot in phases:
            rows[it.row][slot_in(rows[it.row]) + ENTRY.index("PHASE")] = str(phases[it.slot])
    return "".join(",".join(row) + "\n" for row in rows)


class Plan:
    """The plan of some entries by a policy and a filling, from cycle 0 on. Phases are given by the order of the
    entries."""

    def __init__(self, messages, policy, fill):
        self.messages, self.policy, self.is_prefix = messages, policy, fill == "prefix"
        self.common = math.lcm(*(it.period for it in messages))
        keys = [(it.period if policy == "rm" else it.deadline if policy == "dm" else 0, it.priority, it.slot)
                for it in messages]
        # The entries in the order of their keys, and the place of each in it.
        self.order = sorted(range(len(messages)), key=keys.__getitem__)
        self.costs = [messages[at].cost for at in self.order]
        # What is left of pending entries by windows, and the entries that missed at the last call, as bits.
        self.known, self.late = {}, 0

    def releases(self, phases):
        """For each cycle up to the last first release and one common period more: what is released, and what may be
        sent for the last time, as bits by the order of the keys."""
        firsts = [it.origin + phase for it, phase in zip(self.messages, phases)]
        begun = max(firsts)
        released, last = [0] * (begun + self.common), [0] * (begun + self.common)
        for rank, at in enumerate(self.order):
            it, bit = self.messages[at], 1 << rank
            for cycle in range(firsts[at], len(released), it.period):
                released[cycle] |= bit
            for cycle in range(firsts[at] + it.deadline - 1, len(last), it.period):
                last[cycle] |= bit
        return begun, released, last

    def cost_of(self, bits):
        """The worst lengths of some entries together."""
        return sum(cost for rank, cost in enumerate(self.costs) if bits >> rank & 1)

    def left(self, pending, window):
        """What is pending after a cycle whose policy knows one order alone."""
        rest = pending
        while rest:
            bit = rest & -rest
            cost = self.costs[bit.bit_length() - 1]
            if cost <= window:
                window -= cost
                pending ^= bit
            elif self.is_prefix:
                break
            rest ^= bit
        return pending

    def left_by_release(self, keys, window):
        """The same for edf: keys are a last cycle and a place by priority, as one number."""
        many, kept = len(self.costs), []
        for place, key in enumerate(keys):
            cost = self.costs[key % many]
            if cost <= window:
                window -= cost
            elif self.is_prefix:
                return kept + keys[place:]
            else:
                kept.append(key)
        return kept

    def in_order(self, pending, released, last, window, most):
        """Plans some cycles where the order is one alone. What is pending then, and the bit times that were missed."""
        known, missed = self.known.setdefault(window, {}), 0
        for new, end in zip(released, last):
            pending |= new
            if pending:
                rest = known.get(pending)
                if rest is None:
                    rest = known[pending] = self.left(pending, window)
                pending = rest & ~end
                if rest & end:
                    self.late |= rest & end
                    missed += self.cost_of(rest & end)
                    if missed > most:
                        break
        return pending, missed

    def by_release(self, keys, released, _, window, most):
        """The same for edf. Last cycles are counted from the first of these cycles, and then from the next one."""
        many, missed, keys = len(self.costs), 0, list(keys)
        for cycle, new in enumerate(released):
            while new:
                rank = (new & -new).bit_length() - 1
                new &= new - 1
                bisect.insort(keys, (cycle + self.messages[self.order[rank]].deadline - 1) * many + rank)
            if keys:
                keys = self.left_by_release(keys, window)
                while keys and keys[0] < (cycle + 1) * many:
                    rank = keys.pop(0) % many
                    self.late |= 1 << rank
                    missed += self.costs[rank]
                if missed > most:
                    break
        return [key - len(released) * many for key in keys], missed

    def late_ones(self):
        """The entries that missed at the last call, by their places."""
        return [at for rank, at in enumerate(self.order) if self.late >> rank & 1]

    def missed(self, phases, window, most=0):
        """The worst lengths of what is missed until the plan repeats, in bit times; some number above `most` where there
        is more. An instance that is missed is not sent later."""
        begun, released, last = self.releases(phases)
        self.late = 0
        if len(self.known) > 100:
            self.known.clear()
        plan, before, state = (self.by_release, None, []) if self.policy == "edf" else (self.in_order, None, 0)
        state, missed = plan(state, released[:begun], last[:begun], window, most)
        released, last = released[begun:], last[begun:]
        while not missed and state != before:
            before = state
            state, missed = plan(state, released, last, window, most)
        return missed
