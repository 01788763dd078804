"""A CAN bus that is disturbed, with the cycles of FTT-CAN: which frames are sent whole, when, and what is lost.

Times and lengths are bit times, and the length of a frame counts its three bits of intermission. A disturbance hits one
bit time:

- of a frame before its intermission: the attempt is cut there, and its sender does not count it as sent;
- of its intermission: an overload frame follows, and the frame counts as sent;
- of an idle bus: the nodes take it for a start of frame, and find a stuff error six bits later;
- of an error frame: another error frame follows.

Behind it the bus is free after 17 to 23 bit times. An error passive sender waits 8 more after each of its frames.
"""
from collections import namedtuple

from ..frames import INTERMISSION, worst
from ..limits import FIRST_ASYNC, FIRST_SLOT, LENGTH
from .budget import EXTRA, SUSPENDED

# What is to be sent. `flags` has for each cycle its slots with their data bytes; `owners` the node of each slot, and of
# each asynchronous identifier; `requests` rows (arrival, identifier, data bytes); `length` says how long a frame is, by its
# identifier, its data bytes and the cycle. The master is the node None.
Plan = namedtuple("Plan", "cycle turnaround triggers flags owners requests length")

# How the nodes and the master behave. Those that stand first are those of docs/ERRORS.md.
#   reserve     how many bit times earlier than planned a synchronous window opens
#   guard       how many bit times before it an asynchronous frame has to end
#   copies      what a node does with a second copy of a trigger: "ignored", or "next": it opens the next cycle
#   slots       "again" until the end of the cycle, "once", or "stale": they are not taken back at its end
#   requests    "guarded": each attempt keeps the guard; "blind": the controller sends a cut one again; "once"
#   trigger     "again" until the asynchronous window opens, "once", or "late": until the end of the cycle
#   silent      the slots that nobody sends, as pairs of a cycle and a slot
#   passive     the nodes that are error passive
#   order       the order of offered frames: "least" identifier first, or a function of the list of them
Rules = namedtuple("Rules", "reserve guard copies slots requests trigger silent passive order",
                   defaults=[0, EXTRA, "ignored", "again", "guarded", "again", frozenset(), frozenset(), "least"])

# A frame that was sent whole, and a time in which none is sent.
Sent = namedtuple("Sent", "start length identifier cycle")
Outage = namedtuple("Outage", "start span")
# What a disturbance did to an attempt: the bit that it hit, after how many bits the bus is free again, and the nodes
# that have the frame all the same.
Cut = namedtuple("Cut", "bit recovery heard", defaults=[()])


class Clock:
    """Nodes with a clock of their own, which know when a cycle begins."""

    @staticmethod
    def heard(node, cycle, late):
        """A node heard the first trigger of a cycle, so many bit times after its place. How late the cycle is for the
        node."""
        return 0


class Quiet:
    """A bus without disturbances."""

    def attempt(self, bus, cycle, start, identifier, length):
        """What cuts this attempt, or None."""

    def idle(self, cycle, low, high):
        """The first time from `low` to below `high` at which an idle bus is disturbed, and the span; or None."""

    def again(self, high):
        """A time below `high` within an error frame that is disturbed, and the recovery; or None."""


class Node:
    """What a node knows, and what it still has to send in this cycle."""

    def __init__(self, name):
        self.name = name
        # The cycle that it opens next, by its own count, which only `copies` of "next" goes by; and its wait.
        self.next, self.wait = 0, 0
        # Of this cycle: the trigger frames that it heard, how late the cycle is, whether it is open, and its slots.
        self.heard, self.late, self.is_open, self.slots = set(), 0, False, []


class Bus:
    """A run of a plan."""

    def __init__(self, plan, rules, hits, clock=Clock):
        self.plan, self.rules, self.hits, self.clock = plan, rules, hits, clock
        self.trigger_part = worst(8) * plan.triggers
        self.nodes = {name: Node(name) for name in (None, *sorted(set(plan.owners.values())))}
        self.queues = {}
        for at, identifier, size in sorted(plan.requests):
            self.queues.setdefault(identifier, []).append((at, size))
        for queue in self.queues.values():
            queue.reverse()
        # By cycle: the frames that started in it, the outages that began in it, until when the bus was taken before it, and
        # when its synchronous window opens.
        self.sent, self.outages, self.taken, self.windows = [], [], [], []
        # By cycle: how late it was at most for a node, and the nodes that had it open.
        self.late, self.opened = [], []
        self.twice, self.free, self.stale, self.blind = 0, 0, [], None
        self.others = [node for node in self.nodes.values() if node.name is not None]
        # Whether a trigger has the bus for itself.
        self.is_plain = (rules.order == "least" and rules.slots != "stale" and rules.requests != "blind"
                         and not rules.passive)

    def run(self):
        """Runs all cycles of the plan."""
        for cycle in range(len(self.plan.flags)):
            self.cycle(cycle)
        return self

    def cycle(self, cycle):
        """Runs a cycle."""
        self.begin, self.end = cycle * self.plan.cycle, (cycle + 1) * self.plan.cycle
        self.open = self.begin + self.trigger_part + self.plan.turnaround
        self.flags, self.number = self.plan.flags[cycle], cycle
        # When the window opens, and when it does for the node that is late most.
        self.at = self.at_last = self.end - sum(map(worst, self.flags.values())) - self.rules.reserve
        self.triggers = list(range(self.plan.triggers))
        for node in self.others:
            node.heard, node.late, node.is_open, node.slots = set(), 0, False, []
        self.sent.append([])
        self.outages.append([])
        self.taken.append(self.free)
        self.windows.append(self.at)
        time, end = max(self.begin, self.free), self.end
        while time < end:
            time = self.step(time)
        self.free = time
        self.late.append(self.at_last - self.at)
        self.opened.append({node.name for node in self.others if node.is_open})
        if self.rules.slots == "stale":
            self.stale += [(FIRST_SLOT + slot, self.plan.flags[cycle][slot], node) for node in self.others for slot in node.slots]

    def offers(self, time):
        """What is offered from this time on, and what will be in this cycle: when, identifier, data bytes, node."""
        found = []
        if self.triggers and (time < self.open or self.rules.trigger == "late"):
            first = self.triggers[:1] if self.rules.order == "least" else self.triggers
            found += [(time, identifier, LENGTH, self.nodes[None]) for identifier in first]
        for identifier, size, node in self.stale:
            found.append((time, identifier, size, node))
        for node in self.others:
            if node.slots:
                slot, start = node.slots[0], self.at + node.late
                found.append((start if start > time else time, FIRST_SLOT + slot, self.flags[slot], node))
        if self.queues and (time < self.at_last or self.blind):
            self.offer_requests(time, found)
        return found

    def offer_requests(self, time, found):
        """Adds the asynchronous frames that are offered from this time on."""
        for identifier, queue in self.queues.items():
            if not queue:
                continue
            node = self.nodes[self.plan.owners[identifier]]
            arrival, size = queue[-1]
            if identifier == self.blind:
                found.append((time, identifier, size, node))
            elif node.is_open:
                start = max(time, arrival, self.open + node.late, node.wait)
                if start + worst(size) + self.rules.guard <= self.at + node.late:
                    found.append((start, identifier, size, node))

    def step(self, time):
        """What happens from a time on at which the bus is free, up to the next such time."""
        if self.is_plain and self.triggers and time < self.open:
            # Nothing else is offered then.
            return self.attempt(time, self.triggers[0], LENGTH, self.nodes[None])
        found, later, ready = self.offers(time), self.end, []
        for it in found:
            start, wait = it[0], it[3].wait
            if start <= time and wait <= time:
                ready.append(it)
            elif start < later and wait < later:
                later = start if start > wait else wait
        if ready:
            order = self.rules.order
            chosen = ready[0] if len(ready) == 1 else min(ready, key=_identifier) if order == "least" else order(ready)
            return self.attempt(time, *chosen[1:])
        if time < self.open < later:
            later = self.open
        noise = self.hits.idle(self.number, time, later)
        if noise is not None:
            self.outages[-1].append(Outage(*noise))
            return sum(noise)
        waits = [it[0] for it in found if it[0] < later]
        if waits:
            # Something is offered, and its sender is error passive and waits.
            self.outages[-1].append(Outage(min(waits), later - min(waits)))
        return later

    def attempt(self, time, identifier, size, node):
        """An attempt to send a frame. When the bus is free again."""
        length = self.plan.length(identifier, size, self.number)
        cut = self.hits.attempt(self, self.number, time, identifier, length)
        if cut is None or cut.bit >= length - INTERMISSION:
            self.sent[-1].append(Sent(time, length, identifier, self.number))
            free = time + length
            if cut is not None:
                # An overload frame.
                self.outages[-1].append(Outage(time + cut.bit, 1 + cut.recovery))
                free = time + cut.bit + 1 + cut.recovery
            self.is_sent(identifier, node, time, None)
        else:
            free = time + cut.bit + 1 + cut.recovery
            self.outages[-1].append(Outage(time, free - time))
            self.is_cut(identifier, node, time, cut)
        again = self.hits.again(free)
        while again is not None:
            at, recovery = again
            self.outages[-1].append(Outage(at, 1 + recovery))
            free = max(free, at + 1 + recovery)
            again = self.hits.again(free)
        if node.name in self.rules.passive:
            node.wait = free + SUSPENDED
        return free

    def is_sent(self, identifier, node, time, heard):
        """A frame was sent whole, as its sender counts."""
        if identifier < FIRST_SLOT:
            if identifier in self.triggers:
                self.triggers.remove(identifier)
            self.hear(identifier, time, heard)
        elif identifier < FIRST_ASYNC:
            slot = identifier - FIRST_SLOT
            if self.stale and (identifier, node.name) in [(it[0], it[2].name) for it in self.stale]:
                self.stale = [it for it in self.stale if it[0] != identifier]
            elif slot in node.slots:
                node.slots.remove(slot)
        else:
            self.queues[identifier].pop()
            self.blind = None if identifier == self.blind else self.blind

    def is_cut(self, identifier, node, time, cut):
        """A frame was cut, and is sent again where the rules say so."""
        if identifier < FIRST_SLOT:
            if cut.heard:
                self.twice += 1
                self.hear(identifier, time, cut.heard)
            if self.rules.trigger == "once":
                self.triggers.remove(identifier)
        elif identifier < FIRST_ASYNC:
            if self.rules.slots == "once" and identifier - FIRST_SLOT in node.slots:
                node.slots.remove(identifier - FIRST_SLOT)
        elif self.rules.requests == "once":
            self.queues[identifier].pop()
        elif self.rules.requests == "blind":
            self.blind = identifier

    def hear(self, identifier, time, heard):
        """All nodes, or some, have a trigger frame."""
        for node in self.others:
            if heard is None or node.name in heard:
                self.hears(node, identifier, time)

    def hears(self, node, identifier, time):
        """A node has a trigger frame of this cycle."""
        is_copy, last = identifier in node.heard, self.plan.triggers - 1
        if identifier == 0 and not is_copy:
            node.late = self.clock.heard(node.name, self.number, time - self.begin)
            self.at_last = max(self.at_last, self.at + node.late)
        node.heard.add(identifier)
        if self.rules.copies == "next":
            if identifier == last:
                # It opens the next cycle at each frame that opens one, with nothing where that is of another cycle.
                if node.next == self.number and len(node.heard) == self.plan.triggers:
                    self.opens(node)
                else:
                    node.slots, node.is_open = [], True
                node.next += 1
        elif not is_copy and len(node.heard) == self.plan.triggers:
            self.opens(node)

    def opens(self, node):
        """A node opens the cycle, and offers the flagged slots that are its own."""
        node.is_open = True
        owners, silent = self.plan.owners, self.rules.silent
        node.slots = [slot for slot in sorted(self.plan.flags[self.number])
                      if owners[FIRST_SLOT + slot] == node.name and (self.number, slot) not in silent]


def _identifier(offered):
    """The identifier of what is offered."""
    return offered[1]
