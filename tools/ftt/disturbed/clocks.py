"""How nodes know when a cycle begins, if triggers may be late. Times of nodes are in thousandths of a bit time.

A trigger is never early, so each one that a node hears says when its cycle began at the latest. A node takes the least of
what it heard and of its last start, one cycle later:

    start = min(start + cycle, heard)

Here `cycle` is the longest that a cycle may take by the node's clock. So a node is never early. It is late by what the
clocks differ since the last trigger that was in time.
"""
import math

from .bus import Clock

UNIT = 1000


class ByTrigger(Clock):
    """Nodes, or some of them, that take the start of a cycle from the trigger that they heard first."""

    def __init__(self, nodes=None):
        self.nodes = nodes

    def heard(self, node, cycle, late):
        return late if self.nodes is None or node in self.nodes else 0


class Drifting(Clock):
    """Nodes whose clocks run off. `parts` has for each node by how many parts in a million its clock is too fast, and
    `most` the greatest of them, without a sign. A rule says how a node takes a new start from the one that it expects and
    the trigger that it heard, both by its own clock."""

    def __init__(self, cycle, parts, most, rule=min):
        self.cycle, self.rule = cycle * UNIT, rule
        # A node's clock counts `speed` for each thousandth of a bit time.
        self.speed = {node: 1 + part / 1_000_000 for node, part in parts.items()}
        # What a node takes for a cycle: as much as the fastest clock counts.
        self.counted = math.ceil(self.cycle * (1 + most / 1_000_000))
        self.starts, self.early = {}, 0

    def heard(self, node, cycle, late):
        if node not in self.speed:
            return 0
        begin = cycle * self.cycle * self.speed[node]
        heard = begin + late * UNIT * self.speed[node]
        last, start = self.starts.get(node, (None, None))
        if last is not None:
            heard = self.rule(start + (cycle - last) * self.counted, heard)
        self.starts[node] = cycle, heard
        self.early = max(self.early, begin - heard)
        # From there on it counts up to its window, and its clock may be slow.
        late = (heard + self.counted) / self.speed[node] - (cycle + 1) * self.cycle
        return max(0, math.ceil(late / UNIT))


def late_at_most(cycle, most, missed):
    """How late a node is at most that takes the least, if so many triggers in a row were late or missed, and its clock and
    the master's differ by at most so many parts in a million."""
    return math.ceil(2 * most * cycle * (missed + 1) / (1_000_000 - most)) + 1
