"""The system file: its keys, and what a cycle has room for."""
from . import limits
from .frames import TRIGGER

# The keys by their tables: the kind, whether the key is needed, and the range. That of a node ends with the nodes.
KEYS = {
    "bus": {"cycle": (int, True, *limits.CYCLE), "turnaround": (int, False, *limits.TURNAROUND),
            "window": (int, True, *limits.WINDOW), "nodes": (int, True, *limits.NODES),
            "slots": (int, False, *limits.SLOTS)},
    "plan": {"policy": (str, False, "rm", "edf"), "horizon": (int, False, *limits.HORIZON),
             "fill": (str, False, "prefix", "skip")},
    "async": {"id": (int, True, limits.FIRST_ASYNC, limits.LAST_ASYNC), "node": (int, True, 0, None)},
}
# The greatest node of a system with the most nodes.
LAST_NODE = limits.NODES[1] - 1
# The ranges of the keys that are integers.
RANGES = {key: (low, LAST_NODE if high is None else high) for top in KEYS.values()
          for key, (kind, _, low, high) in top.items() if kind is int}
# The paths whose values are some alone.
CHOICES = {"plan.policy": limits.POLICIES, "plan.fill": limits.FILLS, "bus.slots": limits.SLOTS}


def room(cycle, slots, turnaround):
    """The bit times that a cycle has for its window and its asynchronous frames together."""
    return cycle - TRIGGER[slots] - turnaround
