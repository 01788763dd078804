"""What a run on a disturbed bus lost in each cycle, and what it kept."""
from collections import namedtuple

from ..limits import FIRST_ASYNC, FIRST_SLOT

# What was lost in a cycle: up to the opening of its asynchronous window, and in its synchronous window, from bit time to
# bit time; and the greatest lateness of a node.
Lost = namedtuple("Lost", "at_triggers in_window late")


def overlap(low, high, start, span):
    """How many of the bit times from `low` to below `high` lie in a span."""
    return max(0, min(start + span, high) - max(start, low))


def lost_in(bus, cycle, low, high):
    """The bit times that a cycle lost from `low` to below `high`. What earlier cycles left on the bus counts as lost."""
    begin = cycle * bus.plan.cycle
    return overlap(low, high, begin, bus.taken[cycle] - begin) + sum(
        overlap(low, high, *outage) for outage in bus.outages[cycle])


def times_of(bus, cycle):
    """The start of a cycle, the opening of its asynchronous window, that of its synchronous window, and its end."""
    begin = cycle * bus.plan.cycle
    return begin, begin + bus.trigger_part + bus.plan.turnaround, bus.windows[cycle], begin + bus.plan.cycle


def lost(bus, cycle):
    """What a cycle lost."""
    begin, opened, window, end = times_of(bus, cycle)
    return Lost(lost_in(bus, cycle, begin, opened), lost_in(bus, cycle, window, end), bus.late[cycle])


def is_within(bus, cycle, reserve, of_cycle=None):
    """Whether a cycle keeps the budget: the turnaround for its triggers, and the reserve for its window."""
    it = lost(bus, cycle) if of_cycle is None else of_cycle
    return it.at_triggers <= bus.plan.turnaround and it.in_window + it.late <= reserve


def loud(bus, cycle):
    """The flagged slots of a cycle that somebody sends."""
    silent = bus.rules.silent
    return [slot for slot in bus.plan.flags[cycle] if (cycle, slot) not in silent] if silent else bus.plan.flags[cycle]


def broken_slots(bus, cycle, slots):
    """The slots among these that were not sent once and within the window of the cycle: each a sentence."""
    _, _, window, end = times_of(bus, cycle)
    for slot in slots:
        got = [it for it in bus.sent[cycle] if it.identifier == FIRST_SLOT + slot]
        if len(got) != 1:
            yield f"slot {slot}: its frame was sent {len(got)} times"
        elif got[0].start < window:
            yield f"slot {slot}: its frame began {window - got[0].start} bit times before the window"
        elif got[0].start + got[0].length > end:
            yield f"slot {slot}: its frame ended {got[0].start + got[0].length - end} bit times after the cycle"


def broken(bus, cycle):
    """What a cycle that keeps the budget should have kept, and did not: each a sentence."""
    begin, opened, window, _ = times_of(bus, cycle)
    sent = bus.sent[cycle]
    for identifier in range(bus.plan.triggers):
        got = [it for it in sent if it.identifier == identifier]
        if len(got) != 1:
            yield f"trigger {identifier}: it was sent {len(got)} times"
        elif got[0].start + got[0].length > opened:
            yield f"trigger {identifier}: it ended {got[0].start + got[0].length - opened} bit times after the turnaround"
    yield from broken_slots(bus, cycle, loud(bus, cycle))
    flags = bus.plan.flags[cycle]
    for start, length, identifier, _ in sent:
        if identifier >= FIRST_ASYNC:
            if start < opened or start + length > window:
                yield f"request {identifier:#x}: its frame lies at {start - begin} of the cycle, outside the asynchronous window"
        elif identifier >= FIRST_SLOT and identifier - FIRST_SLOT not in flags:
            yield f"slot {identifier - FIRST_SLOT}: it was sent, and the cycle does not flag it"
