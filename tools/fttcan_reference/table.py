"""The table: what a change breaks, and what it makes."""
from .types import Placed


def slot_rule(word, start, entries):
    """The rule of slots that an operation breaks, and what is told after it; None where it breaks none."""
    live = next((placed for placed in entries if placed.end is None), None)
    if word == "add":
        if live:
            return 10, None
        free = max((placed.end + placed.entry.deadline - 1 for placed in entries), default=0)
        return (10, free) if free > start else None
    if not live:
        return 11, None
    return (10, live.origin) if live.origin > start else None


def broken_rule(system, table, change):
    """The place and the number of the first rule that a change breaks, and what is told after it; or None."""
    if len(change.operations) > 16:
        return 16, 2, None
    if change.start >= 1 << 40:
        return 0, 3, None
    for place, (word, slot, entry) in enumerate(change.operations):
        rules = [(4, slot >= system.slots), (5, any(slot == other for _, other, _ in change.operations[:place]))]
        if entry:
            rules += [(6, entry.node >= system.nodes), (7, entry.length > 8), (8, entry.period == 0),
                      (9, not 1 <= entry.deadline <= entry.period)]
        rule = next((number for number, is_broken in rules if is_broken), None)
        if rule:
            return place, rule, None
        found = slot_rule(word, change.start, [placed for placed in table if placed.entry.slot == slot])
        if found:
            return place, *found
    return None


def applied(table, change):
    """The table after a change that breaks no rule."""
    after = list(table)
    for word, slot, entry in change.operations:
        origin = change.start
        for place, placed in enumerate(after):
            if word != "add" and placed.entry.slot == slot and placed.end is None:
                after[place] = placed._replace(end=change.start)
                origin = change.start + placed.entry.deadline - 1
        if entry:
            after.append(Placed(entry, origin, None))
    return after


def current(placed, cycle):
    """The number and the release of the instance of a placed entry that may be sent in a cycle; None for none."""
    entry, since = placed.entry, cycle - placed.origin - placed.entry.phase
    if since < 0:
        return None
    release = cycle - since % entry.period
    is_sendable = since % entry.period < entry.deadline and (placed.end is None or release < placed.end)
    return (since // entry.period, release) if is_sendable else None


def sendable(table, cycle):
    """By slot: the placed entry whose instance may be sent in a cycle, its number and its release."""
    found = {}
    for placed in table:
        instance = current(placed, cycle)
        if instance:
            found[placed.entry.slot] = (placed, *instance)
    return found
