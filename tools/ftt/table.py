"""The table: by slot the entries in the order of their placing, and what a change does to them."""
from collections import namedtuple

# An operation of a change: the line of its row, its word, and its fields by their names.
Operation = namedtuple("Operation", "line word fields")
# An entry: the cycle from which its phase counts, the one from which it releases nothing more, or None, and its fields.
Placed = namedtuple("Placed", "origin end phase period deadline length")


def live_of(entries):
    """The live entry of a slot; None where there is none."""
    return next((it for it in entries if it.end is None), None)


def free_from(entries):
    """The cycle from which a slot without a live entry is free."""
    return max((it.end + it.deadline - 1 for it in entries), default=0)


def changed(table, change):
    """The table after a change that breaks no rule."""
    after = {slot: list(entries) for slot, entries in table.items()}
    for operation in change.operations:
        fields = operation.fields
        entries, origin = after.setdefault(fields["SLOT"], []), change.start
        if operation.word != "add":
            place = next(place for place, it in enumerate(entries) if it.end is None)
            origin = change.start + entries[place].deadline - 1
            entries[place] = entries[place]._replace(end=change.start)
        if operation.word != "remove":
            entries.append(Placed(origin, None, *(fields[it] for it in ("PHASE", "PERIOD", "DEADLINE", "LENGTH"))))
    return after


def last_release(entry, end):
    """The last release of an entry before a cycle; None where there is none."""
    first = entry.origin + entry.phase
    return None if first >= end else first + (end - 1 - first) // entry.period * entry.period


def silence_of(operation, change, table):
    """Between which releases a slot is silent that a change changes: the last one of its entries so far, None where there
    is none, and the first one of its new entry."""
    entries = table[operation.fields["SLOT"]]
    new = changed(table, change)[operation.fields["SLOT"]][-1]
    released = [last_release(it, change.start if it.end is None else it.end) for it in entries]
    return max((it for it in released if it is not None), default=None), new.origin + new.phase


def release(entry, number):
    """The release of the instance of this number; None where the entry has ended before."""
    cycle = entry.origin + entry.phase + number * entry.period
    return cycle if entry.end is None or cycle < entry.end else None
