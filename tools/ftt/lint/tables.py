"""What a change makes of a table, and changes that are taken in its place."""
import math
from collections import namedtuple

from ..table import changed, free_from, live_of, silence_of
from ..telling import some

# The releases between which a changed slot is silent, and the entries before and after.
Silence = namedtuple("Silence", "last first old new")


def least_from(table, horizon):
    """The least cycle from which a change to this table can be accepted: a repeat before its horizon needs it; and the
    cycle of the first repeat that there can be, where planning begins early enough."""
    every = [it for entries in table.values() for it in entries]
    live = [it for it in every if it.end is None]
    common = math.lcm(*(it.period for it in live))
    settled = max((it.origin + it.phase if it.end is None else it.end + it.deadline - 1 for it in every), default=0)
    return settled + common - horizon, settled + common, common


def nearer_start(change, table, horizon, late):
    """The greatest START below that of a change with which its plan may repeat before the horizon; None where there is
    none. Planning begins in cycle `late`."""
    start = change.start - (least_from(changed(table, change), horizon)[0] - late)
    before = [it.origin for operation in change.operations if operation.word != "add"
              for it in [live_of(table[operation.fields["SLOT"]])]]
    before += [free_from(table.get(operation.fields["SLOT"], [])) for operation in change.operations
               if operation.word == "add"]
    if start < max(before, default=0) or start < change.above:
        return None
    return start if least_from(changed(table, change._replace(start=start)), horizon)[0] <= late else None


def free_slot(table, slots, start, others=()):
    """The least slot to which an entry can be added in cycle `start`, and which is none of the others; None where none
    is free."""
    return next((slot for slot in range(slots) if slot not in others and live_of(table.get(slot, [])) is None
                 and free_from(table.get(slot, [])) <= start), None)


def long_silence_of(operation, change, table):
    """Where a changed slot is silent for longer than the old period and the new one; None where it is not."""
    old = live_of(table[operation.fields["SLOT"]])
    new = changed(table, change)[operation.fields["SLOT"]][-1]
    last, first = silence_of(operation, change, table)
    if last is None or first - last <= max(old.period, new.period):
        return None
    return Silence(last, first, old, new)


def shorter_silence(silence, change, is_live):
    """A START with which a changed slot is silent for no longer than one of the periods, and for how long; None where
    there is none."""
    gap = silence.old.deadline + silence.new.phase
    if gap > max(silence.old.period, silence.new.period) or silence.last < silence.old.origin:
        return None
    start = silence.last + 1
    if not is_live and start < change.above:
        start += silence.old.period
    return start, gap


def told_silence(operation, change, table, system, is_live):
    """What is said of a change that leaves its slot silent for longer than both periods; None where it does not."""
    silence = long_silence_of(operation, change, table)
    if silence is None:
        return None
    slot, gap = operation.fields["SLOT"], silence.first - silence.last
    ways, shorter = [], shorter_silence(silence, change, is_live)
    if shorter is not None:
        ways.append(f"take START {shorter[0]}, with which it is {some(shorter[1], 'cycle')}")
    named = {it.fields["SLOT"] for it in change.operations}
    free = free_slot(table, system.slots, change.start, named)
    if free is not None:
        ways.append(f"remove SLOT {slot} and add SLOT {free} in the same change: it begins at START, with another "
                    "identifier")
    told = ", or ".join(ways) + "."
    return (f"SLOT {slot} releases nothing for {some(gap, 'cycle')}, from {silence.last} to {silence.first}. That is "
            f"longer than the old period, {silence.old.period}, and the new one, {silence.new.period}: the new entry "
            f"begins when the old DEADLINE is over." + (f" {told[:1].upper()}{told[1:]}" if ways else ""))
