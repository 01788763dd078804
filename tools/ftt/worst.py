"""How late the frames of slots are at worst, with any data: from the release to the end of the frame, in bit times.

A plan says which slots each cycle sends. A frame ends latest in its cycle if it and all before it have their longest data
(ftt.ends), so the plan alone says how late each message is at worst, for all cycles up to its first repeat and so for ever.
"""
from collections import namedtuple

from .ends import slots_in
from .frames import INTERMISSION, worst

# The greatest time of a slot in bit times, the release of the instance and the cycle that sends it.
Worst = namedtuple("Worst", "bits release cycle")


class Strange(Exception):
    """A plan that sends a slot of which the table has no instance: the slot and the cycle."""


def instance_at(entries, cycle):
    """The entry of a slot whose instance may be sent in a cycle, and its release; None where there is none."""
    for it in reversed(entries):
        first = it.origin + it.phase
        if cycle < first:
            continue
        release = cycle - (cycle - first) % it.period
        if cycle - release < it.deadline and (it.end is None or release < it.end):
            return it, release
    return None


def worst_of(table, masks, cycle_bits, begin=0):
    """By slot the worst case of a plan whose cycles from `begin` on send these slots, as sets. The table has the entries by
    slots, and a cycle so many bit times."""
    found = {}
    for cycle, mask in enumerate(masks, begin):
        later = 0
        for slot in reversed(list(slots_in(mask))):
            instance = instance_at(table.get(slot, ()), cycle)
            if instance is None:
                raise Strange(slot, cycle)
            entry, release = instance
            bits = (cycle - release + 1) * cycle_bits - later - INTERMISSION
            later += worst(entry.length)
            if slot not in found or bits > found[slot].bits:
                found[slot] = Worst(bits, release, cycle)
    return found


def worst_sent(sent, cycle_bits):
    """The same of instances that were sent in a run, with slot, release, cycle and length each."""
    cycles, found = {}, {}
    for it in sent:
        cycles.setdefault(it.cycle, []).append(it)
    for cycle, of_one in cycles.items():
        later = 0
        for it in sorted(of_one, key=lambda it: -it.slot):
            bits = (cycle - it.release + 1) * cycle_bits - later - INTERMISSION
            later += worst(it.length)
            if it.slot not in found or bits > found[it.slot].bits:
                found[it.slot] = Worst(bits, it.release, cycle)
    return found
