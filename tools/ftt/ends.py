"""When the frames of slots end in their cycle, with any data: at the latest and at the earliest. All times are bit times.

The slots of a cycle are sent one after the other, the least first, in a window that is as long as all of them at their
longest and ends with the cycle. So a frame ends latest if it and all before it have their longest data.
"""
from .frames import INTERMISSION, worst

# The length of a frame without data and without stuff bits, the intermission included; a byte has eight bits more.
BARE, BYTE = 47, 8


def shortest(length):
    """No frame with so many data bytes is shorter."""
    return BARE + BYTE * length


def slots_in(mask):
    """The slots of a set, the least first."""
    while mask:
        least = mask & -mask
        yield least.bit_length() - 1
        mask ^= least


def width_of(mask, lengths):
    """The window of a cycle that flags these slots. The lengths in data bytes stand by slots."""
    return sum(worst(lengths[slot]) for slot in slots_in(mask))


def latest_end(cycle, mask, slot, lengths):
    """When the frame of a slot has ended at the latest, from the start of its cycle, without the intermission."""
    return cycle - width_of(mask >> slot + 1 << slot + 1, lengths) - INTERMISSION


def earliest_end(cycle, mask, slot, lengths, widest=None):
    """When it has ended at the earliest. The window may be that of other, greater lengths."""
    before = sum(shortest(lengths[it]) for it in slots_in(mask & (1 << slot + 1) - 1))
    return cycle - width_of(mask, widest or lengths) + before - INTERMISSION
