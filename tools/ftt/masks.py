"""Sets of slots, as masks of hexadecimal digits."""
from .limits import FEW_SLOTS, MANY_SLOTS


def mask_of(number):
    """A set of slots as a mask: ten digits, and 24 where a slot from 40 on is in the set."""
    return f"{number:010x}" if number < 1 << FEW_SLOTS else f"{number:024x}"


def slots_of(mask):
    """The slots of a mask, the least first."""
    number = int(mask, 16)
    return [slot for slot in range(MANY_SLOTS) if number >> slot & 1]
