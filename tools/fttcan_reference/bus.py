"""Frames, their lengths, and the trigger frames of a cycle."""
from .types import LOW_SLOTS


def worst(length):
    """The worst length in bit times of a frame with so many data bytes."""
    return 55 + 10 * length


def trigger_part(slots):
    """The time that a cycle leaves for its trigger frames."""
    return worst(8) if slots == LOW_SLOTS else 2 * worst(8)


def wire_length(identifier, data):
    """The length of a frame on the wire in bit times, stuff bits and intermission included."""
    bits = f"0{identifier:011b}000{len(data):04b}" + "".join(f"{byte:08b}" for byte in data)
    register = 0
    for bit in bits:
        carry = register >> 14 ^ (bit == "1")
        register = (register << 1 & 0x7FFF) ^ (0x4599 if carry else 0)
    length, run, last = 0, 0, None
    for bit in f"{bits}{register:015b}":
        run = run + 1 if bit == last else 1
        last = bit
        length += 1
        if run == 5:
            last = "1" if bit == "0" else "0"
            run = 1
            length += 1
    return length + 13


def mask_text(mask):
    """A set of slots as text: ten digits where all its slots are below 40, and else 24."""
    return f"{mask:010x}" if mask < 1 << LOW_SLOTS else f"{mask:024x}"


def slots_in(mask):
    """The slots of a set, the least first."""
    return [slot for slot in range(mask.bit_length()) if mask >> slot & 1]


def triggers(cycle, width, mask, slots):
    """The bytes of the trigger frames of a cycle, one of 40 slots and two of 96."""
    low = mask & (1 << LOW_SLOTS) - 1
    first = bytes([cycle % 256]) + width.to_bytes(2, "big") + low.to_bytes(5, "little")
    if slots == LOW_SLOTS:
        return [first]
    return [first, bytes([cycle % 256]) + (mask >> LOW_SLOTS).to_bytes(7, "little")]
