"""Frames of 11 bits on the bus: their lengths in bit times and their bits. Terms are those of CAN 2.0 Part A."""
from .limits import FEW_SLOTS, LENGTH, MANY_SLOTS

# The bits of intermission, which the length of a frame counts.
INTERMISSION = 3
# The worst length of a frame without data.
SHORTEST = 55


def worst(length):
    """The worst length in bit times of a frame with so many data bytes."""
    return SHORTEST + 10 * length


# By the number of slots: the trigger part of a cycle, in bit times. It is one frame of eight bytes, or two.
TRIGGER = {FEW_SLOTS: worst(LENGTH), MANY_SLOTS: 2 * worst(LENGTH)}


def crc_of(bits):
    """The CRC sequence of bits: each is shifted into a register of 15 bits, which the generator divides."""
    register = 0
    for bit in bits:
        carry = register >> 14 ^ bit
        register = (register << 1 & 0x7FFF) ^ (0x4599 if carry else 0)
    return register


def number_bits(number, width):
    """A number as bits, the most significant first."""
    return [number >> place & 1 for place in reversed(range(width))]


def wire_of(identifier, data):
    """The bits of a data frame, stuffed, and the thirteen after the stuffed part, the intermission included."""
    plain = [0] + number_bits(identifier, 11) + [0, 0, 0] + number_bits(len(data), 4)
    plain += [bit for byte in data for bit in number_bits(byte, 8)]
    wire = []
    for bit in plain + number_bits(crc_of(plain), 15):
        wire.append(bit)
        if len(wire) >= 5 and len(set(wire[-5:])) == 1:
            wire.append(1 - bit)
    return wire + [1, 0, 1] + [1] * 10
