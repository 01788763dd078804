"""The lengths of frames on the bus, by tables: what frames.wire_of counts bit by bit, for recordings of many frames."""
import functools

from .frames import crc_of, number_bits

# The bits after the stuffed part: delimiters, acknowledgement, end of frame and intermission.
BEHIND = 13
# A state of stuffing is the last bit and how often it stood there in a row: 1 to 4, since a fifth brings a stuff bit.
STATES = [(bit, run) for bit in (0, 1) for run in (1, 2, 3, 4)]


def stuffed(state, bits):
    """The state after some bits, and how many stuff bits they brought."""
    (last, run), brought = state, 0
    for bit in bits:
        run = run + 1 if bit == last else 1
        last = bit
        if run == 5:
            last, run, brought = 1 - bit, 1, brought + 1
    return (last, run), brought


def step_of(state, value, width):
    """The number of the state after a number of so many bits, and the stuff bits."""
    behind, brought = stuffed(STATES[state], number_bits(value, width))
    return STATES.index(behind), brought


def steps_of(width):
    """By a state and a number of so many bits, one after the other: the state after it, ready for the next eight
    bits, and the stuff bits."""
    steps = [step_of(state, value, width) for state in range(len(STATES)) for value in range(1 << width)]
    return [state << 8 for state, _ in steps], [brought for _, brought in steps]


NEXT_8, BROUGHT_8 = steps_of(8)
NEXT_7, BROUGHT_7 = steps_of(7)
CRC_8 = [crc_of(number_bits(value, 8)) for value in range(256)]


@functools.lru_cache(maxsize=None)
def headed(identifier, size):
    """What the bits in front of the data come to: the register of the CRC, the state of stuffing, and the length of a
    frame with this identifier and so many data bytes, as far as it is known there."""
    bits = [0] + number_bits(identifier, 11) + [0, 0, 0] + number_bits(size, 4)
    # A recessive bit stands in front of the frame.
    state, brought = stuffed((1, 1), bits)
    return crc_of(bits), STATES.index(state) << 8, len(bits) + 8 * size + 15 + BEHIND + brought


def length_of(identifier, data):
    """The length of a data frame in bit times, with stuff bits and intermission: 44 to 135."""
    register, state, length = headed(identifier, len(data))
    for byte in data:
        register = (register << 8 & 0x7FFF) ^ CRC_8[register >> 7 ^ byte]
        state |= byte
        length += BROUGHT_8[state]
        state = NEXT_8[state]
    state = state >> 1 | register >> 8
    return length + BROUGHT_7[state] + BROUGHT_8[NEXT_7[state] | register & 0xFF]
