"""Polled messages: a slot takes the requests of a message that comes when it likes, and keeps a bound.

A request that arrives in cycle a is sent in a cycle from a + 1 to a + PERIOD + DEADLINE - 1, where requests of a slot
come at least PERIOD cycles apart: docs/FORMATS.md says why. So it has been sent within PERIOD + DEADLINE cycles.
"""
import math

from ..limits import LENGTH, TIMES
from ..telling import decimal, some

KIND = "polled"
# The most data bytes of a polled message: the frame has one byte more, the mark.
MOST = LENGTH - 1


def whole(message, bus):
    """The deadline of a message in whole cycles."""
    return min(math.floor(message.deadline * bus.kbits / bus.cycle), 2 * TIMES)


def times_of(message, bus, mistakes):
    """The phase, the period and the deadline of the slot in cycles: together they keep the message's deadline, and no
    period is above the least distance of two requests, if one is given. None where the deadline is missing."""
    if message.deadline is None:
        return None
    cycles = whole(message, bus)
    if cycles < 2:
        exact = message.deadline * bus.kbits / bus.cycle
        mistakes.add(message.line, "deadline", decimal(message.deadline), f"it is {decimal(exact)} cycles, and a "
                     f"polled slot needs 2, {decimal(bus.millis(2))} ms. Take a shorter cycle, or a longer time.")
        return None
    period = cycles - cycles // 2
    if message.period is not None:
        period = min(period, bus.cycles(message.period, "period", message, 1, mistakes))
    phase = bus.cycles(message.offset, "offset", message, 0, mistakes)
    if phase >= period:
        mistakes.add(message.line, "offset", decimal(message.offset), f"the first poll comes {some(phase, 'cycle')} "
                     f"after the start, and requests are polled every {some(period, 'cycle')}. Take less than "
                     f"{decimal(bus.millis(period))} ms.")
    return phase, period, min(period, cycles - period)


def bound(entry):
    """The cycles within which a request has been sent."""
    return entry.period + entry.deadline


def told(entry, bus):
    """The bound of a polled message, in a sentence."""
    message, apart = entry.message, decimal(bus.millis(entry.period))
    given = "" if message.period is not None else ", which nothing in the list says"
    every = "cycle" if entry.period == 1 else some(entry.period, "cycle")
    return (f"{message.name} in slot {entry.slot}, every {every} with {some(entry.length, 'byte')}: "
            f"a request is sent within {some(bound(entry), 'cycle')}, {decimal(bus.millis(bound(entry)))} ms of "
            f"{decimal(message.deadline)}, if requests come at least {apart} ms apart{given}")
