"""What is said of a bus with errors: the reserve for so many disturbances of each window, its price, and the turnaround."""
from fractions import Fraction

from ..disturbed.budget import EXTRA, OF_TRIGGER, cost, room_for_reserve
from ..telling import decimal, some

# The most disturbances that are planned for: a window has no room for more frames of the least cost.
MOST = 197


def longest_of(entries):
    """The most data bytes of a frame in a slot."""
    return max((entry.length for entry in entries), default=0)


def reserve_of(words, entries):
    """How many bit times earlier each synchronous window opens than its frames need."""
    return (words.errors or 0) * cost(longest_of(entries))


def guard_of(words):
    """How many bit times before the window an asynchronous frame has to end."""
    return 0 if words.errors is None else EXTRA


def beside_window(words, entries):
    """What is taken of the asynchronous time beside the window: the reserve, and what frames have to keep free before it."""
    return reserve_of(words, entries) + guard_of(words)


def told(bus, entries, words, window):
    """The lines on errors, and warnings."""
    if words.errors is None:
        return [], []
    size, reserve = longest_of(entries), reserve_of(words, entries)
    each, room = cost(size), room_for_reserve(bus.cycle, words.slots, words.turnaround, window)
    lines = [f"errors: {some(words.errors, 'disturbance')} of each window {'costs' if words.errors == 1 else 'cost'} no "
             f"deadline, if each window opens {reserve} bit times earlier; each of a frame of {some(size, 'byte')} costs "
             f"{each}",
             f"reserve: make nodes with the window {window} + {reserve} = {window + reserve}; each trigger says {reserve} more "
             f"than its frames need; asynchronous frames end {EXTRA} bit times before the window",
             f"price: {reserve} of {bus.cycle} bit times, {decimal(Fraction(reserve) * 100 / bus.cycle, 1)} % of the bus, for "
             f"the reserve; a cycle has room for one of {room}, for {some(room // each, 'disturbance')}"]
    warnings = []
    if room - reserve < OF_TRIGGER - each:
        warnings.append(f"a cycle with a full window has {room - reserve} bit times of asynchronous time. A trigger that is cut "
                        f"late takes up to {OF_TRIGGER - each} more of a window than one of its own frames. Take a narrower "
                        f"window, so that there are {OF_TRIGGER - each}.")
    retries = words.turnaround // OF_TRIGGER
    if retries:
        lines.append(f"triggers: the turnaround of {words.turnaround} is for {some(retries, 'disturbance')} of a trigger part "
                     f"({OF_TRIGGER} each), if the nodes need {words.turnaround - retries * OF_TRIGGER} of it or less")
    else:
        warnings.append(f"a turnaround of {words.turnaround} is too short for a trigger that is sent again: a disturbance takes "
                        f"{OF_TRIGGER}, and the nodes need theirs too. Take --turnaround {words.turnaround + OF_TRIGGER}, or no "
                        "trigger may be disturbed.")
    return lines, warnings
