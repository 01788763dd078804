"""What is said of a set of messages on a bus: its needs, its share, its common period, and warnings."""
import math
from fractions import Fraction

from ..frames import TRIGGER, worst
from ..limits import HORIZON, WINDOW
from ..system import room
from ..telling import decimal, some
from . import disturbed, polled, promised
from .dbc import NOBODY


def common_period(entries):
    """The least common multiple of the periods, in cycles."""
    return math.lcm(*(entry.period for entry in entries))


def released(entries, period):
    """The greatest sum of worst lengths that are released in one cycle; and whether it is exact."""
    last = max((entry.phase for entry in entries), default=0)
    if last + period > 200_000:
        return sum(worst(entry.length) for entry in entries), False
    sums = [0] * (last + period)
    for entry in entries:
        bits = worst(entry.length)
        for cycle in range(entry.phase, last + period, entry.period):
            sums[cycle] += bits
    return max(sums), True


def meets(entries):
    """Whether all entries are released together in some cycle: the phases agree modulo what two periods share."""
    return all((one.phase - other.phase) % math.gcd(one.period, other.period) == 0
               for one in entries for other in entries)


def percent(part, whole):
    """A share in percent, with one place."""
    return f"{decimal(Fraction(part) * 100 / whole, 1)} %"


def share_of(bus, words, need, owned):
    """The share of the bus's time that is asked for, and a line of its parts. The entries need so many bit times a
    cycle; in the turnaround nothing can be sent."""
    asked = sum((Fraction(worst(it.message.length)) / (it.message.period * bus.kbits)
                 for it in owned if it.message.period), Fraction(0))
    silent = sum(1 for it in owned if not it.message.period)
    parts = {"synchronous": need / bus.cycle, "triggers": Fraction(TRIGGER[words.slots], bus.cycle)}
    if words.turnaround:
        parts["turnaround"] = Fraction(words.turnaround, bus.cycle)
    if owned:
        parts["asynchronous"] = asked
    told = ", ".join(f"{name} {percent(part, 1)}" for name, part in parts.items())
    if silent:
        told += f" ({some(silent, 'message')} without a period not counted)"
    whole = sum(parts.values())
    return whole, f"share of the bus: {told}; together {percent(whole, 1)}"


def told_horizon(entries, repeat, horizon):
    """What is said of a horizon where the plan can repeat in this cycle at first; and a warning, if one is due."""
    told = f"horizon: {some(horizon, 'cycle')}; the common period"
    if repeat > horizon:
        remedy = f"Take --horizon {repeat}, or periods" if repeat <= HORIZON[1] else "Take periods"
        return f"{told} does not fit", [f"no plan repeats before cycle {repeat}, after the horizon. {remedy} with a "
                                        "smaller common multiple."]
    more = "" if meets(entries) else (", but offsets keep the messages from one common release, so the plan may repeat "
                                      "later")
    return f"{told} fits{more}", []


def told(bus, entries, owned, words, window, nodes):
    """The lines on standard output, and whether one is a warning."""
    lines, warnings = [], []
    need = sum((Fraction(worst(it.length), it.period) for it in entries), Fraction(0))
    longest = max((worst(it.length) for it in entries), default=0)
    period = common_period(entries)
    most, is_exact = released(entries, period)
    settled = max((it.phase for it in entries), default=0)
    beside = disturbed.beside_window(words, entries)
    free = room(bus.cycle, words.slots, words.turnaround) - window - beside
    lines.append(f"cycle: {decimal(bus.millis(1), 6)} ms at {decimal(bus.kbits)} kbit/s is {bus.cycle} bit times")
    asked = [it for it in entries if it.message.kind == polled.KIND]
    lines.append(f"messages: {len(entries) - len(asked)} synchronous, {f'{len(asked)} polled, ' if asked else ''}"
                 f"{len(owned)} asynchronous, of {some(len(nodes), 'sender')}")
    lines += [f"rounded: {said}" for said in bus.said or ["nothing"]]
    lines += [f"polled: {polled.told(it, bus)}" for it in asked]
    bounds, late = promised.told(bus, owned, entries, words, window, beside)
    lines += bounds
    lines.append(f"need: {decimal(need, 1)} bit times a cycle on average, at {'worst' if is_exact else 'most'} {most} "
                 "released in one cycle")
    lines.append(f"window: at least {max(longest, WINDOW[0])} for one longest frame; {window} is taken")
    lines.append(f"asynchronous time: {free} bit times in a cycle with a full window")
    errors, short = disturbed.told(bus, entries, words, window)
    lines += errors
    whole, share = share_of(bus, words, need, owned)
    lines.append(share)
    if whole >= 1:
        warnings.append(f"the bus is asked for {percent(whole, 1)} of its time, by the longest frames. Messages will "
                        "wait for ever. Take a higher bit rate, a longer cycle, or fewer messages.")
    lines.append(f"common period: {some(period, 'cycle')}, {decimal(bus.millis(period))} ms")
    line, warning = told_horizon(entries, settled + period, words.horizon)
    lines.append(line)
    warnings += warning
    if need > window:
        warnings.append(f"the set needs {decimal(need, 1)} bit times a cycle, and the window has {window}. Take a "
                        "wider window, or longer periods.")
    if owned and free < max(worst(it.message.length) for it in owned):
        warnings.append(f"a cycle with a full window has {free} bit times of asynchronous time, too few for the "
                        "longest frame. Take a narrower window.")
    warnings += late + short
    for it in entries + owned:
        if it.message.sender == NOBODY:
            warnings.append(f"line {it.message.line}: {it.message.name} has no sender. A node of its own, {NOBODY}, "
                            "stands for it.")
    return lines, warnings
