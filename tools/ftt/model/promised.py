"""The bounds of asynchronous messages: how late each is sent at most, beside its deadline, before anything is run."""
import math
from collections import namedtuple
from fractions import Fraction

from .. import bounds, declared
from ..frames import INTERMISSION, worst
from ..limits import WINDOW
from ..telling import decimal

# An asynchronous message on a bus, with what is declared of its requests.
Promised = namedtuple("Promised", "owned declared")


def bits_within(bus, millis):
    """The whole bit times within a time in milliseconds."""
    return math.floor(millis * bus.kbits)


def millis_of(bus, bits):
    """So many bit times in milliseconds, as text: rounded up, so that no bound is told as less than it is."""
    return decimal(Fraction(math.ceil(Fraction(bits * 1000) / bus.kbits), 1000))


def is_apart(message):
    """Whether a least distance of the requests is known."""
    return bool(message.period)


def promised_of(bus, owned):
    """What is declared of the requests of each message, in the order of identifiers. A distance is rounded down, since
    the arrivals of requests are rounded up."""
    found = []
    for it in sorted(owned, key=lambda it: it.id):
        message = it.message
        gap, burst = declared.ANY_GAP, declared.ANY_BURST
        if is_apart(message):
            gap, burst = min(max(bits_within(bus, message.period), 1), bounds.GAP), 1
        deadline = None if message.deadline is None else bits_within(bus, message.deadline)
        stream = bounds.Stream(it.id, message.length, gap, burst)
        found.append(Promised(it, declared.Declared(message.line, stream, deadline)))
    return found


def check(bus, messages, mistakes):
    """Refuses deadlines of asynchronous messages that can't be kept, or can't be promised."""
    for message in messages:
        if message.kind != "async" or message.deadline is None:
            continue
        least = worst(message.length) - INTERMISSION
        if not is_apart(message):
            mistakes.add(message.line, "deadline", decimal(message.deadline, 12), "an asynchronous message needs a "
                         "period for it: the least distance of two requests. Write one, or write polled.")
        elif bits_within(bus, message.deadline) < least:
            mistakes.add(message.line, "deadline", decimal(message.deadline, 12), f"the frame alone takes {least} bit "
                         f"times. Take at least {millis_of(bus, least)} ms.")


def remedy(layout, streams, it, least, beside):
    """What to do about a message without a bound, or with one that is too late. So much of the layout's window is no part
    of the window that is asked for."""
    window = bounds.widest_window(layout, streams, it.declared.stream, it.declared.deadline, least + beside)
    if window is not None:
        return f"Take --window {window - beside} or less, or write polled."
    return "Take longer periods or a higher bit rate, or write polled."


def why_late(bus, streams, it, bound, layout, least, beside):
    """What is said of a message that has no bound, or one after its deadline, and what to do."""
    message, unknown = it.owned.message, [other.id for other in streams if declared.is_any(other)]
    if bound is not None:
        said = f"may take {millis_of(bus, bound)} ms, and its deadline is {decimal(message.deadline)}."
    elif unknown and min(unknown) < it.owned.id:
        return (f"has no bound: requests of {min(unknown):#05x}, whose period is not given, may come as often as they "
                "like, and go first. Give that message a period, or a greater identifier.")
    else:
        said = f"has no bound: a request may still wait when the next one comes, {decimal(message.period)} ms later."
    return f"{said} {remedy(layout, streams, it, least, beside)}"


def told_bound(bus, it, bound):
    """The bound of a message, in a sentence."""
    message = it.owned.message
    front = f"asynchronous: {message.name} ({it.owned.id:#05x})"
    if bound is None:
        return f"{front}: no bound" + ("" if is_apart(message) else ", since no period is given")
    of = "" if message.deadline is None else f" of {decimal(message.deadline)}"
    return (f"{front}: a request is sent within {millis_of(bus, bound)} ms{of}, if requests come at least "
            f"{decimal(message.period)} ms apart")


def least_window(entries):
    """The least window that the synchronous messages may have: their longest frame, and what they need on average."""
    need = sum((Fraction(worst(it.length), it.period) for it in entries), Fraction(0))
    return max(WINDOW[0], math.ceil(need), *(worst(it.length) for it in entries))


def told(bus, owned, entries, words, window, beside=0):
    """The lines on bounds, and warnings. So many bit times before the window are taken too."""
    if not any(is_apart(it.message) for it in owned):
        return [], []
    layout = bounds.Layout(bus.cycle, words.turnaround, window + beside, words.slots)
    every = promised_of(bus, owned)
    streams = [it.declared.stream for it in every]
    late = {it.stream.id for it, _ in declared.late_of([it.declared for it in every], layout)}
    lines, warnings, least = [], [], min(window, least_window(entries))
    for it in every:
        bound = bounds.end_bound(layout, streams, it.declared.stream)
        lines.append(told_bound(bus, it, bound))
        if it.owned.id in late:
            message = it.owned.message
            warnings.append(f"line {message.line}: {message.name} "
                            f"{why_late(bus, streams, it, bound, layout, least, beside)}")
    return lines, warnings


def text_of(bus, owned):
    """The file async.csv, which declares the streams of all asynchronous messages."""
    return declared.text_of([it.declared for it in promised_of(bus, owned)])
