"""How long requests of asynchronous messages wait at most: the function of the crate async_bound, in Python.

docs/ASYNC.md says what a bound means, and of which runs it is proved. `tools/check-bounds` compares what stands here
with the definition, with runs, and with the proved function where the library is built. All times are bit times.
"""
from collections import namedtuple

from .frames import INTERMISSION, TRIGGER, worst
from .limits import FEW_SLOTS

# What a bound needs of a system: the length of a cycle, the turnaround, the greatest window, and the number of slots.
Layout = namedtuple("Layout", "cycle turnaround window slots")
# The requests of one identifier: of so many data bytes at most. A request and the one `burst` places after it arrive
# at least `gap` apart.
Stream = namedtuple("Stream", "id bytes gap burst")
# The greatest distance and the greatest burst that a stream may have.
GAP, BURST = (1 << 32) - 1, 1024


def layout_of(document):
    """The layout of a system's document."""
    bus = document["bus"]
    return Layout(bus["cycle"], bus.get("turnaround", 0), bus["window"], bus.get("slots", FEW_SLOTS))


def longest_up_to(streams, identifier):
    """The longest frame of the streams up to an identifier."""
    return max((worst(it.bytes) for it in streams if it.id <= identifier), default=0)


def room_of_cycle(layout, longest):
    """At how many times of each cycle a frame of at most `longest` bit times may start, whatever the cycle flags."""
    return max(0, layout.cycle + 1 - (TRIGGER[layout.slots] + layout.turnaround + layout.window + longest))


def start_bound(layout, streams, stream):
    """The bound of a stream among these: each of its requests starts less than so many bit times after its arrival.
    None where no bound up to the stream's least distance is known."""
    longest = longest_up_to(streams, stream.id)
    room, blocking = room_of_cycle(layout, longest), max(worst(it.bytes) for it in streams) - 1
    if room == 0:
        return None
    lower = [(it.gap, it.burst * worst(it.bytes)) for it in streams if it.id < stream.id]
    own, span = (stream.burst - 1) * longest, 0
    # From one span that is too short to the least one that has room for what arrives in it.
    while span <= stream.gap:
        need = own + sum(-(-span // gap) * bits for gap, bits in lower)
        cycles, times = divmod(need, room)
        following = blocking + cycles * layout.cycle + layout.cycle - room + times + 1
        if following <= span:
            return span
        span = following
    return None


def to_the_end(stream, span):
    """What a bound says of the end of a frame: so many bit times after the arrival it has ended, without the
    intermission."""
    return span - 1 + worst(stream.bytes) - INTERMISSION


def end_bound(layout, streams, stream):
    """Within how many bit times of its arrival each request has been sent, without the intermission; None where there
    is no bound."""
    span = start_bound(layout, streams, stream)
    return None if span is None else to_the_end(stream, span)


def is_in_time(layout, streams, stream, deadline):
    """Whether a stream has a bound, and one of at most the deadline, if there is one."""
    bound = end_bound(layout, streams, stream)
    return bound is not None and (deadline is None or bound <= deadline)


def widest_window(layout, streams, stream, deadline, least):
    """The greatest window from the least one up to that of the layout with which a stream is in time; None where there
    is none. A narrower window makes no bound longer."""
    def is_kept(window):
        return is_in_time(layout._replace(window=window), streams, stream, deadline)

    if not is_kept(least):
        return None
    low, high = least, layout.window + 1
    while high - low > 1:
        middle = (low + high) // 2
        low, high = (middle, high) if is_kept(middle) else (low, middle)
    return low
