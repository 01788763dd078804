"""A list of messages in milliseconds, and the table that it becomes at a rate and a cycle.

The list is that of fttmodel, and so are slots, nodes and rounding: a table here is the one that fttmodel writes into
steps.csv. Only the window is left open.
"""
import math
import sys
from collections import namedtuple
from fractions import Fraction

from ..faults import Refused
from ..frames import TRIGGER, worst
from ..limits import FEW_SLOTS, NODES, USUAL_HORIZON, WINDOW
from .. import declared
from ..bounds import Layout
from ..model import nodes_of, polled, promised, table
from ..model.bus import KINDS, Bus, alike, entries_of, owned_of
from ..model.messages import Mistakes, read_text
from ..model.said import common_period
from ..system import room
from .bounds import first_late
from .engine import Entries, Rules
from .grid import Answer

# Worst lengths are multiples of so many bit times, and so are their sums.
STEP = 5
# What rounding makes of a message: its times in the list, and those that it gets, in milliseconds; and how much more of
# the bus it takes so, as a share of all bit times.
Rounded = namedtuple("Rounded", "message period taken deadline kept added")


def read(path):
    """The messages of a list. They are refused where fttmodel refuses them on any bus."""
    mistakes = Mistakes(path)
    text, encoding = read_text(path)
    if encoding is not None:
        print(f"fttsearch: {path}: {encoding}", file=sys.stderr)
    messages = table.read(path, text, mistakes).messages
    if not messages and not mistakes.lines:
        raise Refused(f"{path}:1: there are no messages. Write a row for each.")
    alike(messages, mistakes)
    nodes_of(messages, mistakes)
    mistakes.stop()
    return messages


def with_deadline(message, most):
    """A message whose deadline is at most so many milliseconds."""
    if message.kind not in KINDS:
        return message
    kept = [time for time in (message.deadline, message.period if message.kind == "sync" else None) if time is not None]
    return message._replace(deadline=min([most, *kept]))


def with_period(message, period):
    """A message with another period. A synchronous one's deadline goes along where both were equal, and is else at
    most the period."""
    deadline = message.deadline
    if message.kind == "sync" and deadline is not None:
        deadline = period if deadline == message.period else min(deadline, period)
    return message._replace(period=period, deadline=deadline)


def changed(messages, values):
    """The messages with the periods and the deadlines of a point."""
    for name, value in values.items():
        axis, _, of_name = name.partition(".")
        if axis == "period_ms":
            messages = [with_period(it, Fraction(value)) if it.name == of_name else it for it in messages]
    if "deadline_ms" in values:
        messages = [with_deadline(it, Fraction(values["deadline_ms"])) for it in messages]
    return messages


class Unfit(Exception):
    """A list that has no table on a bus, as text."""


class Placing:
    """The table of messages at a rate in kbit/s and a cycle in microseconds: with the entries, what they need on
    average, and the windows that a cycle has room for."""

    def __init__(self, messages, kbits, cycle_us, slots, turnaround=0):
        mistakes = Mistakes("list")
        self.bus, self.slots, self.turnaround = bus_of(kbits, cycle_us), slots, turnaround
        self.nodes = nodes_of(messages, mistakes)
        self.placed = entries_of(messages, self.bus, self.nodes, slots, mistakes)
        self.declared = streams_of(messages, self.bus, self.nodes, mistakes)
        if mistakes.lines:
            raise Unfit(mistakes.lines[0])
        self.entries = entries_at(self.placed)
        self.need = sum((Fraction(worst(it.length), it.period) for it in self.placed), Fraction(0))
        # In which cycle the plan repeats at the earliest, whatever the window is.
        self.repeats = max((it.phase for it in self.placed), default=0) + common_period(self.placed)
        self.longest = max((worst(it.length) for it in self.placed), default=WINDOW[0])
        self.room = min(room(self.bus.cycle, slots, turnaround), WINDOW[1])

    def windows(self):
        """The windows that may be accepted, a choice for each that makes another plan: from the longest frame, and what
        the messages need on average, to the widest one for which a cycle has room."""
        least = max(self.longest, STEP * math.ceil(self.need / STEP))
        return range(least, self.room + 1, STEP)

    def rules(self, window, values, horizon):
        """The rules for a window, and for the policy and the filling of a point."""
        return Rules(self.bus.cycle, self.turnaround, window, max(len(self.nodes), NODES[0]), self.slots,
                     values.get("policy", "rm"), values.get("fill", "prefix"), horizon)

    def late(self, window):
        """Why an asynchronous message that has a deadline is not in time beside a window; None where all are."""
        if not self.declared:
            return None
        layout = Layout(self.bus.cycle, self.turnaround, window, self.slots)
        return first_late([(it, bound) for it, bound in declared.late_of(self.declared, layout)
                           if it.deadline is not None])

    def said(self, engine, rules, entries=None):
        """What is said of a table, or of other entries in its place: the engine's answer, and where it accepts, whether
        asynchronous messages are in time."""
        answer = engine.decide(rules, entries or self.entries)
        why = self.late(rules.window) if answer.accepted else None
        return answer if why is None else Answer(False, None, why)

    def left(self, window):
        """The bit times of a cycle that no trigger, turnaround or window of this width takes."""
        return self.bus.cycle - TRIGGER[self.slots] - self.turnaround - window


def streams_of(messages, bus, nodes, mistakes):
    """What is declared of the asynchronous messages on a bus, where some of them has a deadline."""
    if not any(it.kind == "async" and it.deadline is not None for it in messages):
        return []
    promised.check(bus, messages, mistakes)
    return [it.declared for it in promised.promised_of(bus, owned_of(messages, nodes, False, mistakes))
            if it.owned.id is not None]


def bus_of(kbits, cycle_us):
    """The bus of a rate and a cycle, where there is one."""
    try:
        return Bus(Fraction(kbits), Fraction(cycle_us))
    except Refused as fault:
        raise Unfit(str(fault)) from fault


def entries_at(placed):
    """Placed messages as rows of a steps file."""
    return Entries([(it.slot, it.node, it.length, it.phase, it.period, it.deadline, it.message.priority)
                    for it in placed])


class Source:
    """A list whose tables are asked for: the messages, the turnaround and the horizon; and the names of the axes of a
    line, which are all but the window."""

    def __init__(self, messages, names, turnaround=0, horizon=USUAL_HORIZON):
        self.messages, self.names, self.turnaround, self.horizon = messages, names, turnaround, horizon
        self.last = (None, None)

    def placing(self, values):
        """The table for the values of a point; Unfit where there is none. The last one is kept."""
        key = tuple((name, it) for name, it in values.items() if name not in ("policy", "fill", "window"))
        if self.last[0] != key:
            try:
                made = Placing(changed(self.messages, values), values["kbits"], values["cycle_us"],
                               values.get("slots", FEW_SLOTS), self.turnaround)
            except Unfit as fault:
                made = fault
            self.last = key, made
        if isinstance(self.last[1], Unfit):
            raise self.last[1]
        return self.last[1]

    def line(self, line):
        """What may be asked along the windows of a line."""
        return ListLine(self, dict(zip(self.names, line)))


class ListLine:
    """The windows of one line."""

    def __init__(self, source, values):
        self.source, self.values, self.placing, self.why = source, values, None, None
        try:
            self.placing = source.placing(values)
            if self.placing.repeats > source.horizon:
                self.why = (f"list: its plan repeats in cycle {self.placing.repeats} at the earliest, after the horizon of "
                            f"{source.horizon}")
        except Unfit as fault:
            self.why = str(fault)

    def windows(self, wanted):
        """The windows to be tried, out of those that are wanted; where all are, those that may be accepted."""
        if wanted is not None:
            return wanted
        if self.placing is None:
            return (WINDOW[0],)
        # Where none may be accepted, the widest one says why.
        return self.why is None and self.placing.windows() or (max(self.placing.room, WINDOW[0]),)

    def ask(self, engine, window):
        """What is said of a window."""
        if self.why is not None:
            return Answer(False, None, self.why)
        if window > self.placing.room:
            need = self.placing.bus.cycle - self.placing.left(window)
            return Answer(False, None, f"system: narrow {need} {self.placing.bus.cycle}")
        return self.placing.said(engine, self.placing.rules(window, self.values, self.source.horizon))


def rounded(placing):
    """What rounding makes of each message of a table."""
    rows = []
    for it in placing.placed:
        message, bus, bits = it.message, placing.bus, worst(it.length)
        if message.kind == polled.KIND:
            period = message.deadline / 2 if message.period is None else min(message.deadline / 2, message.period)
            deadline, kept = message.deadline, bus.millis(polled.bound(it))
        else:
            period = message.period
            deadline, kept = message.deadline or period, bus.millis(it.deadline)
        taken = bus.millis(it.period)
        added = Fraction(bits) / (taken * bus.kbits) - Fraction(bits) / (period * bus.kbits)
        rows.append(Rounded(message, period, taken, deadline, kept, added))
    return rows


def fitting(messages, first, last):
    """The cycles of whole microseconds between two in which some period or deadline is a whole number of cycles, rounded
    down. Between two of them a longer cycle leaves each message the same number of cycles, and has more room."""
    times = {time * 1000 for it in messages if it.kind in KINDS for time in (it.period, it.deadline) if time}
    found = {last}
    for time in times:
        for many in range(max(1, math.ceil(time / (last + 1))), math.floor(time / first) + 1):
            found.add(math.floor(time / many))
    return sorted(value for value in found if first <= value <= last)
