"""What is left at a point of a list: what may be added, which messages decide, and how far deadlines may be cut.

Each question is asked of another table: with messages more, without one, with one that is slower or due sooner. Only one
thing is changed at a time, and the rest stays as the point has it. Least windows and deadlines are refined, so they are the
least of what was tried.
"""
from collections import namedtuple
from fractions import Fraction

from ..limits import LENGTH
from ..model import polled
from ..model.bus import KINDS
from ..telling import decimal, listed
from .grid import Amount, Answer
from .listed import Placing, Unfit, changed, entries_at
from .refined import searched

# What is asked: how many messages of 8 bytes with a period fit; and of a message what its removal, twice its period and
# a shorter deadline change.
ADD, WITHOUT, SLOWER, CUT, BASE = "add", "without", "slower", "cut", "base"
# So many messages are named in a sentence.
SHOWN = 5
# What is found of a changed table: its answer at the point's window, its least accepted window, and the answer at the
# window below that.
Found = namedtuple("Found", "said least below")


class Point:
    """A point of a list: the messages with the values of its axes, and its window."""

    def __init__(self, source, values):
        self.values, self.window = dict(values), values["window"]
        self.messages = changed(source.messages, values)
        self.turnaround, self.horizon = source.turnaround, source.horizon

    def placing(self, messages):
        """The table of some messages."""
        return Placing(messages, self.values["kbits"], self.values["cycle_us"], self.values["slots"], self.turnaround)

    def ask(self, engine, placing, entries=None, window=None):
        """What is said of a table."""
        return placing.said(engine, placing.rules(window or self.window, self.values, self.horizon), entries)

    def found(self, engine, messages):
        """What is found of some messages; None where they have no table."""
        try:
            placing = self.placing(messages)
        except Unfit:
            return None
        tried = searched(placing.windows(), lambda window: self.ask(engine, placing, None, window))
        least = min((window for window, said in tried.items() if said.accepted), default=None)
        below = max((window for window in tried if least is None or window < least), default=None)
        return Found(self.ask(engine, placing), least, None if below is None else (below, tried[below]))

    def others(self, name):
        """The messages without one."""
        return [it for it in self.messages if it.name != name]

    def slower(self, name):
        """The messages, of which one comes half as often. A polled one is asked for half as often, for a deadline that is
        twice as long."""
        def twice(it):
            if it.kind == polled.KIND:
                return it._replace(deadline=2 * it.deadline)
            return it._replace(period=2 * it.period, deadline=it.deadline and (
                2 * it.deadline if it.deadline == it.period else it.deadline))
        return [twice(it) if it.name == name else it for it in self.messages]

    def added(self, engine, period):
        """How many messages of 8 bytes with a period are accepted, one more each time; and why the next one is not."""
        one = next(it for it in self.messages if it.kind in KINDS)._replace(
            length=LENGTH, period=Fraction(period), deadline=None, offset=Fraction(0), id=None, kind="sync", priority=0, slot=None)
        many = 0
        while True:
            more = [one._replace(name=f"{one.name} {place}", line=-1 - place) for place in range(many + 1)]
            try:
                placing = self.placing(self.messages + more)
            except Unfit as fault:
                is_full = len([it for it in self.messages if it.kind in KINDS]) + many >= self.values["slots"]
                return many, "the slots" if is_full else str(fault)
            said = self.ask(engine, placing)
            if not said.accepted:
                return many, said.why
            many += 1

    def cut(self, engine, name):
        """The least deadline of a message that is accepted with all of those between it and its own, in cycles; and its
        own. Deadlines are tried coarsely first."""
        placing = self.placing(self.messages)
        at, it = next((at, it) for at, it in enumerate(placing.placed) if it.message.name == name)
        if it.message.kind == polled.KIND:
            first, own, ask = 2, polled.whole(it.message, placing.bus), self.asks_polled(engine, placing, name)
        else:
            first, own = 1, it.deadline

            def ask(deadline):
                placed = list(placing.placed)
                placed[at] = placed[at]._replace(deadline=deadline)
                return self.ask(engine, placing, entries_at(placed))

        tried, least = searched(range(first, own + 1), ask), own
        for deadline in sorted(tried, reverse=True):
            if not tried[deadline].accepted:
                break
            least = deadline
        return least, own

    def asks_polled(self, engine, placing, name):
        """What asks for a polled message with another deadline in cycles: of its slot PERIOD and DEADLINE follow from it,
        as in the list."""
        def ask(deadline):
            time = placing.bus.millis(deadline)
            try:
                return self.ask(engine, self.placing([it._replace(deadline=time) if it.name == name else it
                                                      for it in self.messages]))
            except Unfit as fault:
                return Answer(False, None, str(fault))
        return ask


class HeadroomQuestion:
    """What is asked at a point, in a process of a pool."""

    def __init__(self, point):
        self.point = point

    def answer(self, engine, task):
        """The answer of a task: what is asked, and of what."""
        kind, name = task
        point = self.point
        if kind == ADD:
            return point.added(engine, name)
        if kind == CUT:
            return point.cut(engine, name)
        messages = {WITHOUT: point.others, SLOWER: point.slower}.get(kind, lambda _: point.messages)(name)
        return point.found(engine, messages)


def tasks_of(point, periods):
    """All that is asked at a point."""
    names = [it.name for it in point.messages if it.kind in KINDS]
    return [(BASE, None), *((ADD, period) for period in periods),
            *((kind, name) for kind in (WITHOUT, SLOWER, CUT) for name in names)]


def usual_periods(messages):
    """The periods of a list of messages, for those that are added."""
    return [Amount(it) for it in sorted({it.period for it in messages if it.kind == "sync"})]


def miss_told(placing, said):
    """What a verdict says, with the name of the message that it names."""
    word, *numbers = said.why.split(",")
    if word != "miss":
        return said.why.replace(",", " ")
    slot, release, cycle = map(int, numbers)
    name = next(it.message.name for it in placing.placed if it.slot == slot)
    return (f"{name} in slot {slot}: what is released in cycle {release} is not sent by cycle "
            f"{cycle}")


def told(point, answers, label):
    """The sentences and the rows on a point."""
    base, placing = answers[BASE, None], point.placing(point.messages)
    lines = [f"headroom at {label}, window {point.window} of {placing.bus.cycle} bit times:"]
    lines += decides(base, placing, answers)
    added = [f"{period} ms {answers[kind, period][0]}{' (all slots)' if answers[kind, period][1] == 'the slots' else ''}"
             for kind, period in answers if kind == ADD]
    if base.said.accepted and added:
        lines.append(f"may be added, of 8 bytes each, by their period: {', '.join(added)}")
    for kind, what in ((WITHOUT, "removed"), (SLOWER, "half as often")):
        lines += frees(base, answers, kind, what)
    is_some = any(said and said.least is not None for (kind, _), said in answers.items() if kind in (WITHOUT, SLOWER))
    return lines + (rows(base, placing, answers) if is_some else [])


def decides(base, placing, answers):
    """Which message decides: the miss below the least window, or what makes a refused point accepted."""
    if base.said.accepted:
        lines = [f"least window: {base.least}"]
        if base.below:
            lines.append(f"decides: at window {base.below[0]}, {miss_told(placing, base.below[1])}")
        return lines
    lines = [f"refused: {miss_told(placing, base.said)}"]
    for kind, what in ((WITHOUT, "without"), (SLOWER, "half as often")):
        names = [name for one, name in answers if one == kind and answers[one, name] and answers[one, name].said.accepted]
        lines.append(f"accepted {what}: {listed(names, 'none of the messages, one at a time')}")
    return lines


def frees(base, answers, kind, what):
    """Which messages free most of the window."""
    if base.least is None:
        return []
    freed = {name: base.least - said.least for (one, name), said in answers.items()
             if one == kind and said and said.least is not None}
    best = [f"{name} {freed[name]}" for name in sorted(freed, key=lambda name: -freed[name]) if freed[name] > 0][:SHOWN]
    return [f"{what}, frees most of the least window, in bit times: {listed(best, 'no message')}"]


def rows(base, placing, answers):
    """A row for each message: its times, how far its deadline may be cut, and the least windows without it and with it
    half as often."""
    bus, width = placing.bus, max(len(it.message.name) for it in placing.placed)
    table = [f"{'message':{width}}  {'period':>8}  {'deadline':>8}  {'cut to':>8}  {'without':>8}  {'slower':>8}"]
    for it in placing.placed:
        name = it.message.name
        cut, own = answers[CUT, name]
        texts = [decimal(bus.millis(it.period)), decimal(bus.millis(own)),
                 decimal(bus.millis(cut)) if base.said.accepted else "",
                 *("refused" if not said or said.least is None else str(said.least)
                   for said in (answers[WITHOUT, name], answers[SLOWER, name]))]
        table.append(f"{name:{width}}  " + "  ".join(f"{text:>8}" for text in texts))
    return table + ["times are in ms, as the cycle rounds them; without, slower: the least window without the message, and "
                    "with it half as often"]
