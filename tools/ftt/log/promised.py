"""The bounds of asynchronous requests beside what a log shows: which are broken, and which requests break theirs."""
import pathlib
import tomllib

from .. import bounds, declared, places
from ..frames import TRIGGER
from ..telling import listed, some
from .rows import NoLog, Summary, duration

# So many requests that are later than their bound are told.
SHOWN = 20


def read_declared(path):
    """The streams that a file declares."""
    found, faults = declared.declared_in(pathlib.Path(path).read_bytes())
    if faults:
        raise NoLog(f"{path}: line {faults[0].line}: {faults[0].what}")
    return found


def layout_in(path):
    """The layout of a system file."""
    try:
        layout = bounds.layout_of(tomllib.loads(pathlib.Path(path).read_text(encoding="utf-8-sig")))
        if all(isinstance(it, int) for it in layout) and layout.slots in TRIGGER:
            return layout
    except (tomllib.TOMLDecodeError, UnicodeDecodeError, KeyError, TypeError, AttributeError):
        pass
    raise NoLog(f"{path}: this is no system file; {places.tool('fttlint')} says why")


def look_at_layout(path, layout, rows, end):
    """Refuses a system that is not that of the log."""
    found = Summary(rows)
    if found.many and found.many * layout.cycle != end:
        raise NoLog(f"{path}: its cycles have {layout.cycle} bit times, and those of the log {end // found.many}")
    if found.widest > layout.window:
        raise NoLog(f"{path}: its window has {layout.window} bit times, and the log has one of {found.widest}")


class Promised:
    """What is promised of the requests of a file by the streams that are declared, on the bus of a system."""

    def __init__(self, words, rows, end):
        self.requests, self.kbits, self.end = words.requests, words.kbits, end
        self.declared, layout = read_declared(words.bounds), layout_in(words.system)
        look_at_layout(words.system, layout, rows, end)
        streams = [it.stream for it in self.declared]
        self.spans = {it.id: bounds.start_bound(layout, streams, it) for it in streams}
        self.by_id = {it.stream.id: it for it in self.declared}

    def bound(self, identifier):
        """From an arrival to the end of the frame, as the latencies are; None where there is no bound."""
        span = self.spans.get(identifier)
        return None if span is None else bounds.to_the_end(self.by_id[identifier].stream, span)

    def deadline(self, identifier):
        """The deadline of an identifier; None where none is declared."""
        return self.by_id[identifier].deadline if identifier in self.by_id else None

    def columns(self):
        """What stands beside the latencies of an identifier: the bound, and the deadline where one is declared."""
        has_deadlines = any(it.deadline is not None for it in self.declared)
        return {"bound": self.bound, **({"deadline": self.deadline} if has_deadlines else {})}

    def unkept(self, asked):
        """What is said of requests that break their stream, the first one and how many there are; None where none is."""
        found = list(declared.breaks_of(self.declared, asked))
        if not found:
            return None
        first, what = found[0]
        more = f" {some(len(found) - 1, 'request')} more break theirs." if len(found) > 1 else ""
        return f"{self.requests}: line {first.line}: {what}{more}"

    def broken(self, identifier, sends):
        """What is said of requests of an identifier that started later than their bound, or not at all. Those for
        which the run is too short do not count."""
        span = self.spans.get(identifier)
        for it in sends if span is not None else ():
            if it.at + span > self.end or it.start is not None and it.start < it.at + span:
                continue
            if it.start is None:
                told = f"was not sent by the end of the run, {duration(self.end - it.at, self.kbits)} after its arrival"
            else:
                told = f"started {duration(it.start - it.at, self.kbits)} after its arrival (row {it.row} of the log)"
            yield (f"{self.requests}: line {it.line}: the request of {identifier:03x} {told}, and its bound is "
                   f"{duration(span - 1, self.kbits)}.")

    def told(self, asked, sends):
        """What is said of the bounds below the table, and whether one is broken. Where a request breaks its stream no
        bound is promised, and that is said."""
        none = [f"{identifier:03x}" for identifier in self.by_id if self.bound(identifier) is None]
        front, unkept = f"without a bound: {listed(none)}\n" if none else "", self.unkept(asked)
        if unkept is not None:
            return f"{front}no bound holds: {unkept}\n", True
        broken = [what for identifier, of_one in sends.items() for what in self.broken(identifier, of_one)]
        if not broken:
            return f"{front}bounds: none is broken\n", False
        more = [f"and {some(len(broken) - SHOWN, 'request')} more\n"] if len(broken) > SHOWN else []
        return front + "".join([*(f"broken: {it}\n" for it in broken[:SHOWN]), *more]), True
