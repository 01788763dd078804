"""What phases are looked for in: a system and steps, or a list, at each point of a grid that leaves windows open."""
import math
import tomllib
from collections import namedtuple
from fractions import Fraction

from ..faults import Refused
from ..limits import MANY_SLOTS
from ..model import table
from ..model.bus import slots_of
from ..model.messages import Mistakes, text_of
from ..telling import decimal
from . import listed
from .engine import built, engine, first_call
from .files import rows_of, stepped
from .grid import read
from .placing import fields_of, messages_of, with_phases
from .ranges import axes_of, list_axes

MICROS = 1_000_000
# A point: the system as its tables, the steps up to the last change, what is written with other phases, and how these are
# told of: both are functions of the phases by slots. And what a user has to do with what is written.
Case = namedtuple("Case", "document text written told needs")


class FilesSubject:
    """A system and steps."""

    def __init__(self, words):
        self.words, self.system, self.steps = words, read(words.system), read(words.steps)
        self.rows = rows_of(self.steps)

    def axes(self):
        """The axes of the grid, without windows."""
        asked = vars(self.words) | {"window": None}
        if not any(asked[name] for name in ("policy", "fill", "deadline", "period")):
            return {}
        return axes_of(type(self.words)(**asked), self.rows)

    def slots(self):
        """The slots that have an entry after the last change."""
        return [it.slot for it in messages_of(stepped(self.rows, {}))]

    def engine(self):
        """What answers. It is asked of the files as they are first, and refuses them where they are none."""
        return first_call(engine(self.words), self.words)

    def at(self, values):
        """A point."""
        written = stepped(fields_of(self.steps), values)
        return Case(tomllib.loads(self.system), stepped(self.rows, values), lambda phases: with_phases(written, phases),
                    told_by_slots, "the system file has to have {}")


def told_by_slots(phases):
    """Phases by slots, in words."""
    return f"phases: {', '.join(f'slot {slot} {phase}' for slot, phase in phases.items())}"


class ListSubject:
    """A list in milliseconds."""

    def __init__(self, words):
        self.words, self.messages = words, listed.read(words.system)
        self.list = text_of(words.system)
        self.source = listed.Source(self.messages, [], words.turnaround, words.horizon)

    def axes(self):
        """The axes of the grid, without windows."""
        axes, _ = list_axes(self.words, self.messages)
        return {name: values for name, values in axes.items() if name != "window"}

    def slots(self):
        """The slots that have an entry."""
        return sorted(slots_of([it for it in self.messages if it.kind in listed.KINDS], MANY_SLOTS, Mistakes("")).values())

    def engine(self):
        """What answers."""
        return built(engine(self.words))

    def at(self, values):
        """A point."""
        try:
            placing = self.source.placing(values)
        except listed.Unfit as fault:
            raise Refused(f"{self.words.system}: {fault}") from fault
        by_slot = {it.slot: it.message for it in placing.placed}

        def millis(phases):
            return {by_slot[slot]: offset_text(placing.bus, phase) for slot, phase in phases.items()}

        def written(phases):
            return table.with_offsets(self.words.system, self.list, {it.line: text for it, text in millis(phases).items()})

        def told(phases):
            return f"offsets: {', '.join(f'{it.name} {text} ms' for it, text in millis(phases).items())}"
        document = tomllib.loads(placing.rules(max(placing.room, 55), values, self.source.horizon).text())
        return Case(document, placing.entries.text(), written, told, "with fttmodel take {}")


def offset_text(bus, cycles):
    """So many cycles in milliseconds, as a list has them: not less, so that they become as many cycles again."""
    exact = bus.millis(cycles)
    return decimal(exact if exact * MICROS % 1 == 0 else Fraction(math.floor(exact * MICROS) + 1, MICROS), 6)
