"""How late each message with a slot is at worst, with any data, by the plan of the table."""
from collections import namedtuple
from fractions import Fraction

from ..desk import Asked, Rules, desk, tell
from ..limits import OPERATIONS
from ..report.telling import down, up
from ..switch.lists import operation
from ..switch.said import Teller, why_refused
from ..switch.sweep import table_of
from ..telling import fixed, some
from ..worst import worst_of
from . import polled

# A message at worst: its entry; how many bit times from its release, or of a polled one from a request, to the end of its
# frame; the cycle that sends it so; its deadline in milliseconds, and what is left of it.
Late = namedtuple("Late", "entry bits cycle millis deadline left")
# What a plan is: the base, what was refused or None, and the messages at worst by their slots.
Planned = namedtuple("Planned", "base refused late")


def setup_of(entries):
    """The changes that add entries, as the steps of fttmodel have them."""
    found = []
    for first in range(0, len(entries), OPERATIONS):
        found.append(Asked(1, 0, [operation("add", it) for it in entries[first:first + OPERATIONS]]))
    return found


def deadline_of(entry):
    """The deadline that the list asks for, in milliseconds."""
    message = entry.message
    return message.period if message.deadline is None else message.deadline


def planned_of(asked_of, bus, entries, words, window, nodes):
    """The plan of a table, and each message at worst."""
    rules = Rules(bus.cycle, words.turnaround, window, nodes, words.slots, words.policy, words.fill, words.horizon)
    setup = setup_of(entries)
    base = asked_of.base(asked_of, rules, setup)
    if base.refused is not None or not entries:
        return Planned(base, base.refused, [])
    found, late = worst_of(table_of(setup), base.masks(), bus.cycle, base.begin), []
    for it in entries:
        bits = found[it.slot].bits + (it.period * bus.cycle if it.message.kind == polled.KIND else 0)
        millis = Fraction(bits) / bus.kbits
        late.append(Late(it, bits, found[it.slot].cycle, millis, deadline_of(it), deadline_of(it) - millis))
    return Planned(base, None, late)


def rows_of(planned):
    """The table of the messages at worst, each row as texts."""
    return [(it.entry.message.name, str(it.entry.slot), up(it.millis), fixed(it.deadline, 3), down(it.left))
            for it in planned.late]


HEAD = ("message", "slot", "worst", "deadline", "left")


def told(bus, entries, words, window, nodes):
    """The lines of the worst cases, and warnings."""
    asked_of = desk()
    tell(asked_of, "fttmodel")
    planned = planned_of(asked_of, bus, entries, words, window, nodes)
    if planned.refused is not None:
        names = {it.slot: it.message.name for it in entries}
        return [], [f"the table is refused, so no worst case is known: {why_refused(planned.refused, 0, Teller(names))}. "
                    "fttsearch says which window or policy helps."]
    if not entries:
        return [], []
    base = planned.base
    every = "cycle" if base.length == 1 else some(base.length, "cycle")
    lines = [f"worst: with any data, from the release to the end of the frame, in ms, of a polled message from a request. From "
             f"cycle {base.first} on the plan repeats every {every}"]
    rows = [HEAD, *rows_of(planned)]
    widths = [max(len(row[at]) for row in rows) for at in range(len(HEAD))]
    lines += ["  " + "  ".join([row[0].ljust(widths[0]), *(cell.rjust(width) for cell, width in zip(row[1:], widths[1:]))])
              for row in rows]
    least = min(planned.late, key=lambda it: it.left)
    lines.append(f"least left: {down(least.left)} ms, of {least.entry.message.name}")
    warnings = [f"line {it.entry.message.line}: {it.entry.message.name} may take {up(it.millis)} ms, above its deadline of "
                f"{fixed(it.deadline, 3)}" for it in planned.late if it.left < 0]
    return lines, warnings


def add(lines, bus, entries, words, window, nodes):
    """Adds the lines of the worst cases to what is told, and gives the warnings."""
    more, warnings = told(bus, entries, words, window, nodes)
    lines += more
    return warnings
