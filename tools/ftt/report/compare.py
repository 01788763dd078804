"""What changed from one design to another: the system, messages, slots, times and verdicts."""
from collections import namedtuple

from ..telling import decimal, listed, some
from .design import bus_id
from .telling import down, percent, up

# A difference: what it is about, and what is said of it.
Difference = namedtuple("Difference", "about told")

KEYS = (("bit rate", lambda it: f"{decimal(it.kbits)} kbit/s"), ("cycle", lambda it: f"{decimal(it.cycle_ms, 6)} ms"),
        ("turnaround", lambda it: f"{it.rules.turnaround} bit times"), ("window", lambda it: f"{it.rules.window} bit times"),
        ("nodes", lambda it: str(it.rules.nodes)), ("slots", lambda it: str(it.rules.slots)),
        ("policy", lambda it: it.rules.policy), ("filling", lambda it: it.rules.fill),
        ("horizon", lambda it: f"{it.rules.horizon} cycles"))


def ms(value):
    """A time as text; a dash where there is none."""
    return "-" if value is None else f"{decimal(value)} ms"


def of_slot(design):
    """What a message with a slot has, each as a name and how it is told."""
    return (("sender", lambda it: it.sender), ("kind", lambda it: it.kind), ("length", lambda it: f"{it.entry.length} bytes"),
            ("period", lambda it: ms(it.period)),
            ("period taken", lambda it: ms(it.entry.period * design.cycle_ms)), ("deadline", lambda it: ms(it.deadline)),
            ("deadline taken", lambda it: ms(it.entry.deadline * design.cycle_ms)),
            ("offset", lambda it: ms(it.entry.phase * design.cycle_ms)), ("priority", lambda it: str(it.priority)),
            ("identifier in the list", lambda it: it.real or "-"))


def of_owned(design):
    """The same of an asynchronous message."""
    return (("sender", lambda it: it.sender), ("identifier", lambda it: f"{it.id:#05x}"),
            ("length", lambda it: "-" if it.stream is None else f"{it.stream.bytes} bytes at most"),
            ("least distance", lambda it: "-" if it.stream is None else ms(design.millis(it.stream.gap))),
            ("deadline", lambda it: "-" if it.deadline is None else ms(design.millis(it.deadline))),
            ("bound", lambda it: "none" if it.bound is None else f"{up(design.millis(it.bound))} ms"))


def changed(old, new, fields_old, fields_new):
    """What two messages differ in, as a text; nothing where in nothing."""
    pairs = ((name, told(old), told_new(new)) for (name, told), (_, told_new) in zip(fields_old, fields_new))
    return ", ".join(f"{name} {before} -> {after}" for name, before, after in pairs if before != after)


def first_told(design, it):
    """A message with a slot that came or went."""
    return (f"{it.name} in slot {it.slot} ({bus_id(it.slot)}): {some(it.entry.length, 'byte')} of {it.sender}, every "
            f"{decimal(it.entry.period * design.cycle_ms)} ms, {it.kind}")


def by_name(messages):
    """Messages by their names."""
    return {it.name: it for it in messages}


def slots_told(old, new):
    """The differences of messages with slots."""
    before, after, found = by_name(old.messages), by_name(new.messages), []
    for name in [it for it in before if it not in after]:
        found.append(Difference("gone", first_told(old, before[name])))
    for name in [it for it in after if it not in before]:
        found.append(Difference("new", first_told(new, after[name])))
    both = [name for name in before if name in after]
    moved = [name for name in both if before[name].slot != after[name].slot]
    if moved:
        shown = listed([f"{name} {before[name].slot} -> {after[name].slot}" for name in moved[:6]]
                       + ([f"{len(moved) - 6} more"] if len(moved) > 6 else []))
        found.append(Difference("slots", f"{len(moved)} of {some(len(both), 'message')} have another slot, and so another "
                                         f"identifier on the bus: {shown}"))
    for name in both:
        told = changed(before[name], after[name], of_slot(old), of_slot(new))
        if told:
            found.append(Difference("changed", f"{name}: {told}"))
    return found


def owned_told(old, new):
    """The differences of asynchronous messages."""
    before, after, found = by_name(old.owned), by_name(new.owned), []
    found += [Difference("gone", f"{name} ({before[name].id:#05x}), asynchronous") for name in before if name not in after]
    found += [Difference("new", f"{name} ({after[name].id:#05x}), asynchronous") for name in after if name not in before]
    for name in [it for it in before if it in after]:
        told = changed(before[name], after[name], of_owned(old), of_owned(new))
        if told:
            found.append(Difference("changed", f"{name}: {told}"))
    return found


def late_told(old, new):
    """How the worst cases differ."""
    before, found = by_name(old.messages), []
    for it in new.messages:
        other = before.get(it.name)
        if other is None or None in (it.worst, other.worst) or new.millis(it.worst) == old.millis(other.worst):
            continue
        found.append(Difference("worst case", f"{it.name}: {up(old.millis(other.worst))} -> {up(new.millis(it.worst))} ms of "
                                              f"{decimal(new.due(it))} ms"))
    return found


def verdict_of(design):
    """Whether a design is accepted, in words."""
    if design.refused is not None:
        return f"refused: {design.refused}"
    return f"accepted, repeats every {some(design.base.length, 'cycle')}"


def left_of(design):
    """The least that is left of a deadline, in words."""
    least = design.least_left()
    return "-" if least is None else f"{down(least[0])} ms of {least[1].name}"


def switches_of(design):
    """The changes that its steps ask for while something runs, in words."""
    return listed([f"{some(len(it.asked), 'change')} before cycle {it.at}" for it in design.blocks], "none")


def differences(old, new):
    """What changed from an old design to a new one, both with their plans."""
    found = [Difference("system", f"{name} {told(old)} -> {told(new)}") for name, told in KEYS if told(old) != told(new)]
    found += slots_told(old, new) + owned_told(old, new)
    for about, told in (("verdict", verdict_of), ("load", lambda it: percent(sum(it.shares().values()))),
                        ("least left", left_of), ("switches", switches_of)):
        if told(old) != told(new):
            found.append(Difference(about, f"{told(old)} -> {told(new)}"))
    return found + late_told(old, new)
