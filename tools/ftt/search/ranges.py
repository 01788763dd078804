"""The grid that the words of a call ask for."""
import hashlib
import math
import re

from ..faults import Refused
from ..limits import FEW_SLOTS, FILLS, MANY_SLOTS, POLICIES, SLOTS, TIMES, WINDOW
from ..model.bus import KINDS
from ..steps import slot_in
from ..telling import decimal
from .files import sum_of
from .grid import Amount, Grid, stepped_range
from .listed import fitting
from .refined import COARSE

POINTS = 200_000
# The values that each axis may have.
BOUNDS = {"window": WINDOW, "deadline": (1, TIMES), "period": (1, TIMES)}
# What stands in place of a step for the cycles in which some period or deadline is a whole number of cycles.
FIT = "fit"


def number_range(text, name):
    """The numbers of a RANGE, each once, in order."""
    low, high = BOUNDS[name]
    values = set()
    for part in text.split(","):
        match = re.fullmatch(r"([0-9]{1,6})(?::([0-9]{1,6})(?::([0-9]{1,6}))?)?", part)
        if match is None:
            raise Refused(f"--{name}: {part!r} is no range. Write FIRST:LAST, FIRST:LAST:STEP, or a number.")
        first, step = int(match[1]), int(match[3] or 1)
        last = first if match[2] is None else int(match[2])
        if step == 0 or last < first:
            raise Refused(f"--{name}: {part!r} has no number in it. Write the lesser one first, and a step above 0.")
        if first < low or last > high:
            raise Refused(f"--{name}: {part!r} is outside {low} to {high}. Take numbers of these.")
        values.update(range(first, last + 1, step))
    return sorted(values)


def word_list(text, name, known):
    """Words of a list, each once, in the order in which they are known."""
    words = text.split(",")
    wrong = next((word for word in words if word not in known), None)
    if wrong is not None:
        raise Refused(f"--{name}: {wrong!r} is none of {', '.join(known)}.")
    return [word for word in known if word in words]


def period_of(text, rows):
    """The slot and the periods of --period."""
    slot, sign, values = text.partition("=")
    if not sign or not re.fullmatch(r"[0-9]{1,2}", slot):
        raise Refused(f"--period: {text!r} is not of its form. Write SLOT=RANGE, such as 9=2:100.")
    if not any(slot_in(row) and row[slot_in(row)].lstrip("0") == slot.lstrip("0") for row in rows):
        raise Refused(f"--period: no row adds or changes an entry of slot {int(slot)}. Take a slot of STEPS.")
    return int(slot), number_range(values, "period")


def axes_of(words, rows):
    """The axes of the grid that is asked for: for each its values."""
    axes = {}
    if words.fill:
        axes["fill"] = word_list(words.fill, "fill", FILLS)
    for text in words.period or ():
        slot, values = period_of(text, rows)
        axes[f"period.{slot}"] = values
    if words.deadline:
        axes["deadline"] = number_range(words.deadline, "deadline")
    if words.policy:
        axes["policy"] = word_list(words.policy, "policy", POLICIES)
    if words.window:
        axes["window"] = number_range(words.window, "window")
    if not axes:
        raise Refused("nothing is asked for. Take --window, --policy, --fill, --deadline or --period.")
    return axes


def part_of(text):
    """K and N of --part."""
    match = re.fullmatch(r"([0-9]{1,6})/([0-9]{1,6})", text)
    if match is None or not 1 <= int(match[1]) <= int(match[2]):
        raise Refused(f"--part: {text!r} is not of its form. Write K/N, K from 1 to N.")
    return int(match[1]), int(match[2])


def amounts(text, name, messages=()):
    """The decimal numbers of a RANGE, each once, in order; and whether their steps may be refined."""
    values, is_plain = set(), True
    for part in text.split(","):
        match = re.fullmatch(r"(NUM)(?::(NUM)(?::(NUM|fit))?)?".replace("NUM", r"[0-9]{1,9}(?:\.[0-9]{1,6})?"), part)
        if match is None or match[3] == FIT and not messages:
            raise Refused(f"--{name}: {part!r} is no range. Write FIRST:LAST, FIRST:LAST:STEP, or a number.")
        first, last = Amount(match[1]), Amount(match[2] or match[1])
        if last < first or not first or match[3] not in (None, FIT) and not Amount(match[3]):
            raise Refused(f"--{name}: {part!r} has no number in it. Write the lesser one first, and a step above 0.")
        if match[3] == FIT:
            values.update(map(Amount, fitting(messages, math.ceil(first), math.floor(last))))
            is_plain = False
            continue
        step = Amount(match[3] or 1)
        if (last - first) / step > POINTS:
            raise Refused(f"--{name}: {part!r} has more than {POINTS} numbers. Take a greater step.")
        values.update(stepped_range(first, last, step))
    return sorted(values), is_plain


def slots_of(text, messages):
    """The numbers of slots that are asked for; without them the least that the messages fit."""
    if text is None:
        most = max((it.slot for it in messages if it.slot is not None), default=0)
        is_few = sum(it.kind in KINDS for it in messages) <= FEW_SLOTS and most < FEW_SLOTS
        return [FEW_SLOTS if is_few else MANY_SLOTS]
    return [int(word) for word in word_list(text, "slots", [str(it) for it in SLOTS])]


def named_period(text, messages):
    """The name of a message and the text of its periods in milliseconds."""
    name, sign, values = text.rpartition("=")
    if not sign:
        raise Refused(f"--period: {text!r} is not of its form. Write NAME=RANGE, such as speed=5:100:5.")
    if not any(it.name == name and it.kind in KINDS for it in messages) or "=" in name:
        raise Refused(f"--period: no synchronous or polled message has the name {name!r}. Take one of the list.")
    return name, values


def list_axes(words, messages):
    """The axes of a grid over a list, and which of them are refined."""
    asked = {"kbits": amounts(words.kbits, "kbits"), "cycle_us": amounts(words.cycle_us, "cycle-us", messages)}
    for text in words.period or ():
        name, values = named_period(text, messages)
        asked[f"period_ms.{name}"] = amounts(values, "period")
    if words.deadline:
        asked["deadline_ms"] = amounts(words.deadline, "deadline")
    axes = {name: values for name, (values, _) in asked.items()}
    refined = [name for name, (values, is_plain) in asked.items() if words.refine and is_plain and name != "kbits"
               and len(values) > COARSE]
    axes["slots"] = slots_of(words.slots, messages)
    axes["fill"] = word_list(words.fill, "fill", FILLS) if words.fill else list(FILLS)
    axes["policy"] = word_list(words.policy, "policy", POLICIES) if words.policy else list(POLICIES)
    axes["window"] = number_range(words.window, "window") if words.window else None
    if axes["window"] is None or words.refine and len(axes["window"]) > COARSE:
        refined.append("window")
    return axes, refined


def sum_of_list(messages, turnaround, horizon):
    """A sum over a list: what its messages are, the turnaround and the horizon."""
    rows = [(it.name, it.sender, it.length, *(None if time is None else decimal(time, 12) for time in
             (it.period, it.deadline, it.offset)), it.id, it.kind, it.priority, *([] if it.slot is None else [it.slot]))
            for it in messages]
    return hashlib.sha256(repr((rows, turnaround, horizon)).encode("utf-8", "surrogateescape")).hexdigest()[:16]


def list_grid(words, messages):
    """The grid that the words ask for over a list."""
    axes, refined = list_axes(words, messages)
    check_size({name: values for name, values in axes.items() if name != "window"}, "lines")
    return Grid(axes, files=sum_of_list(messages, words.turnaround, words.horizon), refined=refined)


def refined_grid(words, rows, system, streams=None):
    """The grid of lines that the words ask for over a system and steps. The window is its last axis."""
    axes = axes_of(words, rows)
    if "window" not in axes:
        raise Refused("--refine takes lines along the window. Take --window too.")
    axes["window"] = axes.pop("window")
    check_size({name: values for name, values in axes.items() if name != "window"}, "lines")
    refined = [name for name, values in axes.items() if name not in ("policy", "fill") and len(values) > COARSE]
    return Grid(axes, files=sum_of(system, rows, streams), refined=refined)


def check_size(axes, what="points"):
    """Refuses a grid that is too large."""
    many = math.prod(len(values) for values in axes.values())
    if many > POINTS:
        raise Refused(f"the grid has {many} {what}. Take at most {POINTS}: greater steps, or shorter ranges.")


def asked_grid(words, rows, system, streams=None):
    """The grid that the words ask for."""
    axes = axes_of(words, rows)
    check_size(axes)
    return Grid(axes, part_of(words.part or "1/1"), sum_of(system, rows, streams))
