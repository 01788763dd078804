"""Messages on a bus: slots and cycles for the synchronous ones, identifiers for the others."""
import math
from collections import namedtuple
from fractions import Fraction

from ..faults import Refused
from ..frames import TRIGGER, worst
from ..limits import CYCLE, FEW_SLOTS, FIRST_ASYNC, LAST_ASYNC, LENGTH, MANY_SLOTS, RATE, TIMES, WINDOW
from ..system import room
from ..telling import decimal
from . import disturbed, polled
from .messages import id_text, is_extended

# The kinds of messages that get slots, as they are told.
KINDS = {"sync": "synchronous", polled.KIND: "polled"}

# A message in its slot, synchronous or polled: the data bytes of its frame, and times in elementary cycles.
Entry = namedtuple("Entry", "message slot node length phase period deadline")
# An asynchronous message with the identifier that it has in the model.
Owned = namedtuple("Owned", "message id node")


def alike(messages, mistakes):
    """Refuses a name or an identifier that stands twice."""
    for field in ("name", "id"):
        seen = {}
        for message in messages:
            value = getattr(message, field)
            if value in (None, ""):
                continue
            if value in seen:
                mistakes.add(message.line, field, value if field == "name" else id_text(value),
                             f"it stands in line {seen[value]} too. Give each message its own.")
            seen.setdefault(value, message.line)


class Bus:
    """The bus: its rate, its cycle in bit times, and how times become cycles."""

    def __init__(self, kbits, cycle_us):
        if kbits > RATE:
            raise Refused(f"KBITS is {decimal(kbits)}, and CAN ends at {RATE} kbit/s. If this is in bit/s, write "
                          f"{decimal(kbits / 1000)}.")
        exact = kbits * cycle_us / 1000
        self.kbits, self.cycle = kbits, math.floor(exact)
        self.said = []
        if self.cycle != exact:
            self.said.append(f"a cycle of {decimal(cycle_us)} us is {decimal(exact)} bit times: {self.cycle} are taken")
        low, high = CYCLE
        if not low <= self.cycle <= high:
            raise Refused(f"CYCLE_US is {decimal(cycle_us)}: at {decimal(kbits)} kbit/s it is {self.cycle} bit times. "
                          f"Take {decimal(Fraction(low * 1000) / kbits)} to "
                          f"{decimal(Fraction(high * 1000) / kbits)} us.")

    def millis(self, cycles):
        """So many cycles in milliseconds."""
        return Fraction(cycles * self.cycle) / self.kbits

    def cycles(self, millis, field, message, least, mistakes):
        """A time as whole cycles, rounded down, and said where it was rounded."""
        exact = millis * self.kbits / self.cycle
        whole = math.floor(exact)
        if whole < least:
            mistakes.add(message.line, field, decimal(millis), f"it is {decimal(exact)} cycles, which becomes 0. Take "
                         "a shorter cycle, or a longer time.")
        elif whole > TIMES:
            mistakes.add(message.line, field, decimal(millis), f"it is {whole} cycles, above {TIMES}. Take a "
                         "longer cycle, or a shorter time.")
        elif whole != exact:
            self.said.append(f"line {message.line}, {field} of {message.name}: {decimal(millis)} ms is "
                             f"{decimal(exact)} cycles, {whole} {'is' if whole == 1 else 'are'} taken "
                             f"({decimal(self.millis(whole))} ms)")
        return max(whole, least)


def times_of(message, bus, mistakes):
    """The phase, the period and the deadline of a synchronous message in cycles; None where it has no period."""
    if message.period is None:
        return None
    period = bus.cycles(message.period, "period", message, 1, mistakes)
    deadline = period
    if message.deadline is not None:
        if message.deadline > message.period:
            mistakes.add(message.line, "deadline", decimal(message.deadline), f"it is above the period of "
                         f"{decimal(message.period)} ms. Take at most the period.")
        else:
            deadline = bus.cycles(message.deadline, "deadline", message, 1, mistakes)
    return bus.cycles(message.offset, "offset", message, 0, mistakes), period, deadline


def order_of(message):
    """The place of a message among others: by its identifier, and those without one last."""
    return message.id is None, message.id or 0


def slots_of(chosen, slots, mistakes, gone=()):
    """The slots of messages, by their lines: those that the list gives them, and for the others the lowest that are free, in
    the order of their identifiers. Slots that a message had which is gone are taken last."""
    taken, found = {}, {}
    for it in sorted(chosen, key=lambda it: it.line):
        if it.slot is None:
            continue
        if it.slot >= slots:
            mistakes.add(it.line, "slot", str(it.slot), f"there are {slots} slots, from 0 on. Take "
                         f"{'--slots 96' if it.slot < MANY_SLOTS and slots == FEW_SLOTS else 'a lower one'}.")
        elif it.slot in taken:
            mistakes.add(it.line, "slot", str(it.slot), f"it stands in line {taken[it.slot]} too. Give each message its own.")
        else:
            taken[it.slot] = it.line
            found[it.line] = it.slot
    free = iter(sorted((slot for slot in range(slots) if slot not in taken), key=lambda slot: (slot in gone, slot)))
    for it in sorted((it for it in chosen if it.slot is None), key=order_of):
        found[it.line] = next(free, 0)
    return found


def entries_of(messages, bus, nodes, slots, mistakes, gone=()):
    """The synchronous and the polled messages in their slots."""
    chosen = [message for message in messages if message.kind in KINDS]
    more = "Take --slots 96, make some asynchronous" if slots == FEW_SLOTS else "Make some asynchronous"
    for message in chosen[slots:]:
        mistakes.add(message.line, "name", message.name, f"this is a {KINDS[message.kind]} message beyond the {slots} "
                     f"slots. {more}, or leave some out.")
    chosen = chosen[:slots]
    placed, taken = slots_of(chosen, slots, mistakes, gone), {}
    for message in sorted(chosen, key=lambda it: it.line):
        of_kind = polled.times_of if message.kind == polled.KIND else times_of
        taken[message.line] = of_kind(message, bus, mistakes)
    return [Entry(message, placed[message.line], nodes[message.sender], message.length + (message.kind == polled.KIND),
                  *taken[message.line])
            for message in sorted(chosen, key=lambda it: placed.get(it.line, 0)) if taken[message.line] is not None
            and message.line in placed]


def owned_of(messages, nodes, renumber, mistakes, kept=None):
    """The asynchronous messages with their identifiers in the model. Those of 29 bits get free ones, and so do all where they
    are renumbered; but those that are kept, by the names of the messages, stay."""
    chosen, kept = sorted((it for it in messages if it.kind == "async"), key=order_of), kept or {}
    given = [it for it in chosen if renumber or is_extended(it.id)]
    for message in chosen:
        if message not in given and (message.id is None or not FIRST_ASYNC <= message.id <= LAST_ASYNC):
            why = f"{message.name} is asynchronous {message.why}. Such a" if message.why else "an asynchronous"
            mistakes.add(message.line, "id",
                         "" if message.id is None else id_text(message.id), f"{why} message "
                         "has 0x200 to 0x7ef. Give it another, or let --renumber do so.")
    found = {it.line: kept[it.name] for it in given if it.name in kept}
    taken = {it.id for it in chosen if it not in given} | set(kept.values())
    free = iter([it for it in range(FIRST_ASYNC, LAST_ASYNC + 1) if it not in taken])
    for message in given:
        if message.line not in found:
            found[message.line] = next(free, None)
            if found[message.line] is None:
                mistakes.add(message.line, "name", message.name, f"there are more than {LAST_ASYNC - FIRST_ASYNC + 1} "
                             "asynchronous messages. Leave some out.")
    return [Owned(it, found.get(it.line, it.id), nodes[it.sender]) for it in chosen]


def window_of(bus, words, entries, owned):
    """The window that is asked for; else all but one longest asynchronous frame, and not below one longest frame."""
    longest = max((worst(it.length) for it in entries), default=WINDOW[0])
    reserve = disturbed.reserve_of(words, entries)
    most = room(bus.cycle, words.slots, words.turnaround) - reserve
    spare = max((worst(it.message.length) for it in owned), default=worst(LENGTH)) + disturbed.guard_of(words)
    beside = f" and the reserve's {reserve} (--errors {words.errors})" if reserve else ""
    if longest > most:
        raise Refused(f"CYCLE_US is {decimal(words.cycle_us)}: a cycle has {bus.cycle} bit times, and the trigger, the "
                      f"turnaround{beside} and the longest frame need {bus.cycle - most + longest}. Take a longer cycle.")
    window = words.window or max(min(most - spare, WINDOW[1] - reserve), longest)
    if window < longest:
        raise Refused(f"--window is {window}: the longest frame has {longest} bit times and never fits. Take at least "
                      f"{longest}.")
    if window > most:
        raise Refused(f"--window is {window}: with the trigger's {TRIGGER[words.slots]} and the turnaround's "
                      f"{words.turnaround}{beside} it is above the cycle of {bus.cycle}. Take at most {most}, or a longer "
                      "cycle.")
    if window + reserve > WINDOW[1]:
        raise Refused(f"--errors is {words.errors}: a window of {window} and the reserve of {reserve} are more than the "
                      f"{WINDOW[1]} that a trigger can say. Take a narrower window, or fewer.")
    return window
