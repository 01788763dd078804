"""A header for C with the identifiers, lengths and times of all messages, as constants of the preprocessor."""
import re

from ..frames import TRIGGER
from ..limits import FIRST_SLOT, MANY_SLOTS, TRIGGERS
from ..telling import decimal
from . import polled
from .messages import id_text

FRONT = "FTT"


def word_of(name, taken):
    """A name as a word of C in capitals, which no other name has."""
    word = re.sub(r"[^A-Z0-9]+", "_", name.upper()).strip("_") or "MESSAGE"
    other, number = word, 2
    while other in taken:
        other, number = f"{word}_{number}", number + 1
    taken.add(other)
    return other


def comment(text):
    """A text that ends no comment."""
    return text.replace("*/", "* /").replace("/*", "/ *").replace("??/", "? ?/")


def us_of(bus, cycles):
    """So many cycles in microseconds, rounded down to whole ones."""
    return int(bus.millis(cycles) * 1000)


def of_slot(bus, it, word):
    """The constants of a message with a slot."""
    kind = "polled" if it.message.kind == polled.KIND else "synchronous"
    rows = [("ID", f"0x{FIRST_SLOT + it.slot:03X}u", f"on this bus; {kind}"), ("SLOT", f"{it.slot}u", ""),
            ("NODE", f"{it.node}u", it.message.sender),
            ("LENGTH", f"{it.length}u", "bytes" + (", the mark included" if kind == "polled" else "")),
            ("PERIOD_CYCLES", f"{it.period}u", ""), ("DEADLINE_CYCLES", f"{it.deadline}u", ""),
            ("PHASE_CYCLES", f"{it.phase}u", ""), ("PERIOD_US", f"{us_of(bus, it.period)}ul", ""),
            ("DEADLINE_US", f"{us_of(bus, it.deadline)}ul", "")]
    if it.message.id is not None:
        rows.append(("REAL_ID", f"0x{id_text(it.message.id)[2:].upper()}u", "in the list"))
    return [(f"{FRONT}_{word}_{name}", value, told) for name, value, told in rows]


def of_owned(it, word):
    """The constants of an asynchronous message."""
    rows = [("ID", f"0x{it.id:03X}u", "asynchronous"), ("NODE", f"{it.node}u", it.message.sender),
            ("LENGTH", f"{it.message.length}u", "bytes at most")]
    if it.message.period:
        rows.append(("LEAST_DISTANCE_US", f"{int(it.message.period * 1000)}ul", "of two requests"))
    return [(f"{FRONT}_{word}_{name}", value, told) for name, value, told in rows]


def of_bus(bus, words, window, entries):
    """The constants of the bus."""
    return [(f"{FRONT}_TRIGGER_ID", f"0x{TRIGGERS[0]:03X}u", ""),
            *([(f"{FRONT}_TRIGGER_2_ID", f"0x{TRIGGERS[1]:03X}u", "")] if words.slots == MANY_SLOTS else []),
            (f"{FRONT}_FIRST_SLOT_ID", f"0x{FIRST_SLOT:03X}u", "slot s has this and s"),
            (f"{FRONT}_SLOTS", f"{words.slots}u", ""), (f"{FRONT}_BIT_RATE", f"{int(bus.kbits * 1000)}ul", "bit/s"),
            (f"{FRONT}_CYCLE_BITS", f"{bus.cycle}ul", "bit times"), (f"{FRONT}_CYCLE_US", f"{us_of(bus, 1)}ul", ""),
            (f"{FRONT}_WINDOW_BITS", f"{window}u", "at most"), (f"{FRONT}_TURNAROUND_BITS", f"{words.turnaround}u", ""),
            (f"{FRONT}_TRIGGER_BITS", f"{TRIGGER[words.slots]}u", "at most"),
            (f"{FRONT}_MESSAGES", f"{len(entries)}u", "with a slot")]


def text_of(bus, entries, owned, words, window):
    """The header."""
    taken, blocks = {"TRIGGER", "TRIGGER_2", "FIRST_SLOT", "CYCLE", "WINDOW", "TURNAROUND"}, []
    blocks.append((f"the bus: {decimal(bus.kbits)} kbit/s, cycles of {decimal(bus.millis(1), 6)} ms",
                   of_bus(bus, words, window, entries)))
    for it in entries:
        blocks.append((it.message.name, of_slot(bus, it, word_of(it.message.name, taken))))
    for it in sorted(owned, key=lambda it: it.id):
        blocks.append((it.message.name, of_owned(it, word_of(it.message.name, taken))))
    lines = ["/* made by fttmodel: the messages of a bus with FTT-CAN. Times are those after rounding. */",
             "#ifndef FTT_BUS_H", "#define FTT_BUS_H"]
    for told, rows in blocks:
        lines += ["", f"/* {comment(told)} */"]
        wide = max(len(name) for name, _, _ in rows)
        for name, value, more in rows:
            lines.append(f"#define {name.ljust(wide)} {value}" + (f" /* {comment(more)} */" if more else ""))
    return "\n".join([*lines, "", "#endif", ""])
