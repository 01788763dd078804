"""Makes the files of fttcan from a list of messages in milliseconds.

    tools/fttmodel KBITS CYCLE_US MESSAGES OUT [options]
    tools/fttmodel --from-recording RECORDING [--interface NAME] > MESSAGES
    tools/fttmodel --from-dbc FILE [--period-attribute NAME] [--strict] > MESSAGES
    tools/fttmodel --report FOLDER [--since OLD] ..
    tools/fttmodel --compare OLD NEW

KBITS is the bit rate in kbit/s and CYCLE_US the elementary cycle in microseconds. MESSAGES is a CSV file with a header
row, or a DBC file if its name ends with .dbc; docs/tools.md says how its attributes are read. OUT is a folder; it is
made if it is not there. The files system.toml, steps.csv and names.csv in OUT are replaced, and with asynchronous
messages also async.csv, which declares how far apart their requests are.

The columns of the CSV file, in any order:

    name      the name of the message; each name once
    sender    the name of the node that sends it
    length    its data bytes, 0 to 8
    period    in milliseconds; an asynchronous message may have none
    deadline  in milliseconds, at most the period; without one, the period. That of an asynchronous message is compared
              with its bound
    offset    in milliseconds, up to the first release; without one, 0
    id        its CAN identifier, decimal or 0x..; slots are given in the order of identifiers
    kind      sync, polled or async; without one, sync. A polled message comes when it likes, and has a deadline: a
              slot with one byte more asks for it, and keeps it. `period` is then its least distance, if one is known
    priority  0 to 255; between equal keys of the policy the lower one goes first; without one, 0
    slot      its slot, from 0 on; each once. Without one it gets the lowest that is free

name, sender, length and period are needed. Names of times may end with _ms. Fields may be separated by semicolons or
tabs in place of commas, and then times may have decimal commas. A column whose name begins with # is left
out, and so is a row whose first field begins with #. Any other column is left out, and a line
says so, unless its name is near one of these.

--from-recording makes such a list from a recording of a plain CAN bus, as `candump -L` writes it: identifiers, lengths,
periods and least distances. What a recording can't tell is left open. --from-dbc makes one from a DBC file, to which
deadlines can be added. --report writes a page about the files that were made, and --compare says what changed.

Two commands, at 250 kbit/s and with cycles of 5 ms: the files in the folder mine, and the run.

    tools/fttmodel 250 5000 messages.csv mine --policy dm --window 370
    fttcan replay mine/system.toml mine/steps.csv > log

Status: 0 written; 1 written, with warnings; 2 a mistake in a message or an option, nothing is written; 3 a file that
can't be read or written; 4 wrong words, or a Python before 3.11.

This program is a help for people. Nothing of it is proved, and nothing that is proved rests on it.
"""
import argparse
import csv
import pathlib
import re
import sys
from fractions import Fraction

from .. import limits
from ..command import Help, Parser, needs_tomllib, put_lines, stop, takes_version
from ..faults import Refused, Unread
from ..telling import listed, some
from . import arrivals, bus_dbc, dbc, disturbed, kept, lists, promised, table
from .bus import Bus, alike, entries_of, owned_of, window_of
from .files import names_text, steps_text, system_text, write_all
from .messages import Mistakes, read_text, text_of
from .said import common_period, told


def is_dbc(path):
    """Whether a file is a DBC file by its name."""
    return path.lower().endswith(".dbc")


def messages_of(words, text, mistakes):
    """What the file of messages has."""
    if is_dbc(words.messages):
        return dbc.read(words.messages, text, words.kbits, words, mistakes)
    if words.strict or words.period_attribute:
        raise Refused("--strict and --period-attribute are for a DBC file, whose name ends with .dbc. Leave them out.")
    return table.read(words.messages, text, mistakes, words.map)


def nodes_of(messages, mistakes, kept=None):
    """The senders of messages, each with its number. Some are kept; the others get the lowest ones that are free."""
    nodes, most, kept = {}, limits.NODES[1], kept or {}
    free = iter([it for it in range(most) if it not in kept.values()])
    for message in messages:
        if message.sender in nodes:
            continue
        number = kept.get(message.sender)
        number = next(free, None) if number is None else number
        if number is None:
            mistakes.add(message.line, "sender", message.sender, f"this is a sender beyond the {most} nodes. Let some "
                         "nodes share a name.")
        nodes[message.sender] = number or 0
    return nodes


def more_of(words, text, bus, entries, owned, cycles):
    """The files that are made where they are asked for, requests and bus.dbc; what is told of them, and warnings."""
    texts, lines, warnings = {}, [], []
    if words.requests is not None:
        texts, lines, warnings = arrivals.texts_of(words, arrivals.Asking(bus, entries, owned, cycles))
    elif words.seed is not None or words.start is not None:
        raise Refused("--seed and --from are for --requests. Leave them out.")
    if words.dbc or words.instances or words.signals:
        text = text_of(words.signals) if words.signals else text if is_dbc(words.messages) else None
        source = None if text is None else bus_dbc.source_of(text)
        texts["bus.dbc"] = bus_dbc.text_of(bus, entries, owned, words, source)
    return texts, lines, warnings


def model(words):
    """Reads the messages, writes the files, and says what was done. The status."""
    bus = Bus(words.kbits, words.cycle_us)
    mistakes = Mistakes(words.messages)
    text, encoding = read_text(words.messages)
    read = messages_of(words, text, mistakes)
    messages = read.messages
    if not messages and not mistakes.lines:
        raise Refused(f"{words.messages}:1: there are no messages. Write a row for each.")
    alike(messages, mistakes)
    old = kept.read(words.keep)
    messages = kept.pinned(messages, old, words.keep, mistakes)
    nodes = nodes_of(messages, mistakes, old.nodes)
    gone = set(old.slots.values()) - {it.slot for it in messages}
    entries = entries_of(messages, bus, nodes, words.slots, mistakes, gone)
    owned = owned_of(messages, nodes, words.renumber, mistakes, old.ids)
    promised.check(bus, messages, mistakes)
    mistakes.stop()
    least = max(nodes.values(), default=0) + 1
    count = words.nodes or least
    if count < least:
        raise Refused(f"--nodes is {count}: the messages have {some(len(nodes), 'sender')}. Take at least "
                      f"{least}.")
    window = window_of(bus, words, entries, owned)
    cycles = words.cycles
    if cycles is None:
        cycles = min(max((it.phase for it in entries), default=0) + common_period(entries), limits.CYCLES)
    lines, warnings = told(bus, entries, owned, words, window, nodes)
    folder = pathlib.Path(words.out)
    texts = {"system.toml": system_text(bus, owned, words, window, count),
             "steps.csv": steps_text(entries, cycles), "names.csv": names_text(entries, owned)}
    if owned:
        texts["async.csv"] = promised.text_of(bus, owned)
    if words.worst:
        from . import worst  # pylint: disable=import-outside-toplevel
        read.warnings.extend(worst.add(lines, bus, entries, words, window, count))
    if words.header:
        from . import header  # pylint: disable=import-outside-toplevel
        texts["bus.h"] = header.text_of(bus, entries, owned, words, window)
    more, said, warned = more_of(words, text, bus, entries, owned, cycles)
    texts |= more
    write_all(folder, texts)
    if words.keep is not None:
        lines[2:2] = kept.told(messages, entries, old, words.keep)
    lines[2:2] = [*([] if encoding is None else [f"{words.messages}: {encoding}"]), *read.notes]
    lines += said
    warnings = read.warnings + warnings + warned
    lines += [f"warning: {warning}" for warning in warnings]
    why = put_lines([*lines, f"written: {listed(texts)} in {folder}"])
    if why is not None:
        raise Unread(why)
    return 1 if warnings else 0


def within(low, high):
    """A reader of whole numbers in a range."""
    def read(text):
        if not re.fullmatch(r"[0-9]+", text) or not low <= int(text) <= high:
            raise argparse.ArgumentTypeError(f"{text!r} is no whole number from {low} to {high}")
        return int(text)
    return read


def positive(text):
    """A decimal number above 0."""
    if not re.fullmatch(r"[0-9]+(\.[0-9]+)?", text) or not Fraction(text):
        raise argparse.ArgumentTypeError(f"{text!r} is no number above 0, such as 500 or 83.333")
    return Fraction(text)


def not_below_0(text):
    """A decimal number of at least 0."""
    if not re.fullmatch(r"[0-9]+(\.[0-9]+)?", text):
        raise argparse.ArgumentTypeError(f"{text!r} is no number of milliseconds, such as 0 or 0.8")
    return Fraction(text)


def parser():
    """The reader of the words."""
    made = Parser(prog="fttmodel", description=__doc__, formatter_class=Help)
    made.add_argument("kbits", metavar="KBITS", type=positive, help="the bit rate in kbit/s, as 500 or 83.333")
    made.add_argument("cycle_us", metavar="CYCLE_US", type=positive, help="the elementary cycle in microseconds")
    made.add_argument("messages", metavar="MESSAGES", help="the CSV or DBC file")
    made.add_argument("out", metavar="OUT", help="the folder for the files")
    made.add_argument("--window", type=within(*limits.WINDOW), help="the synchronous window in bit times; without it, "
                      "all that leaves room for the longest asynchronous frame, or for 8 bytes if there is none")
    made.add_argument("--turnaround", type=within(*limits.TURNAROUND), default=0, help="in bit times; without it 0")
    made.add_argument("--errors", metavar="K", type=within(0, disturbed.MOST), help="leave room for K disturbances of each "
                      "synchronous window, and say what that takes; without it none is planned for")
    made.add_argument("--policy", choices=limits.POLICIES, default="rm", help="without it rm")
    made.add_argument("--fill", choices=limits.FILLS, default="prefix", help="what a cycle does at a message "
                      "that doesn't fit any more: it ends there, or passes over it; without it prefix")
    made.add_argument("--slots", type=int, choices=limits.SLOTS, default=limits.FEW_SLOTS, help="how many synchronous "
                      "messages there may be; with 96 a cycle has two trigger frames, 270 bit times in place of 135; "
                      "without it 40")
    made.add_argument("--horizon", type=within(*limits.HORIZON), default=limits.USUAL_HORIZON,
                      help="in cycles; without it 10000")
    made.add_argument("--nodes", type=within(*limits.NODES), help="how many nodes; without it, as many as senders")
    made.add_argument("--cycles", type=within(0, limits.CYCLES), help="how many cycles the steps open; without it, "
                      "one common period after the greatest offset, at most 20000")
    made.add_argument("--renumber", action="store_true", help="give asynchronous messages 0x200, 0x201, .. in the "
                      "order of their identifiers")
    made.add_argument("--keep", metavar="NAMES", help="keep the slots, the nodes and the identifiers that messages of the "
                      "same names have in this names.csv of an earlier call. New ones get others")
    made.add_argument("--map", action="store_true", help="take messages with 29-bit identifiers, as of J1939 and ISOBUS: "
                      "slots and free identifiers stand for theirs")
    made.add_argument("--period-attribute", metavar="NAME", help="of a DBC file: the attribute of messages that has "
                      "the period in milliseconds, beside GenMsgCycleTime")
    made.add_argument("--requests", metavar="WHAT", help="write the requests of asynchronous messages into "
                      "requests.csv, and those of polled ones into streams.csv. WHAT is `together`: all come at once, "
                      "and again as often as they may; `random`; or a CSV file with the columns at, name and data, its "
                      "times in milliseconds")
    made.add_argument("--seed", type=within(0, 1 << 32), help="the number from which random requests come; "
                      "without it 1")
    made.add_argument("--from", dest="start", metavar="MS", type=not_below_0, help="when the first requests come at the "
                      "earliest, in milliseconds; without it 0")
    made.add_argument("--dbc", action="store_true", help="write bus.dbc too: the triggers, and each message by its "
                      "identifier on this bus, with the signals that a DBC file has of it")
    made.add_argument("--instances", action="store_true", help="write bus.dbc, in which each slot has the number of "
                      "the instance, as in a log of the simulator")
    made.add_argument("--worst", action="store_true", help="say how late each message with a slot is at worst, with any data, "
                      "by the plan: of the program that FTTCAN names, else of the library libfttcan.so.1 if it is found, else "
                      "of tools/reference")
    made.add_argument("--header", action="store_true", help="write bus.h too: the identifiers, lengths and times of all "
                      "messages for C")
    made.add_argument("--strict", action="store_true", help="refuse a DBC file with a message that would be left out")
    made.add_argument("--signals", metavar="FILE", help="write bus.dbc with the signals that this DBC file has of the "
                      "messages with the same identifiers")
    made.add_argument("--from-dbc", metavar="FILE", help="alone, in front: print a list of messages from a DBC file")
    made.add_argument("--report", metavar="FOLDER", help="alone, in front: write a page about the files of a folder; "
                      "--report --help says the words")
    made.add_argument("--compare", metavar="OLD", help="alone, in front: say what changed from the files of one folder to "
                      "those of another; --compare --help says the words")
    made.add_argument("--from-recording", metavar="RECORDING", help="alone, in front: print a list of messages from a "
                      "recording")
    takes_version(made)
    return made


def main():
    """Reads the words, and does what they ask. The status."""
    needs_tomllib("fttmodel")
    if sys.argv[1:2] in (["--report"], ["--compare"]):
        from ..report import main as reported  # pylint: disable=import-outside-toplevel
        return reported(sys.argv[1:])
    try:
        of_list = {lists.RECORDING: lists.from_recording, lists.DBC: lists.from_dbc}.get("".join(sys.argv[1:2]))
        if of_list is not None:
            return of_list(sys.argv[2:])
        reader = parser()
        words = reader.parse_args()
        if words.from_recording is not None or words.from_dbc is not None:
            reader.error("--from-recording and --from-dbc stand in front: --from-recording RECORDING > MESSAGES")
        if words.report is not None or words.compare is not None:
            reader.error("--report and --compare stand in front: --report FOLDER")
        return model(words)
    except (Refused, csv.Error) as fault:
        print(fault, file=sys.stderr)
        return 2
    except Unread as fault:
        print(fault, file=sys.stderr)
        return 3
    except KeyboardInterrupt:
        return stop("fttmodel")
