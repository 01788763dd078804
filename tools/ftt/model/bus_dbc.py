"""The bus as a DBC file, so that a program that reads DBC shows a recording of it.

It has the triggers with their cycle, window and flags, and each message by its identifier on this bus.

A message of a DBC file keeps its signals. Another one of a slot has the number of the instance, as in a log of the
simulator; a polled one a mark and the data; an asynchronous one its data.
"""
import re
from collections import namedtuple

from ..limits import FEW_SLOTS, FIRST_SLOT, LENGTH, TRIGGERS, WINDOW
from ..telling import decimal
from . import attributes
from .bus import Entry
from .messages import id_text
from .polled import KIND

# A DBC file has names of at most so many letters.
SYMBOL = 32
# Who receives a signal where nobody is named.
ANYBODY = "Vector__XXX"
# A row that ends with a semicolon, maybe some lines below.
WORDS = "CM_|BA_|BA_DEF_|BA_DEF_DEF_|VAL_|VAL_TABLE_|SIG_VALTYPE_|SG_MUL_VAL_|SIG_GROUP_|BO_TX_BU_"
ROW = re.compile(rf'^[ \t]*((?:{WORDS})[ \t](?:{attributes.QUOTED}|[^";])*;)', re.MULTILINE | re.DOTALL)
# One that tells more of the signals of a message: its words up to the number of the message, and what follows.
TOLD = re.compile(r"(VAL_|SIG_VALTYPE_|SG_MUL_VAL_|CM_\s+SG_)\s+([0-9]+)\s+(.*)", re.DOTALL)

# What a DBC file has of signals: its nodes and its tables of values. By the number of a message the rows of its
# signals, and those that tell more of them, each as a word and what follows the number.
Source = namedtuple("Source", "nodes tables signals more")
# A message of the bus: its number, its symbol, its length, its sender, its rows SG_, its period in milliseconds, if it
# has one, and what is told of it.
Frame = namedtuple("Frame", "number symbol length sender signals period told")


def source_of(text):
    """What a DBC file has of signals."""
    text = text.removeprefix("\xef\xbb\xbf").replace("\r\n", "\n")
    # Words of a text that goes over several lines are no rows.
    plain, signals, number, nodes = attributes.plain(text), {}, None, []
    for row in plain.split("\n"):
        head = re.match(r"\s*BO_\s+([0-9]+)\s", row)
        if head is not None:
            number = int(head[1])
        elif re.match(r"\s*SG_\s", row) and number is not None:
            signals.setdefault(number, []).append(row.strip())
        elif re.match(r"\s*BU_\s*:", row):
            nodes += re.findall(r"\w+", row.partition(":")[2])
    more, rows = {}, ROW.findall(text)
    for match in filter(None, map(TOLD.fullmatch, rows)):
        more.setdefault(int(match[2]), []).append((re.sub(r"\s+", " ", match[1]), match[3]))
    return Source(nodes, [row for row in rows if row.startswith("VAL_TABLE_")], signals, more)


class Symbols:
    """Names that DBC takes: letters, digits and underscores, at most 32, each once."""

    def __init__(self, taken=()):
        self.taken = set(taken)

    def of(self, text):
        """A symbol for a text."""
        plain = re.sub(r"\W", "_", text, flags=re.ASCII)
        plain = plain if re.match(r"[A-Za-z_]", plain) else f"_{plain}"
        symbol, number = plain[:SYMBOL], 1
        while symbol in self.taken:
            number += 1
            symbol = f"{plain[:SYMBOL - len(str(number)) - 1]}_{number}"
        self.taken.add(symbol)
        return symbol


def signal(name, start, size, highest=None, *, is_big=False, low=0, unit="", receivers=ANYBODY):
    """A row SG_ of a whole number. The start of one that stands most significant byte first is its highest bit."""
    highest = 2 ** size - 1 if highest is None else highest
    return f'SG_ {name} : {start}|{size}@{0 if is_big else 1}+ (1,0) [{low}|{highest}] "{unit}" {receivers}'


def whole(name, length, byte=0):
    """A row SG_ of all bytes from one on, the most significant first; none where there are none."""
    return [signal(name, 8 * byte + 7, 8 * length, is_big=True)] if length else []


def behind_mark(row):
    """A row SG_ of a signal that stands one byte later, after the mark."""
    return re.sub(r"(:\s*)([0-9]+)\|", lambda it: f"{it[1]}{int(it[2]) + 8}|", row, count=1)


def triggers_of(slots, entries, sender, receivers, period):
    """The trigger, and where there are more than 40 slots the second one, with a flag for each slot."""
    names = {it.slot: it.message.name for it in entries}
    symbols, rows = Symbols(), ([], [])
    for slot in range(slots):
        is_second = slot >= FEW_SLOTS
        name = symbols.of(f"Flag_{slot:02d}" + (f"_{names[slot]}" if slot in names else ""))
        # Bytes 0 to 2 of the first frame are the cycle and the window, and byte 0 of the second one is the cycle.
        start = 8 + slot - FEW_SLOTS if is_second else 24 + slot
        rows[is_second].append(signal(name, start, 1, receivers=receivers))
    window = signal("FTT_Window", 15, 16, WINDOW[1], is_big=True, unit="bit", receivers=receivers)
    first = [signal("FTT_Cycle", 0, 8, receivers=receivers), window, *rows[0]]
    second = [signal("FTT_Cycle2", 0, 8, receivers=receivers), *rows[1]]
    frames = [Frame(TRIGGERS[0], "FTT_Trigger", LENGTH, sender, first, period, "the trigger of a cycle"),
              Frame(TRIGGERS[1], "FTT_Trigger2", LENGTH, sender, second, period, "the trigger's second frame")]
    return frames if len(rows[1]) else frames[:1]


def signals_of(it, source, is_by_instance):
    """The rows SG_ of a message."""
    message = it.message
    if source is not None and not (is_by_instance and isinstance(it, Entry)):
        rows = source.signals.get(message.id, [])
        return [signal("FTT_Asked", 0, 8, 1), *map(behind_mark, rows)] if message.kind == KIND else rows
    if not isinstance(it, Entry):
        return whole("Data", message.length)
    if message.kind == KIND:
        return [signal("FTT_Asked", 0, 8, 1), *whole("Data", message.length, 1)]
    return whole("Instance", it.length)


def number_of(it):
    """The identifier of a message on this bus."""
    return it.slot + FIRST_SLOT if isinstance(it, Entry) else it.id


def told_of(it):
    """What is told of a message: its name, how it is sent, and its own identifier."""
    own = "" if it.message.id is None else f", {id_text(it.message.id)} by itself"
    if not isinstance(it, Entry):
        return f"{it.message.name}: asynchronous{own}"
    kind = "polled" if it.message.kind == KIND else "sent"
    return f"{it.message.name}: slot {it.slot}, {kind} every {it.period} cycles, within {it.deadline}{own}"


def frames_of(bus, entries, owned, words, source):
    """The messages of the bus, and the symbols of its nodes."""
    nodes = Symbols([ANYBODY, *(source.nodes if source else ())])
    master = nodes.of("FTT_Master")
    known = dict(zip(source.nodes, source.nodes)) if source else {}
    senders = {}
    for it in [*entries, *owned]:
        name = it.message.sender
        if name not in senders:
            senders[name] = ANYBODY if name == ANYBODY else known.get(name) or nodes.of(name)
    listed = list(dict.fromkeys([master, *known, *(it for it in senders.values() if it != ANYBODY)]))
    receivers = ",".join(listed[1:]) or ANYBODY
    frames = triggers_of(words.slots, entries, master, receivers, bus.millis(1))
    symbols = Symbols(it.symbol for it in frames)
    for it in sorted([*entries, *owned], key=number_of):
        is_slot = isinstance(it, Entry)
        frames.append(Frame(number_of(it), symbols.of(it.message.name),
                            it.length if is_slot else it.message.length, senders[it.message.sender],
                            signals_of(it, source, words.instances), bus.millis(it.period) if is_slot else None,
                            told_of(it)))
    return frames, listed


def attributes_of(bus, frames, long_names):
    """The rows of attributes: periods and send types of messages, long names, and the bit rate."""
    rows = ['BA_DEF_ "BusType" STRING ;', 'BA_DEF_ "Baudrate" INT 0 1000000;',
            'BA_DEF_ BO_ "GenMsgCycleTime" FLOAT 0 100000000;', 'BA_DEF_ BO_ "GenMsgSendType" ENUM "Cyclic","Event";',
            'BA_DEF_ BO_ "SystemMessageLongSymbol" STRING ;', 'BA_DEF_DEF_ "BusType" "CAN";',
            'BA_DEF_DEF_ "Baudrate" 500000;', 'BA_DEF_DEF_ "GenMsgCycleTime" 0;',
            'BA_DEF_DEF_ "GenMsgSendType" "Cyclic";', 'BA_DEF_DEF_ "SystemMessageLongSymbol" "";',
            'BA_ "BusType" "CAN";', f'BA_ "Baudrate" {int(bus.kbits * 1000)};']
    for it in frames:
        if it.period is None:
            rows.append(f'BA_ "GenMsgSendType" BO_ {it.number} 1;')
        else:
            rows.append(f'BA_ "GenMsgCycleTime" BO_ {it.number} {decimal(it.period, 6)};')
    return rows + [f'BA_ "SystemMessageLongSymbol" BO_ {number} "{name}";' for number, name in long_names]


def text_of(bus, entries, owned, words, source):
    """The DBC file of the bus. The source, if there is one, is the DBC file of the messages."""
    frames, nodes = frames_of(bus, entries, owned, words, source)
    parts = ['VERSION ""', "NS_ :", "BS_:", f"BU_: {' '.join(nodes)}", *(source.tables if source else ())]
    for it in frames:
        parts.append("\n".join([f"BO_ {it.number} {it.symbol}: {it.length} {it.sender}",
                                *(f" {row}" for row in it.signals)]))
    comments, more, long_names = [], [], []
    for it in frames:
        told = it.told.replace("\\", "/").replace('"', "'")
        comments.append(f'CM_ BO_ {it.number} "{told}";')
    for it in entries + owned:
        number, name = number_of(it), it.message.name
        if len(name) > SYMBOL and re.fullmatch(r"\w+", name, re.ASCII):
            long_names.append((number, name))
        if source is not None and not (words.instances and isinstance(it, Entry)):
            more += [f"{word} {number} {rest}" for word, rest in source.more.get(it.message.id, [])]
    comments += [row for row in more if row.startswith("CM_")]
    parts += ["\n".join(comments), "\n".join(attributes_of(bus, frames, long_names)),
              "\n".join(row for row in more if not row.startswith("CM_"))]
    return "\n\n".join(part for part in parts if part) + "\n"

