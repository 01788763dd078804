"""Messages of a DBC file, by the attributes that are usual in it. docs/tools.md has the rules as a table.

No promise gets weaker without a word: the period of a slot is the least that the file asks for, and what the model does
not keep is told in a warning.
"""
import re
from collections import namedtuple
from fractions import Fraction

from ..faults import Refused
from ..limits import LAST_ID, LENGTH
from ..telling import decimal, some
from . import attributes
from .messages import LAST_EXTENDED, Message, Read, is_extended

NOBODY = "Vector__XXX"
DIAGNOSIS = ("DiagRequest", "DiagResponse", "DiagState", "DiagUudResponse", "DiagUudtResponse")
# The attributes that are times, in milliseconds.
TIMES = ("GenMsgCycleTime", "GenMsgCycleTimeFast", "GenMsgDelayTime", "GenMsgStartDelayTime", "GenSigCycleTime",
         "GenSigCycleTimeActive")

# A row BO_, with its signals.
Head = namedtuple("Head", "line number name length sender signals")
# What a send type says. One that says nothing is that of a message whose signals decide.
Sending = namedtuple("Sending", "is_cyclic is_event is_fast")
SILENT = Sending(False, False, False)


def sending_of(word):
    """What the word of a send type says. One that is not known here is taken for cyclic, which promises the most."""
    plain = re.sub(r"[^a-z]", "", word.lower())
    without = "(a|non|not)(cyclic|periodic)"
    is_fast = re.search("(?<!in)active|fast", plain) is not None
    is_event = re.search(f"spont|trigger|event|write|change|request|demand|{without}", plain) is not None
    is_cyclic = is_fast or re.search("cycl|period", re.sub(without, "", plain)) is not None
    if not is_cyclic and not is_event and re.match("none|no[a-z]*send|notused", plain):
        return SILENT
    return Sending(is_cyclic or not is_event, is_event, is_fast)


def heads_of(text, mistakes):
    """The rows BO_ of a text, each with the names of its signals."""
    heads = []
    for line, row in enumerate(text.split("\n"), 1):
        signal = re.match(r"\s*SG_\s+(\w+)", row)
        if signal is not None and heads:
            heads[-1].signals.append(signal[1])
        if not re.match(r"\s*BO_\s", row):
            continue
        head = re.fullmatch(r"\s*BO_\s+([0-9]{1,10})\s+(\w+)\s*:\s*([0-9]{1,9})\s+(\w+)\s*", row)
        if head is None:
            mistakes.add(line, "the row", row.strip(), "Write BO_ IDENTIFIER NAME: LENGTH SENDER.")
        else:
            heads.append(Head(line, int(head[1]), head[2], int(head[3]), head[4], []))
    return [head for head in heads if head.name != "VECTOR__INDEPENDENT_SIG_MSG"]


def why_left_out(head, form, is_mapped):
    """Why the model can't have a message whose frames have this form; None where it can. One of 29 bits it can where those
    are mapped."""
    if "FD" in form.upper() or form in ("14", "15"):
        return f"it is sent by CAN FD (VFrameFormat {form})"
    if head.length > LENGTH:
        return f"it has {head.length} bytes, and a frame at most {LENGTH}"
    if is_extended(head.number):
        if not is_mapped:
            return f"its identifier has 29 bits, {head.number & LAST_EXTENDED:#x}. --map takes it"
    elif head.number > LAST_ID:
        return f"its identifier is {head.number:#x}, above 0x7ff"
    return None


class Reader:
    """Reads the messages of a file, and keeps what is told of them."""

    def __init__(self, known, period_attribute):
        self.known = known
        self.periods = ("GenMsgCycleTime",) + ((period_attribute,) if period_attribute else ())
        self.notes, self.warnings = [], []
        self.by_event, self.too, self.silent = [], [], []

    def warn(self, head, what):
        """A warning about a message."""
        self.warnings.append(f"line {head.line}: {head.name} {what}")

    def least(self, names, owner):
        """The least time above 0 of these attributes; 0 where there is none."""
        return min((time for name in names for time in [self.known.time(name, owner)] if time), default=Fraction(0))

    def sending(self, head):
        """How a message is sent, by its own send type, or by those of its signals."""
        word = self.known.value("GenMsgSendType", head.number)
        sending = Sending(True, False, False) if word is None else sending_of(word)
        signals = [(head.number, name) for name in head.signals]
        # A message that has a send type does not become cyclic by a default.
        told = [sending_of(self.known.value("GenSigSendType", it) or "none")._replace(
            **({} if sending == SILENT or self.known.is_own("GenSigSendType", it) else {"is_cyclic": False}))
                for it in signals]
        found = Sending(*(any(it) for it in zip(sending, *told)))
        # Where nothing is said of events, a period of its own decides.
        return Sending(True, False, False) if found == SILENT and self.has_own_cycle(head) else found

    def has_own_cycle(self, head):
        """Whether a cycle time is a message's own, or that of one of its signals, and no default."""
        return any(self.known.is_own(it, head.number) for it in self.periods) or any(
            self.known.is_own("GenSigCycleTime", (head.number, it)) for it in head.signals)

    def cycle(self, head, sending):
        """The least period that the file asks for; 0 where it asks for none."""
        signals = [(head.number, name) for name in head.signals]
        times = [self.least(self.periods, head.number), *(self.least(("GenSigCycleTime",), it) for it in signals)]
        fast = [self.least(("GenMsgCycleTimeFast",), head.number),
                *(self.least(("GenSigCycleTimeActive",), it) for it in signals)]
        least = min((it for it in times if it), default=Fraction(0))
        quick = min((it for it in fast if it), default=Fraction(0))
        if not sending.is_fast:
            if sending.is_cyclic and quick and (not least or quick < least) and self.known.is_own(
                    "GenMsgCycleTimeFast", head.number):
                self.warn(head, f"has a GenMsgCycleTimeFast of {decimal(quick)} ms, which its send type does not ask "
                          "for: it is not taken.")
            return least
        return min((it for it in (least, quick) if it), default=Fraction(0))

    def sender(self, head):
        """The node that sends a message: the first one that is named."""
        named = [head.sender, *self.known.senders.get(head.number, [])]
        senders = list(dict.fromkeys(it for it in named if it != NOBODY))
        if len(senders) > 1:
            self.warn(head, f"has the senders {', '.join(senders)} (BO_TX_BU_). The model has {senders[0]} alone.")
        return self.known.text("SystemNodeLongSymbol", senders[0]) if senders else NOBODY

    def event(self, head, word, name, cycle):
        """Notes a message that is sent on events, and has no slot whatever its cycle time is."""
        self.by_event.append(f"{name} ({word})")
        if cycle and self.has_own_cycle(head):
            self.warn(head, f"has a cycle time of {decimal(cycle)} ms, and gets no slot: it is sent on events "
                      f"({word}). Give it a cyclic send type for a slot.")

    def message(self, head):
        """The message of a row BO_."""
        sending = self.sending(head)
        cycle = self.cycle(head, sending)
        name = self.known.text("SystemMessageLongSymbol", head.number) or head.name
        diagnosis = next((it for it in DIAGNOSIS if self.known.is_yes(it, head.number)), None)
        word = diagnosis or self.known.value("GenMsgSendType", head.number) or "no send type"
        kind, why, offset = "async", f"by its send type, {word}", Fraction(0)
        period = self.known.time("GenMsgDelayTime", head.number)
        if not diagnosis and sending == SILENT:
            self.silent.append(name)
            why = "since the file gives it neither a send type nor a period of its own"
        elif diagnosis or not sending.is_cyclic:
            self.event(head, word, name, cycle)
        elif not cycle:
            why = f"without a period ({' or '.join(self.periods)})"
        else:
            kind, why, period = "sync", "", cycle
            offset = self.known.time("GenMsgStartDelayTime", head.number)
            if sending.is_event:
                self.too.append(f"{name} ({word})")
        return Message(head.line, name, self.sender(head), head.length, period or None, None, offset, head.number, kind,
                       0, why)

    def times(self, head):
        """What the file says of a message's times, whatever is made of it: the cycle time, the fast one, the least distance,
        the delay of the start, and the send type."""
        signals = [(head.number, name) for name in head.signals]
        own = self.known.value("GenMsgSendType", head.number)
        cycles = [self.least(self.periods, head.number), *(self.least(("GenSigCycleTime",), it) for it in signals)]
        fast = [self.least(("GenMsgCycleTimeFast",), head.number),
                *(self.least(("GenSigCycleTimeActive",), it) for it in signals)]
        least = [min((it for it in times if it), default=Fraction(0)) for times in (cycles, fast)]
        return [decimal(it, 12) if it else "" for it in (*least, self.known.time("GenMsgDelayTime", head.number),
                                                         self.known.time("GenMsgStartDelayTime", head.number))] + [own or ""]

    def close(self, messages, kbits):
        """Tells what is said of all messages together."""
        if self.by_event:
            self.notes.append(f"asynchronous by their send types: {', '.join(self.by_event)}")
        if self.silent:
            self.notes.append(f"asynchronous, with neither a send type nor a period of their own: {', '.join(self.silent)}")
        if self.too:
            self.warnings.append(f"sent on events too, which wait for the next period here: {', '.join(self.too)}.")
        rate = self.known.rate()
        if rate and kbits is not None and all(abs(rate - it) * 1000 > rate for it in (kbits * 1000, kbits)):
            self.warnings.append(f"Baudrate is {decimal(rate)} in the file, and KBITS is {decimal(kbits)}. Is the rate "
                                 "right?")
        if not any(it.kind == "sync" for it in messages):
            names = ", ".join(sorted(self.known.of_messages)) or "none"
            self.warnings.append("no message has a period, so none gets a slot. Name the attribute with "
                                 f"--period-attribute; those of messages are: {names}.")


def read(path, text, kbits, words, mistakes):
    """The messages of a DBC file, on a bus of this rate. What the model can't have is left out, or with --strict
    refused."""
    text = attributes.plain(text)
    known = attributes.Attributes(text, (*TIMES, words.period_attribute), mistakes)
    if words.period_attribute and words.period_attribute not in known.of_messages:
        raise Refused(f"--period-attribute is '{words.period_attribute}': the file has no attribute of messages of "
                      f"this name. It has {', '.join(sorted(known.of_messages)) or 'none'}.")
    reader, messages, left, times = Reader(known, words.period_attribute), [], [], {}
    for head in heads_of(text, mistakes):
        why = why_left_out(head, known.value("VFrameFormat", head.number) or "", words.map)
        if why is None:
            messages.append(reader.message(head))
            times[head.line] = reader.times(head)
        else:
            name = known.text("SystemMessageLongSymbol", head.number) or head.name
            left.append((head.line, f"{name} is left out: {why}."))
    if left and (words.strict or not messages):
        mistakes.lines += [f"{path}:{line}: {what}" for line, what in left]
    elif messages:
        reader.close(messages, kbits)
    if words.map and any(is_extended(it.id) for it in messages):
        reader.notes.append(f"mapped: {some(sum(is_extended(it.id) for it in messages), 'message')} with 29-bit identifiers, "
                            "which names.csv keeps as real_id")
    return Read(messages, reader.notes, [f"line {line}: {what}" for line, what in left] + reader.warnings, times)
