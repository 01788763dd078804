"""A log in sentences, and as JSON."""
import json
import re
import textwrap

from ..limits import FIRST_SLOT, OPERATIONS
from ..masks import slots_of
from ..steps import ENTRY
from ..table import silence_of
from ..telling import listed, some
from .rows import NoLog, Summary, cycles_of, duration, is_slot, millis
from .slots import accepted
from .steps import Asked, answered

WIDTH = 100
# So many cycles of a missed instance's plan are told at its beginning, and so many at its end.
AT_EDGES = 6
WHYS = {
    1: "it has no operation",
    2: f"it has more than {OPERATIONS} operations",
    3: "its start is 2^40 or later",
    4: "operation {op} names a slot that the system does not have",
    5: "operation {op} names a slot that an earlier operation of the change has",
    6: "operation {op} names a node that the system does not have",
    7: "operation {op} has a length above 8 bytes",
    8: "operation {op} has period 0",
    9: "operation {op} has a deadline of 0 or above its period",
    10: "the slot of operation {op} is taken{until}",
    11: "the slot of operation {op} has no live entry",
}


def operation_told(operation, names):
    """An operation of a change, in words."""
    fields, who = operation.fields, names.of_slot(operation.fields["SLOT"])
    if operation.word == "remove":
        return f"remove {who}"
    _, node, length, phase, period, deadline, priority = (fields[it] for it in ENTRY)
    told = f"{operation.word} {who}: {some(length, 'byte')} of node {node}, period {period}"
    told += f", deadline {deadline}" if deadline != period else ""
    told += f", phase {phase}" if phase else ""
    return told + (f", priority {priority}" if priority else "")


def silence_told(operation, change, table, names, bit_times):
    """How long a changed slot is silent, as a sentence. A cycle has so many bit times at a rate in kbit/s, if both are
    known."""
    last, first = silence_of(operation, change, table)
    who = names.of_slot(operation.fields["SLOT"]).replace("slot", "Slot", 1)
    if last is None:
        return f"{who} has no old instance; the first new one is that of cycle {first}."
    told = some(first - last, "cycle")
    if bit_times is not None:
        length, kbits = bit_times
        told += f", {millis((first - last) * length, kbits)} ms"
    return f"{who} releases nothing for {told}: its last old instance is that of cycle {last}, the first new one that of cycle {first}."


def verdict_told(origin, verdict, fields, names):
    """A verdict in sentences, without the plan of a miss."""
    if verdict == "accepted":
        first, length = fields
        every = "cycle" if length == "1" else f"{length} cycles"
        return f"Accepted: no deadline is missed at any cycle. From cycle {first} on the plan repeats every {every}."
    if verdict == "malformed":
        op, why = int(fields[0]), int(fields[1])
        until = f" until cycle {fields[2]}" if len(fields) > 2 else " by a live entry"
        broken = WHYS.get(why, "an unknown rule").format(op=op, until=until)
        return f"Refused: {broken} (rule {why}). Nothing is changed."
    if verdict == "passed":
        start, following = fields
        return (f"Refused: its start is cycle {start}, and the next cycle to be opened is {following}. "
                "Nothing is changed.")
    if verdict == "horizon":
        first, walked = fields
        return (f"Undecided, and so refused: the plan from cycle {first} on did not repeat within "
                f"{some(walked, 'cycle')}. A longer horizon may decide it. Nothing is changed.")
    slot, release, cycle = (int(field) for field in fields)
    return (f"Refused: {names.of_slot(slot)} would be missed. Its instance of cycle {release} would not be sent by the "
            f"end of cycle {cycle}. Nothing is changed. The plan that was made before cycle {origin}:")


def reported_told(word, fields, names):
    """What a row after the row `end` says, as a sentence: one of the report, or of requests that ride on slots."""
    if word == "entry":
        slot, origin, instances, least, greatest = fields
        late = ""
        if least is not None:
            spread = greatest if least == greatest else f"{least} to {greatest}"
            late = f", {spread} cycle{'' if spread == '1' else 's'} after the release"
        name = names.of_slot(int(slot)).replace("slot", "Slot", 1)
        return f"{name}, the entry from cycle {origin} on: {some(instances, 'instance')} sent{late}."
    if word == "async":
        return (f"{names.of(int(fields[0], 16))}: {some(fields[1], 'frame')} sent, {some(fields[2], 'request')} left. "
                "A request after the end of the run counts as left.")
    if word == "ride":
        slot, number, release, cycle = fields
        return (f"Request {number} of the streams rides on {names.of_slot(int(slot))}: released in cycle {release}, "
                f"sent in cycle {cycle}.")
    if word == "waits":
        return f"Request {fields[1]} of the streams still waits for {names.of_slot(int(fields[0]))}."
    least, greatest, total = fields
    spread = "" if least is None else f", {least} to {greatest} in a cycle"
    return f"Synchronous windows: {some(total, 'bit time')} together{spread}."


class Teller:
    """Puts the sentences of a log, wrapped, with what belongs below a sentence after a margin."""

    def __init__(self, names, asked, kbits, is_all, put, length=None):
        self.names, self.asked, self.kbits, self.is_all, self.put = names, asked, kbits, is_all, put
        self.sending, self.missed, self.plan, self.table = None, None, [], {}
        self.bit_times = None if None in (length, kbits) else (length, kbits)

    def line(self, text, margin=""):
        """Puts a text, in as many lines as it needs."""
        if len(margin) + len(text) <= WIDTH:
            self.put(f"{margin}{text}\n")
            return
        self.put(textwrap.fill(text, WIDTH, initial_indent=margin, subsequent_indent=margin + "    ",
                               break_long_words=False, break_on_hyphens=False) + "\n")

    def finish(self):
        """Tells the cycle, or the plan of a miss, that the rows so far were of."""
        if self.sending is not None:
            cycle, mask, width, frames = self.sending
            flagged = listed([self.names.of_slot(slot) for slot in slots_of(mask)], "no slot")
            self.line(f"Cycle {cycle} opens for {flagged}. Its synchronous window has "
                      f"{duration(int(width), self.kbits)}.")
            for start, length, identifier in frames:
                at = start if self.kbits is None else duration(int(start), self.kbits)
                self.line(f"at {at}: {self.names.of(identifier)}, {duration(int(length), self.kbits)} long", "  ")
        if self.missed is not None and self.plan:
            self.miss()
        self.sending, self.missed, self.plan = None, None, []

    def miss(self):
        """Tells the plan of a miss, cycle by cycle from the release on: what takes the place of the missed slot."""
        slot, release, _ = self.missed
        plan = [row for row in self.plan if self.is_all or int(row[0]) >= release]
        hidden = range(0)
        if not self.is_all and len(plan) > 2 * AT_EDGES:
            hidden = range(AT_EDGES, len(plan) - AT_EDGES)
        for place, (cycle, mask) in enumerate(plan):
            if place not in hidden:
                went = listed([self.names.of_slot(it) for it in slots_of(mask)])
                waits = f", and slot {slot} waits" if int(cycle) >= release else ""
                self.line(f"cycle {cycle} sends {went}{waits}", "    ")
            elif place == hidden[0]:
                self.line(f".. {some(len(hidden), 'more cycle')}; --all has them", "    ")
        if any(int(cycle) >= release and not slots_of(mask) for cycle, mask in self.plan):
            self.line("A cycle sends nothing though a slot waits: a frame of the table is longer than the window. "
                      "No other change helps; take a wider window or a shorter frame.", "  ")

    def submitted(self, fields, place):
        """Tells a change and its verdict."""
        operator, origin, verdict, rest = fields
        rest = rest.split(",")
        if self.asked is None:
            self.line(f"Operator {operator} asked before cycle {origin} for a change.")
        else:
            act = self.asked.next("submit", int(operator), place)
            self.line(f"Operator {operator} asked before cycle {origin} for a change from cycle {act.start} on (line "
                      f"{act.line} of the steps):")
            for operation in act.operations:
                self.line(operation_told(operation, self.names), "  ")
        for sentence in re.split(r"(?<=[.]) ", verdict_told(origin, verdict, rest, self.names)):
            self.line(sentence, "  ")
        if verdict == "accepted" and self.asked is not None:
            after = accepted(self.table, act)
            for operation in act.operations:
                if operation.word == "change":
                    self.line(silence_told(operation, act, self.table, self.names, self.bit_times), "  ")
            self.table = after
        if verdict == "miss":
            self.missed = [int(field) for field in rest]

    def passed(self, word, fields, place):
        """Takes a call that is not told of."""
        if self.asked is not None and word in ("submit", "look"):
            act = self.asked.next(word, int(fields[0]), place)
            if word == "submit" and fields[2] == "accepted":
                self.table = accepted(self.table, act)

    def reported(self, word, fields):
        """Tells a row after the row `end`."""
        self.line(reported_told(word, fields, self.names))

    def row(self, word, fields, place):
        """Takes the next row of the log."""
        if word == "frame":
            if self.sending is not None:
                self.sending[3].append((fields[0], fields[1], int(fields[2], 16)))
        elif word == "plan":
            self.plan.append(fields)
        else:
            self.finish()
            if word == "submit":
                self.submitted(fields, place)
            elif word == "look":
                act = None if self.asked is None else self.asked.next("look", int(fields[0]), place)
                line = "" if act is None else f" (line {act.line} of the steps)"
                self.line(f"Operator {fields[0]} looked{line}: the next cycle to be opened is {fields[1]}.")
            elif word == "open":
                self.sending = (*fields, [])
            elif word == "end":
                self.line(f"The run ends after {some(fields[0], 'cycle')}.")
            else:
                self.reported(word, fields)


def say(rows, names, words, put):
    """Sentences on each row of the log and of its report, or on those of some cycles, or on changes alone."""
    length, asked = None, None
    if words.steps is not None:
        answered(rows, words.steps)
        asked = Asked(words.steps)
        try:
            length = Summary(rows).length()
        except NoLog:
            pass
    teller = Teller(names, asked, words.kbits, words.all, put, length)
    for (word, fields, place), is_told in cycles_of(rows, words.first, words.last):
        if not is_told:
            teller.passed(word, fields, place)
        elif not words.changes or word not in ("open", "frame"):
            teller.row(word, fields, place)
    teller.finish()


KEYS = {
    "accepted": ("first", "length"), "malformed": ("op", "why", "until"), "passed": ("start", "next"),
    "miss": ("slot", "release", "cycle"), "horizon": ("from", "walked"), "plan": ("cycle", "mask"),
    "look": ("caller", "next"), "open": ("cycle", "mask", "width"), "frame": ("start", "length", "id", "data"),
    "end": ("next",), "entry": ("slot", "origin", "instances", "least", "greatest"), "async": ("id", "sent", "left"),
    "load": ("least", "greatest", "sum"), "ride": ("slot", "number", "release", "cycle"), "waits": ("slot", "number"),
}
TEXTS = ("mask", "id", "data")


def as_json(rows, names, put):
    """One JSON object a row. Numbers are numbers; masks, identifiers and data are the texts of the log."""
    def value(key, field):
        return field if key in TEXTS or field is None else int(field)

    for word, fields, _ in rows:
        told = {"row": word}
        if word == "submit":
            told |= {"caller": int(fields[0]), "from": int(fields[1]), "verdict": fields[2]}
            told |= {key: int(field) for key, field in zip(KEYS[fields[2]], fields[3].split(","))}
        else:
            told |= {key: value(key, field) for key, field in zip(KEYS[word], fields)}
        if "mask" in told:
            told["slots"] = slots_of(told["mask"])
        identifier = int(told["id"], 16) if "id" in told else None
        if word == "frame" and is_slot(identifier):
            told["slot"] = identifier - FIRST_SLOT
        if identifier is not None and names.own(identifier) is not None:
            told["name"] = names.own(identifier)
        put(json.dumps(told) + "\n")
