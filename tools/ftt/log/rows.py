"""The rows of a log as values, and how its frames are called."""
import csv
import fractions
import re

from ..limits import FIRST_SLOT, LAST_ID, LAST_SLOT, MANY_SLOTS, TRIGGERS
from ..telling import fixed, some

NUMBER = r"(0|[1-9][0-9]*)"
NUMBERS = r"(?:0|[1-9][0-9]*)(?:,(?:0|[1-9][0-9]*))*"
# Ten digits, and 24 where a slot from 40 on is among them.
MASK = r"([0-9a-f]{10}|(?!0{14})[0-9a-f]{24})"
ROWS = {
    "submit": re.compile(rf"submit,{NUMBER},{NUMBER},(accepted|malformed|passed|miss|horizon),({NUMBERS})"),
    "plan": re.compile(rf"plan,{NUMBER},{MASK}"),
    "look": re.compile(rf"look,{NUMBER},{NUMBER}"),
    "open": re.compile(rf"open,{NUMBER},{MASK},{NUMBER}"),
    "frame": re.compile(rf"frame,{NUMBER},{NUMBER},([0-9a-f]{{3}}),((?:[0-9a-f]{{2}}){{0,8}})"),
    "end": re.compile(rf"end,{NUMBER}"),
    "entry": re.compile(rf"entry,{NUMBER},{NUMBER},{NUMBER},{NUMBER}?,{NUMBER}?"),
    "async": re.compile(rf"async,([0-9a-f]{{3}}),{NUMBER},{NUMBER}"),
    "load": re.compile(rf"load,{NUMBER}?,{NUMBER}?,{NUMBER}"),
    "ride": re.compile(rf"ride,{NUMBER},{NUMBER},{NUMBER},{NUMBER}"),
    "waits": re.compile(rf"waits,{NUMBER},{NUMBER}"),
}
# The rows after the row `end`: those of the report, and those of requests that ride on polled slots.
RIDES = ("ride", "waits")
REPORT = ("entry", "async", "load", *RIDES)
# How many fields each verdict has after its word.
FIELDS = {"accepted": (2,), "malformed": (2, 3), "passed": (2,), "miss": (3,), "horizon": (2,)}


class NoLog(Exception):
    """A row, or a row of another file, that can't stand there."""


def rows_of(lines, first=1):
    """The rows of a log with its report: the word of each, its fields, and its place, from 1 or the first one."""
    for place, line in enumerate(lines, first):
        line = line.rstrip("\r\n")
        word = line.split(",", 1)[0]
        match = ROWS[word].fullmatch(line) if word in ROWS else None
        if match is None or word == "submit" and len(match[4].split(",")) not in FIELDS[match[3]]:
            raise NoLog(f"row {place}: {line!r} is no row of a log")
        yield word, match.groups(), place


def is_slot(identifier):
    """Whether a frame with this identifier is synchronous."""
    return FIRST_SLOT <= identifier <= LAST_SLOT


# What a file of names has to have, as the end of a line that refuses one.
NAMES = "names are rows SLOT,NAME or 0xID,NAME, as in names.csv of fttmodel"
HEADER = "slot_or_id"


def named_by(key):
    """The identifier that a key of a file of names stands for: a slot, or an identifier with 0x. None for no key."""
    if re.fullmatch("0x[0-9a-fA-F]{1,3}", key):
        identifier = int(key, 16)
        return identifier if identifier <= LAST_ID else None
    return FIRST_SLOT + int(key) if re.fullmatch("[0-9]{1,2}", key) and int(key) < MANY_SLOTS else None


def named_rows(path):
    """The rows of a file of names after its header row, each with its place. Without a header row they have two fields
    and no more, so that no other list with a number in front, such as one of messages, is taken for names."""
    try:
        with open(path, encoding="utf-8-sig", newline="") as file:
            rows = [(place, [it.strip() for it in row]) for place, row in enumerate(csv.reader(file), 1)]
    except (csv.Error, UnicodeDecodeError) as fault:
        raise NoLog(f"{path}: {fault}; {NAMES}") from fault
    rows = [(place, row) for place, row in rows if any(row) and not row[0].startswith("#")]
    if rows and rows[0][1][0] == HEADER:
        return rows[1:]
    if rows and named_by(rows[0][1][0]) is None:
        raise NoLog(f"{path}: row {rows[0][0]}: {rows[0][1][0]!r} is no slot, and a header row begins with {HEADER}; "
                    f"{NAMES}")
    place = next((place for place, row in rows if any(row[2:])), None)
    if place is not None:
        raise NoLog(f"{path}: row {place}: more than two fields, and no header row that begins with {HEADER}; {NAMES}")
    return rows


def names_in(path):
    """The names of a file, by identifiers."""
    given = {}
    for place, row in named_rows(path):
        identifier, name = named_by(row[0]), "".join(row[1:2])
        if identifier is None:
            raise NoLog(f"{path}: row {place}: {row[0]!r} is no slot and no identifier with 0x; {NAMES}")
        if not name:
            raise NoLog(f"{path}: row {place}: {row[0]} has no name; {NAMES}")
        if given.setdefault(identifier, name) != name:
            raise NoLog(f"{path}: row {place}: {row[0]} has another name above")
    if not given:
        raise NoLog(f"{path}: there is no name in this file; {NAMES}")
    return given


class Names:
    """What people call the frames: a name of a file for some, and for the others what the log has."""

    def __init__(self, path=None):
        self.given = {} if path is None else names_in(path)

    def own(self, identifier):
        """The name that a file gives, or None."""
        return self.given.get(identifier)

    def of(self, identifier):
        """What a frame with this identifier is."""
        if identifier in TRIGGERS:
            return "the trigger" if identifier == TRIGGERS[0] else "the second trigger frame"
        plain = f"slot {identifier - FIRST_SLOT}" if is_slot(identifier) else f"{identifier:03x}"
        return f"{plain} ({self.given[identifier]})" if identifier in self.given else plain

    def of_slot(self, slot):
        """What the frame of this slot is."""
        return self.of(FIRST_SLOT + slot)


def rate(text):
    """A bit rate in kbit/s, in decimals."""
    value = fractions.Fraction(text)
    if value <= 0 or "/" in text:
        raise ValueError
    return value


def millis(bits, kbits, places=3):
    """Bit times as milliseconds, rounded half up."""
    return fixed(fractions.Fraction(bits) / kbits, places)


def duration(bits, kbits):
    """A time of the bus as text: in bit times, or in milliseconds where the rate is known."""
    return some(bits, "bit time") if kbits is None else f"{millis(bits, kbits)} ms"


def opened(rows):
    """The opened cycles of a log: number, mask, width, and frames as start, length, identifier and data."""
    cycles = []
    for word, fields, _ in rows:
        if word == "open":
            cycles.append((int(fields[0]), fields[1], int(fields[2]), []))
        elif word == "frame" and cycles:
            cycles[-1][3].append((int(fields[0]), int(fields[1]), int(fields[2], 16), fields[3]))
    return cycles


class Summary:
    """What the cycles of a log are together: how many there are, how many frames, the first cycle, the widest window, how
    many cycles there have to be by the row `end`, and the first and the last start of a trigger."""

    def __init__(self, rows):
        self.many, self.frames, self.first, self.widest, self.ends = 0, 0, None, 0, None
        self.one = self.other = number = None
        self.triggers = 0
        for word, fields, _ in rows:
            if word == "open":
                number = int(fields[0])
                self.first = number if self.first is None else self.first
                self.many, self.widest, is_begun = self.many + 1, max(self.widest, int(fields[2])), True
            elif word == "frame":
                self.frames += 1
                if number is not None and is_begun:
                    self.other, is_begun = (number, int(fields[0])), False
                    self.one, self.triggers = self.one or self.other, self.triggers + 1
            elif word == "end":
                self.ends = int(fields[0])

    def is_whole(self):
        """Whether the log has all cycles of a run, and its end."""
        return self.ends is not None and self.first in (0, None) and self.many == self.ends

    def length(self):
        """The length of a cycle: that of the triggers' distance, where two cycles are there."""
        if self.triggers < 2:
            raise NoLog("the log has fewer than two cycles: give the length of a cycle with --cycle")
        (one, at), (other, later) = self.one, self.other
        if other <= one or later - at < other - one:
            raise NoLog("the cycles do not stand in the order of their numbers: give the length of a cycle with --cycle")
        return (later - at) // (other - one)


def cycles_of(rows, first, last):
    """The rows of a log, each with the cycle that it is of, as `open` and `frame` are, or in front of which it stands; and
    whether that is one of some cycles. The row `end` and those after it are told of with no cycle."""
    following = number = 0
    for row in rows:
        word = row[0]
        if word == "open":
            number = int(row[1][0])
            following = number + 1
        elif word != "frame":
            number = following
        yield row, (first <= number <= last or word == "end") if word not in REPORT else last == float("inf")
