"""Requests of asynchronous messages and of polled ones, by names and in milliseconds: of a list, all at once, or at
random. They become the files requests.csv and streams.csv.
"""
import functools
import math
import random
import re
from collections import namedtuple
from fractions import Fraction

from ..faults import Refused
from ..frames import worst
from ..limits import REQUESTS, STREAMS
from ..telling import close, decimal, some
from . import polled, promised, table
from .amounts import Amounts
from .bus import Entry
from .messages import Mistakes, read_time, text_of

TOGETHER, RANDOM = "together", "random"
COLUMNS = ("at", "name", "data")
# A random distance of two requests is up to so many times the least one, and at least that.
FARTHEST = 3

# A request: the bit time at which it arrives, its message, and its data.
Request = namedtuple("Request", "at message data line")


class Asking:
    """The messages that may be asked for: each with its place on the bus."""

    def __init__(self, bus, entries, owned, cycles):
        self.bus, self.end = bus, cycles * bus.cycle
        self.all = entries + owned
        self.asked = [it for it in entries if it.message.kind == polled.KIND] + owned
        self.by_name = {it.message.name: it for it in self.asked}

    def bits(self, millis):
        """A time in milliseconds in bit times, rounded up: no request comes before it was asked for."""
        return math.ceil(millis * self.bus.kbits)

    def apart(self, it):
        """The least distance in milliseconds of two requests; 0 where none is known."""
        least = it.message.period or Fraction(0)
        return max(least, self.bus.millis(it.period)) if isinstance(it, Entry) else least

    def last(self, it):
        """The bit time before which a request has to arrive to be sent before the run ends."""
        if isinstance(it, Entry):
            return (self.end // self.bus.cycle - polled.bound(it)) * self.bus.cycle
        return self.end - worst(it.message.length)

    def numbered(self, it, times):
        """The requests of a message at these times in milliseconds: their data count them."""
        found, length = [], it.message.length
        for number, time in enumerate(times):
            at = self.bits(time)
            if at >= self.last(it):
                break
            found.append(Request(at, it, (number % 256 ** length).to_bytes(length, "big"), None))
        return found


def every(first, distance):
    """Times with one distance; one alone where that is 0."""
    yield first
    while distance:
        first += distance
        yield first


def scattered(chance, least, span):
    """Times at random, at least so far apart; one alone where no distance is known."""
    if not least:
        yield Fraction(chance.randrange(1_000_000), 1_000_000) * span
        return
    time = Fraction(chance.randrange(1_000_000), 1_000_000) * least
    while True:
        yield time
        time += least * (1 + Fraction(chance.randrange(1_000_000), 1_000_000) * (FARTHEST - 1))


def together(asking, start):
    """All messages ask at one time, and then as often as they may."""
    return [it for each in asking.asked for it in asking.numbered(each, every(start, asking.apart(each)))]


def at_random(asking, seed, start):
    """All messages ask at random from a time on, with their least distances. A seed gives the same ones each time."""
    found, span = [], asking.bus.millis(1) * (asking.end // asking.bus.cycle) / 2
    for each in asking.asked:
        # A message has numbers of its own, so that another one more or less changes none of them.
        chance = random.Random(f"{seed} {each.message.name}")
        times = scattered(chance, asking.apart(each), span)
        found += asking.numbered(each, (start + time for time in times))
    return found


def columns_of(row, line, mistakes):
    """The places of the columns in a header row."""
    names = [table.UNIT.sub("", name.strip().lower()) for name in row]
    for name in names:
        if name not in COLUMNS and close(name, COLUMNS):
            mistakes.add(line, "the column", name, f"there is none of this name. Is it {close(name, COLUMNS)}?")
    for name in ("at", "name"):
        if name not in names and not mistakes.lines:
            mistakes.lines.append(f"{mistakes.path}:{line}: the column {name} is missing. The first row names the "
                                  f"columns: {','.join(COLUMNS)}.")
    mistakes.stop()
    return {name: names.index(name) for name in COLUMNS if name in names}


def request_of(field, line, asking, count, amounts, mistakes):
    """The request of a row; None where it is wrong. So many of its message stand above."""
    name, text = field("name"), field("data").replace(" ", "")
    it, time = asking.by_name.get(name), read_time(field("at"), True, line, "at", mistakes, amounts)
    if it is None:
        known = next((each for each in asking.all if each.message.name == name), None)
        near = close(name, list(asking.by_name))
        what = "it is synchronous, and sent by its period. Leave the row out." if known else (
            f"no polled or asynchronous message has this name. {f'Is it {near}?' if near else 'Leave the row out.'}")
        mistakes.add(line, "name", name, what)
        return None
    length = it.message.length
    if not text:
        data = (count % 256 ** length).to_bytes(length, "big")
    elif not re.fullmatch("([0-9a-fA-F]{2})+", text) or len(text) > 2 * length:
        mistakes.add(line, "data", field("data"), f"Write at most {some(length, 'byte')} in hexadecimal, two digits "
                     "each, or nothing.")
        return None
    else:
        data = bytes.fromhex(text)
    return None if time is None else Request(asking.bits(time), it, data, line)


def listed(asking, path):
    """The requests of a list, whose columns are at, name and data."""
    mistakes, found, counts = Mistakes(path), [], {}
    text = text_of(path)
    separator = table.separator_of(text, COLUMNS)
    rows = list(table.rows_in(path, text, separator))
    if not rows:
        raise Refused(f"{path}:1: there is no header row. Name the columns in the first row: {', '.join(COLUMNS)}.")
    (line, header), *rows = rows
    columns = columns_of(header, line, mistakes)

    def value(row, name):
        place = columns.get(name)
        return row[place].strip() if place is not None and place < len(row) else ""

    amounts = Amounts(separator, (value(row, "at") for _, row in rows))
    for line, row in rows:
        name = value(row, "name")
        request = request_of(functools.partial(value, row), line, asking, counts.get(name, 0), amounts, mistakes)
        if request is not None:
            counts[name] = counts.get(name, 0) + 1
            found.append(request)
    mistakes.stop()
    return found


def too_near(asking, it, last, at):
    """What is said of a request of a message that comes too soon after the last one; None where it does not."""
    bus = asking.bus
    if isinstance(it, Entry):
        cycles = at // bus.cycle - last // bus.cycle
        return None if cycles >= it.period else (
            f"{some(cycles, 'cycle')} after the one before, and is polled every {it.period}: its bound of "
            f"{decimal(bus.millis(polled.bound(it)))} ms holds no more.")
    if not promised.is_apart(it.message) or at - last >= promised.bits_within(bus, it.message.period):
        return None
    return (f"{decimal((at - last) / bus.kbits)} ms after the one before, and its period is "
            f"{decimal(it.message.period)}: no bound of an asynchronous message holds any more.")


def warnings_of(asking, requests, path):
    """What keeps requests of a list from being sent in time: one that comes too early, or too late. The first of each
    message is told."""
    told, before = [], {}
    for it in sorted(requests, key=lambda it: it.at):
        each, name = it.message, it.message.message.name
        if name in told:
            continue
        last, before[name] = before.get(name), it.at
        why = None if last is None else too_near(asking, each, last, it.at)
        if why is not None:
            told.append(name)
            yield f"{path}:{it.line}: {name} comes {why}"
        if it.at >= asking.last(each) and name not in told:
            told.append(name)
            yield f"{path}:{it.line}: {name} may come too late to be sent before the run ends. Open more cycles."


def requests_of(words, asking):
    """The requests that the words ask for, and warnings about them."""
    if words.seed is not None and words.requests != RANDOM:
        raise Refused(f"--seed is {words.seed}: it is for --requests random. Leave it out.")
    if not asking.asked:
        raise Refused("--requests is given, and no message is polled or asynchronous. Leave it out.")
    start = words.start or Fraction(0)
    if words.requests == TOGETHER:
        return together(asking, start), []
    if words.requests == RANDOM:
        return at_random(asking, 1 if words.seed is None else words.seed, start), []
    if words.start is not None:
        raise Refused("--from is for --requests together and random: a list has its own times. Leave it out.")
    found = listed(asking, words.requests)
    return found, list(warnings_of(asking, found, words.requests))


def texts_of(words, asking):
    """The files of requests by their names, what is told of them, and warnings."""
    found, warnings = requests_of(words, asking)
    texts, told = {}, []
    for name, is_slot, most in (("requests.csv", False, REQUESTS), ("streams.csv", True, STREAMS)):
        if not any(isinstance(it, Entry) == is_slot for it in asking.asked):
            continue
        rows = sorted((it for it in found if isinstance(it.message, Entry) == is_slot), key=lambda it: it.at)
        if len(rows) > most:
            raise Refused(f"--requests: {name} would have {len(rows)} rows, and {most} are the most. Open fewer "
                          "cycles by --cycles, or give greater distances.")
        texts[name] = "".join(f"{it.at},{it.message.slot if is_slot else f'{it.message.id:#05x}'},{it.data.hex()}\n"
                              for it in rows)
        senders = len({it.message.message.name for it in rows})
        told.append(f"{name}: {some(len(rows), 'request')} of {some(senders, 'message')}")
    if words.requests == TOGETHER:
        told.append("together is not the worst case: a request that comes just too late for its window waits longer. Another "
                    "--from may show that; the bounds hold for all")
    return texts, told, warnings
