"""How late the frames of slots are: instances from their release, and requests of polled slots from their arrival."""
import collections
import re

from .. import places
from ..frames import INTERMISSION
from ..limits import FIRST_SLOT, MANY_SLOTS
from ..table import changed, live_of, release
from ..telling import some
from .rows import NoLog, RIDES, is_slot
from .steps import Asked, records_of

# An instance that was sent: its slot, the cycles of its release and of its frame, the bit time at which the frame ends,
# the period and the deadline of its entry in cycles, and its data bytes.
Sent = collections.namedtuple("Sent", "slot release cycle end period deadline length")


def accepted(table, act):
    """The table after a change that the log accepts."""
    for operation in act.operations:
        slot = operation.fields["SLOT"]
        if operation.word != "add" and live_of(table.get(slot, [])) is None:
            raise NoLog(f"line {act.line} of the steps: slot {slot} has no entry that the log has accepted")
    return changed(table, act)


def next_of(table, slot, sent):
    """The entry of a slot whose instance is sent next, its place there, and its release; None where there is none. Of
    each entry so many were sent, by slot and place."""
    found = ((place, it, release(it, sent[slot, place])) for place, it in enumerate(table.get(slot, [])))
    return next((it for it in found if it[2] is not None), (None, None, None))


def sent_of(rows, path):
    """The instances of a log in the order of their frames. Frames of a log with requests that ride on slots have these
    requests as data, and those of other logs the instance's number."""
    is_polled = any(word in RIDES for word, _, _ in rows)
    asked, table, counts = Asked(path), {}, collections.Counter()
    found, cycle = [], None
    for word, fields, place in rows:
        if word == "submit":
            act = asked.next(word, int(fields[0]), place)
            if fields[2] == "accepted":
                table = accepted(table, act)
        elif word == "look":
            asked.next(word, int(fields[0]), place)
        elif word == "open":
            cycle = int(fields[0])
        elif word == "frame" and is_slot(int(fields[2], 16)):
            slot = int(fields[2], 16) - FIRST_SLOT
            place_in, entry, released = next_of(table, slot, counts)
            low = None
            if entry is not None:
                low = (counts[slot, place_in] % 256 ** entry.length).to_bytes(entry.length, "big").hex()
            if low != fields[3] and (entry is None or not is_polled):
                raise NoLog(f"row {place}: the steps of {path} send no such frame here. Is the log whole, and theirs?")
            found.append(Sent(slot, released, cycle, int(fields[0]) + int(fields[1]) - INTERMISSION, entry.period,
                              entry.deadline, entry.length))
            counts[slot, place_in] += 1
    return found


def planned(rows, path):
    """The table of the changes that a log accepts, and the cycle up to which their plan goes before it repeats; 0 where
    none is accepted."""
    asked, table, until = Asked(path), {}, 0
    for word, fields, place in rows:
        if word in ("submit", "look"):
            act = asked.next(word, int(fields[0]), place)
            if word == "submit" and fields[2] == "accepted":
                table, until = accepted(table, act), sum(map(int, fields[3].split(",")))
    return table, until


def streams_of(path):
    """The requests of polled slots of a file, by their numbers: arrival and slot."""
    found = {}
    for line, record in records_of(path):
        if len(record) != 3 or not all(re.fullmatch("[0-9]+", it) for it in record[:2]) or int(record[1]) >= MANY_SLOTS:
            raise NoLog(f"{path}: line {line}: this is no row of a streams file; {places.tool('fttlint')} says why")
        found[len(found) + 1] = int(record[0]), int(record[1])
    return found


def ridden(rows, path, ends):
    """By slot: the times in bit times from each request's arrival to the end of its frame; the arrivals of those that
    no frame of this run carried; and the release and the cycle of each one that was. The ends of the frames stand by
    their slot and cycle."""
    asked = streams_of(path)
    found = {slot: ([], [], []) for slot in sorted({slot for _, slot in asked.values()})}
    told = [(word, fields, place) for word, fields, place in rows if word in RIDES]
    if len(told) != len(asked):
        raise NoLog(f"{path} has {some(len(asked), 'request')}, and the log tells of {len(told)}. Is it a log of poll, "
                    "and theirs?")
    for word, fields, place in told:
        slot, number = int(fields[0]), int(fields[1])
        at, own = asked.get(number, (None, None))
        if own != slot:
            raise NoLog(f"row {place}: no request {number} of slot {slot} stands in {path}. Is the log theirs?")
        if word == "waits":
            found[slot][1].append(at)
            continue
        cycle = int(fields[3])
        if (slot, cycle) not in ends:
            raise NoLog(f"row {place}: the log has no frame of slot {slot} in cycle {cycle}")
        found[slot][0].append(ends[slot, cycle] - at)
        found[slot][2].append((int(fields[2]), cycle))
    return found
