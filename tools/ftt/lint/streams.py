"""Looks at the requests of polled slots."""
from ..limits import LENGTH, MANY_SLOTS, STREAMS
from ..rows import records_of
from ..telling import shown, some
from .arrivals import Arrivals, is_header
from .fields import number_of
from .files import rows_in
from .numbers import bounds_of, why_no_number, why_no_slot


def read_stream(record, system, last, rows):
    """The arrival, the slot and the number of bytes of a row; None for each that is none. What is wrong is told."""
    if not rows.has_fields(record):
        return None, None, None
    at, slot = rows.arrival(record, last), number_of(record.fields[1], 255)
    if at is None and is_header(record):
        return None, None, None
    if slot is None:
        why = why_no_number(record.fields[1], bounds_of("SLOT", {}, system, 0))
        rows.found.mistake(record.line, f"SLOT is {shown(record.fields[1])}: {why}", rows.told(record, "number"))
    elif slot >= (MANY_SLOTS if system is None else system.slots):
        rows.found.mistake(record.line, why_no_slot(slot, system), rows.told(record, "slot"))
        slot = None
    length = rows.length(record)
    rows.order(record, at, last)
    return at, slot, length


def ride(entries, requests, system, cycles):
    """Which instance takes each request of a slot, as release and period; those at the end that none takes are left
    out. A request is its line, its arrival and its number of bytes."""
    releases = sorted((release, it) for it in entries for release in range(
        it.origin + it.phase, cycles if it.end is None else min(it.end, cycles), it.period))
    taken = []
    for release, entry in releases:
        if len(taken) < len(requests):
            _, at, count = requests[len(taken)]
            if at < release * system.cycle and count < entry.length:
                taken.append((release, entry.period))
    return taken


def lint_rides(slot, entries, requests, system, cycles, found):
    """Warns of requests of a slot that wait for ever, or longer than the slot's period."""
    taken = ride(entries, requests, system, cycles)
    late = next(((line, at // system.cycle, release, period) for (line, at, _), (release, period)
                 in zip(requests, taken) if release - at // system.cycle > period), None)
    if late is not None:
        line, arrival, release, period = late
        found.warning(line, f"the request waits for {some(release - arrival, 'cycle')}, from {arrival} to {release}: "
                      f"SLOT {slot} is polled every {some(period, 'cycle')}. Leave as many between its requests, or "
                      "take a shorter PERIOD.")
    if len(taken) == len(requests):
        return
    line, at, count = requests[len(taken)]
    behind = len(requests) - len(taken) - 1
    more = f", nor {some(behind, 'request')} after it" if behind else ""
    if not entries:
        found.warning(line, f"SLOT {slot} has no entry in the steps. The request is never sent{more}. Add one.")
        return
    room = max(it.length for it in entries)
    if count >= room:
        found.warning(line, f"the request has {some(count, 'byte')}, and a frame of SLOT {slot} has {room} with the "
                      f"mark. It is never sent{more}. Take a LENGTH of at least {count + 1}.")
    else:
        found.warning(line, f"AT is {at}: no instance of SLOT {slot} that is released later takes it before the run "
                      f"ends. It is not sent{more}. Open more cycles, or take a shorter PERIOD.")


def lint_streams(path, system, cycles, table, found):
    """Looks at the streams file."""
    text = rows_in(path, "streams", ("system", "steps"), found, "poll SYSTEM STEPS STREAMS")
    if text is None:
        return
    # The mark takes one byte of the frame.
    rows, last, by_slot = Arrivals("streams", "AT,SLOT,DATA", LENGTH - 1, found), None, {}
    for record in records_of(text):
        at, slot, count = read_stream(record, system, last, rows)
        if rows.many(record, STREAMS):
            break
        last = last if at is None else at
        if None not in (at, slot, count):
            by_slot.setdefault(slot, []).append((record.line, at, count))
    if found.mistakes or None in (system, cycles, table):
        return
    for slot, requests in sorted(by_slot.items(), key=lambda it: it[1][0]):
        lint_rides(slot, table.get(slot, []), requests, system, cycles, found)
