"""Looks at the requests file."""
from ..declared import Asked, breaks_of
from ..frames import SHORTEST, worst
from ..limits import LENGTH, REQUESTS
from ..rows import records_of
from ..system import room
from ..telling import shown, some
from .arrivals import Arrivals
from .asked import read_id
from .files import rows_in


def read_request(record, system, last, rows):
    """The arrival, the identifier and the worst length of a row; None for each that is none. What is wrong is told."""
    if not rows.has_fields(record):
        return None, None, None
    number = rows.arrival(record, last)
    identifier, word, what = read_id(record.fields[1], system)
    if number is None and record.number == 1:
        # It may be a header row.
        return None, identifier, None
    if word is not None:
        rows.found.mistake(record.line, f"ID is {shown(record.fields[1])}. {what}", rows.told(record, word))
    length = rows.length(record)
    rows.order(record, number, last)
    return number, identifier, None if length is None else worst(length)


def lint_requests(path, system, cycles, streams, found):
    """Looks at the requests file. With streams that are declared, it looks for requests that break theirs."""
    text = rows_in(path, "requests", ("system", "steps"), found)
    if text is None:
        return
    rows, last, requests, asked = Arrivals("requests", "AT,ID,DATA", LENGTH, found), None, [], []
    for record in records_of(text):
        if rows.many(record, REQUESTS):
            break
        number, identifier, bits = read_request(record, system, last, rows)
        last = last if number is None else number
        if None not in (number, bits):
            requests.append((record.line, number, identifier, bits))
            asked.append(Asked(record.line, number, identifier, len(record.fields[2]) // 2))
    if system is not None:
        warn_requests(requests, system, cycles, found)
    if streams is not None and not found.mistakes:
        for it, what in breaks_of(streams, asked):
            found.warning(it.line, what)


def warn_requests(requests, system, cycles, found):
    """Warns of requests that are never sent, or wait. Each is its line, its arrival, its identifier and its worst
    length."""
    most, wide = room(system.cycle, system.slots, system.turnaround), {}
    for line, _, identifier, bits in requests:
        if bits > most:
            wide.setdefault(identifier, (line, bits))
    for line, bits in sorted(wide.values()):
        found.warning(line, f"the frame needs {bits} bit times, and a cycle without a synchronous window has "
                      f"{most}. It is never sent, and later ones of its identifier wait.")
    late = [(line, number) for line, number, _, bits in requests
            if cycles is not None and number + bits > cycles * system.cycle]
    if late:
        line, number = late[0]
        found.warning(line, f"AT is {number}: the run ends at {cycles * system.cycle}, so {some(len(late), 'request')} "
                      f"from here on {'is' if len(late) == 1 else 'are'} never sent. Open more cycles: each has "
                      f"{system.cycle} bit times.")
    longest, line = max(((bits, -line) for line, _, _, bits in requests), default=(0, 0))
    free = most - system.window
    if SHORTEST <= free < longest and not wide:
        found.warning(-line, f"the frame needs {longest} bit times, and a cycle with a full window has {free} "
                      "of asynchronous time. It waits for a cycle with fewer entries.")
