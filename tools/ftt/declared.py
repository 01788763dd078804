"""The file that declares the streams of asynchronous requests, and which requests break their stream.

docs/ASYNC.md has the format. A row is a stream, with the times in bit times.
"""
import re
from collections import deque, namedtuple

from . import bounds, limits
from .rows import MARK, identifier_of, records_of
from .telling import listed, shown, some

COLUMNS = ("id", "bytes", "gap", "burst", "deadline")
RANGES = {"bytes": (0, limits.LENGTH), "gap": (1, bounds.GAP), "burst": (1, bounds.BURST),
          "deadline": (1, limits.AT - 1)}
# What an empty field means.
USUAL = {"burst": 1, "deadline": None}

# What is declared of requests that come as often as they like: no bound of them is known, and none is asked for.
ANY_GAP, ANY_BURST = 1, bounds.BURST

# A stream with its line in the file, and its deadline: the time from an arrival to the end of the frame, or None.
Declared = namedtuple("Declared", "line stream deadline")
# What is wrong with a line of the file.
Fault = namedtuple("Fault", "line what")
# A request: its line, when it arrives, its identifier, and how many data bytes it has.
Asked = namedtuple("Asked", "line at id bytes")


def number_in(column, field):
    """The number of a column, and what is wrong with it or None."""
    low, high = RANGES[column]
    if not field and column in USUAL:
        return USUAL[column], None
    if not re.fullmatch("[0-9]{1,20}", field) or not low <= int(field) <= high:
        return None, f"{column} is {shown(field)}. Write a whole number from {low} to {high}."
    return int(field), None


def stream_in(record):
    """The stream of a row, and what is wrong with it."""
    fields = [field.decode("utf-8", "replace") for field in record.fields]
    if len(fields) != len(COLUMNS):
        return None, [f"the row has {some(len(fields), 'field')}, and a stream has {len(COLUMNS)}: "
                      f"{','.join(COLUMNS)}."]
    identifier, faults = identifier_of(fields[0]), []
    if identifier is None or not limits.FIRST_ASYNC <= identifier <= limits.LAST_ASYNC:
        faults.append(f"id is {shown(fields[0])}. Write an asynchronous identifier, 0x200 to 0x7ef.")
    numbers = {}
    for column, field in zip(COLUMNS[1:], fields[1:]):
        numbers[column], fault = number_in(column, field)
        faults += [] if fault is None else [fault]
    if faults:
        return None, faults
    deadline = numbers.pop("deadline")
    return Declared(record.line, bounds.Stream(identifier, **numbers), deadline), []


def declared_in(data):
    """The streams of a file, and its faults."""
    found, faults, lines = [], [], {}
    records = [it for it in records_of(data.removeprefix(MARK)) if not it.fields[0].startswith(b"#")]
    if not records or [it.decode("utf-8", "replace").lower() for it in records[0].fields] != list(COLUMNS):
        return [], [Fault(records[0].line if records else 1, "the first row does not name the columns. Write "
                          f"{','.join(COLUMNS)} above the streams.")]
    for record in records[1:]:
        made, whys = stream_in(record)
        if made is not None and made.stream.id in lines:
            whys = [f"id is {made.stream.id:#05x}: it stands in line {lines[made.stream.id]} too. An identifier has "
                    "one stream."]
        elif made is not None:
            lines[made.stream.id] = made.line
            found.append(made)
        faults += [Fault(record.line, why) for why in whys]
    return found, faults


def text_of(declared):
    """The text of a file with these streams."""
    rows = [",".join(COLUMNS)]
    for it in declared:
        stream = it.stream
        rows.append(f"{stream.id:#05x},{stream.bytes},{stream.gap},{stream.burst},"
                    f"{'' if it.deadline is None else it.deadline}")
    return "\n".join(rows) + "\n"


def breaks_of(declared, requests):
    """The requests that break their stream, in the order of their file: each with what is wrong."""
    streams, before = {it.stream.id: it for it in declared}, {}
    for asked in requests:
        known = streams.get(asked.id)
        if known is None:
            yield asked, f"no stream of {asked.id:#05x} is declared, so no bound holds. Declare one."
            continue
        stream, where = known.stream, f"the stream of {asked.id:#05x}, declared in line {known.line},"
        if asked.bytes > stream.bytes:
            yield asked, f"the request has {some(asked.bytes, 'byte')}, and {where} has at most {stream.bytes}."
        last = before.setdefault(asked.id, deque(maxlen=stream.burst))
        if len(last) == stream.burst and asked.at - last[0].at < stream.gap:
            which = "the one before" if stream.burst == 1 else f"the one {stream.burst} places before"
            yield asked, (f"the request arrives {some(asked.at - last[0].at, 'bit time')} after {which} (line "
                          f"{last[0].line}), and {where} asks for {stream.gap}.")
        last.append(asked)


def is_any(stream):
    """Whether requests of a stream come as often as they like."""
    return (stream.gap, stream.burst) == (ANY_GAP, ANY_BURST)


def late_of(declared, layout):
    """The streams that have no bound, or one after their deadline: each with its bound or None. Those whose requests come
    as often as they like are left out, if they have no deadline."""
    streams = [it.stream for it in declared]
    for it in declared:
        bound = bounds.end_bound(layout, streams, it.stream)
        is_asked = it.deadline is not None or not is_any(it.stream)
        if is_asked and (bound is None or it.deadline is not None and bound > it.deadline):
            yield it, bound


def missing_of(declared, owned):
    """What is said of identifiers that a system owns and no stream is declared of; None for nothing."""
    known = {it.stream.id for it in declared}
    missing = sorted(it for it in owned if it not in known)
    return f"no stream of {listed(f'{it:#05x}' for it in missing)} is declared" if missing else None
