"""One run with all traffic: asynchronous requests beside requests of polled slots.

The program has a command for each: `replay` sends the asynchronous requests, and its slots carry the numbers of their
instances; `poll` has slots carry their requests, and sends nothing else. Calls, plans and triggers are the same in both.
Asynchronous frames are sent between the trigger part with the turnaround and the synchronous window, whose places no data
of slots moves. So the run with both has the asynchronous frames of the one and the slots' frames of the other.
"""
import pathlib

from ..desk import desk, tell
from ..faults import Refused, Unread
from ..limits import LAST_SLOT
from .rows import NoLog, RIDES, is_slot


class Cycle:
    """What a log has of a cycle: the row `open`, the triggers, the asynchronous frames, and those of slots."""

    def __init__(self, row):
        self.row, self.triggers, self.others, self.slots = row, [], [], []

    def add(self, row):
        """A row of a frame."""
        identifier = int(row.split(",")[3], 16)
        if is_slot(identifier):
            self.slots.append(row)
        elif identifier > LAST_SLOT:
            self.others.append(row)
        else:
            self.triggers.append(row)


def parts_of(log):
    """The rows of a log up to its row `end`, those of a cycle together; and the rows after it."""
    parts, behind = [], []
    for row in log.splitlines():
        word = row.split(",", 1)[0]
        if word == "open":
            parts.append(Cycle(row))
        elif word == "frame":
            parts[-1].add(row)
        else:
            (behind if word in RIDES else parts).append(row)
    return parts, behind


def shape(part):
    """What has to be the same in both runs: all but the frames that one of them brings."""
    if not isinstance(part, Cycle):
        return part
    return part.row, part.triggers, [row.split(",")[3] for row in part.slots]


def composed(replay, poll):
    """The rows of the run with all traffic, of the logs of `replay` and of `poll`."""
    (one, _), (other, rides) = parts_of(replay), parts_of(poll)
    if len(one) != len(other) or any(shape(a) != shape(b) for a, b in zip(one, other)):
        raise NoLog("the two runs differ in more than their requests, so no run has both: the program gives no such answer")
    for part, beside in zip(one, other):
        if isinstance(part, Cycle):
            yield part.row
            yield from part.triggers
            yield from part.others
            yield from beside.slots
        else:
            yield part
    yield from rides


def bytes_of(path):
    """The bytes of a file."""
    try:
        return pathlib.Path(path).read_bytes()
    except OSError as fault:
        raise NoLog(f"{path}: {fault.strerror or fault}. Is it the right path?") from fault


def traffic(words, put, note):
    """Asks for both runs, and writes the one with all traffic."""
    files = {"system": bytes_of(words.system), "steps": bytes_of(words.steps)}
    try:
        asked = desk()
        tell(asked, "fttlog")
        replay = asked.call(["replay"], files | {"requests": bytes_of(words.requests)})
        poll = asked.call(["poll"], files | {"streams": bytes_of(words.streams)})
    except (Refused, Unread) as fault:
        raise NoLog(str(fault)) from fault
    for row in composed(replay, poll):
        put(f"{row}\n")
    note("composed of two runs: the asynchronous frames are those of replay, the frames of slots those of poll. No command of "
         "the program writes such a log, and audit takes none")
