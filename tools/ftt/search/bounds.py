"""Whether asynchronous requests are in time at a point: whether the streams that are declared of them have bounds."""
import pathlib

from .. import bounds, declared
from ..faults import Refused
from .grid import Failed


def read_streams(path):
    """The streams that a file declares. One with a mistake is refused."""
    try:
        found, faults = declared.declared_in(pathlib.Path(path).read_bytes())
    except OSError as fault:
        raise Failed(f"{path}: {fault.strerror or fault}. Is it the right path?") from fault
    if faults:
        raise Refused("\n".join(f"{path}:{fault.line}: {fault.what}" for fault in faults))
    return found


def why_late(layout, streams):
    """Why declared streams are not in time on a bus of this layout; None where each has a bound, and one of at most its
    deadline. It is told of the least identifier: `unbounded,ID`; or `late,ID,BOUND,DEADLINE`, both in bit times from an
    arrival to the end of the frame, without the intermission."""
    return first_late(declared.late_of(streams, layout))


def first_late(late):
    """What is said of the streams that are late, each with its bound; None where none is."""
    it, bound = min(late, default=(None, None), key=lambda it: it[0].stream.id)
    if it is None:
        return None
    return f"unbounded,{it.stream.id:#05x}" if bound is None else f"late,{it.stream.id:#05x},{bound},{it.deadline}"


def judged(document, streams):
    """The same of the bus of a system's document."""
    return why_late(bounds.layout_of(document), streams)
