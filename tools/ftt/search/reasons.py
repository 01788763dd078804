"""Why a point is not accepted, in a few words: what a sentence, a picture and a count of reasons say of it."""
import math
from fractions import Fraction

from ..telling import decimal

ACCEPTED, MISS, HORIZON, NO_BOUND, TOO_LATE = "accepted", "miss", "horizon", "no bound", "late bound"
NO_ROOM, NO_TABLE, REFUSED = "no room", "no table", "refused file"
# Where a list has no table, and where its plan can't repeat in time, before anything is asked.
OF_LIST, REPEATS = "list", "list: its plan repeats"


def kind_of(said):
    """What is said of a point, in a word or two. A verdict on a change that is none of these is its own word."""
    if said.accepted:
        return ACCEPTED
    front = said.why.partition(",")[0]
    if front in ("unbounded", "late"):
        return NO_BOUND if front == "unbounded" else TOO_LATE
    if said.change:
        return front
    if said.why.startswith(REPEATS):
        return HORIZON
    if said.why.startswith("system: narrow"):
        return NO_ROOM
    return NO_TABLE if said.why.startswith((OF_LIST, "CYCLE_US", "KBITS")) else REFUSED


def is_bounded(said):
    """Whether a point is refused for the bound of an asynchronous message, and not by the planner."""
    return kind_of(said) in (NO_BOUND, TOO_LATE)


def bound_told(said, names=None, kbits=None):
    """What is said of an asynchronous message that has no bound, or one that is too late. Names are by identifiers; with
    a bit rate times are in milliseconds."""
    word, identifier, *times = said.why.split(",")
    who = (names or {}).get(int(identifier, 16))
    who = identifier if who is None else f"{who} ({identifier})"
    if word == "unbounded":
        return f"{who} has no bound"
    # Rounded up, so that no bound is told as less than it is.
    bound, deadline = (f"{time} bit times" if kbits is None else
                       f"{decimal(Fraction(math.ceil(Fraction(time) * 1000 / Fraction(kbits)), 1000))} ms" for time in times)
    return f"the bound of {who} is {bound}, and its deadline {deadline}"
