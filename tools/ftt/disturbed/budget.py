"""What disturbances cost at most, and for how many of them a bus has room. Lengths are in bit times.

docs/ERRORS.md says where the numbers come from, and what is proved of them.
"""
from ..frames import INTERMISSION, TRIGGER, worst
from ..limits import LENGTH, TURNAROUND, WINDOW

# Error flags, one after the other; the delimiter and the intermission; and what an error passive sender waits.
FLAGS, DELIMITER, SUSPENDED = (6, 12), 8, 8
# From the disturbed bit to the next start of a frame: the least, the most where all senders are error active, the most.
QUICKEST = FLAGS[0] + DELIMITER + INTERMISSION
ACTIVE = FLAGS[1] + DELIMITER + INTERMISSION
RECOVERY = ACTIVE + SUSPENDED
# What a cut frame costs beside its length, which counts the intermission.
EXTRA = RECOVERY - INTERMISSION
# A disturbed idle bus is taken for a start of frame, whose stuff error is seen six bits later.
IDLE = 7 + RECOVERY


def cost(length):
    """What a disturbance costs at most where no frame has more data bytes."""
    return worst(length) + EXTRA


# What a disturbance of a trigger costs at most.
OF_TRIGGER = cost(LENGTH)


def reserve_for(errors, length):
    """How much longer a window has to be than its frames for so many disturbances."""
    return errors * cost(length)


def errors_within(room, length):
    """For how many disturbances so much room is enough."""
    return max(0, room) // cost(length)


def room_for_reserve(cycle, slots, turnaround, window):
    """The greatest reserve that a cycle has room for and a trigger can say; negative where the window has no room."""
    return min(cycle - TRIGGER[slots] - turnaround - window, WINDOW[1] - window)


def turnaround_for(retries, needed=0):
    """The turnaround for so many disturbances of the trigger part, and for what the nodes need; None if there is
    none in its range."""
    turnaround = needed + retries * OF_TRIGGER
    return turnaround if turnaround <= TURNAROUND[1] else None
