"""How many disturbances of each window a search leaves room for: docs/ERRORS.md says what is promised then."""
from ..disturbed.budget import cost, errors_within, room_for_reserve
from ..limits import FEW_SLOTS
from ..telling import some
from ..steps import ENTRY, slot_in


def longest_in(rows):
    """The most data bytes that a row of the steps gives a slot."""
    sizes = [row[slot_in(row) + ENTRY.index("LENGTH")] for row in rows if slot_in(row)]
    return max((int(size) for size in sizes if size.isdigit()), default=0)


def least_window(names, found):
    """The least window that is accepted at some point; None where the windows are no axis, or none is."""
    if "window" not in names:
        return None
    at = names.index("window")
    return min((point[at] for point, said in found.items() if said.accepted), default=None)


def told_files(names, found, bus, rows):
    """What is said of a system and steps: for how many disturbances its window has room beside the least one, and for how
    many the cycle has."""
    least, size = least_window(names, found), longest_in(rows)
    if least is None:
        return []
    each, window = cost(size), bus["window"]
    room = room_for_reserve(bus["cycle"], bus.get("slots", FEW_SLOTS), bus.get("turnaround", 0), least)
    within = errors_within(min(window - least, room), size)
    front = (f"errors: of the window of {window} in the file {window - least} are not needed" if window > least else
             f"errors: of the window of {window} in the file nothing is left over")
    if within:
        front += (f": plan with {least}, let each window open {within * each} earlier, and {some(within, 'disturbance')} of "
                  f"each window {'costs' if within == 1 else 'cost'} no deadline ({each} each)")
    elif window > least:
        front += f", too few for a disturbance ({each})"
    return [front, f"errors: beside a window of {least} a cycle has room for a reserve of {max(0, room)}, for "
            f"{some(errors_within(room, size), 'disturbance')}"]


def told_list(rate, cycle, slots, turnaround, least, size):
    """What is said of a list at the best cycle of a rate."""
    room = room_for_reserve(cycle, slots, turnaround, least)
    return (f"{rate} kbit/s: errors: a cycle has room for a reserve of {max(0, room)}, for "
            f"{some(errors_within(room, size), 'disturbance')} of each window ({cost(size)} each)")
