"""What to do about a value of the system file: always one that the program takes."""
import re

from .. import limits
from ..frames import SHORTEST, TRIGGER
from ..limits import FEW_SLOTS, FIRST_ASYNC, LAST_ASYNC, MANY_SLOTS
from ..system import LAST_NODE


def one_of(choices):
    """The choices, one of which is to be written."""
    return f"{', '.join(map(str, choices[:-1]))} or {choices[-1]}"


def why_no_choice(value, choices, values=None):
    """What to do about a value that is none of the choices."""
    if MANY_SLOTS in choices and not is_wide(values or {}):
        return "Write 40."
    if isinstance(value, str) and value.strip().lower() in choices:
        return "Write it in lower case." if value.strip() == value else f'Write "{value.strip().lower()}".'
    return f"Write {one_of(choices)}."


def integer_meant(value, low, high):
    """The integer that a value of another kind means, or the range of those that may be written."""
    text = str(value).strip()
    if re.fullmatch(r"0x[0-9a-fA-F]{1,4}|[0-9]{1,8}(\.0*)?", text) and not isinstance(value, bool):
        number = int(text, 16) if text.startswith("0x") else int(text.partition(".")[0])
        if low <= number <= high:
            return text.partition(".")[0]
    return f"{low} to {high}"


def integers_of(document):
    """All integers of a document by their paths, whatever else is wrong with it."""
    found, waiting = {}, [("", document)]
    while waiting:
        path, value = waiting.pop()
        if isinstance(value, (dict, list)):
            inside = value.items() if isinstance(value, dict) else enumerate(value)
            waiting += [(f"{path}.{key}" if path else key, it) for key, it in inside]
        elif isinstance(value, int) and not isinstance(value, bool):
            found[path] = value
    return found


def bounds_beside(path, values, low, high):
    """The range of a key in which the rest of the system file lets it be; else the key's own range."""
    key = path.rpartition(".")[2]
    if path == "bus.nodes":
        most = max((it for at, it in values.items() if re.fullmatch(r"async\.\d+\.node", at)), default=0)
        return (most + 1 if low <= most < high else low), high
    cycle, window = values.get("bus.cycle"), values.get("bus.window", SHORTEST)
    trigger = TRIGGER.get(values.get("bus.slots", FEW_SLOTS), TRIGGER[FEW_SLOTS])
    turnaround = values.get("bus.turnaround", 0)
    if path == "bus.cycle":
        low = max(low, min(trigger + max(turnaround, 0) + max(window, SHORTEST), high))
    elif cycle is not None and path in ("bus.window", "bus.turnaround"):
        room = cycle - trigger - (turnaround if key == "window" else window)
        high = min(high, room) if room >= low else high
    return low, high


def is_wide(values):
    """Whether 96 slots fit the cycle beside the rest."""
    need = TRIGGER[MANY_SLOTS] + values.get("bus.turnaround", 0) + values.get("bus.window", SHORTEST)
    return need <= values.get("bus.cycle", need)


def why_no_integer(path, value, values, low, high):
    """The integer that a value of another kind means, or those that may be written."""
    if path == "bus.slots":
        return "40 or 96" if is_wide(values) else "40"
    low, high = bounds_beside(path, values, low, LAST_NODE if high is None else high)
    return integer_meant(value, low, high)


def why_no_value(path, value, values, low, high):
    """What to do about a number that is out of its range."""
    key = path.rpartition(".")[2]
    if key == "node":
        nodes = min(max(high + 1, 1), limits.NODES[1])
        more = f", or bus.nodes = {value + 1}" if nodes <= value <= LAST_NODE else ""
        told = f" to {nodes - 1}" if nodes > 1 else ""
        return f"bus.nodes is {high + 1}, and nodes count from 0: take 0{told}{more}."
    if key == "id":
        return f"{value:#05x} is outside 0x200 to 0x7ef: take one of these{free_id(values)}."
    low, high = bounds_beside(path, values, low, high)
    more = f" Without the key it is {limits.USUAL_HORIZON}." if key == "horizon" else ""
    return (f"Take {low} to {high}." if low < high else f"Take {low}.") + more


def free_id(values):
    """The least identifier that no element of async has, in words."""
    owned = {value for path, value in values.items() if path.endswith(".id")}
    free = next(number for number in range(FIRST_ASYNC, LAST_ASYNC + 2) if number not in owned)
    return f", such as {free:#05x}" if free <= LAST_ASYNC else ""


def wider(room, window):
    """What to do where a full window leaves no time for a shortest asynchronous frame: the window and the asynchronous
    time have so much room together."""
    need = f"a cycle that is {SHORTEST - room + window} bit times longer"
    if room - SHORTEST >= SHORTEST:
        return f"Take a window of at most {room - SHORTEST}, or {need}."
    return f"Take {need}."
