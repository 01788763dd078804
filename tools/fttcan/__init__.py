"""fttcan for Python: an FTT-CAN master with an online admission test, over the library libfttcan.so.1.

    import fttcan
    from fttcan import Add, Master, Rules

    with Master(Rules(window=540, nodes=5)) as master:
        print(master.submit(0, Add(slot=5, node=1, length=8, period=2, deadline=1)))
        print(master.open().slots)

- `Master` answers changes and opens cycles. `Standby` follows one, and takes over.
- `Snapshot` and `Planned`: a change that is planned in another thread, while cycles are opened.
- `Table`: the same decisions, where the caller keeps table and state.
- `check` and `audit` judge plans and logs; `run` carries out commands of the program over bytes.
- `frames`: lengths and bits of frames, triggers, payloads.
- `async_bound`: how late asynchronous frames are at most. `reserve` and `errors_within`: what a window needs for disturbances.
- `Node`: what a node sends, and when. `apply`: the table after a change.
- `changes`: frames that tell nodes what a master accepted.

`values` has what is given and answered, with units and ranges, and `faults` each error. The library is proved, and this
package is not: it only hands values over. Importing it needs no library; the first call does (`library`).
"""
from . import changes, faults, frames, library, values
from .bounds import async_bound, errors_within, reserve
from .checkers import audit, check, run
from .faults import (BadState, BadTable, BadText, Closed, Error, Full, Horizon, LibraryMissing, LibraryUnfit, Malformed,
                     MemoryRanOut, Miss, NotAccepted, NotPlanned, NoTrigger, OtherFlags, OtherWindow, OutOfRange, Passed, Refused,
                     WouldMiss)
from .handles import Master, Planned, Snapshot, Standby
from .library import version
from .nodes import Due, Heard, Loaded, Node, Offer, Ticket, apply
from .table import Table
from .values import (Accepted, Add, Answer, Audit, Bound, Breach, Change, Entry, Frame, Layout, Operation, Order, Placed,
                     Remove, Rules, Slots, Stream, Trigger, mask_of, mask_text, slots_of)

__all__ = [
    "Accepted", "Add", "Answer", "Audit", "BadState", "BadTable", "BadText", "Bound", "Breach", "Change", "Closed",
    "Due", "Entry", "Error", "Frame", "Full", "Heard", "Horizon", "Layout", "LibraryMissing", "LibraryUnfit",
    "Loaded", "Malformed", "Master", "MemoryRanOut", "Miss", "NoTrigger", "Node", "NotAccepted", "NotPlanned",
    "Offer", "Operation", "Order", "OtherFlags", "OtherWindow", "OutOfRange", "Passed", "Placed", "Planned",
    "Refused", "Remove", "Rules", "Slots", "Snapshot", "Standby", "Stream", "Table", "Ticket", "Trigger", "WouldMiss",
    "apply", "async_bound", "audit", "changes", "check", "errors_within", "faults", "frames", "library", "mask_of",
    "mask_text", "reserve", "run", "slots_of", "values", "version"]
