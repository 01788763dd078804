"""The library libfttcan.so.1: where it is, the structs and calls of its header, and what each status raises.

The library is looked for when it is first needed, in this order:

1. the file that the variable FTTCAN_LIBRARY names, and no other if it is set;
2. libfttcan.so.1 in the folder of this package, in the folder lib of the prefix below which the package stands, and in
   the folder out/library/lib of a checkout;
3. where the system looks for libraries.

The names of STRUCTS and CALLS are those of the header fttcan.h. Callers of the package need nothing of this module but
`version`.
"""
from __future__ import annotations

import ctypes
import os
import pathlib
import threading
from collections.abc import Callable, Iterable, Sequence
from typing import Any

from . import faults
from .values import Accepted, Add, Change, Entry, Frame, Layout, Operation, Placed, Remove, Rules, whole

NAME = "libfttcan.so.1"
VARIABLE = "FTTCAN_LIBRARY"
# The version of the calls below. The library has to have the same first number, and at least this second one.
MAJOR, MINOR = 0, 4

OK, MEMORY, ARGUMENT, TABLE, STATE, ROOM, MISS, CLOSED, OPEN, TEXT, NO, UNFINISHED, FULL = range(13)
STATUSES = {"FTTCAN_OK": OK, "FTTCAN_MEMORY": MEMORY, "FTTCAN_ARGUMENT": ARGUMENT, "FTTCAN_TABLE": TABLE,
            "FTTCAN_STATE": STATE, "FTTCAN_ROOM": ROOM, "FTTCAN_MISS": MISS, "FTTCAN_CLOSED": CLOSED,
            "FTTCAN_OPEN": OPEN, "FTTCAN_TEXT": TEXT, "FTTCAN_NO": NO, "FTTCAN_UNFINISHED": UNFINISHED, "FTTCAN_FULL": FULL}
LOW = (1 << 64) - 1

U8, U16, U32, U64, SIZE = ctypes.c_uint8, ctypes.c_uint16, ctypes.c_uint32, ctypes.c_uint64, ctypes.c_uint64


class CMask(ctypes.Structure):
    """fttcan_mask: a set of slots. Bit s of low, and after it of high, is slot s."""

    low: int
    high: int
    _fields_ = [("low", U64), ("high", U64)]

    @property
    def number(self) -> int:
        """The set as a number."""
        return self.low | self.high << 64


class CFrame(ctypes.Structure):
    """fttcan_frame."""

    id: int
    len: int
    bytes: Any
    _fields_ = [("id", U16), ("len", U8), ("bytes", U8 * 8)]


class CTrigger(ctypes.Structure):
    """fttcan_trigger."""

    flags: CMask
    cycle: int
    window: int
    _fields_ = [("flags", CMask), ("cycle", U64), ("window", U32)]


class CRules(ctypes.Structure):
    """fttcan_rules."""

    horizon: int
    window: int
    nodes: int
    slots: int
    policy: int
    fill: int
    _fields_ = [("horizon", U64), ("window", U32), ("nodes", U8), ("slots", U8), ("policy", U8), ("fill", U8)]


class CEntry(ctypes.Structure):
    """fttcan_entry."""

    phase: int
    period: int
    deadline: int
    slot: int
    node: int
    length: int
    priority: int
    _fields_ = [("phase", U16), ("period", U16), ("deadline", U16), ("slot", U8), ("node", U8), ("length", U8),
                ("priority", U8)]


class CPlaced(ctypes.Structure):
    """fttcan_placed."""

    origin: int
    end: int
    entry: CEntry
    ended: int
    _fields_ = [("origin", U64), ("end", U64), ("entry", CEntry), ("ended", U8)]


class COp(ctypes.Structure):
    """fttcan_op."""

    kind: int
    entry: CEntry
    _fields_ = [("kind", U8), ("entry", CEntry)]


class CState(ctypes.Structure):
    """fttcan_state."""

    cycle: int
    pending: CMask
    _fields_ = [("cycle", U64), ("pending", CMask)]


class CVerdict(ctypes.Structure):
    """fttcan_verdict."""

    first: int
    second: int
    kind: int
    op: int
    why: int
    slot: int
    known: int
    _fields_ = [("first", U64), ("second", U64), ("kind", U8), ("op", U8), ("why", U8), ("slot", U8), ("known", U8)]


class CPlan(ctypes.Structure):
    """fttcan_plan."""

    flags: CMask
    window: int
    _fields_ = [("flags", CMask), ("window", U32)]


class COrder(ctypes.Structure):
    """fttcan_order."""

    cycle: int
    flags: CMask
    window: int
    learned: int
    _fields_ = [("cycle", U64), ("flags", CMask), ("window", U32), ("learned", U8)]


class CBreach(ctypes.Structure):
    """fttcan_breach."""

    first: int
    second: int
    kind: int
    slot: int
    _fields_ = [("first", U64), ("second", U64), ("kind", U8), ("slot", U8)]


class CFollow(ctypes.Structure):
    """fttcan_follow."""

    heard: CMask
    planned: CMask
    first: int
    second: int
    kind: int
    _fields_ = [("heard", CMask), ("planned", CMask), ("first", U64), ("second", U64), ("kind", U8)]


class CLayout(ctypes.Structure):
    """fttcan_layout."""

    cycle: int
    turnaround: int
    window: int
    slots: int
    _fields_ = [("cycle", U32), ("turnaround", U32), ("window", U32), ("slots", U8)]


class CStream(ctypes.Structure):
    """fttcan_stream."""

    gap: int
    burst: int
    id: int
    bytes: int
    _fields_ = [("gap", U64), ("burst", U32), ("id", U16), ("bytes", U8)]


class COwner(ctypes.Structure):
    """fttcan_owner."""

    id: int
    node: int
    _fields_ = [("id", U16), ("node", U8)]


class CSettings(ctypes.Structure):
    """fttcan_settings."""

    room: int
    entries: int
    number: int
    tolerance: int
    silent: int
    _fields_ = [("room", SIZE), ("entries", SIZE), ("number", U8), ("tolerance", U8), ("silent", U8)]


class COffer(ctypes.Structure):
    """fttcan_offer."""

    until: int
    id: int
    _fields_ = [("until", U32), ("id", U16)]


class CTicket(ctypes.Structure):
    """fttcan_ticket."""

    cycle: int
    number: int
    id: int
    _fields_ = [("cycle", U64), ("number", U64), ("id", U16)]


class CLoaded(ctypes.Structure):
    """fttcan_loaded."""

    ticket: CTicket
    frame: CFrame
    users: int
    _fields_ = [("ticket", CTicket), ("frame", CFrame), ("users", U8)]


class CDue(ctypes.Structure):
    """fttcan_due."""

    start: int
    last: int
    loaded: int
    users: int
    _fields_ = [("start", U32), ("last", U32), ("loaded", U8), ("users", U8)]


class CTold(ctypes.Structure):
    """fttcan_told."""

    start: int
    number: int
    count: int
    kind: int
    _fields_ = [("start", U64), ("number", U32), ("count", U16), ("kind", U8)]


class CCollected(ctypes.Structure):
    """fttcan_collected: all zero is nothing."""

    _fields_ = [("parts", U32), ("wanted", U32), ("last", U32), ("number", U8), ("begun", U8), ("whole", U8)]


class CNode(ctypes.Union):
    """fttcan_node."""

    _fields_ = [("wide", U64), ("at", ctypes.c_void_p)]


class CMaster(ctypes.Union):
    """fttcan_master: all zero holds nothing."""

    _fields_ = [("wide", U64), ("at", ctypes.c_void_p)]


class CStandby(ctypes.Union):
    """fttcan_standby."""

    _fields_ = [("wide", U64), ("at", ctypes.c_void_p)]


class CSnapshot(ctypes.Union):
    """fttcan_snapshot."""

    _fields_ = [("wide", U64), ("at", ctypes.c_void_p)]


class CPlanned(ctypes.Union):
    """fttcan_planned."""

    _fields_ = [("wide", U64), ("at", ctypes.c_void_p)]


STRUCTS: dict[str, type[ctypes.Structure] | type[ctypes.Union]] = {
    "fttcan_mask": CMask, "fttcan_frame": CFrame, "fttcan_trigger": CTrigger, "fttcan_rules": CRules,
    "fttcan_entry": CEntry, "fttcan_placed": CPlaced, "fttcan_op": COp, "fttcan_state": CState,
    "fttcan_verdict": CVerdict, "fttcan_plan": CPlan, "fttcan_order": COrder, "fttcan_breach": CBreach,
    "fttcan_follow": CFollow, "fttcan_layout": CLayout, "fttcan_stream": CStream, "fttcan_owner": COwner, "fttcan_settings": CSettings,
    "fttcan_offer": COffer, "fttcan_ticket": CTicket, "fttcan_loaded": CLoaded, "fttcan_due": CDue, "fttcan_told": CTold,
    "fttcan_collected": CCollected, "fttcan_node": CNode, "fttcan_master": CMaster, "fttcan_standby": CStandby,
    "fttcan_snapshot": CSnapshot, "fttcan_planned": CPlanned}

_P = ctypes.POINTER
# The bytes of a caller, of which the library reads alone; and a room that it writes to.
TEXT_IN, ROOM_OUT = ctypes.c_char_p, _P(U8)
_IN = (TEXT_IN, SIZE)
_OUT = (ROOM_OUT, SIZE, _P(SIZE))
_CHANGE = (U64, _P(COp), SIZE)
_MASTER, _STANDBY = _P(CMaster), _P(CStandby)
_SNAPSHOT, _PLANNED, _NODE = _P(CSnapshot), _P(CPlanned), _P(CNode)
_TABLE_IN, _TABLE_OUT = (_P(CPlaced), SIZE), (_P(CPlaced), SIZE, _P(SIZE))

# By its name the types of the arguments of a call. All answer a status, but for those of WITHOUT, and `fttcan_version`.
CALLS: dict[str, Sequence[Any]] = {
    "fttcan_version": (),
    "fttcan_master_new": (_MASTER, _P(CRules)),
    "fttcan_master_free": (_MASTER,),
    "fttcan_master_rules": (_MASTER, _P(CRules)),
    "fttcan_master_submit": (_MASTER, U8, *_CHANGE, _P(CVerdict)),
    "fttcan_master_trail": (_MASTER, _P(CMask), SIZE, _P(SIZE)),
    "fttcan_master_look": (_MASTER, U8, _P(U64)),
    "fttcan_master_open": (_MASTER, _P(COrder)),
    "fttcan_master_planned": (_MASTER, _P(CMask)),
    "fttcan_master_next": (_MASTER, _P(U64)),
    "fttcan_master_table": (_MASTER, _P(CPlaced), SIZE, _P(SIZE)),
    "fttcan_master_certificate": (_MASTER, *_OUT),
    "fttcan_master_save": (_MASTER, *_OUT),
    "fttcan_master_restore": (_MASTER, *_IN),
    "fttcan_master_snapshot": (_MASTER, _SNAPSHOT),
    "fttcan_snapshot_free": (_SNAPSHOT,),
    "fttcan_plan_apart": (_SNAPSHOT, *_CHANGE, _PLANNED),
    "fttcan_planned_verdict": (_PLANNED, _P(CVerdict)),
    "fttcan_planned_free": (_PLANNED,),
    "fttcan_master_settle": (_MASTER, U8, _PLANNED, _P(CVerdict)),
    "fttcan_standby_new": (_STANDBY, _P(CRules)),
    "fttcan_standby_free": (_STANDBY,),
    "fttcan_standby_change": (_STANDBY, U8, *_CHANGE, _P(CVerdict)),
    "fttcan_standby_trigger": (_STANDBY, _P(CFrame), SIZE, _P(CFollow)),
    "fttcan_standby_trigger_reserved": (_STANDBY, U32, _P(CFrame), SIZE, _P(CFollow)),
    "fttcan_standby_next": (_STANDBY, _P(U64)),
    "fttcan_standby_take_over": (_STANDBY, _MASTER),
    "fttcan_decide": (_P(CRules), _P(CPlaced), SIZE, _P(CState), *_CHANGE, _P(CVerdict), _P(CPlaced), SIZE, _P(SIZE)),
    "fttcan_open": (_P(CRules), _P(CPlaced), SIZE, _P(CState), _P(CPlan)),
    "fttcan_check": (_P(CPlaced), SIZE, U32, *_IN, _P(CBreach)),
    "fttcan_wire_length": (U16, *_IN, _P(U32)),
    "fttcan_wire_bits": (U16, *_IN, *_OUT),
    "fttcan_read_wire": (*_IN, _P(CFrame), _P(SIZE)),
    "fttcan_trigger_encode": (U8, _P(CTrigger), _P(CFrame), SIZE, _P(SIZE)),
    "fttcan_trigger_encode_reserved": (U8, _P(CTrigger), U32, _P(CFrame), SIZE, _P(SIZE)),
    "fttcan_trigger_decode": (U8, _P(CFrame), SIZE, _P(CTrigger)),
    "fttcan_payload": (U64, ROOM_OUT, SIZE),
    "fttcan_fits": (_P(CLayout), U64, U8, U32, _P(U8)),
    "fttcan_async_bound": (_P(CLayout), _P(CStream), SIZE, SIZE, _P(U64)),
    "fttcan_reserve": (U16, U8, _P(U32)),
    "fttcan_errors_within": (U32, U8, _P(U32)),
    "fttcan_node_new": (_NODE, _P(CLayout), _P(CSettings), _P(COwner), SIZE),
    "fttcan_node_free": (_NODE,),
    "fttcan_node_learn": (_NODE, *_TABLE_IN),
    "fttcan_apply": (*_TABLE_IN, *_CHANGE, *_TABLE_OUT),
    "fttcan_node_go_to": (_NODE, U64),
    "fttcan_node_trigger": (_NODE, _P(CFrame), U32, _P(U8)),
    "fttcan_node_set": (_NODE, U8, *_IN),
    "fttcan_node_put": (_NODE, _P(CFrame)),
    "fttcan_node_drop": (_NODE, U16),
    "fttcan_node_waiting": (_NODE, U16, _P(SIZE)),
    "fttcan_node_offer": (_NODE, U64, _P(COffer)),
    "fttcan_node_wake": (_NODE, U64, _P(U64)),
    "fttcan_node_frame": (_NODE, U64, U16, _P(CFrame)),
    "fttcan_node_load": (_NODE, U64, U16, _P(CLoaded)),
    "fttcan_node_sent": (_NODE, _P(CTicket)),
    "fttcan_node_withdrawn": (_NODE, _P(CTicket)),
    "fttcan_node_due": (_NODE, _P(CMask)),
    "fttcan_node_slot_due": (_NODE, U8, _P(CDue)),
    "fttcan_node_slot_frame": (_NODE, U8, _P(CFrame)),
    "fttcan_node_next": (_NODE, _P(U64)),
    "fttcan_node_opened": (_NODE, _P(CTrigger)),
    "fttcan_change_encode": (U16, U32, *_CHANGE, _P(CFrame), SIZE, _P(SIZE)),
    "fttcan_table_encode": (U16, U32, *_TABLE_IN, _P(CFrame), SIZE, _P(SIZE)),
    "fttcan_collect": (_P(CCollected), _P(CFrame), ROOM_OUT, SIZE, _P(CTold)),
    "fttcan_change_decode": (*_IN, _P(CTold), _P(COp), SIZE, _P(SIZE)),
    "fttcan_table_decode": (*_IN, _P(CTold), *_TABLE_OUT),
    "fttcan_run": (*_IN * 5, *_OUT * 2),
    "fttcan_audit": (*_IN * 4, _P(U64)),
}
WITHOUT = ("fttcan_master_free", "fttcan_standby_free", "fttcan_snapshot_free", "fttcan_planned_free", "fttcan_node_free")

_LOADED: list[ctypes.CDLL] = []
_LOADING = threading.Lock()


def places() -> list[str]:
    """The places at which the library is looked for, in order. The last one is a name alone: the system knows where."""
    named = os.environ.get(VARIABLE)
    if named:
        return [named]
    here = pathlib.Path(__file__).resolve().parent
    folders = [here, here.parent.parent / "out/library/lib"]
    folders += [above.parent / "lib" for above in here.parents if above.name in ("lib", "share")]
    return [str(folder / NAME) for folder in folders if (folder / NAME).is_file()] + [NAME]


def _found() -> ctypes.CDLL:
    """The library at the first place where there is one."""
    said = []
    for place in places():
        try:
            return ctypes.CDLL(place)
        except OSError as fault:
            said.append(str(fault))
    raise faults.LibraryMissing(
        f"{NAME} can't be loaded: {'; '.join(said)}. Set {VARIABLE} to its path, or put it into the folder "
        f"{pathlib.Path(__file__).resolve().parent}, or install it where the system looks for libraries")


def _number(library: ctypes.CDLL) -> tuple[int, int, int]:
    """The version of a library."""
    number = int(call_of(library, "fttcan_version")())
    return number >> 16, number >> 8 & 0xFF, number & 0xFF


def call_of(library: ctypes.CDLL, name: str) -> Callable[..., Any]:
    """A call of a library, with its types. LibraryUnfit if the library has none of the name."""
    try:
        call = library[name]
    except AttributeError as fault:
        raise faults.LibraryUnfit(f"{library._name} has no function {name}") from fault
    call.argtypes, call.restype = tuple(CALLS[name]), None if name in WITHOUT else U32
    return call


def loaded() -> ctypes.CDLL:
    """The library. LibraryMissing if there is none, LibraryUnfit if it is of another version."""
    if not _LOADED:
        with _LOADING:
            if not _LOADED:
                library = _found()
                major, minor, patch = _number(library)
                if major != MAJOR or minor < MINOR:
                    raise faults.LibraryUnfit(f"{library._name} has version {major}.{minor}.{patch}, and this package "
                                              f"needs {MAJOR}.{MINOR} or a later {MAJOR}")
                _LOADED.append(library)
    return _LOADED[0]


def version() -> tuple[int, int, int]:
    """The version of the library: major, minor and patch."""
    return _number(loaded())


class Calls:
    """The calls of the library as attributes, by their names without `fttcan_`. Each is looked up once."""

    def __getattr__(self, name: str) -> Callable[..., Any]:
        call = call_of(loaded(), f"fttcan_{name}")
        setattr(self, name, call)
        return call


calls = Calls()

_CAUSES: dict[int, Callable[[], Exception]] = {
    MEMORY: lambda: faults.MemoryRanOut("memory ran out, or the table is full"),
    ARGUMENT: lambda: faults.OutOfRange("an argument is out of its range"),
    TABLE: lambda: faults.BadTable("the entries are no table that a master can have"),
    STATE: lambda: faults.BadState("the state can't be planned from, or no cycle may be opened any more"),
    MISS: lambda: faults.WouldMiss("an instance would miss its deadline in this cycle"),
    CLOSED: lambda: faults.Closed("the object is closed"),
    TEXT: lambda: faults.BadText("the text, the bytes or the frames are none of the form"),
    FULL: lambda: faults.Full("the node has room for no more")}


def fault_of(status: int) -> Exception:
    """What a status other than OK raises."""
    cause = _CAUSES.get(status)
    return cause() if cause else faults.Error(f"the library answered status {status}")


def must(status: int) -> None:
    """Raises what a status says, if it is not OK."""
    if status:
        raise fault_of(status)


# From values to structs ------------------------------------------------------------------------------------------------

def mask_in(mask: int) -> CMask:
    """A set of slots for the library."""
    return CMask(mask & LOW, mask >> 64)


def rules_in(rules: Rules) -> CRules:
    """Rules for the library."""
    return CRules(rules.horizon, rules.window, rules.nodes, rules.slots, ("rm", "dm", "edf").index(rules.policy),
                  ("prefix", "skip").index(rules.fill))


def entry_in(entry: Entry) -> CEntry:
    """An entry for the library."""
    return CEntry(entry.phase, entry.period, entry.deadline, entry.slot, entry.node, entry.length, entry.priority)


def _operation_in(operation: Operation) -> COp:
    """An operation for the library."""
    if isinstance(operation, Remove):
        return COp(1, CEntry(slot=operation.slot))
    if isinstance(operation, (Add, Change)):
        return COp(2 if isinstance(operation, Change) else 0, entry_in(operation))
    raise TypeError(f"{operation!r} is no operation: it has to be Add, Remove or Change")


def change_in(start: int, operations: Iterable[Operation]) -> tuple[int, Any, int]:
    """A change for the library: its start, its operations, and how many these are."""
    made = [_operation_in(operation) for operation in operations]
    return whole("start", start, 64), (COp * max(1, len(made)))(*made), len(made)


def layout_in(layout: Layout) -> CLayout:
    """A layout for the library."""
    return CLayout(layout.cycle, layout.turnaround, layout.window, layout.slots)


def frame_in(frame: Frame) -> CFrame:
    """A frame for the library."""
    return CFrame(frame.identifier, len(frame.data), (U8 * 8)(*frame.data))


def placed_in(placed: Placed) -> CPlaced:
    """A placed entry for the library."""
    return CPlaced(placed.origin, placed.end or 0, entry_in(placed.entry), placed.end is not None)


def table_in(table: Iterable[Placed]) -> tuple[Any, int]:
    """A table for the library, and how many entries it has."""
    made = [placed_in(placed) for placed in table]
    return (CPlaced * max(1, len(made)))(*made), len(made)


# From structs to values ------------------------------------------------------------------------------------------------

def entry_out(entry: CEntry) -> Entry:
    """An entry of the library."""
    return Entry(slot=entry.slot, node=entry.node, length=entry.length, period=entry.period, deadline=entry.deadline,
                 phase=entry.phase, priority=entry.priority)


def frame_out(frame: CFrame) -> Frame:
    """A frame of the library."""
    return Frame(frame.id, bytes(frame.bytes[:frame.len]))


def operation_out(op: COp) -> Operation:
    """An operation of the library."""
    entry = op.entry
    if op.kind == 1:
        return Remove(entry.slot)
    made: type[Change] | type[Add] = Change if op.kind == 2 else Add
    return made(slot=entry.slot, node=entry.node, length=entry.length, period=entry.period, deadline=entry.deadline,
                phase=entry.phase, priority=entry.priority)


def placed_out(placed: CPlaced) -> Placed:
    """A placed entry of the library."""
    return Placed(entry_out(placed.entry), placed.origin, placed.end if placed.ended else None)


def verdict_out(verdict: CVerdict, trail: tuple[int, ...] = ()) -> Accepted | faults.Refused:
    """A verdict of the library. That of a miss gets the trail."""
    first, second = verdict.first, verdict.second
    if verdict.kind == 4:
        return Accepted(first, second)
    if verdict.kind == 3:
        return faults.Horizon(first, second)
    if verdict.kind == 2:
        return faults.Miss(verdict.slot, first, second, trail)
    if verdict.kind == 1:
        return faults.Passed(first, second)
    return faults.Malformed(verdict.op, verdict.why, first if verdict.known else None)


def accepted(verdict: Accepted | faults.Refused) -> Accepted:
    """The verdict, if it accepts. Otherwise it is raised."""
    if isinstance(verdict, faults.Refused):
        raise verdict
    return verdict


def listed(call: Callable[[Any, int, Any], int], kind: Any, guess: int) -> Any:
    """What a call answers that is given a room, its size and a place for a count: an array of that count. The first
    room is of the guess. If it is too small, the call is made again."""
    count = SIZE()
    while True:
        room = (kind * max(1, guess))()
        status = call(room, guess, count)
        if status != ROOM:
            must(status)
            return room, count.value
        guess = max(count.value, guess + 1)


def bytes_from(call: Callable[[Any, int, Any], int], guess: int) -> bytes:
    """The same, of bytes."""
    room, count = listed(call, U8, guess)
    return ctypes.string_at(room, count)
