"""A node: it learns its entries, takes requests and bytes, hears triggers, and says what is to be sent, and when.

`into` and all times are bit times from the start of the first trigger frame of the open cycle, as the driver counts them.
What other nodes send need not be told.
"""
from __future__ import annotations

import enum
from collections.abc import Iterable, Mapping
from dataclasses import dataclass
from typing import NamedTuple

from .handles import Handle
from .library import (FULL, NO, SIZE, U8, U64, CDue, CFrame, CLoaded, CMask, CNode, COffer, COwner, CPlaced, CSettings, CTicket,
                      CTrigger, calls, change_in, fault_of, frame_in, frame_out, layout_in, listed, must, placed_out, table_in)
from . import faults
from .values import Frame, Layout, Operation, Placed, Trigger, whole

__all__ = ["Due", "Heard", "Loaded", "Node", "Offer", "Ticket", "apply"]


class Heard(enum.IntEnum):
    """What a node heard in a frame.

    OPENED: the trigger is whole, and its cycle is open. NOTED: the first one of two frames, with 96 slots. AGAIN: a trigger
    frame of the open cycle, which came before; nothing has changed. NOT_TAKEN: a trigger frame of no cycle that can be;
    nothing is sent until the next one that is taken. OTHER: no trigger frame; nothing has changed.
    """

    OPENED = 0
    NOTED = 1
    AGAIN = 2
    NOT_TAKEN = 3
    OTHER = 4


class Offer(NamedTuple):
    """What a node offers: an identifier, and the last bit time of the cycle at which its frame may start."""

    identifier: int
    until: int


@dataclass(frozen=True, kw_only=True)
class Ticket:
    """Which frame is in flight: that of an identifier, loaded in a cycle. Of requests `number` counts those that were put
    under the identifier, from 0."""

    identifier: int
    cycle: int
    number: int

    def __post_init__(self) -> None:
        for name, bits in (("identifier", 16), ("cycle", 64), ("number", 64)):
            whole(name, getattr(self, name), bits)


@dataclass(frozen=True, kw_only=True)
class Loaded:
    """A frame for the controller, and its ticket. users: whether its bytes were put or set; otherwise they are the number
    of the instance."""

    ticket: Ticket
    frame: Frame
    users: bool


@dataclass(frozen=True, kw_only=True)
class Due:
    """A slot that a node owes: the first and the last bit time at which its frame may start, whether the frame is in flight,
    and whether its bytes were set."""

    start: int
    last: int
    loaded: bool
    users: bool


class Node(Handle):
    """A node, which takes no trigger before its first `go_to`.

        with Node(Layout(cycle=1000, turnaround=20, window=540), number=1, owners={0x210: 1}, room=4, entries=8) as node:
            node.go_to(master.next)
            node.learn(master.table())

    layout: its window is the largest one that a trigger says, with the reserve if there is one.
    number: 0 to 29. owners: by identifiers, 0x200 to 0x7EF, the numbers of their nodes; all nodes are given the same.
    room: how many requests may wait under each identifier. entries: how many entries of its own it can know at once.
    tolerance: by how many cycles `passed` of `trigger` may be off, 0 to 127.
    silent: whether a slot without fitting bytes is not sent. Otherwise the number of its instance is.

    OutOfRange, MemoryRanOut. No later call takes memory of the library, but `learn` while it runs.
    """

    def __init__(self, layout: Layout, *, number: int, owners: Mapping[int, int] | None = None, room: int = 8, entries: int = 96,
                 tolerance: int = 1, silent: bool = False) -> None:
        super().__init__(CNode(), calls.node_free)
        given = [COwner(whole("identifier", identifier, 16), whole("node", node, 8)) for identifier, node in (owners or {}).items()]
        settings = CSettings(whole("room", room, 64), whole("entries", entries, 64), whole("number", number, 8),
                             whole("tolerance", tolerance, 8), silent)
        must(calls.node_new(self._struct, layout_in(layout), settings, (COwner * max(1, len(given)))(*given), len(given)))

    def _found(self, status: int) -> bool:
        """Whether a call found what it was asked for."""
        if status not in (0, NO):
            raise fault_of(status)
        return status == 0

    def learn(self, table: Iterable[Placed]) -> None:
        """Replaces what the node knows by the entries of its number in a table. A change is learnt before its start. The bytes
        of a slot are kept if the slot's last entry has the same origin as before.

        BadTable, MemoryRanOut. Full: more entries of its number than it was made for; it is as before.
        """
        given = table_in(table)
        with self._lock:
            must(calls.node_learn(self._struct, *given))

    def go_to(self, cycle: int) -> None:
        """Says that the next trigger which is taken is that of a cycle, or of a later one. The open cycle is closed.
        OutOfRange: the cycle is before `next`, or above 2^42."""
        with self._lock:
            must(calls.node_go_to(self._struct, whole("cycle", cycle, 64)))

    def trigger(self, frame: Frame, *, passed: int = 0) -> Heard:
        """Tells the node a frame that may be a trigger frame. passed: how many cycles have gone by without one, by a clock,
        since the last trigger that was taken. It may be off by the tolerance. OutOfRange: the frame is none."""
        heard, given, gone = U8(), frame_in(frame), whole("passed", passed, 32)
        with self._lock:
            must(calls.node_trigger(self._struct, given, gone, heard))
        return Heard(heard.value)

    def set(self, slot: int, data: bytes) -> None:
        """Sets the bytes that a slot sends from the next `load` on. They are sent if they are as many as its entry says.
        OutOfRange: there is no such slot, or they are more than 8."""
        given = bytes(data)
        with self._lock:
            must(calls.node_set(self._struct, whole("slot", slot, 8), given, len(given)))

    def put(self, frame: Frame) -> bool:
        """Puts a request behind those of its identifier. The answer is whether there was room. OutOfRange: the frame is none,
        or its identifier is none of the node's own."""
        given = frame_in(frame)
        with self._lock:
            status = calls.node_put(self._struct, given)
        if status not in (0, FULL):
            raise fault_of(status)
        return bool(status == 0)

    def drop(self, identifier: int) -> bool:
        """Drops the oldest request that waits under an identifier. The answer is whether one waited that is not in flight.
        OutOfRange: the identifier is none of the node's own."""
        with self._lock:
            return self._found(calls.node_drop(self._struct, whole("identifier", identifier, 16)))

    def waiting(self, identifier: int) -> int:
        """How many requests wait under an identifier, with the one in flight. OutOfRange: as `drop`."""
        count = SIZE()
        with self._lock:
            must(calls.node_waiting(self._struct, whole("identifier", identifier, 16), count))
        return count.value

    def offer(self, into: int) -> Offer | None:
        """What the node offers at a time: the least identifier that waits, is not in flight, and still ends where it has to."""
        offer = COffer()
        with self._lock:
            found = self._found(calls.node_offer(self._struct, whole("into", into, 64), offer))
        return Offer(offer.id, offer.until) if found else None

    def wake(self, into: int) -> int | None:
        """The first time after `into` at which the node offers something, as long as nothing is told it. None: not in this
        cycle."""
        time = U64()
        with self._lock:
            found = self._found(calls.node_wake(self._struct, whole("into", into, 64), time))
        return time.value if found else None

    def frame(self, into: int, identifier: int) -> Frame | None:
        """The frame of what the node offers at a time: a look. None: it does not offer this identifier then."""
        frame = CFrame()
        with self._lock:
            found = self._found(calls.node_frame(self._struct, whole("into", into, 64), whole("identifier", identifier, 16), frame))
        return frame_out(frame) if found else None

    def load(self, into: int, identifier: int) -> Loaded | None:
        """Takes the frame of what the node offers at a time, for the controller. The identifier is in flight then, and not
        offered until the ticket is told as sent or withdrawn. None: it does not offer this identifier then."""
        loaded = CLoaded()
        with self._lock:
            found = self._found(calls.node_load(self._struct, whole("into", into, 64), whole("identifier", identifier, 16), loaded))
        if not found:
            return None
        ticket = loaded.ticket
        return Loaded(ticket=Ticket(identifier=ticket.id, cycle=ticket.cycle, number=ticket.number), frame=frame_out(loaded.frame),
                      users=loaded.users != 0)

    def sent(self, ticket: Ticket) -> bool:
        """Tells the node that a frame was sent. The answer is whether that counts: not if it was told already, or its cycle
        is over."""
        with self._lock:
            return self._found(calls.node_sent(self._struct, CTicket(ticket.cycle, ticket.number, ticket.identifier)))

    def withdrawn(self, ticket: Ticket) -> bool:
        """Tells the node that a frame was not sent, and will not be. It is offered again. The answer is whether it was in
        flight."""
        with self._lock:
            return self._found(calls.node_withdrawn(self._struct, CTicket(ticket.cycle, ticket.number, ticket.identifier)))

    def due(self) -> int:
        """The slots that the node owes in the open cycle, as a set. Just before the next trigger these were missed."""
        slots = CMask()
        with self._lock:
            must(calls.node_due(self._struct, slots))
        return slots.number

    def slot_due(self, slot: int) -> Due | None:
        """When a slot that the node owes may start. None: it does not owe it."""
        due = CDue()
        with self._lock:
            found = self._found(calls.node_slot_due(self._struct, whole("slot", slot, 8), due))
        return Due(start=due.start, last=due.last, loaded=due.loaded != 0, users=due.users != 0) if found else None

    def slot_frame(self, slot: int) -> Frame | None:
        """The frame of a slot that the node owes: a look. None: it does not owe it."""
        frame = CFrame()
        with self._lock:
            found = self._found(calls.node_slot_frame(self._struct, whole("slot", slot, 8), frame))
        return frame_out(frame) if found else None

    @property
    def next(self) -> int:
        """The least cycle whose trigger the node can take."""
        cycle = U64()
        with self._lock:
            must(calls.node_next(self._struct, cycle))
        return cycle.value

    @property
    def opened(self) -> Trigger | None:
        """The open cycle, with its flags and its window. None: no cycle is open, as between two trigger frames."""
        opened = CTrigger()
        with self._lock:
            found = self._found(calls.node_opened(self._struct, opened))
        return Trigger(opened.cycle, opened.flags.number, opened.window) if found else None


def apply(table: Iterable[Placed], start: int, *operations: Operation) -> list[Placed]:
    """The table after a change that a master has accepted, without a plan. Entries that are over stay.

    NotAccepted: no master accepts the change, since it breaks a rule even with 96 slots and 30 nodes. BadTable, MemoryRanOut.
    """
    given, change = table_in(table), change_in(start, operations)

    def asked(room: object, size: int, count: object) -> int:
        status = int(calls.apply(*given, *change, room, size, count))
        if status == NO:
            raise faults.NotAccepted("no master accepts this change")
        return status

    room, count = listed(asked, CPlaced, given[1] + len(operations))
    return [placed_out(room[place]) for place in range(count)]
