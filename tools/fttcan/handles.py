"""What a handle of the library holds: masters, standbys, snapshots and planned changes.

Each is closed by `close`, at the end of a `with`, or when nobody has it any more. A second close does nothing. Threads
may share one: its calls take turns. Calls of different ones run side by side, and the library runs without the lock of
the interpreter. So a change is planned in another thread while cycles are opened.
"""
from __future__ import annotations

import ctypes
import threading
from collections.abc import Callable
from typing import Any, NoReturn, TypeVar

from . import faults
from .library import (NO, U64, CFollow, CMask, CMaster, COrder, CPlaced, CPlanned, CRules, CSnapshot, CStandby,
                      CVerdict, accepted, bytes_from, calls, change_in, fault_of, listed, must, placed_out, rules_in,
                      verdict_out)
from .frames import frames_in
from .values import FILLS, POLICIES, Accepted, Frame, Operation, Order, Placed, Rules, whole

Own = TypeVar("Own", bound="Handle")


class Handle:
    """Something of the library that has to be closed."""

    _free: Callable[[Any], None] | None = None

    def __init__(self, struct: ctypes.Union, free: Callable[[Any], None]) -> None:
        self._struct, self._lock = struct, threading.Lock()
        self._free = free

    def close(self) -> None:
        """Gives back all memory. A second call does nothing."""
        if self._free is not None:
            with self._lock:
                self._free(self._struct)

    @property
    def closed(self) -> bool:
        """Whether this was closed, or handed on."""
        return not getattr(self._struct, "at")

    def __enter__(self: Own) -> Own:
        return self

    def __exit__(self, *_: object) -> None:
        self.close()

    def __del__(self) -> None:
        # No other can have the lock: nobody has this any more.
        if self._free is not None:
            self._free(self._struct)

    def __reduce__(self) -> NoReturn:
        raise TypeError(f"a {type(self).__name__} can't be copied or pickled")

    def __repr__(self) -> str:
        return f"<{type(self).__name__}{', closed' if self.closed else ''}>"


class Planned(Handle):
    """A change that was planned apart from its master. `Snapshot.plan` makes it, and `Master.settle` takes it."""

    def __init__(self) -> None:
        super().__init__(CPlanned(), calls.planned_free)

    @property
    def verdict(self) -> Accepted | faults.Refused:
        """What was decided, as a value: Accepted, or the error that would be raised. It holds while the master accepts
        no other change, and has not opened the start."""
        verdict = CVerdict()
        with self._lock:
            must(calls.planned_verdict(self._struct, verdict))
        return verdict_out(verdict)


class Snapshot(Handle):
    """What a change is planned from, apart from its master. `Master.snapshot` makes it."""

    def __init__(self) -> None:
        super().__init__(CSnapshot(), calls.snapshot_free)

    def plan(self, start: int, *operations: Operation) -> Planned:
        """Plans a change from cycle `start` on, in the thread of the caller. The snapshot is closed then.

        MemoryRanOut: the snapshot is as before. Closed: it was closed. A refusal is no error here: the verdict has it.
        """
        change, planned = change_in(start, operations), Planned()
        with self._lock:
            must(calls.plan_apart(self._struct, *change, planned._struct))
        return planned


class Master(Handle):
    """A master that answers changes of its table and opens cycles, in memory that does not grow with their number.

        with Master(Rules(window=540, nodes=5)) as master:
            master.submit(0, Add(slot=5, node=1, length=8, period=2, deadline=1))
            order = master.open()

    OutOfRange: the rules are not those of a master. MemoryRanOut: there is no memory for one.
    """

    def __init__(self, rules: Rules) -> None:
        super().__init__(CMaster(), calls.master_free)
        self._rules: Rules | None = rules
        self._order, self._open = COrder(), calls.master_open
        must(calls.master_new(self._struct, rules_in(rules)))

    @classmethod
    def _empty(cls, rules: Rules | None) -> Master:
        """One that holds nothing yet."""
        master = cls.__new__(cls)
        Handle.__init__(master, CMaster(), calls.master_free)
        master._rules, master._order, master._open = rules, COrder(), calls.master_open
        return master

    @classmethod
    def restore(cls, saved: bytes) -> Master:
        """A master in the state that `save` has written, which may be that of another process. The bytes are not trusted:
        of any that are not refused a master is made that misses no deadline. Not checked is whether they are the newest,
        and whether they are of this network.

        BadText: no master has such a state. MemoryRanOut.
        """
        master, text = cls._empty(None), bytes(saved)
        must(calls.master_restore(master._struct, text, len(text)))
        return master

    @property
    def rules(self) -> Rules:
        """What it was made for."""
        if self._rules is None:
            rules = CRules()
            with self._lock:
                must(calls.master_rules(self._struct, rules))
            self._rules = Rules(rules.window, rules.nodes, rules.slots, POLICIES[rules.policy],  # type: ignore[arg-type]
                                FILLS[rules.fill], rules.horizon)  # type: ignore[arg-type]
        return self._rules

    def submit(self, start: int, *operations: Operation, caller: int = 1) -> Accepted:
        """Answers a change from cycle `start` on, which `caller`, 1 to 8, asks for. All of it is done, or nothing.

        Malformed, Passed, Miss, Horizon: the change is refused. MemoryRanOut, OutOfRange, Closed. It takes time for
        about the cycles up to the repeat of the plan times the entries.
        """
        change, verdict = change_in(start, operations), CVerdict()
        with self._lock:
            must(calls.master_submit(self._struct, whole("caller", caller, 8), *change, verdict))
            return accepted(verdict_out(verdict, self._trail(verdict)))

    def _trail(self, verdict: CVerdict) -> tuple[int, ...]:
        """What would be sent in each cycle up to the miss of the last answer; nothing for another verdict."""
        if verdict.kind != 2:
            return ()
        room, count = listed(lambda room, size, count: int(calls.master_trail(self._struct, room, size, count)),
                             CMask, 64)
        return tuple(room[place].number for place in range(count))

    def open(self) -> Order:
        """Opens the next cycle. It takes no memory of the library, and about a microsecond.

        BadState: no cycle may be opened any more. Closed.
        """
        with self._lock:
            order = self._order
            status = self._open(self._struct, order)
            if status:
                raise fault_of(status)
            flags = order.flags
            return Order(order.cycle, flags.low | flags.high << 64, order.window, order.learned != 0)

    def look(self, caller: int = 1) -> int:
        """The next cycle, as an answer to `caller`, 1 to 8."""
        cycle = U64()
        with self._lock:
            must(calls.master_look(self._struct, whole("caller", caller, 8), cycle))
        return cycle.value

    @property
    def next(self) -> int:
        """The cycle that is opened next."""
        cycle = U64()
        with self._lock:
            must(calls.master_next(self._struct, cycle))
        return cycle.value

    def planned(self) -> int:
        """The slots that `open` would flag now, as a set."""
        flags = CMask()
        with self._lock:
            must(calls.master_planned(self._struct, flags))
        return flags.number

    def table(self) -> list[Placed]:
        """The entries of the table, in the order of their placing. Ended ones are among them: when a change is accepted,
        those are let go that are over and have a later entry in their slot."""
        with self._lock:
            room, count = listed(lambda room, size, count: int(calls.master_table(self._struct, room, size, count)),
                                 CPlaced, 128)
        return [placed_out(room[place]) for place in range(count)]

    def certificate(self) -> str:
        """The plan text from the next cycle on, up to the end of its first repeat. `check` takes it with the table and the
        window of the rules. MemoryRanOut, Closed."""
        with self._lock:
            return bytes_from(lambda room, size, count: int(calls.master_certificate(self._struct, room, size, count)),
                              4096).decode()

    def save(self) -> bytes:
        """The state, for `restore`."""
        with self._lock:
            return bytes_from(lambda room, size, count: int(calls.master_save(self._struct, room, size, count)), 4096)

    def snapshot(self) -> Snapshot:
        """What a change is planned from in another thread, while this master goes on."""
        snapshot = Snapshot()
        with self._lock:
            must(calls.master_snapshot(self._struct, snapshot._struct))
        return snapshot

    def settle(self, planned: Planned, caller: int = 1) -> Accepted:
        """Answers a change that was planned apart, which `caller`, 1 to 8, asks for. The plan is closed then.

        If a change was accepted since the snapshot, it is planned anew. If its start was opened meanwhile, it is
        refused as Passed. The errors are those of `submit`. After MemoryRanOut the plan is closed too. After Closed, if
        this or the plan was closed, and after OutOfRange, both are as before.
        """
        verdict = CVerdict()
        with planned._lock, self._lock:
            must(calls.master_settle(self._struct, whole("caller", caller, 8), planned._struct, verdict))
            return accepted(verdict_out(verdict, self._trail(verdict)))


class Standby(Handle):
    """A second master that follows the first: it is told the accepted changes and hears the triggers.

    OutOfRange: the rules are not those of a master. MemoryRanOut.
    """

    def __init__(self, rules: Rules) -> None:
        super().__init__(CStandby(), calls.standby_free)
        self._rules = rules
        must(calls.standby_new(self._struct, rules_in(rules)))

    @property
    def rules(self) -> Rules:
        """What it was made for."""
        return self._rules

    def change(self, start: int, *operations: Operation, caller: int = 1) -> Accepted:
        """Follows a change that the first master has accepted, and answers what it would have answered itself. The change
        takes effect in cycle `start`, which it has not opened yet.

        Malformed, Passed, Miss, Horizon: its own table refuses the change, so it has not followed. It is as before. That
        never comes if it followed all that the master did before. MemoryRanOut, OutOfRange, Closed.
        """
        change, verdict = change_in(start, operations), CVerdict()
        with self._lock:
            status = calls.standby_change(self._struct, whole("caller", caller, 8), *change, verdict)
        if status != NO:
            must(status)
        return accepted(verdict_out(verdict))

    def trigger(self, *frames: Frame, reserve: int = 0) -> None:
        """Follows the opening of a cycle by its trigger: one frame, or two with 96 slots. The window that they say is longer by
        the reserve, in bit times.

        NoTrigger, OtherFlags, OtherWindow: this is not the trigger that is planned. It is as before. OutOfRange: a frame
        that is none. BadState: no cycle may be opened any more. Closed.
        """
        given, fault, more = frames_in(frames), CFollow(), whole("reserve", reserve, 32)
        with self._lock:
            status = calls.standby_trigger_reserved(self._struct, more, *given, fault)
        if status == NO and fault.kind == 0:
            raise faults.NoTrigger(fault.first)
        if status == NO and fault.kind == 1:
            raise faults.OtherFlags(fault.first, fault.heard.number, fault.planned.number)
        if status == NO:
            raise faults.OtherWindow(fault.first, fault.second)
        must(status)

    @property
    def next(self) -> int:
        """The cycle whose trigger it awaits."""
        cycle = U64()
        with self._lock:
            must(calls.standby_next(self._struct, cycle))
        return cycle.value

    def take_over(self) -> Master:
        """The master that goes on when the first one is gone. The standby is closed then."""
        master = Master._empty(self._rules)
        with self._lock:
            must(calls.standby_take_over(self._struct, master._struct))
        return master
