"""The stateless pair: the caller keeps table and state, and the library keeps nothing between two calls."""
from __future__ import annotations

from collections.abc import Iterable
from typing import Any

from .library import (SIZE, CPlaced, CPlan, CState, CVerdict, accepted, calls, change_in, mask_in, must, placed_out,
                      rules_in, table_in, verdict_out)
from .values import Accepted, Operation, Order, Placed, Rules, Slots, mask_of, whole

# How many entries a change adds at most.
MOST_ADDED = 16


class Table:
    """A table and the state of its plan, in Python's memory: a value that may be copied, and needs no close.

    rules: as of a master. placed: the entries, in the order of their placing. cycle: the one that is opened next.
    pending: the slots that are released and not sent before it, as a set.
    Nothing is judged here: `submit` and `open` do it. It stays with one thread.
    """

    def __init__(self, rules: Rules, placed: Iterable[Placed] = (), cycle: int = 0, pending: Slots = 0) -> None:
        self.rules = rules
        self._rules = rules_in(rules)
        self._placed: Any
        self._placed, self._count = table_in(placed)
        self._state = CState(whole("cycle", cycle, 64), mask_in(mask_of(pending)))

    @property
    def placed(self) -> list[Placed]:
        """The entries, in the order of their placing."""
        return [placed_out(self._placed[place]) for place in range(self._count)]

    @property
    def next(self) -> int:
        """The cycle that is opened next."""
        return self._state.cycle

    @property
    def pending(self) -> int:
        """The slots that are released and not sent before the next cycle, as a set."""
        return self._state.pending.number

    def copy(self) -> Table:
        """Another table with the same entries and the same state."""
        return Table(self.rules, self.placed, self.next, self.pending)

    def submit(self, start: int, *operations: Operation) -> Accepted:
        """Decides a change from cycle `start` on, and makes it if it is accepted.

        Malformed, Passed, Miss, Horizon: the change is refused, and nothing changed. BadTable, BadState, OutOfRange,
        MemoryRanOut. If it is accepted, no deadline is missed in any later cycle.
        """
        verdict, count = CVerdict(), SIZE()
        size = self._count + MOST_ADDED
        room = (CPlaced * size)()
        must(calls.decide(self._rules, self._placed, self._count, self._state, *change_in(start, operations), verdict,
                          room, size, count))
        decided = accepted(verdict_out(verdict))
        self._placed, self._count = room, count.value
        return decided

    def open(self) -> Order:
        """Opens the next cycle.

        WouldMiss: an instance would miss its deadline in it, which can't be after an accepted change. BadTable,
        BadState, OutOfRange, MemoryRanOut. Nothing changed then.
        """
        plan, cycle = CPlan(), self._state.cycle
        must(calls.open(self._rules, self._placed, self._count, self._state, plan))
        return Order(cycle, plan.flags.number, plan.window)
