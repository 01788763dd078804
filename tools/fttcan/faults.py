"""Why a call does not do what it was asked for: a class for each cause. All stand under `Error`.

A change that is refused raises Malformed, Passed, Miss or Horizon, which stand under `Refused` and have the numbers of
the verdict. After each error what was called is as before, unless its page says otherwise.
"""
from __future__ import annotations

# By the number of a rule: how a change breaks it.
RULES = {
    1: "the change has no operation",
    2: "the change has more than 16 operations",
    3: "the start is 2^40 or more",
    4: "there is no such slot",
    5: "an earlier operation of the change has the slot",
    6: "there is no such node",
    7: "the length is above 8 bytes",
    8: "the period is 0",
    9: "the deadline is 0 or above the period",
    10: "the slot is taken",
    11: "no entry of the slot is live",
}


class Error(Exception):
    """The base of all errors of this module."""


class LibraryMissing(Error, ImportError):
    """The library libfttcan.so.1 was not found, or can't be loaded. The message has the places that were looked at."""


class LibraryUnfit(Error, ImportError):
    """The library that was found is of another version, or lacks a function."""


class MemoryRanOut(Error, MemoryError):
    """Memory ran out, or more than 4,096 entries would be kept. Nothing changed, and the call may be made again. After
    `Master.settle` the plan is closed, and the change is planned anew."""


class Full(Error):
    """A node was made for fewer entries, or a collector for shorter messages."""


class NotAccepted(Error, ValueError):
    """No master accepts this change of this table: it breaks a rule."""


class OutOfRange(Error, ValueError):
    """An argument is out of its range."""


class BadTable(Error, ValueError):
    """The entries are no table that a master can have."""


class BadState(Error, ValueError):
    """The state can't be planned from, or no cycle may be opened any more. Of `check`: the plan begins or ends wrongly."""


class WouldMiss(Error):
    """An instance would miss its deadline in the next cycle. The table was not admitted by these rules from this state."""


class Closed(Error, ValueError):
    """The object was closed, or was handed on: a snapshot to its plan, a plan to its master, a standby to its master."""


class BadText(Error, ValueError):
    """A text, bytes or frames are none of the form. `place` is that of the first fault, if it is known: a line of a
    plan text counted from 1, a bit of a recorded line counted from 0."""

    def __init__(self, said: str, place: int | None = None) -> None:
        super().__init__(said, place)
        self.said, self.place = said, place

    def __str__(self) -> str:
        return self.said


class Refused(Error):
    """A change is refused. Nothing changed. Two are equal if kind and numbers are."""

    @property
    def row(self) -> str:
        """The verdict as logs have it."""
        raise NotImplementedError

    def __eq__(self, other: object) -> bool:
        return isinstance(other, Refused) and type(self) is type(other) and self.args == other.args

    def __hash__(self) -> int:
        return hash((type(self), self.args))


class Malformed(Refused):
    """A rule is broken.

    operation: the place of the operation that breaks it, from 0 on.
    rule: the number of the rule, 1 to 11, as docs/FORMATS.md has them. `RULES` has words for them.
    until: the cycle from which the slot is free, or in which its entry begins. None if there is no such cycle: for
        another rule, or an entry without an end.
    """

    def __init__(self, operation: int, rule: int, until: int | None = None) -> None:
        super().__init__(operation, rule, until)
        self.operation, self.rule, self.until = operation, rule, until

    @property
    def row(self) -> str:
        return ",".join(["malformed", *(str(it) for it in self.args if it is not None)])

    def __str__(self) -> str:
        words = RULES.get(self.rule, f"rule {self.rule}")
        if self.rule == 10:
            words += " by a live entry" if self.until is None else f" until cycle {self.until}"
        return f"operation {self.operation}: {words}"


class Passed(Refused):
    """The change starts in a cycle that was opened already. start: that cycle. next: the next cycle to be opened."""

    def __init__(self, start: int, next_cycle: int) -> None:
        super().__init__(start, next_cycle)
        self.start, self.next = start, next_cycle

    @property
    def row(self) -> str:
        return f"passed,{self.start},{self.next}"

    def __str__(self) -> str:
        return f"the change starts in cycle {self.start}, and cycle {self.next} is opened next"


class Miss(Refused):
    """With the change an instance would miss its deadline.

    slot: its slot. release: the cycle in which it is released. cycle: the last one in which it may be sent.
    trail: what would be sent in each cycle up to that one, as sets of slots, if a master answered. Otherwise it is empty.
        The last set is that of `cycle`.
    """

    def __init__(self, slot: int, release: int, cycle: int, trail: tuple[int, ...] = ()) -> None:
        super().__init__(slot, release, cycle, trail)
        self.slot, self.release, self.cycle, self.trail = slot, release, cycle, trail

    @property
    def row(self) -> str:
        return f"miss,{self.slot},{self.release},{self.cycle}"

    def __str__(self) -> str:
        return f"slot {self.slot} would miss its deadline: what is released in cycle {self.release} is not sent up to " \
               f"cycle {self.cycle}"


class Horizon(Refused):
    """No repeat of the plan was found within the horizon. start: the first cycle that was planned. walked: how many."""

    def __init__(self, start: int, walked: int) -> None:
        super().__init__(start, walked)
        self.start, self.walked = start, walked

    @property
    def row(self) -> str:
        return f"horizon,{self.start},{self.walked}"

    def __str__(self) -> str:
        return f"from cycle {self.start} on no repeat of the plan was found within {self.walked} cycles"


class NotPlanned(Error):
    """What a standby heard is not the trigger that it has planned. It is unchanged, and can go on."""


class NoTrigger(NotPlanned):
    """The frames are no trigger of the standby's next cycle. cycle: its number."""

    def __init__(self, cycle: int) -> None:
        super().__init__(cycle)
        self.cycle = cycle

    def __str__(self) -> str:
        return f"this is no trigger of cycle {self.cycle}"


class OtherFlags(NotPlanned):
    """The trigger flags other slots. cycle: the next one. heard and planned: sets of slots."""

    def __init__(self, cycle: int, heard: int, planned: int) -> None:
        super().__init__(cycle, heard, planned)
        self.cycle, self.heard, self.planned = cycle, heard, planned

    def __str__(self) -> str:
        return f"the trigger of cycle {self.cycle} flags {self.heard:#x}, and {self.planned:#x} is planned"


class OtherWindow(NotPlanned):
    """The trigger says another window than that of its slots. heard and needed: bit times."""

    def __init__(self, heard: int, needed: int) -> None:
        super().__init__(heard, needed)
        self.heard, self.needed = heard, needed

    def __str__(self) -> str:
        return f"the trigger says a window of {self.heard} bit times, and its slots need {self.needed}"
