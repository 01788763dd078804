"""The values of fttcan: what a caller gives, and what it gets back.

Times of entries are in elementary cycles, counted from cycle 0 of the master. Lengths and times of the bus are in bit
times, and payloads in bytes. A set of slots is a number: bit s stands for slot s. If a set is given, a number or the
slots themselves may stand, as `0b101` or `{0, 2}`. If one is answered, it is a number; `slots_of` has its slots.

A value that its C type can't hold is refused where it is made, as `OutOfRange`. Everything else is judged by the
library.
"""
from __future__ import annotations

import operator
from collections.abc import Iterable
from dataclasses import dataclass
from typing import Literal, NamedTuple, TypeAlias

from .faults import OutOfRange

# How many slots there are at most, and below which a mask is written in ten digits.
MOST_SLOTS, LOW_SLOTS = 96, 40
POLICIES = ("rm", "dm", "edf")
FILLS = ("prefix", "skip")

Slots: TypeAlias = int | Iterable[int]


def whole(name: str, value: int, bits: int) -> int:
    """The value as an integer of so many bits. OutOfRange if it is none, TypeError if it is no integer."""
    number = operator.index(value)
    if not 0 <= number < 1 << bits:
        raise OutOfRange(f"{name} is {number}: it has to be 0 to {(1 << bits) - 1}")
    return number


def mask_of(slots: Slots) -> int:
    """A set of slots, 0 to 95, as a number whose bit s is slot s. OutOfRange if a slot is none."""
    if isinstance(slots, Iterable):
        mask = 0
        for slot in slots:
            if not 0 <= operator.index(slot) < MOST_SLOTS:
                raise OutOfRange(f"slot {slot}: it has to be 0 to {MOST_SLOTS - 1}")
            mask |= 1 << operator.index(slot)
        return mask
    return whole("a set of slots", slots, MOST_SLOTS)


def slots_of(mask: int) -> tuple[int, ...]:
    """The slots of a set, the least first."""
    return tuple(slot for slot in range(mask.bit_length()) if mask >> slot & 1)


def mask_text(mask: int) -> str:
    """A set of slots as files and logs have it: ten hexadecimal digits, and 24 if a slot from 40 on is in it."""
    return f"{mask:010x}" if mask < 1 << LOW_SLOTS else f"{mask:024x}"


@dataclass(frozen=True)
class Rules:
    """What a master is made for.

    window: the longest synchronous window, 55 to 16,383 bit times.
    nodes: how many nodes there are, 1 to 30. They are numbered from 0.
    slots: how many slots there are: 40, or 96.
    policy: rm (the least period goes first), dm (the least deadline) or edf (the least release + deadline).
    fill: at a message that does not fit the window any more, prefix takes none after it, and skip passes over it.
    horizon: within how many cycles a repeat of the plan has to be found, 1 to 100,000.
    """

    window: int
    nodes: int
    slots: int = 40
    policy: Literal["rm", "dm", "edf"] = "rm"
    fill: Literal["prefix", "skip"] = "prefix"
    horizon: int = 10_000

    def __post_init__(self) -> None:
        for name, bits in (("window", 32), ("nodes", 8), ("slots", 8), ("horizon", 64)):
            whole(name, getattr(self, name), bits)
        for name, value, known in (("policy", self.policy, POLICIES), ("fill", self.fill, FILLS)):
            if value not in known:
                raise OutOfRange(f"{name} is {value!r}: it has to be one of {', '.join(known)}")


@dataclass(frozen=True, kw_only=True)
class Entry:
    """A message of the table, which is sent again and again.

    slot: its place in the table, 0 to 39, or 0 to 95 with 96 slots. Its frames have the identifier 0x100 + slot.
    node: the node that sends it, from 0 on.
    length: its data bytes, 0 to 8.
    period: cycles from one release to the next, 1 to 65,535.
    deadline: cycles in which an instance may be sent, that of its release included, 1 to period.
    phase: cycles from the entry's origin to its first release, 0 to 65,535.
    priority: 0 to 255. The lower one goes first if the keys of the policy are equal.
    """

    slot: int
    node: int
    length: int
    period: int
    deadline: int
    phase: int = 0
    priority: int = 0

    def __post_init__(self) -> None:
        for name in ("slot", "node", "length", "priority"):
            whole(name, getattr(self, name), 8)
        for name in ("period", "deadline", "phase"):
            whole(name, getattr(self, name), 16)


@dataclass(frozen=True, kw_only=True)
class Add(Entry):
    """An operation of a change: puts an entry into a free slot, from the start of the change on."""


@dataclass(frozen=True, kw_only=True)
class Change(Entry):
    """An operation of a change: ends the entry of a slot at the start of the change, and puts another in its place.

    The new one counts from start + deadline - 1, with the old entry's deadline.
    """


@dataclass(frozen=True)
class Remove:
    """An operation of a change: ends the entry of a slot at the start of the change."""

    slot: int

    def __post_init__(self) -> None:
        whole("slot", self.slot, 8)


Operation: TypeAlias = Add | Remove | Change


@dataclass(frozen=True)
class Placed:
    """An entry in the table.

    origin: the cycle from which its phase counts.
    end: the cycle from which it releases nothing more; None if it goes on.
    """

    entry: Entry
    origin: int
    end: int | None = None

    def __post_init__(self) -> None:
        whole("origin", self.origin, 64)
        if self.end is not None:
            whole("end", self.end, 64)


@dataclass(frozen=True)
class Accepted:
    """A change is accepted. From cycle `first` on the plan repeats every `length` cycles, and no deadline is missed."""

    first: int
    length: int

    @property
    def row(self) -> str:
        """The verdict as logs have it."""
        return f"accepted,{self.first},{self.length}"

    def __str__(self) -> str:
        every = "cycle" if self.length == 1 else f"{self.length} cycles"
        return f"accepted: from cycle {self.first} on the plan repeats every {every}"


class Order(NamedTuple):
    """A cycle that a master has opened.

    cycle: its number.
    flags: the slots that are to be sent in it.
    window: the length of its synchronous window in bit times, 0 to 16,383.
    learned: whether the table changed since the last opening, so that the nodes have to be told.
    """

    cycle: int
    flags: int
    window: int
    learned: bool = False

    @property
    def slots(self) -> tuple[int, ...]:
        """The slots that are to be sent, the least first."""
        return slots_of(self.flags)


@dataclass(frozen=True)
class Trigger:
    """What the trigger of a cycle says.

    cycle: the number of the cycle. One that was decoded has its low eight bits alone, 0 to 255.
    flags: the slots that are to be sent in it.
    window: the length of its synchronous window in bit times, 0 to 16,383.
    """

    cycle: int
    flags: Slots
    window: int

    def __post_init__(self) -> None:
        whole("cycle", self.cycle, 64)
        whole("window", self.window, 32)
        object.__setattr__(self, "flags", mask_of(self.flags))

    @property
    def slots(self) -> tuple[int, ...]:
        """The slots that are to be sent, the least first."""
        return slots_of(mask_of(self.flags))


@dataclass(frozen=True)
class Frame:
    """A data frame. identifier: 0 to 0x7EF. data: 0 to 8 bytes."""

    identifier: int
    data: bytes = b""

    def __post_init__(self) -> None:
        whole("identifier", self.identifier, 16)
        object.__setattr__(self, "data", bytes(self.data))
        if len(self.data) > 8:
            raise OutOfRange(f"{len(self.data)} data bytes: a frame has at most 8")


@dataclass(frozen=True)
class Layout:
    """How a cycle is parted. All but slots are in bit times.

    cycle: the length of a cycle, 400 to 100,000.
    turnaround: what nodes have after the trigger part, 0 to 1,000.
    window: the longest synchronous window, 55 to 16,383.
    slots: 40 or 96.
    """

    cycle: int
    turnaround: int
    window: int
    slots: int = 40

    def __post_init__(self) -> None:
        for name in ("cycle", "turnaround", "window"):
            whole(name, getattr(self, name), 32)
        whole("slots", self.slots, 8)


@dataclass(frozen=True)
class Stream:
    """The requests of an asynchronous identifier.

    identifier: 0x200 to 0x7EF.
    length: how many data bytes their frames have at most, 0 to 8.
    gap: how many bit times a request arrives at least after the one that stands `burst` places before it, 1 to 2^32 - 1.
    burst: 1 to 1,024. With 1, any two requests are `gap` apart.
    """

    identifier: int
    length: int
    gap: int
    burst: int = 1

    def __post_init__(self) -> None:
        for name, bits in (("identifier", 16), ("length", 8), ("gap", 64), ("burst", 32)):
            whole(name, getattr(self, name), bits)


class Bound(NamedTuple):
    """How late the frames of a stream are at most, in bit times after the arrival of their request.

    start: each starts less than so many after it. The longest wait is one less.
    end: each ends less than so many after it, its own worst length and the intermission included.
    """

    start: int
    end: int


@dataclass(frozen=True)
class Breach:
    """How a plan does not keep a table: the first breach, as the command `check` has it.

    kind: badloop (slot), notreleased (cycle, slot), toowide (cycle, width in bit times), missed (slot, release, cycle)
    or notclosed (slot). What a kind does not name is None.
    """

    kind: Literal["badloop", "notreleased", "toowide", "missed", "notclosed"]
    slot: int | None = None
    cycle: int | None = None
    release: int | None = None
    width: int | None = None

    @property
    def row(self) -> str:
        """The line that the command `check` writes."""
        fields = {"notreleased": (self.cycle, self.slot), "toowide": (self.cycle, self.width),
                  "missed": (self.slot, self.release, self.cycle)}.get(self.kind, (self.slot,))
        return ",".join(map(str, ("no", self.kind, *fields)))


@dataclass(frozen=True)
class Audit:
    """What an audit says of a log. It is true if the log is that of a whole run.

    verdict: yes; row, if a row can't stand; or unfinished, if all rows can stand and are not all.
    row: the first row that can't stand, counted from 1; else None.
    """

    verdict: Literal["yes", "row", "unfinished"]
    row: int | None = None

    def __bool__(self) -> bool:
        return self.verdict == "yes"


@dataclass(frozen=True)
class Answer:
    """What a command of the program answered: its exit status, 0 to 7, its output, and its lines on standard error."""

    status: int
    output: bytes
    errors: bytes
