"""What a master tells its nodes: changes that it accepted, and its table, in frames with an identifier of your choice.

docs/FORMATS.md, "Changes on the wire", has the bytes, and docs/LIBRARY.md who sends what when. Nothing of this is proved.
"""
from __future__ import annotations

import ctypes
from collections.abc import Iterable
from dataclasses import dataclass

from . import faults
from .library import (NO, ROOM, TEXT, U8, CCollected, CFrame, COp, CPlaced, CTold, calls, change_in, frame_in, frame_out, listed, must,
                      operation_out, placed_out, table_in)
from .values import Frame, Operation, Placed, whole

__all__ = ["Collector", "ToldChange", "ToldTable", "encode_change", "encode_table"]


@dataclass(frozen=True)
class ToldChange:
    """A change that a master accepted. number: how many it accepted, with this one. It holds from cycle `start` on."""

    number: int
    start: int
    operations: tuple[Operation, ...]


@dataclass(frozen=True)
class ToldTable:
    """The table of a master after its change of this number."""

    number: int
    table: tuple[Placed, ...]


def encode_change(identifier: int, number: int, start: int, *operations: Operation) -> list[Frame]:
    """The frames that tell a change. identifier: 0x200 to 0x7EF. number: how many changes the master has accepted, with this
    one, modulo 2^32. OutOfRange: the identifier or the start is, or there are none or more than 16 operations."""
    change = change_in(start, operations)
    given = whole("identifier", identifier, 16), whole("number", number, 32)
    room, count = listed(lambda room, size, count: int(calls.change_encode(*given, *change, room, size, count)), CFrame, 39)
    return [frame_out(room[place]) for place in range(count)]


def encode_table(identifier: int, number: int, table: Iterable[Placed]) -> list[Frame]:
    """The frames that tell a table, after the change of this number. OutOfRange: the identifier, an origin or an end is, or
    there are more than 4,096 entries."""
    placed = table_in(table)
    given = whole("identifier", identifier, 16), whole("number", number, 32)
    room, count = listed(lambda room, size, count: int(calls.table_encode(*given, *placed, room, size, count)), CFrame,
                         (11 + 22 * placed[1]) // 5 + 1)
    return [frame_out(room[place]) for place in range(count)]


class Collector:
    """Collects the frames of one identifier, in any order, some of them lost or doubled.

    entries: of a table with so many there is room, and of any change.
    """

    def __init__(self, *, entries: int = 96) -> None:
        longest = 11 + 22 * max(9, whole("entries", entries, 16))
        self._room, self._collected = (U8 * (longest + longest // 40 + 1))(), CCollected()

    def hear(self, frame: Frame) -> ToldChange | ToldTable | None:
        """Takes a frame. If it makes a message whole, that is the answer. None: not yet, or what was collected is none.
        Full: the message is longer than the room. OutOfRange: the frame is none."""
        told = CTold()
        status = calls.collect(self._collected, frame_in(frame), self._room, len(self._room), told)
        if status in (NO, TEXT):
            return None
        if status == ROOM:
            raise faults.Full("the message is longer than the room")
        must(status)
        text = ctypes.string_at(self._room, len(self._room))
        if told.kind == 0:
            ops, count = listed(lambda room, size, count: int(calls.change_decode(text, len(text), told, room, size, count)), COp, 16)
            return ToldChange(told.number, told.start, tuple(operation_out(ops[place]) for place in range(count)))
        table, count = listed(lambda room, size, count: int(calls.table_decode(text, len(text), told, room, size, count)), CPlaced,
                              told.count)
        return ToldTable(told.number, tuple(placed_out(table[place]) for place in range(count)))
