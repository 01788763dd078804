"""Frames of 11 bits: their lengths and bits on the wire, triggers, payloads, and what fits a cycle.

Lengths are in bit times, stuff bits and the three bits of intermission included.
"""
from __future__ import annotations

import ctypes
from collections.abc import Iterable
from typing import Any

from . import faults
from .library import (SIZE, TEXT, U8, U32, CFrame, CTrigger, bytes_from, calls, frame_in, frame_out, layout_in, listed, mask_in,
                      must)
from .values import Frame, Layout, Trigger, mask_of, whole

__all__ = ["Frame", "Layout", "Trigger", "decode", "encode", "fits", "payload", "read_wire", "wire_bits", "wire_length"]


def frames_in(frames: Iterable[Frame]) -> tuple[Any, int]:
    """Frames for the library, and how many these are."""
    made = [frame_in(frame) for frame in frames]
    return (CFrame * max(1, len(made)))(*made), len(made)


def wire_length(identifier: int, data: bytes = b"") -> int:
    """How many bit times a frame lasts. identifier: 0 to 0x7EF. data: 0 to 8 bytes. OutOfRange."""
    bits, given = U32(), bytes(data)
    must(calls.wire_length(whole("identifier", identifier, 16), given, len(given), bits))
    return bits.value


def wire_bits(identifier: int, data: bytes = b"") -> bytes:
    """The bits of a frame on the wire, one byte each, 0 or 1. Their number is `wire_length`. OutOfRange, MemoryRanOut."""
    given, named = bytes(data), whole("identifier", identifier, 16)
    return bytes_from(lambda room, size, count: int(calls.wire_bits(named, given, len(given), room, size, count)), 160)


def read_wire(bits: bytes) -> Frame:
    """The frame that these bits are, one byte each, 0 or 1.

    BadText: they are none. Its place is that of the first fault, counted from 0; if they end early, or have another CRC
    sequence, it is their number. OutOfRange: a byte above 1. MemoryRanOut.
    """
    frame, place, given = CFrame(), SIZE(), bytes(bits)
    status = calls.read_wire(given, len(given), frame, place)
    if status == TEXT:
        raise faults.BadText(f"the bits are no frame: the first fault is at place {place.value}", place.value)
    must(status)
    return frame_out(frame)


def encode(trigger: Trigger, slots: int = 40, *, reserve: int = 0) -> list[Frame]:
    """The frames of a trigger: one with 40 slots, two with 96. The window that they say is longer by the reserve, in bit
    times. OutOfRange: a flag, the cycle, or window and reserve together are."""
    given = CTrigger(mask_in(mask_of(trigger.flags)), trigger.cycle, trigger.window)
    more = whole("reserve", reserve, 32)
    room, count = listed(lambda room, size, count: int(calls.trigger_encode_reserved(whole("slots", slots, 8), given, more, room,
                                                                                     size, count)), CFrame, 2)
    return [frame_out(room[place]) for place in range(count)]


def decode(frames: Iterable[Frame], slots: int = 40) -> Trigger:
    """What the frames of a trigger say, of the cycle its low eight bits. BadText: they are no trigger. OutOfRange."""
    trigger = CTrigger()
    must(calls.trigger_decode(whole("slots", slots, 8), *frames_in(frames), trigger))
    return Trigger(trigger.cycle, trigger.flags.number, trigger.window)


def payload(number: int, length: int) -> bytes:
    """The data of an instance: the low `length` bytes, 0 to 8, of its number from 0 on, most significant first."""
    room, size = (U8 * 8)(), whole("length", length, 64)
    if size > 8:
        raise faults.OutOfRange(f"length is {size}: it has to be 0 to 8")
    must(calls.payload(whole("number", number, 64), room, size))
    return ctypes.string_at(room, size)


def fits(layout: Layout, at: int, length: int, window: int) -> bool:
    """Whether an asynchronous frame of `length` data bytes, 0 to 8, ends before the synchronous window.

    at: when it starts, in bit times from the start of cycle 0. window: that of its cycle, in bit times. A frame that starts
    before the trigger part and the turnaround of its cycle are over does not fit.
    OutOfRange: the layout, more than 8 data bytes, or a window above that of the layout.
    """
    is_fitting = U8()
    given = layout_in(layout)
    must(calls.fits(given, whole("at", at, 64), whole("length", length, 8), whole("window", window, 32), is_fitting))
    return is_fitting.value != 0
