"""How late asynchronous frames are at most, and what a window needs for disturbances."""
from __future__ import annotations

from collections.abc import Iterable

from .library import NO, U32, U64, CStream, calls, layout_in, must
from .values import Bound, Layout, Stream, whole

__all__ = ["async_bound", "errors_within", "reserve"]


def async_bound(layout: Layout, streams: Iterable[Stream]) -> list[Bound | None]:
    """How late the frames of each stream are at most, in bit times after the arrival of their request.

    None stands for a stream of which no bound is known: a request might still wait when the next one of its stream arrives.
    The bounds hold if all requests belong to the streams, on a bus without errors whose synchronous windows are at most
    that of the layout. docs/ASYNC.md has the conditions, and how a bound is worked out.
    OutOfRange: the layout or a stream is, or these are more than 2,048.
    """
    given = list(streams)
    room = (CStream * max(1, len(given)))(*(CStream(it.gap, it.burst, it.identifier, it.length) for it in given))
    laid_out, start = layout_in(layout), U64()
    bounds: list[Bound | None] = []
    for place, stream in enumerate(given):
        status = calls.async_bound(laid_out, room, len(given), place, start)
        if status == NO:
            bounds.append(None)
            continue
        must(status)
        bounds.append(Bound(start.value, start.value + 55 + 10 * stream.length))
    return bounds


def reserve(errors: int, *, length: int = 8) -> int:
    """How much longer than its frames a window has to be for so many disturbances, in bit times, if no frame on the bus has
    more than `length` data bytes, 0 to 8. docs/LIBRARY.md has the conditions. OutOfRange."""
    bits = U32()
    must(calls.reserve(whole("errors", errors, 16), whole("length", length, 8), bits))
    return bits.value


def errors_within(bits: int, *, length: int = 8) -> int:
    """For how many disturbances a reserve of so many bit times is enough, if no frame on the bus has more than `length` data
    bytes, 0 to 8. OutOfRange."""
    errors = U32()
    must(calls.errors_within(whole("bits", bits, 32), whole("length", length, 8), errors))
    return errors.value
