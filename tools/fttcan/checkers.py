"""Checks of plans and logs, and the commands of the program over bytes."""
from __future__ import annotations

from collections.abc import Iterable, Mapping, Sequence

from . import faults
from .library import NO, SIZE, TEXT, U8, U64, UNFINISHED, CBreach, calls, must, table_in
from .values import Answer, Audit, Breach, Placed, whole

# The exit status of the program if its output can't be written: here, if the room is too small.
UNWRITTEN = 5
# The first room for the output and for the lines on standard error, in bytes, and the greatest one.
OUTPUT, ERRORS, MOST = 1 << 18, 1 << 12, 1 << 30
FILES = 4


def _bytes(text: bytes | str) -> bytes:
    """A text as its bytes."""
    return text.encode() if isinstance(text, str) else bytes(text)


def check(placed: Iterable[Placed], window: int, text: bytes | str) -> Breach | None:
    """Whether the plan of a text keeps a table: None if it does, and otherwise the first breach.

    window: the longest synchronous window, in bit times. BadText: the text is no plan. Its place is the first line that
    is wrong, counted from 1. BadState: a slot that is said to be pending has no instance then, or a cycle is 2^42 or
    above. BadTable, OutOfRange, MemoryRanOut. The plan begins in the cycle and with the pending slots that the text says.
    """
    breach, given = CBreach(), _bytes(text)
    status = calls.check(*table_in(placed), whole("window", window, 32), given, len(given), breach)
    if status == TEXT:
        raise faults.BadText(f"the text is no plan: line {breach.first}", breach.first)
    if status != NO:
        must(status)
        return None
    first, second, slot = breach.first, breach.second, breach.slot
    if breach.kind == 1:
        return Breach("notreleased", slot=slot, cycle=first)
    if breach.kind == 2:
        return Breach("toowide", cycle=first, width=second)
    if breach.kind == 3:
        return Breach("missed", slot=slot, release=first, cycle=second)
    return Breach("notclosed" if breach.kind == 4 else "badloop", slot=slot)


def audit(system: bytes | str, steps: bytes | str, log: bytes | str, requests: bytes | str = b"") -> Audit:
    """Whether a log is that of a whole run of these files, as the command `audit` says it.

    BadText: a file is refused; `run(["audit", ..])` has the line that says why. MemoryRanOut.
    """
    row = U64()
    files = [_bytes(text) for text in (system, steps, log, requests)]
    status = calls.audit(*(part for file in files for part in (file, len(file))), row)
    if status == NO:
        return Audit("row", row.value)
    if status == UNFINISHED:
        return Audit("unfinished")
    must(status)
    return Audit("yes")


def _named(words: Sequence[str], files: Mapping[str, bytes | str]) -> tuple[list[str], list[bytes]]:
    """The words with the names of files as numbers, and these files. The first word is the command, and no name."""
    names = [name for name in dict.fromkeys(words[1:]) if name in files]
    said = [*words[:1], *(str(names.index(word)) if word in names else word for word in words[1:])]
    return said, [_bytes(files[name]) for name in names]


def run(words: Sequence[str], files: Mapping[str, bytes | str] | Sequence[bytes | str] = (),
        room: int | None = None) -> Answer:
    """Carries out the words of a call of the program over files in memory: every command but `live`.

    files: by its name each file that the words name; or up to four files, which the words name 0, 1, 2 and 3.
    room: how many bytes the output may have. Without it the call is made again until all is written.

    OutOfRange: more than four files, or a word with a byte 0. A file that is refused is no error here: the status and
    the lines on standard error say it, as those of the program do (docs/FORMATS.md).
    """
    said, given = _named(words, files) if isinstance(files, Mapping) else (list(words), [_bytes(it) for it in files])
    if len(given) > FILES or any("\0" in word for word in said):
        raise faults.OutOfRange(f"at most {FILES} files, and no word with a byte 0")
    text = b"\0".join(word.encode() for word in said)
    parts = [part for it in [text, *given, *[b""] * (FILES - len(given))] for part in (it, len(it))]
    size = OUTPUT if room is None else whole("room", room, 62)
    while True:
        out, err, wrote, told = (U8 * max(1, size))(), (U8 * ERRORS)(), SIZE(), SIZE()
        status = calls.run(*parts, out, size, wrote, err, ERRORS, told)
        if status != UNWRITTEN or room is not None or size >= MOST:
            return Answer(status, bytes(memoryview(out)[:wrote.value]), bytes(memoryview(err)[:told.value]))
        size *= 8
