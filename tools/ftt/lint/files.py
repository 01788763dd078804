"""What was found in a file of a call, its bytes, and what its first row looks like."""
import os
import re

from .. import limits
from ..faults import Unread
from ..rows import MARK, records_of
from ..telling import shown, why_no_text


class Findings:
    """What was found in one file, in the order of finding."""

    def __init__(self, path):
        self.path = path
        self.lines = []
        self.mistakes = self.warnings = 0
        self.said = None
        self.is_run = True
        self.is_unread = False
        # Whether changes are asked for together while something runs.
        self.has_blocks = False

    def mistake(self, line, what, said=None, answered=None):
        """A mistake, and what the program does: the line that it says of a refused file, told for the first mistake of
        the file alone; or the verdict that it answers, told where the steps are run."""
        self.mistakes += 1
        self.put(line, "mistake", what)
        if said is not None and self.said is None:
            self.said = said
            self.lines[-1] += f"\n    fttcan says: {said}"
        if answered is not None and self.is_run:
            self.lines[-1] += f"\n    fttcan answers: {answered}"

    def warning(self, line, what):
        """A warning."""
        self.warnings += 1
        self.put(line, "warning", what)

    def put(self, line, kind, what):
        place = f"{self.path}:{line}" if line else self.path
        self.lines.append(f"{place}: {kind}: {what}")


def bytes_of(path, what, found, is_fttcans=True):
    """The bytes of a file, without a byte order mark; None where nothing in it can be looked at. What fttcan says is
    told where it reads such a file."""
    try:
        path.encode("utf-8")
    except UnicodeEncodeError:
        found.mistake(None, "the path is not UTF-8, and fttcan takes it for wrong words. Give the file another name.")
    try:
        with open(path, "rb") as file:
            data = file.read()
    except (OSError, ValueError) as fault:
        why = getattr(fault, "strerror", None) or str(fault)
        remedy = "Is it the right path?"
        if path == "-":
            remedy = "fttcan takes - for a path too: write /dev/stdin."
        elif path == "":
            remedy = "The path is empty: leave the word out."
        elif os.path.isdir(path):
            remedy = "Name a file in this folder."
        told = f"{shown(path)}: the {what} can't be read: {why}. {remedy}"
        raise Unread(told + ("\n    fttcan says: read fault" if is_fttcans else "")) from fault
    if len(data) > limits.BYTES:
        found.mistake(None, f"the file has {len(data)} bytes. Is it the right file? Else part it.",
                      f"{what}: longer than {limits.BYTES} bytes" if is_fttcans else None)
        return None
    why = why_no_text(data)
    if why is not None:
        said = {"system": "system: toml", "plan": "plan: line 1"}.get(what) or first_row(data, what)
        found.mistake(1, why, said if is_fttcans else None)
        return None
    return data[3:] if what != "plan" and data[:3] == MARK else data


def first_row(data, what):
    """The program's line on a file whose first row is no row at all."""
    fields = next(records_of(data)).fields
    word = "word" if what == "steps" else "number" if len(fields) == 3 else "fields"
    return f"{what}: row 1 {word}"


def looks_like(data):
    """Which of the three files the first row looks like; None where that can't be told."""
    first = next((row.strip() for row in data.splitlines() if row.strip() and not row.strip().startswith(b"#")), b"")
    if re.match(rb"\[|[\w.]+\s*=", first):
        return "system"
    if re.match(rb'"?(cycle|look|add|remove|change|and)"?\s*,', first):
        return "steps"
    if re.match(rb'"?\s*[0-9]+\s*"?,\s*"?(0x[0-9a-fA-F]+|[0-9]+)\s*"?,\s*"?([0-9a-fA-F]{2})*"?\s*$', first):
        return "requests"
    return None


def rows_in(path, what, others, found, words="SYSTEM STEPS [REQUESTS]"):
    """The bytes of a file of rows; None where nothing in it can be looked at, or where it looks like one of the others,
    which stand in the words of the call."""
    data = bytes_of(path, what, found)
    other = None if data is None else looks_like(data)
    if other not in others:
        return data
    found.mistake(1, f"this looks like a {other} file. The words are {words}, in this order.", first_row(data, what))
    return None
