"""Texts of any length, by blocks: what is no text is refused by its first bytes, and nothing is kept."""
import io
import os
import re
import shutil
import sys
import tempfile
import time

from .rows import NoLog, REPORT, rows_of

# So many bytes are read at once. No line of a log or a recording has more than so many letters.
BLOCK, LONGEST = 1 << 17, 1 << 14
INPUT = "standard input"


class Progress:
    """How far a long call is, on a terminal alone: a line that moves. Of a file whose size is known it tells the part."""

    def __init__(self, what, size=0, who="fttlog"):
        self.what, self.size, self.who, self.begun, self.told = what, size, who, time.monotonic(), None
        self.is_terminal = sys.stderr.isatty()

    def step(self, done, place=0):
        """So much is done, up to a place of the file. Nothing is said in the first two seconds."""
        now = time.monotonic()
        if self.is_terminal and now - (self.told or self.begun + 1.8) >= 0.2:
            self.told = now
            part = f" ({100 * place // self.size} %)" if self.size else ""
            sys.stderr.write(f"\r{self.who}: {done} {self.what}{part}, {now - self.begun:.0f} s so far  ")
            sys.stderr.flush()

    def end(self):
        """Leaves the line that moves."""
        if self.told:
            sys.stderr.write("\n")


def opened_file(path):
    """A file of this path, for bytes; - is standard input."""
    if path != "-":
        return open(path, "rb")
    return getattr(sys.stdin, "buffer", None) or io.BytesIO(sys.stdin.read().encode())


def size_of(file):
    """The size of a file; 0 where it has none."""
    try:
        return os.fstat(file.fileno()).st_size
    except (OSError, io.UnsupportedOperation):
        return 0


def no_text(name, line, what):
    """What is raised of a file that is no log and no recording."""
    return NoLog(f"{name}: this is no text of a log: line {line} {what}. `python3 -m can.logconvert FILE OUT.log` of "
                 "python-can turns recordings in other forms, such as .blf")


def blocks_of(file, name, read=BLOCK):
    """The whole lines of a file, in blocks of bytes that end with a line feed, each with the place of its first byte and
    the number of its first line. A lone carriage return becomes a line feed, and one before a line feed stays. Bytes of 0
    and lines without an end are refused when they are met."""
    rest, place, line = b"", 0, 1
    while True:
        data = file.read(read)
        if 0 in data:
            where = line + (rest + data[:data.index(0)]).count(b"\n")
            raise no_text(name, where, "has a byte of 0")
        if b"\r" in data:
            data = re.sub(rb"\r(?!\n)", b"\n", data + file.read(1) if data.endswith(b"\r") else data)
        if not data:
            break
        end = data.rfind(b"\n") + 1
        if end:
            block = rest + data[:end]
            yield block, place, line
            place, line, rest = place + len(block), line + block.count(b"\n"), data[end:]
        else:
            rest += data
        if len(rest) > LONGEST:
            raise no_text(name, line, f"has more than {LONGEST} letters")
    if rest:
        yield rest + b"\n", place, line


def text_of(block, name, line):
    """The letters of a block."""
    try:
        return block.decode("ascii")
    except UnicodeDecodeError as fault:
        where = line + block[:fault.start].count(b"\n")
        raise no_text(name, where, "has letters that are none of ASCII") from fault


def lines_of(file, name, what="rows read"):
    """The lines of a file. Their ends may still have a carriage return."""
    progress = Progress(what, size_of(file))
    for block, place, line in blocks_of(file, name):
        lines = text_of(block, name, line).split("\n")
        lines.pop()
        yield from lines
        progress.step(line + len(lines), place)
    progress.end()


class Again:
    """The rows of a log, with or without what stands after its row `end`, as often as they are asked for. Standard input is
    copied to a file without a name where that is more than once."""

    def __init__(self, path, is_whole, is_once):
        self.file, self.name, self.is_whole = opened_file(path), INPUT if path == "-" else path, is_whole
        if not is_once and not self.file.seekable():
            copy = tempfile.TemporaryFile()
            shutil.copyfileobj(self.file, copy)
            self.file = copy
            copy.seek(0)
        self.is_begun = False

    def __iter__(self):
        if self.is_begun:
            self.file.seek(0)
        self.is_begun = True
        for row in rows_of(lines_of(self.file, self.name)):
            if self.is_whole or row[0] not in REPORT:
                yield row
