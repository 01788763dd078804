"""The compiled readers of frames.c, for long files: where a C compiler is there, they are built once and kept.

Without one, or with FTTCAN_FRAMES=no, the readers in Python do the same. They are a few times slower.
"""
import ctypes
import functools
import hashlib
import importlib.resources
import os
import pathlib
import shlex
import shutil
import struct
import subprocess
import sys
import tempfile

# From so many bytes on a file is worth it.
LONG = 1 << 20
# The records of frames.c, and what stands for other lines.
RECORDED, ROW = struct.Struct("<qHB9p4xQ"), struct.Struct("<qIHB9pI12sQ")
FORM = RECORDED.size << 8 | ROW.size
OTHER, FRAME, OPEN = 0xFFFF, 1, 2
FLAGS = ("-O2", "-shared", "-fPIC")


def folder():
    """Where what was built is kept."""
    return pathlib.Path(os.environ.get("XDG_CACHE_HOME") or pathlib.Path.home() / ".cache") / "fttcan"


def compiler():
    """The words that call a C compiler; none where there is none."""
    words = shlex.split(os.environ.get("CC") or "cc")
    return words if shutil.which(words[0]) else []


def built(source, path):
    """Builds the readers at a path. Whether that went well."""
    words = compiler()
    if not words:
        return False
    try:
        path.parent.mkdir(parents=True, exist_ok=True)
        with tempfile.TemporaryDirectory(dir=path.parent) as room:
            made, text = pathlib.Path(room, "made.so"), pathlib.Path(room, "frames.c")
            text.write_bytes(source)
            done = subprocess.run([*words, *FLAGS, "-o", made, text], stdin=subprocess.DEVNULL, capture_output=True, check=False)
            if done.returncode:
                return False
            os.replace(made, path)
    except OSError:
        return False
    sys.stderr.write(f"fttlog: compiled the readers of long files once, with {words[0]}: {path}\n")
    return True


def is_own(path):
    """Whether a file is this user's, and nobody else may write it."""
    try:
        found = path.stat()
    except OSError:
        return False
    return found.st_uid == os.geteuid() and not found.st_mode & 0o022


@functools.lru_cache(maxsize=1)
def library():
    """The compiled readers; None where there are none."""
    if os.environ.get("FTTCAN_FRAMES") == "no" or sys.byteorder != "little" or not hasattr(os, "geteuid"):
        return None
    source = (importlib.resources.files(__package__) / "frames.c").read_bytes()
    path = folder() / f"frames-{hashlib.sha256(source).hexdigest()[:16]}-{os.uname().machine}.so"
    if not is_own(path) and not built(source, path) or not is_own(path):
        return None
    try:
        found = ctypes.CDLL(str(path))
        form = found.fttlog_form
        form.restype, form.argtypes = ctypes.c_uint, []
        if form() != FORM:
            return None
        found.fttlog_recorded.restype = found.fttlog_rows.restype = ctypes.c_size_t
        found.fttlog_recorded.argtypes = [ctypes.c_char_p, ctypes.c_size_t, ctypes.c_uint64, ctypes.c_char_p, ctypes.c_size_t,
                                          ctypes.c_int, ctypes.c_void_p, ctypes.c_void_p]
        found.fttlog_rows.argtypes = [ctypes.c_char_p, ctypes.c_size_t, ctypes.c_int, ctypes.c_void_p]
    except (OSError, AttributeError):
        return None
    return found


class Reader:
    """Calls of the compiled readers, with the room for what they find."""

    def __init__(self, found):
        self.library, self.room, self.others = found, ctypes.create_string_buffer(0), ctypes.c_size_t()

    def records(self, many, size):
        """Room for so many records."""
        if len(self.room) < many * size:
            self.room = ctypes.create_string_buffer(many * size)
        return self.room

    def recorded(self, block, line, interface, is_any=False):
        """The lines of a block of a recording, of which the first has this number: for each frame its nanoseconds, identifier,
        length on the bus, data and line; and how many other lines there are, each with its place for the nanoseconds. Frames
        are those of the profile, or of any identifier and then without their lengths."""
        room, name = self.records(block.count(b"\n"), RECORDED.size), (interface or "").encode()
        many = self.library.fttlog_recorded(block, len(block), line, name, len(name), is_any, room, ctypes.byref(self.others))
        return RECORDED.iter_unpack(memoryview(room)[:many * RECORDED.size]), self.others.value

    def rows(self, block, is_short=False):
        """The rows of a block of a log: number, width or length, identifier, kind, data, place among the rows, mask, and place
        in the block. A short list has of each cycle one frame of a slot at most."""
        room = self.records(block.count(b"\n"), ROW.size)
        many = self.library.fttlog_rows(block, len(block), is_short, room)
        return ROW.iter_unpack(memoryview(room)[:many * ROW.size])


def reader(size):
    """The compiled readers for a file of so many bytes; None where it is short, or where there are none."""
    found = library() if size >= LONG else None
    return None if found is None else Reader(found)
