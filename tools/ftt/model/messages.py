"""A message as a file has it, and what its readers share: times, numbers, identifiers, mistakes."""
import re
from collections import namedtuple
from fractions import Fraction

from ..faults import Refused, Unread
from ..limits import LAST_ID
from ..telling import UTF_16, shown, why_no_text

# A message as it stands in the file: times in milliseconds, where it has them. `why` says why it is asynchronous, where
# the file does not say so in a word.
# An identifier of 29 bits has the bit EXTENDED, as in a DBC file. The slot is the one that the file gives, or None.
Message = namedtuple("Message", "line name sender length period deadline offset id kind priority why slot", defaults=(None,))
# The messages of a file, lines that are told of it, warnings, and by the line of a message what else the file says of its
# times.
Read = namedtuple("Read", "messages notes warnings times", defaults=({},))
EXTENDED, LAST_EXTENDED = 1 << 31, (1 << 29) - 1


def is_extended(identifier):
    """Whether an identifier has 29 bits."""
    return identifier is not None and identifier >= EXTENDED


def id_text(identifier):
    """An identifier as text: 11 bits with three digits, and 29 bits with eight."""
    return f"{identifier & LAST_EXTENDED:#010x}" if is_extended(identifier) else f"{identifier:#05x}"


class Mistakes:
    """The mistakes of a file: each with its line, field, value, and what to do."""

    def __init__(self, path):
        self.path = path
        self.lines = []

    def add(self, line, field, value, what):
        """A mistake more. The value is the text of the field."""
        self.lines.append(f"{self.path}:{line}: {field} is {shown(value, None)}: {what}")

    def stop(self):
        """Refuses all, where there is a mistake."""
        if self.lines:
            raise Refused("\n".join(self.lines))


# The most bytes of a list or a DBC file, and how many are looked at before the rest is read.
MOST, LOOKED_AT = 64 << 20, 4096


def bytes_of(path):
    """The bytes of a file. One that is no text, or far too long for a list, is refused by its first bytes."""
    try:
        with open(path, "rb") as file:
            head = file.read(LOOKED_AT)
            why = why_no_text(head, not path.lower().endswith(".dbc"))
            if why is None and b"\0" in head and not head.startswith(UTF_16):
                why = "the file has bytes of 0, so it is no text. Is it the right file?"
            if why is not None:
                raise Refused(f"{path}:1: {why}")
            data = head + file.read(MOST + 1 - len(head))
    except OSError as fault:
        raise Unread(f"{path}: {fault.strerror or fault}. Is it the right path?") from fault
    if len(data) > MOST:
        raise Refused(f"{path}: the file has more than {MOST >> 20} MiB, too many for messages. Is it the right file?")
    return data


def decoded(path, data):
    """The text of a list, and what is said of its encoding, or None. Spreadsheets write UTF-8, UTF-16 with a mark, and
    Windows-1252."""
    try:
        if data.startswith(UTF_16):
            return data.decode("utf-16"), "read as UTF-16"
        return data.decode("utf-8-sig"), None
    except UnicodeDecodeError as fault:
        line = data[:fault.start].count(b"\n") + 1
        if data.startswith(UTF_16):
            raise Refused(f"{path}:1: the file begins as UTF-16, and is not. Save it as UTF-8 (Excel: CSV UTF-8).") from fault
        try:
            text = data.decode("cp1252")
        except UnicodeDecodeError:
            text = "\0"
    if re.search("[\0-\x08\x0e-\x1f]", text):
        raise Refused(f"{path}:{line}: a byte is not UTF-8. Save the file as UTF-8 (Excel: CSV UTF-8).")
    word = next(it for it in re.split(r"[\s,;\"]+", text) if not it.isascii())
    return text, f"read as Windows-1252, since line {line} is not UTF-8: are the letters of {shown(word)} right?"


def read_text(path):
    """The text of a file, and what is said of its encoding, or None."""
    data = bytes_of(path)
    return (data.decode("latin-1"), None) if path.lower().endswith(".dbc") else decoded(path, data)


def text_of(path):
    """The text of a file."""
    return read_text(path)[0]


def read_time(text, needed, line, field, mistakes, amounts=None):
    """A time in milliseconds; None where it is empty or wrong. The amounts say how the list writes decimal numbers."""
    if not text:
        if needed:
            mistakes.add(line, field, text, "the message needs one. Write milliseconds.")
        return None
    text, why = (text, None) if amounts is None else amounts.read(text)
    if why is not None:
        mistakes.add(line, field, text, why)
        return None
    if not re.fullmatch(r"[0-9]{1,12}(\.[0-9]{1,12})?", text):
        mistakes.add(line, field, text, "this is no time. Write milliseconds in digits, with a point: 2.5.")
        return None
    return Fraction(text)


def read_whole(text, default, most, line, field, mistakes, remedy):
    """A whole number from 0 to the greatest one."""
    if not text and default is not None:
        return default
    if not re.fullmatch(r"[0-9]{1,12}", text) or int(text) > most:
        mistakes.add(line, field, text, f"this is no number from 0 to {most}. {remedy}")
        return 0
    return int(text)


def read_id(text, line, mistakes, is_mapped=False):
    """An identifier; None where there is none. One of 29 bits is taken where those are mapped."""
    if not text:
        return None
    if is_mapped and re.fullmatch(r"0[xX][0-9a-fA-F]{8}|[0-9a-fA-F]{8}[xX]", text):
        number = int(text.rstrip("xX"), 16)
        if number <= LAST_EXTENDED:
            return number | EXTENDED
    if re.fullmatch(r"0[xX][0-9a-fA-F]+", text):
        number = int(text, 16)
    elif re.fullmatch(r"[0-9]{1,12}", text):
        number = int(text)
    else:
        mistakes.add(line, "id", text, "this is no identifier. Write decimal digits, or 0x and hexadecimal ones.")
        return None
    if number > LAST_ID:
        mistakes.add(line, "id", text, "this is above 0x7ff. The model has 11-bit identifiers: leave the message out, "
                     "give it another, or let --map do so for one of 29 bits with eight digits, such as 0x18fef100.")
        return None
    return number
