"""Slips in the syntax of a system file, and the row that is right. Each row that is named here was tried: with it, TOML
takes the file up to a later line, or to its end."""
import re
import tomllib

from ..limits import SLOTS
from ..telling import close, shown
from . import advice

KEY = r"[A-Za-z_][\w.-]*"
QUOTES = "\"'\u201c\u201d\u201e\u2018\u2019\u00ab\u00bb`"


def faulty_line(text):
    """The line up to which TOML takes a text, counted from 1; None where it takes all of it."""
    try:
        tomllib.loads(text)
    except RecursionError:
        return 0
    except ValueError as fault:
        line = re.search(r"line (\d+)", str(fault))
        return int(line[1]) if line else len(text.splitlines())
    return None


def values_meant(key, value):
    """What a value that TOML does not take may mean, the likeliest first."""
    plain = value.strip(" \t;,\x1a" + QUOTES)
    number = re.fullmatch(r"0*([0-9]+)(?:[ ,_.'])?", plain)
    if key.rpartition(".")[2] == "id" and re.fullmatch(r"(0[xX])?[0-9a-fA-F]+[hH]?", plain):
        yield "0x" + re.sub(r"^0[xX]|[hH]$", "", plain)
    if number is not None:
        yield number[1]
    if re.fullmatch(r"[0-9]{1,3}([,.' ][0-9]{3})+", plain):
        yield re.sub(r"[^0-9]", "", plain)
    if re.fullmatch(r"[0-9]+ *[A-Za-z\u00b5/]+( [a-z]+)?", plain):
        yield re.match(r"[0-9]+", plain)[0]
    if re.fullmatch(r"[A-Za-z_]+", plain):
        yield f'"{plain.lower()}"'


def rows_meant(row):
    """What a row that TOML does not take may mean, the likeliest first."""
    head = re.fullmatch(rf"\[*\s*({KEY})\s*\]*", row)
    if head is not None and re.search(r"[][]", row):
        yield f"[[{head[1]}]]" if head[1] == "async" else f"[{head[1]}]"
    comment = re.fullmatch(r"(.*?)\s*(?://|;|--|/\*)\s*(.*)", row)
    if comment is not None:
        yield f"{comment[1]} # {comment[2]}".strip()
    pair = re.fullmatch(rf"({KEY})\s*(?:[:=]+|\s)\s*(\S.*)", row)
    if pair is not None:
        yield f"{pair[1]} = {pair[2]}"
        for value in values_meant(pair[1], pair[2]):
            yield f"{pair[1]} = {value}"
    if "\x1a" in row:
        yield row.replace("\x1a", "").strip()


def range_beside(text, key, ranges):
    """The range of a key in which the rest of the text lets it be, where that is TOML; else the key's own range."""
    try:
        document = tomllib.loads(text)
    except (ValueError, RecursionError):
        return ranges[key]
    return advice.bounds_beside(f"bus.{key}", advice.integers_of(document), *ranges[key])


def right_row(text, line, ranges):
    """The row to be written in place of this line, or None; and the range of its key, where a number that it may mean
    is out of it."""
    rows, beside = text.splitlines(), None
    for candidate in rows_meant(rows[line - 1].strip()) if 1 <= line <= len(rows) else ():
        mended = "\n".join([*rows[:line - 1], candidate, *rows[line:]])
        later = faulty_line(mended)
        if candidate == rows[line - 1].strip() or later is not None and later <= line:
            continue
        pair = re.fullmatch(rf"({KEY}) = ([0-9]+|0x[0-9a-fA-F]+)", candidate)
        if pair is None or pair[1] not in ranges:
            return candidate, None
        low, high = range_beside(mended, pair[1], ranges)
        number = int(pair[2], 16 if pair[2].startswith("0x") else 10)
        if low <= number <= high and (pair[1] != "slots" or number in SLOTS):
            return candidate, None
        beside = beside or (pair[1], low, high)
    return None, beside


def remedy_of(text, line, why, ranges):
    """What to do about the line of a text that TOML does not take, for this reason. The keys that are integers have
    these ranges."""
    if "overwrite" in why or "twice" in why:
        return "Take one of the two away."
    row, beside = right_row(text, line, ranges)
    if row == "":
        return "Take the character away."
    if row is not None:
        return f"Write {row}"
    if beside is not None:
        key, low, high = beside
        return f"Write {key} = {low}" + ("" if key == "slots" or low == high else f", or a greater number up to {high}")
    alone = re.fullmatch(rf"\s*({KEY})\s*=?\s*", (text.splitlines() or [""])[line - 1])
    if alone is not None:
        return f"Write a value after {alone[1]} =, or take the row away."
    return "Write KEY = VALUE, such as cycle = 1000, or take the row away."


# Keys that others call so, and what to do about them.
OTHER_KEYS = {
    "bitrate": "KBITS", "bit_rate": "KBITS", "baudrate": "KBITS", "baud_rate": "KBITS", "kbits": "KBITS", "kbit":
    "KBITS", "speed": "KBITS", "baud": "KBITS", "rate": "KBITS", "cycle_us": "CYCLE_US", "cycle_ms": "CYCLE_US"}


def why_no_key(path, table, known, places):
    """What to do about a key that its table does not have. The table's own keys are known, and `places` has the tables
    that each key belongs to."""
    front, _, key = path.rpartition(".")
    front = f"{front}." if front else ""
    word = OTHER_KEYS.get(key.lower())
    if word is not None:
        return (f"{word} is a word of the tools, as in fttmodel KBITS CYCLE_US ..; here all times are in bit times. "
                "Take the key away.")
    near = close(key.lower(), known)
    if near is not None and near in table:
        return f"{shown(front + near)} stands there too. Take this one away, or write # in front."
    if near is not None:
        return f"Is it {front}{near}?"
    if key in places and places[key] != front.rstrip("."):
        return f"It belongs below [{places[key]}]."
    return "Take it away, or write # in front."
