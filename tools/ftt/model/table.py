"""Messages of a CSV file with a header row."""
import csv
import functools
import io
import re
from fractions import Fraction

from ..faults import Refused
from ..limits import LENGTH, MANY_SLOTS, PRIORITY
from ..telling import close
from . import polled
from .amounts import Amounts
from .messages import Message, Mistakes, Read, read_id, read_time, read_whole

NEEDED = ("name", "sender", "length", "period")
COLUMNS = (*NEEDED, "deadline", "offset", "id", "kind", "priority", "slot")
TIMES = ("period", "deadline", "offset")
SEPARATORS = (",", ";", "\t")
# What other lists of messages call these columns.
OTHER_NAMES = {
    "message": "name", "message name": "name", "signal": "name", "frame": "name", "node": "sender", "ecu": "sender",
    "transmitter": "sender", "source": "sender", "dlc": "length", "bytes": "length", "size": "length", "len": "length",
    "data bytes": "length", "cycle": "period", "cycle time": "period", "cycletime": "period", "interval": "period",
    "phase": "offset", "identifier": "id", "can id": "id", "type": "kind", "prio": "priority",
    "nachricht": "name", "botschaft": "name", "absender": "sender", "knoten": "sender", "steuergerät": "sender",
    "länge": "length", "datenlänge": "length", "periode": "period", "zykluszeit": "period", "zyklus": "period",
    "frist": "deadline", "versatz": "offset", "kennung": "id", "typ": "kind", "priorität": "priority"}
# The unit that the name of a column of times may end with.
UNIT = re.compile(r"_ms|\s*[(\[]\s*ms\s*[)\]]")


def column_of(name):
    """The column that a name in the header row means, or None, and whether the name is the column's own, or only near
    it."""
    word = name.strip().lower()
    short = next((it for it in TIMES if word.startswith(it) and UNIT.fullmatch(word[len(it):])), word)
    if short in COLUMNS:
        return short, "own"
    plain = re.sub(r"[^a-zäöü]+", " ", re.sub(r"[(\[].*|\bms$", "", word.replace("_", " "))).strip()
    if plain in OTHER_NAMES:
        return OTHER_NAMES[plain], "other"
    near = close(plain, COLUMNS)
    return (near, "near") if near else (None, "none")


def header_of(row, line, mistakes):
    """The columns that the header row names: the place of each; and the names of those that are left out."""
    found, guessed, extra = {}, set(), []
    names = {place: name.strip() for place, name in enumerate(row) if name.strip() and not name.strip().startswith("#")}
    columns = {name: column_of(name) for name in names.values()}
    own = {column for column, how in columns.values() if how == "own"}
    for place, name in names.items():
        column, how = columns[name]
        if how == "none" or how == "other" and column in own:
            extra.append(name)
        elif how != "own":
            guessed.add(column)
            mistakes.add(line, "the column", name, f"there is none of this name. Is it {column}? "
                         "A column that begins with # is left out.")
        elif column in found:
            mistakes.add(line, "the column", name, "it stands twice. Take one of them away.")
        else:
            found[column] = place
    for name in NEEDED:
        if name not in found and name not in guessed:
            mistakes.lines.append(f"{mistakes.path}:{line}: the column {name} is missing. The first row names the "
                                  f"columns, and needs {', '.join(NEEDED)}.")
    mistakes.stop()
    return found, extra


def separator_of(text, columns=None):
    """What stands between the fields of a text: that of comma, semicolon and tab by which the first row names the most
    columns, of a list of messages or of these. A spreadsheet of a country with decimal commas writes semicolons."""
    def is_column(name):
        if columns is None:
            return column_of(name)[0] is not None
        return UNIT.sub("", name.strip().lower()) in columns
    first = next((row for row in text.splitlines() if row.strip(" ,;\t") and not row.lstrip().startswith("#")), "")
    return max(SEPARATORS, key=lambda it: sum(is_column(name) for row in csv.reader([first], delimiter=it)
                                              for name in row))


def no_header(row, line, mistakes):
    """Refuses a first row that is no header row at all."""
    if not any(column_of(name)[0] for name in row if name.strip() and not name.strip().startswith("#")):
        mistakes.add(line, "the first row", ",".join(row), "it names no column. Write a header row above the messages, "
                     f"such as {','.join(NEEDED)}.")
    mistakes.stop()


def slot_of(field, kind, line, mistakes):
    """The slot of a row; None where it gives none."""
    if not field("slot"):
        return None
    if kind == "async":
        mistakes.add(line, "slot", field("slot"), "an asynchronous message has none. Leave it out, or write sync.")
        return None
    return read_whole(field("slot"), None, MANY_SLOTS - 1, line, "slot", mistakes, "Leave it out for any other slot.")


def message_of(field, line, amounts, is_mapped, mistakes):
    """The message of a row, whose fields are asked for by their columns."""
    kind = field("kind").lower() or "sync"
    if kind not in ("sync", "async", polled.KIND):
        mistakes.add(line, "kind", field("kind"), "Write sync, polled or async.")
    if kind == "async" and field("offset"):
        mistakes.add(line, "offset", field("offset"), "nothing keeps it for an asynchronous message. Leave it out, or "
                     "write sync.")
    if kind == polled.KIND and not field("deadline"):
        mistakes.add(line, "deadline", "", "a polled message needs one: the time from a request to the end of its "
                     "frame. Write milliseconds.")
    for name in ("name", "sender"):
        if not field(name):
            who = "the node that sends the message" if name == "sender" else "the message"
            mistakes.lines.append(f"{mistakes.path}:{line}: {name} is empty. Write the name of {who}.")
        elif not field(name).isprintable():
            mistakes.add(line, name, field(name), "Write a name without control characters.")
    return Message(
        line, field("name"), field("sender"),
        read_whole(field("length"), None, polled.MOST if kind == polled.KIND else LENGTH, line, "length", mistakes,
                   "Its frame has one byte more." if kind == polled.KIND else
                   "Part longer messages into frames of at most 8 bytes."),
        read_time(field("period"), kind == "sync", line, "period", mistakes, amounts),
        read_time(field("deadline"), False, line, "deadline", mistakes, amounts),
        read_time(field("offset"), False, line, "offset", mistakes, amounts) or Fraction(0),
        read_id(field("id"), line, mistakes, is_mapped), kind,
        read_whole(field("priority"), 0, PRIORITY, line, "priority", mistakes, "The lower one goes first."), "",
        slot_of(field, kind, line, mistakes))


def rows_in(path, text, separator):
    """The rows of a text that are none of comments, each with its line. A quote that is not closed is refused, since it
    takes the rest of the file."""
    before, reader = 0, csv.reader(io.StringIO(text, newline=""), delimiter=separator, strict=True)
    while True:
        try:
            row = next(reader)
        except StopIteration:
            return
        except csv.Error as fault:
            line = before + 1
            if "end of data" in str(fault):
                raise Refused(f"{path}:{line}: a quote is opened in this line, and none closes it. Close it, or take it "
                              "away.") from fault
            what = "a field is too long" if "limit" in str(fault) else str(fault)
            raise Refused(f"{path}:{line}: {what}. Is it a list of messages?") from fault
        line, before = before + 1, reader.line_num
        if any(field.strip() for field in row) and not row[0].lstrip().startswith("#"):
            yield line, row


def separated(text):
    """What stands between the fields of a list, and its text. A first row that says so is a comment to what follows."""
    hint = re.match(r"sep=([,;\t])\r?\n", text)
    return (hint[1], "#" + text) if hint else (separator_of(text), text)


def read(path, text, mistakes, is_mapped=False):
    """The messages of a CSV file. Identifiers of 29 bits are taken where they are mapped."""
    separator, text = separated(text)
    rows = list(rows_in(path, text, separator))
    if not rows:
        raise Refused(f"{path}:1: there is no header row. Name the columns in the first row: {', '.join(COLUMNS)}.")
    (line, header), *rows = rows
    no_header(header, line, mistakes)
    columns, extra = header_of(header, line, mistakes)
    width = len(header)

    def value(row, name):
        place = columns.get(name)
        return row[place].strip() if place is not None and place < len(row) else ""

    amounts = Amounts(separator, (value(row, name) for _, row in rows for name in TIMES))
    messages = []
    for line, row in rows:
        if any(field.strip() for field in row[width:]):
            mistakes.add(line, f"field {width + 1}", next(f for f in row[width:] if f.strip()),
                         f"the header has {width} columns. A value with a comma stands in double quotes.")
            continue
        messages.append(message_of(functools.partial(value, row), line, amounts, is_mapped, mistakes))
    notes = [f"left out: the column{'' if len(extra) == 1 else 's'} {', '.join(extra)}"] if extra else []
    return Read(messages, notes, [])


def with_offsets(path, text, offsets):
    """The text of a list with other offsets, in milliseconds by the lines of the messages. All else stays as it is; a list
    without this column gets it as its last one."""
    separator, text = separated(text)
    rows = {line: row for line, row in rows_in(path, text, separator)}
    head = min(rows)
    columns, _ = header_of(rows[head], head, Mistakes(path))
    place, width = columns.get("offset"), len(rows[head])
    has_commas = Amounts(separator, (row[columns[name]].strip() for line, row in rows.items() for name in TIMES
                                     if line != head and columns.get(name, width) < len(row))).has_commas
    out, lines, at = io.StringIO(), text.splitlines(True), 1
    writer = csv.writer(out, delimiter=separator, lineterminator="\n")
    for line, row in rows.items():
        out.write("".join(lines[at - 1:line - 1]))
        row = row[:width] + [""] * (width - len(row)) + ([""] if place is None else [])
        if line == head and place is None:
            row[-1] = "offset"
        elif line in offsets:
            row[-1 if place is None else place] = offsets[line].replace(".", ",") if has_commas else offsets[line]
        writer.writerow(row)
        # A field may go over lines.
        at = line + 1 + sum(field.count("\n") for field in row)
    out.write("".join(lines[at - 1:]))
    return out.getvalue().removeprefix("#") if text.startswith("#sep=") else out.getvalue()
