"""Lists of messages that are printed: of a recording, and of a DBC file, for people to fill in and to change."""
import csv
import io
import sys

from ..command import Parser, put_lines
from ..faults import Unread
from ..telling import decimal, listed
from . import dbc
from .messages import Mistakes, id_text, text_of

RECORDING, DBC = "--from-recording", "--from-dbc"
COLUMNS = ("id", "name", "sender", "length", "period", "deadline", "offset", "kind")
# What a DBC file says of times, beside what is made of them: columns that are left out where the list is read.
SAID = ("#cycle_ms", "#fast_ms", "#delay_ms", "#start_ms", "#send_type")


def put(text, notes):
    """Prints a list, and says on standard error what is to know of it. The status."""
    print("\n".join(notes), file=sys.stderr)
    why = put_lines(text.splitlines())
    if why is not None:
        raise Unread(why)
    return 0


def from_recording(words):
    """Prints the list of a recording."""
    reader = Parser(prog=f"fttmodel {RECORDING}", description="Prints a list of messages from a recording.")
    reader.add_argument("dump", metavar="RECORDING", help="the text of candump -L")
    reader.add_argument("--interface", help="the interface whose frames are taken; without it, that of the first line")
    words = reader.parse_args(words)
    # The readers of recordings are needed here alone.
    from . import recorded  # pylint: disable=import-outside-toplevel
    return put(*recorded.list_of(words.dump, words.interface))


def text_of_list(messages, said=None):
    """The text of a list of messages, and what else a file says of the times of some, by their lines."""
    out = io.StringIO()
    rows = csv.writer(out, lineterminator="\n")
    rows.writerow([*COLUMNS, *(SAID if said else ())])
    for it in messages:
        times = ["" if time is None else decimal(time, 12) for time in (it.period, it.deadline, it.offset or None)]
        rows.writerow([id_text(it.id), it.name, it.sender, it.length, *times, it.kind, *((said or {}).get(it.line, ()))])
    return out.getvalue()


def from_dbc(words):
    """Prints the list of a DBC file."""
    reader = Parser(prog=f"fttmodel {DBC}", description="Prints a list of messages from a DBC file.")
    reader.add_argument("messages", metavar="FILE", help="the DBC file")
    reader.add_argument("--period-attribute", metavar="NAME", help="the attribute of messages that has the period in "
                        "milliseconds, beside GenMsgCycleTime")
    reader.add_argument("--strict", action="store_true", help="refuse a file with a message that would be left out")
    reader.add_argument("--map", action="store_true", help="take messages with 29-bit identifiers; the list is for --map too")
    words = reader.parse_args(words)
    mistakes = Mistakes(words.messages)
    read = dbc.read(words.messages, text_of(words.messages), None, words, mistakes)
    mistakes.stop()
    lost = [it.name for it in read.messages if it.kind == "async" and read.times[it.line][0]]
    if lost:
        more = [f"the cycle times of {listed(lost)}, which are sent on events, stand in the column #cycle_ms: write sync and "
                "this period for a slot"]
    else:
        more = []
    more += ["no DBC file has deadlines: fill in `deadline`. A message that is sent on events needs a period beside it, "
            "its least distance, or may become polled then"]
    return put(text_of_list(read.messages, read.times), [*read.notes, *(f"warning: {it}" for it in read.warnings), *more])
