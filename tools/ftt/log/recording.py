"""Recordings of candump -L: their frames, what is left out of them, and files of other forms by name."""
import collections
import functools
import re
import shutil
import sys
import tempfile

from ..lengths import length_of
from ..limits import FIRST_ASYNC, FIRST_SLOT, LAST_ASYNC, LAST_SLOT, LENGTH, TRIGGERS
from ..telling import listed, shown, some, why_no_text
from .fast import LONG, OTHER as OTHER_LINE, reader
from .reading import INPUT, Progress, blocks_of, opened_file, size_of, text_of
from .rows import NoLog

LINE = re.compile(r"\((\d+)\.(\d{1,9})\) +(\S+) +([0-9A-Fa-f]+)#(#[0-9A-Fa-f]+|R[0-9A-Fa-f]?|[0-9A-Fa-f]*)( +[RT])?")
# The form of nearly all lines: microseconds, and a data frame with 11 bits.
USUAL = re.compile(r"\((\d+)\.(\d{6})\) (\S+) ([0-7][0-9A-Fa-f]{2})#((?:[0-9A-Fa-f]{2}){0,8})(?: [RT])?\s*")
# The bit of an identifier of eight digits that makes it an error frame.
ERROR = 1 << 29
# What a frame is that is none of this profile, and in the order in which they are told.
OTHER, WIDE, FD, REMOTE, ERRORS = KINDS = ("other 11-bit identifiers", "29-bit identifiers", "CAN FD", "remote frames",
                                           "error frames")

CONVERT = "`python3 -m can.logconvert {0} OUT.log` of python-can turns it, where its name ends in {1}"
SHARK = ("`tshark -r {0} -T fields -e frame.time_epoch -e can.id -e data.data --disable-protocol autosar-nm | awk "
         "-F'\\t' '{{ printf \"(%s) can0 %03X#%s\\n\", $1, $2, $3 }}' > OUT.log` turns it")
PLAIN = ("`sed -E 's/^ *(\\([0-9.]+\\)) +(\\S+) +([0-9A-F]+) +\\[[0-9]+\\]/\\1 \\2 \\3#/; s/ //3g' {0} > OUT.log` "
         "turns it")
# Other forms: how their first bytes look, what they are, and what turns them.
FORMS = (
    (rb"LOGG", "a BLF file of Vector", CONVERT.replace("{1}", ".blf")),
    (rb"\xd4\xc3\xb2\xa1|\xa1\xb2\xc3\xd4|\x4d\x3c\xb2\xa1|\xa1\xb2\x3c\x4d|\x0a\x0d\x0d\x0a",
     "a recording of tcpdump or Wireshark", SHARK),
    (rb"MDF     |UnFinMF ", "an MDF file", CONVERT.replace("{1}", ".mf4") + " (with asammdf)"),
    (rb"SQLite format 3", "a database of python-can", CONVERT.replace("{1}", ".db")),
    (rb"\x1f\x8b", "a file of gzip", "`gunzip -c {0} > OUT.log` turns it"),
    (rb"\s*(?:date |base +(?:hex|dec) )", "an ASC file of Vector", CONVERT.replace("{1}", ".asc")),
    (rb";", "a TRC file of PEAK", CONVERT.replace("{1}", ".trc")),
    (rb"timestamp,arbitration_id,", "a CSV file of python-can", CONVERT.replace("{1}", ".csv")),
    (rb"(?=[^\r\n]*,[^\r\n]*,)[^\r\n]*\bID\b", "a CSV file of another tool",
     "python-can turns one whose columns are timestamp, arbitration_id, extended, remote, error, dlc and data"),
    (rb" *\([0-9.]+\) +\S+ +[0-9A-F]+ +\[[0-9]+\]", "what candump -t a prints", PLAIN),
    (rb" *\S+ +[0-9A-F]+ +\[[0-9]+\]", "what candump prints without times", "record with `candump -L`"),
    (rb"(?:submit|open|frame),", "a log of fttcan", "`fttlog candump KBITS {0}` turns it"),
)


# A frame of a recording: the time in nanoseconds, the identifier, the length on the bus, the data, and the line.
Recorded = collections.namedtuple("Recorded", "nanos identifier length data line")
make = functools.partial(tuple.__new__, Recorded)


class Recording:
    """The frames of one interface, read block by block; and how many are left out: by kind, and those of other
    interfaces."""

    def __init__(self, path, words):
        self.file, self.name = opened_file(path), INPUT if path == "-" else path
        self.interface, self.is_strict, self.others = words.interface, words.strict, 0
        self.left, self.seen, self.is_again = dict.fromkeys(KINDS, 0), 0, False
        # What was read of standard input may be needed once more.
        self.kept = None if self.file.seekable() else []

    def again(self):
        """Goes back to the beginning. Standard input is copied to a file without a name for that."""
        if self.kept is not None:
            copy = tempfile.TemporaryFile()
            copy.writelines(self.kept)
            shutil.copyfileobj(self.file, copy)
            self.file, self.kept = copy, None
        self.file.seek(0)
        self.others, self.left, self.seen, self.is_again = 0, dict.fromkeys(KINDS, 0), 0, True

    def rely(self):
        """Keeps nothing for going back from here on."""
        self.kept = None

    def read(self, size):
        """Some bytes."""
        data = self.file.read(size)
        if self.kept is not None:
            self.kept.append(data)
        return data

    def blocks(self):
        """The frames of the file, some at a time, and among them those that are left out: pairs of their place among the
        frames and of their nanoseconds."""
        size = size_of(self.file)
        fast, progress = reader(size), Progress("frames read", size)
        is_asked = fast is not None
        for block, place, line in blocks_of(self, self.name):
            frames, busy = [], []
            if place >= LONG and not is_asked:
                fast, is_asked = reader(place), True
            self.interface = self.interface or interface_of(block)
            if fast is None or self.interface is None:
                self.plain(block, line, frames, busy)
            else:
                self.compiled(fast, block, line, frames, busy)
            self.seen += len(frames)
            progress.step(self.seen, place)
            yield frames, busy
        progress.end()

    def plain(self, block, line, frames, busy):
        """Takes the lines of a block."""
        matched, keep = USUAL.fullmatch, frames.append
        for place, text in enumerate(text_of(block, self.name, line).split("\n"), line):
            match = matched(text)
            if match is not None and match[3] == self.interface:
                seconds, part, _, identifier, data = match.groups()
                number = int(identifier, 16)
                if number in OWN:
                    data = bytes.fromhex(data)
                    keep(make((int(seconds + part) * 1000, number, length_of(number, data), data, place)))
                    continue
            if text and not text.isspace():
                self.take(text.strip(), place, frames, busy)

    def compiled(self, fast, block, line, frames, busy):
        """The same by the compiled readers, which leave lines of other forms."""
        found, others = fast.recorded(block, line, self.interface)
        if not others:
            frames += map(make, found)
            return
        for it in found:
            if it[1] != OTHER_LINE:
                frames.append(make(it))
            else:
                text = block[it[0]:block.index(b"\n", it[0])]
                self.take(text_of(text, self.name, it[4]).strip(), it[4], frames, busy)

    def take(self, line, place, frames, busy):
        """Takes a line of any form that candump -L has."""
        match = LINE.fullmatch(line)
        if match is None:
            raise NoLog(f"line {place}: {shown(line, 60)} is no line of candump -L")
        seconds, part, where, identifier, data, _ = match.groups()
        self.interface = self.interface or where
        if where != self.interface:
            self.others += 1
            return
        nanos, kind = int(seconds + part.ljust(9, "0")), kind_of(identifier, data)
        if kind is None and (len(data) % 2 or len(data) > 2 * LENGTH):
            raise NoLog(f"line {place}: {shown(data)} is no data of 0 to 8 bytes")
        if kind is None and int(identifier, 16) not in OWN:
            kind = OTHER
        if kind is None:
            number, data = int(identifier, 16), bytes.fromhex(data)
            frames.append(Recorded(nanos, number, length_of(number, data), data, place))
        elif self.is_strict:
            refuse(place, kind, identifier)
        else:
            self.left[kind] += 1
            busy.append((len(frames), nanos))

    def said(self):
        """What is left out, as text; nothing where nothing is."""
        return listed([f"{many} of {kind}" for kind, many in self.left.items() if many], "")


def interface_of(block):
    """The interface of the first line of a block that is none of blanks; None where that is no line of candump -L."""
    first = block.lstrip().partition(b"\n")[0].decode("ascii", "replace").strip()
    match = LINE.fullmatch(first)
    return None if match is None else match[3]


# Some frames that begin with a trigger: the frames; those that were left out among them, as pairs of a place and
# nanoseconds; whether they are the last ones; the first frame after them, or None; and those in front of the first trigger.
Part = collections.namedtuple("Part", "frames busy is_last following early")
# A part ends before a trigger, with so many triggers at least, and with fewer if it has so many frames.
TRIGGERS_EACH, TRIGGERS_LEAST, FRAMES_EACH = 1024, 128, 50_000


def parts_of(recording):
    """The frames of a recording from the first trigger on, part by part. The last part has as many triggers as any other
    one, and is longer."""
    frames, busy, triggers, early, is_begun = [], [], [], 0, False
    for more, left in recording.blocks():
        if not is_begun:
            first = next((place for place, it in enumerate(more) if it.identifier == TRIGGERS[0]), None)
            early += len(more) if first is None else first
            if first is None:
                continue
            more, left, is_begun = more[first:], [(place - first, nanos) for place, nanos in left if place >= first], True
        behind = len(frames)
        busy += [(place + behind, nanos) for place, nanos in left]
        frames += more
        triggers += [place for place, it in enumerate(more, behind) if it.identifier == TRIGGERS[0]]
        while True:
            least = TRIGGERS_EACH if len(frames) < 2 * FRAMES_EACH else TRIGGERS_LEAST
            # A trigger that is there twice stands in one part.
            while len(triggers) > least and frames[triggers[least]].data[:1] == frames[triggers[least - 1]].data[:1]:
                least += 1
            if len(triggers) < 2 * least + 1:
                break
            end = triggers[least]
            yield Part(frames[:end], [it for it in busy if it[0] < end], False, frames[end], early)
            frames, busy = frames[end:], [(place - end, nanos) for place, nanos in busy if place >= end]
            triggers = [place - end for place in triggers[least:]]
    if not is_begun:
        raise NoLog("the recording has no trigger, which has identifier 000")
    yield Part(frames, busy, True, None, early)


def tell_left(found, early, note):
    """Says what is left out of a recording."""
    if found.others:
        note(f"{some(found.others, 'frame')} of other interfaces {'is' if found.others == 1 else 'are'} left out")
    if found.said():
        note(f"no frames of this profile, and left out: {found.said()}")
    if early:
        note(f"{some(early, 'frame')} before the first trigger {'is' if early == 1 else 'are'} left out")


# The identifiers of 11 bits that frames of the profile may have.
OWN = frozenset((*TRIGGERS, *range(FIRST_SLOT, LAST_SLOT + 1), *range(FIRST_ASYNC, LAST_ASYNC + 1)))


def kind_of(identifier, data):
    """What a frame is that this profile does not have; None of a data frame with 11 bits."""
    if data.startswith("#"):
        return FD
    if len(identifier) != 3:
        return ERRORS if int(identifier, 16) & ERROR else WIDE
    return REMOTE if data.startswith("R") else None


def refuse(place, kind, identifier):
    """Refuses a frame that is none of the profile."""
    what = {OTHER: f"the identifier {identifier} is none of a trigger, a slot or a request",
            WIDE: f"the identifier {identifier} has no 11 bits", FD: "this is a frame of CAN FD",
            REMOTE: "this is a remote frame", ERRORS: "this is an error frame"}[kind]
    raise NoLog(f"line {place}: {what}: no frame of this profile. Without --strict it is left out")


def other_form(head, name):
    """What is said of a file in another form, by its first bytes; None of one that may be of candump -L."""
    why = why_no_text(head)
    if why is not None:
        return f"{name}: {why}"
    form = next((it for it in FORMS if re.match(it[0], head)), None)
    if form is None:
        return None
    command = form[2].format("FILE" if name == INPUT else name)
    return f"{name}: this is {form[1]}, and the text of `candump -L` is needed. {command[0].upper()}{command[1:]}"


def look_at(path):
    """Refuses a file in another form by its name. Of standard input the first bytes are looked at, where they can
    be."""
    if path == "-":
        peek = getattr(getattr(sys.stdin, "buffer", None), "peek", None)
        head, name = peek(512) if peek else b"", INPUT
    else:
        with open(path, "rb") as file:
            head, name = file.read(512), path
    why = other_form(head[:512], name)
    if why is not None:
        raise NoLog(why)


def back_by(before, frame):
    """What is said of a time that goes back."""
    return (f"the time goes back by {(before.nanos - frame.nanos) / 1000:g} us. Is the recording in order, and of one "
            "bus?")
