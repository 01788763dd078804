"""The run that a recording is compared with: a log of a run, or the plan of admit."""
import array
import collections
import io
import itertools
import re
import shutil
import tempfile

from ..frames import worst
from ..limits import FEW_SLOTS, FIRST_ASYNC, FIRST_SLOT, MANY_SLOTS, TRIGGERS
from ..masks import slots_of
from .fast import FRAME, OPEN, reader
from .reading import Progress, blocks_of, opened_file, size_of, text_of
from .rows import NoLog, RIDES, is_slot, rows_of

class Cycle(collections.namedtuple("Cycle", "mask width frames")):
    """A cycle of a run: its flags, its window in bit times, and its frames as start, length, identifier and data. A plan has
    no frames, and no window before the lengths of its slots are known."""

    __slots__ = ()

    def slots(self):
        """Its slots in their order: identifier and data, which a plan does not have."""
        if self.frames != ():
            return sorted(it[2:] for it in self.frames if FIRST_SLOT <= it[2] < FIRST_ASYNC)
        return [(FIRST_SLOT + slot, None) for slot in slots_of(f"{self.mask:x}")]


PLAN, PLAN_HEAD = re.compile(rb"fttcan plan [12]\n"), b"fttcan plan 1\n"
# The most bytes of a plan, and the most cycles that a log may leave out.
MOST_PLAN, MOST_LEFT_OUT = 64 << 20, 1 << 24
# The most candidates that are compared at length, and how many triggers of each at first and then.
CANDIDATES, FIRST_LOOK, SECOND_LOOK = 64, 24, 512


# So many cycles of a log are read at once where some of them are asked for, and so many frames are kept.
EACH, KEPT = 64, 20_000
# What stands for a cycle that a log does not have, among its flags and windows.
NONE = 0


class Rows:
    """The rows of a log in a file, as often as they are asked for: of a frame its start, length, identifier and data; of a
    cycle that is opened its number, flags, window and place in the file; and of any other one its word, fields and number
    in the log."""

    def __init__(self, path):
        self.path, self.file = path, opened_file(path)
        if not self.file.seekable():
            copy = tempfile.TemporaryFile()
            shutil.copyfileobj(self.file, copy)
            self.file = copy
        self.size = size_of(self.file)
        self.fast = reader(self.size)

    def of(self, first=0, last=None, is_short=False):
        """The rows between two places of the file, some at a time. A short list may leave out frames of slots after the first
        one of a cycle."""
        self.file.seek(first)
        source = self.file if last is None else io.BytesIO(self.file.read(last - first))
        progress = Progress("rows of the run read", self.size)
        for block, place, line in blocks_of(source, self.path):
            if self.fast is None:
                yield self.plain(text_of(block, self.path, line).split("\n")[:-1], first + place, line)
            else:
                yield self.compiled(block, first + place, line, is_short)
            if last is None:
                progress.step(line, place)
        progress.end()

    @staticmethod
    def plain(lines, place, number):
        """The rows of some lines."""
        for text, (word, fields, _) in zip(lines, rows_of(lines, number)):
            if word == "frame":
                yield FRAME, int(fields[0]), int(fields[1]), int(fields[2], 16), bytes.fromhex(fields[3])
            elif word == "open":
                yield OPEN, int(fields[0]), int(fields[1], 16), int(fields[2]), place
            else:
                yield word, fields, number, None, None
            place, number = place + len(text) + 1, number + 1

    def compiled(self, block, place, number, is_short):
        """The same by the compiled readers, which leave other rows."""
        for value, width, identifier, kind, data, order, mask, at in self.fast.rows(block, is_short):
            if kind == FRAME:
                yield FRAME, value, width, identifier, data
            elif kind == OPEN:
                yield OPEN, value, int.from_bytes(mask, "little"), width, place + at
            else:
                line = text_of(block[at:block.index(b"\n", at)], self.path, number + order)
                yield next(self.plain([line], place + at, number + order))


class Log:
    """A log of a run, without the calls. Its flags and windows are kept as numbers, and its frames are read where they are
    asked for."""
    what = "the run"
    has_frames = True

    def __init__(self, path):
        self.rows, self.polled, self.asked = Rows(path), set(), set()
        self.first, self.codes, self.told, self.places_of = None, array.array("H"), {None: NONE}, array.array("q")
        self.chunks, self.kept, self.slots, self.span = collections.OrderedDict(), 0, FEW_SLOTS, None
        self.scan()
        if self.first is None:
            raise NoLog("the log opens no cycle")
        self.flags = list(self.told)
        self.last = self.first + len(self.codes) - 1

    def scan(self):
        """Reads all rows once."""
        one = other = at_slot = number = None
        asked = self.asked
        for kind, value, width, identifier, place in itertools.chain.from_iterable(self.rows.of(is_short=True)):
            if kind == FRAME:
                if number is None:
                    continue
                if identifier >= FIRST_ASYNC:
                    asked.add(identifier)
                elif identifier == TRIGGERS[0]:
                    other = number, value
                    one = one or other
                elif identifier == TRIGGERS[1]:
                    self.slots = MANY_SLOTS
                elif at_slot is None and is_slot(identifier):
                    at_slot = (value + opened) // (number + 1)
            elif kind == OPEN:
                number, opened = value, identifier
                self.open(number, (width, opened), place)
            elif kind in RIDES:
                self.polled.add(FIRST_SLOT + int(value[0]))
        if one is not None and other[0] > one[0]:
            self.span = (other[1] - one[1]) // (other[0] - one[0])
        else:
            self.span = at_slot

    def open(self, number, told, place):
        """Notes a cycle: its flags and window, and where it stands."""
        if self.first is None:
            self.first = number
        missing = number - self.first - len(self.codes)
        if missing < 0:
            raise NoLog(f"cycle {number} is opened above, or after a later one")
        if missing > MOST_LEFT_OUT:
            raise NoLog(f"{missing} cycles are missing in front of cycle {number}")
        for _ in range(missing):
            self.note(NONE, place)
        code = self.told.setdefault(told, len(self.told))
        if code > 0xFFFF and self.codes.typecode == "H":
            self.codes = array.array("I", self.codes)
        self.note(code, place)

    def note(self, code, place):
        """Notes the code of a cycle."""
        if len(self.codes) % EACH == 0:
            self.places_of.append(place)
        self.codes.append(code)

    def flags_at(self, number):
        """The flags and the window of a cycle; None where the run has no such one."""
        place = number - self.first
        return self.flags[self.codes[place]] if 0 <= place < len(self.codes) else None

    def at(self, number):
        """A cycle of the run; None where it has no such one."""
        place = number - self.first
        if not 0 <= place < len(self.codes) or self.codes[place] == NONE:
            return None
        chunk = place // EACH
        found = self.chunks.get(chunk)
        if found is None:
            found = self.read(chunk)
        return found.get(number)

    def read(self, chunk):
        """Reads some cycles, and forgets those that were asked for long ago."""
        last = self.places_of[chunk + 1] if chunk + 1 < len(self.places_of) else None
        found, current = {}, None
        for kind, value, width, identifier, data in itertools.chain.from_iterable(self.rows.of(self.places_of[chunk], last)):
            if kind == FRAME:
                current.append((value, width, identifier, data))
            elif kind == OPEN:
                current = []
                found[value] = Cycle(width, identifier, current)
        many = sum(len(cycle.frames) for cycle in found.values())
        self.chunks[chunk] = found
        self.kept += many
        while self.kept > KEPT and len(self.chunks) > 2:
            _, old = self.chunks.popitem(last=False)
            self.kept -= sum(len(cycle.frames) for cycle in old.values())
        return found

    def length(self):
        """The length of a cycle in bit times, by the distance of the triggers, or by where a window is; None where
        nothing tells."""
        return self.span

    def places(self, residue, many):
        """The cycles that may be the first one of a recording of so many cycles: all with this rest modulo 256, from
        that on with which it ends in the run's first one."""
        least = self.first - many + 1
        return range(least + (residue - least) % 256, self.last + 1, 256)


class Plan:
    """A plan of admit: the flags of all cycles. The lengths of its slots are those that a recording has."""
    what = "the plan"
    has_frames = False
    polled, asked = frozenset(), frozenset()

    def __init__(self, lines):
        try:
            values = dict(line.split(" ") for line in lines[1:5])
            self.first, self.repeat, self.period = (int(values[word]) for word in ("from", "first", "length"))
            runs = [line.split(" ") for line in lines[5:lines.index("end")]]
            self.masks = [int(run[0], 16) for run in runs for _ in range(int((*run, 1)[1]))]
        except (KeyError, ValueError) as fault:
            raise NoLog("this is no whole plan of admit; `fttlint SYSTEM STEPS --plan PLAN` says why") from fault
        if not self.masks or len(self.masks) != self.repeat + self.period - self.first:
            raise NoLog("the plan has not as many cycles as it says; `fttlint SYSTEM STEPS --plan PLAN` says why")
        self.last, self.lengths, self.known = None, {}, {}
        self.slots = MANY_SLOTS if max(self.masks) >> FEW_SLOTS else FEW_SLOTS

    def at(self, number):
        """A cycle of the plan; None where it has no such one."""
        if number < self.first:
            return None
        place = number if number < self.repeat else self.repeat + (number - self.repeat) % self.period
        mask = self.masks[place - self.first]
        if mask not in self.known:
            sizes = [self.lengths.get(slot) for slot in slots_of(f"{mask:x}")]
            self.known[mask] = Cycle(mask, None if None in sizes else sum(map(worst, sizes)), ())
        return self.known[mask]

    def flags_at(self, number):
        """The flags of a cycle, and None for its window; None where the plan has no such cycle."""
        cycle = self.at(number)
        return None if cycle is None else (cycle.mask, cycle.width)

    def learn(self, frames):
        """Takes the lengths of the slots from the frames of a recording, where none was known: that which most frames of a
        slot have."""
        seen = collections.defaultdict(collections.Counter)
        for frame in frames:
            if is_slot(frame.identifier) and frame.identifier - FIRST_SLOT not in self.lengths:
                seen[frame.identifier - FIRST_SLOT][len(frame.data)] += 1
        if not seen:
            return
        self.lengths |= {slot: sizes.most_common(1)[0][0] for slot, sizes in seen.items()}
        self.known.clear()
        places = [place for place, frame in enumerate(frames) if frame.identifier == TRIGGERS[0]]
        pairs = sum(place + 1 < len(frames) and frames[place + 1].identifier == TRIGGERS[1] for place in places)
        if 2 * pairs > len(places):
            self.slots = MANY_SLOTS

    def length(self):
        """A plan has no times."""
        return None

    def places(self, residue, _):
        """The cycles that may be the first one of a recording, each place of the repeated part once."""
        found, seen = [], set()
        for number in range(self.first + (residue - self.first) % 256, self.repeat + 256 * self.period, 256):
            place = number if number < self.repeat else (number - self.repeat) % self.period - self.period
            if place not in seen:
                found.append(number)
                seen.add(place)
            elif number >= self.repeat:
                break
        return found


def run_in(path):
    """The run of a file: a log, or a plan."""
    try:
        with open(path, "rb") as file:
            head = file.read(len(PLAN_HEAD))
            if PLAN.fullmatch(head):
                text = head + file.read(MOST_PLAN)
                return Plan(text_of(text, path, 1).splitlines())
        return Log(path)
    except NoLog as fault:
        text = str(fault)
        raise NoLog(text if text.startswith(f"{path}: ") else f"{path}: {text}") from fault


def fitting(run, candidate, told):
    """How many of some cycles have these flags and windows, where the first one is that of a candidate."""
    many = 0
    for number, (mask, width) in told:
        own = run.flags_at(candidate + number)
        many += own is not None and own[0] == mask and own[1] in (width, None)
    return many


def sample(values, many):
    """At most so many values, the first ones and some of all others."""
    return values if len(values) <= many else values[:many // 2] + values[many // 2::-(-2 * len(values) // many)]


class Sample:
    """Some of many values: the first ones, and some of all others, the farther apart the more there are."""

    def __init__(self, most):
        self.most, self.many, self.first, self.others, self.step = most, 0, [], [], 1

    def add(self, value):
        """A value more."""
        if len(self.first) < self.most:
            self.first.append(value)
        elif self.many % self.step == 0:
            self.others.append(value)
            if len(self.others) > self.most:
                self.others, self.step = self.others[::2], self.step * 2
        self.many += 1

    def values(self):
        """Those that are kept."""
        return self.first + self.others


class Sampled:
    """What a recording says of where it begins: of its triggers the flags and windows by their cycles from the first one,
    and of its slots the data by cycle and identifier."""

    def __init__(self):
        self.told, self.sent = Sample(2 * SECOND_LOOK), Sample(2 * SECOND_LOOK)


# Where in the run a recording begins: the cycle of its first trigger, or None; how many of the looked at triggers fit there,
# how many of them are in the run then, and in how many places as many fit.
Place = collections.namedtuple("Place", "begin fit looked equal")


def place_in(run, residue, sampled):
    """Where in the run a recording begins. Flags and windows decide, and between equal places the data of slots."""
    told = sampled.told.values()
    if not told:
        return Place(None, 0, 0, 0)
    few, more = sample(told, FIRST_LOOK), sample(told, SECOND_LOOK)
    found = sorted(run.places(residue, told[-1][0] + 1), key=lambda it: -fitting(run, it, few))[:CANDIDATES]
    if not found:
        return Place(None, 0, len(more), 0)
    marks = {it: fitting(run, it, more) for it in found}
    best = [it for it in found if marks[it] == max(marks.values())]
    if len(best) > 1 and run.has_frames:
        looked, marks_of_data = sample(sampled.sent.values(), SECOND_LOOK), dict.fromkeys(best, 0)
        # In the order of the run, whose frames are read where they are asked for.
        for at, it, identifier, data in sorted((it + number, it, identifier, data) for it in best
                                               for number, identifier, data in looked):
            cycle = run.at(at)
            marks_of_data[it] += cycle is not None and any(own[2:] == (identifier, data) for own in cycle.frames)
        best = [it for it in best if marks_of_data[it] == max(marks_of_data.values())]
    begin = min(best)
    return Place(begin, marks[begin], sum(run.flags_at(begin + number) is not None for number, _ in more), len(best))
