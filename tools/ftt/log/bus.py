"""The bits of a bus, and recordings of candump: a log as one, and one as a log."""
import fractions
import struct

from ..frames import INTERMISSION, wire_of
from ..limits import FEW_SLOTS, TRIGGERS
from ..masks import mask_of
from ..telling import some
from .reading import lines_of, opened_file
from .recording import Recording, back_by, parts_of, tell_left
from .rows import NoLog, rows_of
from .snap import Snapped

MICROS = 1_000_000
# So many bits of an idle bus are put at once.
IDLE = 1 << 16


def bits(rows, until, put):
    """The bits of the bus as text, one for each bit time: 0 is dominant and 1 recessive."""
    free = 0
    for word, fields, place in rows:
        if word != "frame":
            continue
        start, length, wire = int(fields[0]), int(fields[1]), wire_of(int(fields[2], 16), bytes.fromhex(fields[3]))
        if length != len(wire):
            raise NoLog(f"row {place}: the wire of this frame has {len(wire)} bits")
        if start < free:
            raise NoLog(f"row {place}: the bus is busy until {free}")
        if until is not None and start + length > until:
            raise NoLog(f"row {place}: its frame ends at {start + length}")
        put_ones(start - free, put)
        put("".join(map(str, wire)))
        free = start + length
    put_ones((until or 0) - free, put)
    put("\n")


def put_ones(many, put):
    """So many recessive bits."""
    for _ in range(many // IDLE):
        put("1" * IDLE)
    put("1" * max(0, many % IDLE if many > 0 else 0))


def micros_of(fields, kbits, at_second, has_ends):
    """The time of a frame in microseconds, rounded down: its start, or its end without the intermission. Bit time 0 is
    at the second that is given."""
    time = int(fields[0]) + (int(fields[1]) - INTERMISSION if has_ends else 0)
    # bit times over kbit/s are milliseconds
    return int((at_second + fractions.Fraction(time) / kbits / 1000) * MICROS)


def candump(rows, kbits, at_second, has_ends, interface, put):
    """Each frame as a line of `candump -L`: a time in seconds, the interface, identifier and data."""
    for word, fields, _ in rows:
        if word == "frame":
            micros, identifier, data = micros_of(fields, kbits, at_second, has_ends), *fields[2:]
            put(f"({micros // MICROS:010d}.{micros % MICROS:06d}) {interface} {identifier.upper()}#{data.upper()}\n")


def pcap(rows, kbits, at_second, has_ends, put):
    """Each frame as a packet of a recording that tcpdump and Wireshark read, of the link type of SocketCAN: a header of
    the file, and for each packet seconds, microseconds, two lengths, identifier, number of data bytes, and data."""
    put(struct.pack("<IHHiIII", 0xA1B2C3D4, 2, 4, 0, 0, 262_144, 227))
    for word, fields, _ in rows:
        if word == "frame":
            micros = micros_of(fields, kbits, at_second, has_ends)
            data = bytes.fromhex(fields[3])
            packet = struct.pack(">IB3x", int(fields[2], 16), len(data)) + data
            put(struct.pack("<IIII", micros // MICROS, micros % MICROS, len(packet), len(packet)) + packet)


class Starts:
    """The starts of frames, in bit times since that of the first one. A frame that starts a bit time before the one in
    front of it has ended is put after that one, since times are rounded. One that starts earlier is refused."""

    def __init__(self, words):
        self.words, self.first, self.free, self.moved, self.before = words, None, 0, 0, None
        # A bit time in nanoseconds is the divisor over the factor.
        self.factor, self.divisor = words.kbits.numerator, words.kbits.denominator * MICROS

    def take(self, frames):
        """Those of some frames more."""
        factor, divisor, has_starts, free, starts = self.factor, self.divisor, self.words.starts, self.free, []
        for frame in frames:
            time = frame.nanos * factor - (0 if has_starts else (frame.length - INTERMISSION) * divisor)
            if self.first is None:
                self.first = time
            # Rounded, and halves to the even number.
            start, rest = divmod(2 * (time - self.first) + divisor, 2 * divisor)
            start -= rest == 0 and start % 2
            if start < free - 1:
                before = starts and frames[len(starts) - 1] or self.before
                raise NoLog(f"line {frame.line}: {overlap(frame, start, before, free, self.words.kbits, has_starts)}")
            if start < free:
                self.moved, start = self.moved + 1, free
            starts.append(start)
            free = start + frame.length
        self.free, self.before = free, frames[-1]
        return starts

    def tell(self, note):
        """Says how many frames were moved."""
        if self.moved:
            note(f"{some(self.moved, 'frame')} would start a bit time before the previous one has ended: moved to its end")


def overlap(frame, start, before, free, kbits, has_starts):
    """Why a frame can't start so early, and what may be wrong with the words."""
    times = "ends of frames? Then leave --starts out" if has_starts else "starts of frames? Then --starts says so"
    if frame.nanos < before.nanos:
        return back_by(before, frame)
    return (f"the frame would start at bit time {start}, and the one of line {before.line} ends at {free}: no bus "
            f"sends two at once. Is {float(kbits):g} kbit/s the right rate? Are the times {times}")


def cycles_in(frames, starts, last=None):
    """The frames by cycles: the number of each, its mask and window, and its frames with their starts. The cycle in front
    of these has the last number."""
    cycles = []
    for frame, start in zip(frames, starts):
        if frame.identifier == TRIGGERS[0]:
            if len(frame.data) != 8:
                raise NoLog(f"line {frame.line}: a trigger has eight bytes")
            byte = frame.data[0]
            last = byte if last is None else last + 1 + (byte - last - 1) % 256
            cycles.append([last, int.from_bytes(frame.data[3:], "little"), int.from_bytes(frame.data[1:3], "big"),
                           [(frame, start)]])
            continue
        behind = cycles[-1][3]
        if frame.identifier == TRIGGERS[1] and len(behind) == 1 and len(frame.data) == 8:
            cycles[-1][1] |= int.from_bytes(frame.data[1:], "little") << FEW_SLOTS
        behind.append((frame, start))
    return cycles


def calls_of(path):
    """The rows of a log that no recording shows: verdicts, plans and looks, each with the cycle that is next there."""
    if path is None:
        return
    following = 0
    with opened_file(path) as file:
        for word, fields, _ in rows_of(lines_of(file, path)):
            if word == "open":
                following = int(fields[0]) + 1
            elif word in ("submit", "plan", "look"):
                yield following, ",".join((word, *fields)) + "\n"


class Distance:
    """The length of a cycle in bit times: the one that is given, or else the distance of the first triggers. Where the two
    differ is told at the end."""

    def __init__(self, given):
        self.given, self.length, self.last = given, given, None
        self.off, self.many, self.first = 0, 0, None

    def take(self, cycles, note):
        """Some cycles more."""
        triggers = [(number, sent[0][1], sent[0][0].line) for number, _, _, sent in cycles]
        if self.length is None:
            if len(triggers) < 2:
                raise NoLog("the recording has fewer than two triggers: give the length of a cycle with --cycle")
            self.length = round(fractions.Fraction(triggers[-1][1] - triggers[0][1], triggers[-1][0] - triggers[0][0]))
            note(f"cycles of {self.length} bit times, by the distance of the triggers")
        if self.given is not None:
            if self.last is not None:
                triggers.insert(0, self.last)
            for (before, start, _), (number, later, line) in zip(triggers, triggers[1:]):
                self.many += 1
                if abs(later - start - self.given * (number - before)) > 1:
                    self.off += 1
                    self.first = self.first or (line, number - before, later - start)
        self.last = triggers[-1]

    def tell(self, note):
        """Says where triggers come at another time than the one that is given."""
        if self.off:
            line, many, distance = self.first
            note(f"--cycle is {self.given}, and {self.off} of {self.many} triggers come at another time: the first in "
                 f"line {line}, {distance} bit times and {some(many, 'cycle')} after the one before. Are the rate and "
                 "--cycle right?")


def from_candump(words, put, note):
    """A recording of a bus of this profile as rows of a log. A cycle is opened where its trigger stands. The calls of a
    log, which no recording shows, are put in front of the cycle that was next when they were answered."""
    found, calls, distance = Recording(words.log, words), calls_of(words.calls), Distance(words.cycle)
    starts = Starts(words) if words.snap is None else Snapped(words)
    call, number, first, early = next(calls, None), None, 0, 0
    for part in parts_of(found):
        cycles, early = cycles_in(part.frames, starts.take(part.frames), number), part.early
        if words.snap is None:
            distance.take(cycles, note)
        if number is None and cycles[0][0]:
            first = cycles[0][0] * (distance.length if words.snap is None else starts.length)
            note(f"the first trigger is that of cycle {cycles[0][0]}: what was before it is not in the recording")
        texts = []
        for number, mask, width, sent in cycles:
            while call is not None and call[0] <= number:
                texts.append(call[1])
                call = next(calls, None)
            texts.append(f"open,{number},{mask_of(mask)},{width}\n")
            texts += [f"frame,{first + start},{length},{identifier:03x},{data.hex()}\n"
                      for (_, identifier, length, data, _), start in sent]
        put("".join(texts))
    for _, row in calls if call is None else [call, *calls]:
        put(row)
    put(f"end,{number + 1}\n")
    tell_left(found, early, note)
    starts.tell(note)
    distance.tell(note)
