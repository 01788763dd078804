"""Recordings that a check makes of logs: with noise, with a clock that runs off, and with faults put in. Times are bit
times of the bus here, up to the last step."""
import collections
import random

from ftt.frames import INTERMISSION, worst
from ftt.lengths import length_of

TRIGGER, SECOND = 0, 1
FIRST_SLOT, LAST_SLOT = 0x100, 0x15F
# How far stamps are off, in microseconds, and how fast the recorder's clock runs, in parts per million.
NOISE, PPM = 10, 100
# The least time by which a late frame is late, in microseconds.
LATE = 120

# A frame: its cycle, start, identifier and data.
Frame = collections.namedtuple("Frame", "cycle start identifier data")


def is_slot(identifier):
    """Whether a frame with this identifier is that of a slot."""
    return FIRST_SLOT <= identifier <= LAST_SLOT


def bits_of(frame):
    """The length of a frame."""
    return length_of(frame.identifier, frame.data)


def long_run(many, cycle=2000):
    """The text of a log with so many frames: eight slots with 1 to 8 bytes in each cycle."""
    sizes = range(1, 9)
    width, rows = sum(map(worst, sizes)), ["submit,1,0,accepted,0,1"]
    for number in range(-(-many // 9)):
        rows.append(f"open,{number},00000000ff,{width}")
        start = number * cycle
        data = bytes([number % 256]) + width.to_bytes(2, "big") + bytes([255, 0, 0, 0, 0])
        rows.append(f"frame,{start},{length_of(0, data)},000,{data.hex()}")
        start += cycle - width
        for slot, size in enumerate(sizes):
            data = (number % 256 ** size).to_bytes(size, "big")
            length = length_of(FIRST_SLOT + slot, data)
            rows.append(f"frame,{start},{length},{FIRST_SLOT + slot:03x},{data.hex()}")
            start += length
    return "\n".join([*rows, f"end,{number + 1}\n"])


class Run:
    """A log: its frames, the windows of its cycles, the length of a cycle, and its polled slots."""

    def __init__(self, name, text, length=None):
        self.name, self.text, self.frames, self.widths, self.polled = name, text, [], {}, set()
        for fields in (line.split(",") for line in text.splitlines()):
            if fields[0] == "open":
                cycle = int(fields[1])
                self.widths[cycle] = int(fields[3])
            elif fields[0] == "frame" and self.widths:
                self.frames.append(Frame(cycle, int(fields[1]), int(fields[3], 16), bytes.fromhex(fields[4])))
            elif fields[0] in ("ride", "waits"):
                self.polled.add(FIRST_SLOT + int(fields[1]))
        triggers = [(it.cycle, it.start) for it in self.frames if it.identifier == TRIGGER]
        (one, start), (other, later) = triggers[0], triggers[-1]
        self.length = (later - start) // (other - one) if other > one else length
        self.slots = 96 if any(it.identifier == SECOND for it in self.frames) else 40

    def part(self, first, last):
        """The frames of some cycles."""
        return [it for it in self.frames if first <= it.cycle <= last]


def sent(run, frames, late=None, by=0):
    """The frames as a bus sends them, each cycle from its trigger on: of those that are ready the least identifier goes
    first. A trigger is ready at the start of its cycle, a slot where its window opens, and another frame where the run
    sends it. The frame at one place is ready later, by so many bit times."""
    cycles = {}
    for place, frame in enumerate(frames):
        cycles.setdefault(frame.cycle, []).append((place, frame))
    free, out = float("-inf"), []
    for cycle, among in cycles.items():
        begin = cycle * run.length
        ready = max(begin + (by if among[0][0] == late else 0), free)
        shift = ready - begin if among[0][1].identifier == TRIGGER else max(0, free - begin)
        opens = begin + run.length - run.widths[cycle] + shift
        waiting = []
        for place, frame in among:
            at = opens if is_slot(frame.identifier) else frame.start + shift
            at = begin + shift if frame.identifier in (TRIGGER, SECOND) else at
            waiting.append((at + (by if place == late and frame.identifier != TRIGGER else 0), place, frame))
        while waiting:
            time = max(free, min(at for at, _, _ in waiting))
            chosen = min((it for it in waiting if it[0] <= time), key=lambda it: (it[2].identifier, it[1]))
            waiting.remove(chosen)
            out.append(chosen[2]._replace(start=time))
            free = time + bits_of(chosen[2])
    return out


def stamped(frames, kbits, seed, noise=NOISE, ppm=PPM):
    """The text of `candump -L`: ends of frames by a clock that runs off, each off by noise."""
    chance, lines = random.Random(seed), []
    begin, bit = chance.uniform(1e9, 2e9), 1000 / kbits * (1 + ppm / 1e6)
    for frame in frames:
        end = begin + (frame.start + bits_of(frame) - INTERMISSION) * bit + chance.uniform(-noise, noise)
        lines.append(f"({int(end) // 10 ** 6:010d}.{int(end) % 10 ** 6:06d}) can0 {frame.identifier:03X}#"
                     f"{frame.data.hex().upper()}\n")
    return "".join(lines)


# A fault: the frames with it, the cycle and the identifier that have to be named, the kinds that name it, and the last
# cycle in which the bus does something else than without it.
Fault = collections.namedtuple("Fault", "frames cycle identifier kinds until")


def missing(run, frames, place, _):
    """A frame that is not there."""
    return frames[:place] + frames[place + 1:], ("missing",)


def doubled(run, frames, place, chance):
    """A frame that was sent twice, or that the recorder has twice."""
    if chance.random() < 0.5:
        return frames[:place + 1] + frames[place:], ("doubled",)
    again = frames[place]._replace(start=frames[place].start + bits_of(frames[place]))
    return sent(run, frames[:place + 1] + [again] + frames[place + 1:]), ("doubled",)


def late(run, frames, place, chance, kbits):
    """A trigger or the frame of a slot that is ready late, and what others do then."""
    least, most = LATE * 1.25 * kbits / 1000, 0.4 * run.length
    by = round(chance.uniform(min(least, most), most))
    return sent(run, frames, place, by), ("late", "past", "missing")


def flag(run, frames, place, chance):
    """A trigger with another flag."""
    data = bytearray(frames[place].data)
    many = 40 if frames[place].identifier == TRIGGER else run.slots - 40
    bit = chance.randrange(many)
    data[(3 if frames[place].identifier == TRIGGER else 1) + bit // 8] ^= 1 << bit % 8
    return changed(run, frames, place, data), ("flags",)


def byte(run, frames, place, chance):
    """A frame with another byte. Of triggers it is the cycle or the window."""
    data = bytearray(frames[place].data)
    is_trigger = frames[place].identifier in (TRIGGER, SECOND)
    at = chance.randrange({TRIGGER: 3, SECOND: 1}.get(frames[place].identifier, len(data)))
    data[at] ^= chance.randrange(1, 256)
    return changed(run, frames, place, data), (("cycle", "window")[at > 0] if is_trigger else "payload",)


def changed(run, frames, place, data):
    """The frames with other data at one place."""
    return sent(run, frames[:place] + [frames[place]._replace(data=bytes(data))] + frames[place + 1:])


FAULTS = ("missing", "doubled", "late", "flag", "byte")


def places_for(kind, run, frames):
    """The places where a fault may be: after the first trigger, and not in the last cycle, where none can tell it."""
    last = frames[-1].cycle
    for place, frame in enumerate(frames[1:], 1):
        identifier = frame.identifier
        is_trigger = identifier in (TRIGGER, SECOND)
        is_fit = {"missing": True, "doubled": True, "late": identifier == TRIGGER or is_slot(identifier),
                  "flag": is_trigger, "byte": len(frame.data) > 0}[kind]
        if is_fit and frames[0].cycle < frame.cycle < last:
            yield place


def fault_in(kind, run, frames, kbits, chance):
    """A fault of a kind at random; None where no frame can have it, or where it is not late enough."""
    places = list(places_for(kind, run, frames))
    if not places:
        return None
    place = chance.choice(places)
    make = {"missing": missing, "doubled": doubled, "flag": flag, "byte": byte}.get(kind)
    frame = frames[place]
    found, kinds = make(run, frames, place, chance) if make else late(run, frames, place, chance, kbits)
    if kind == "late":
        moved = next(it.start for it in found if it[2:] == frame[2:] and it.cycle == frame.cycle) - frame.start
        if moved < LATE * kbits / 1000:
            return None
    triggers = {it for it in frames if it.identifier == TRIGGER}
    pushed = [it.cycle for it in found if it.identifier == TRIGGER and it.cycle != frame.cycle and it not in triggers]
    # Where most triggers are late, no reader can tell which are.
    return Fault(found, frame.cycle, frame.identifier, kinds, max(pushed, default=frame.cycle)) \
        if 4 * len(pushed) <= len(triggers) else None
