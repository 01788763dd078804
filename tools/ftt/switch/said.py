"""What is said of a switch that was tried before each cycle."""
import math
from fractions import Fraction

from ..desk import ACCEPTED
from ..telling import decimal, listed, some
from .sweep import CHANGES, COMES, GOES, STAYS, is_half, is_whole

# So many cycles are named in a sentence, and so many slots of a change.
NAMED, SLOTS = 12, 16


class Teller:
    """How slots and times are told: by names, where there are some, and in milliseconds, where the bit rate is known."""

    def __init__(self, names=None, kbits=None):
        self.names, self.kbits = names or {}, kbits

    def slot(self, slot):
        """A slot, by its name."""
        return self.names.get(slot, f"slot {slot}")

    def slots(self, slots):
        """Some slots."""
        slots = list(slots)
        shown = [self.slot(it) for it in slots[:SLOTS]]
        return listed(shown if len(slots) <= SLOTS else [*shown, f"{len(slots) - SLOTS} more"])

    def time(self, bits):
        """A time of the bus: in milliseconds, rounded up so that no bound is told as less than it is; or in bit times."""
        if bits is None:
            return "-"
        if self.kbits is None:
            return f"{bits} bit times"
        return f"{decimal(Fraction(math.ceil(Fraction(bits * 1000) / self.kbits), 1000))} ms"


def cycles_told(cycles):
    """Some cycles as a text: all of a few, and the first ones and the last one of many."""
    cycles = list(cycles)
    if len(cycles) <= NAMED:
        return listed(cycles)
    return f"{', '.join(map(str, cycles[:NAMED - 1]))}, .. and {cycles[-1]}"


def why_refused(verdict, cycle, teller):
    """The verdict on a change that was asked for before a cycle, in words."""
    word, numbers = verdict
    if word == "miss":
        slot, release, last = numbers
        return f"{teller.slot(slot)}, released in cycle {release}, is not sent by cycle {last}"
    if word == "horizon":
        return f"the plan does not repeat within the horizon of {numbers[1]} cycles"
    if word == "passed":
        return f"START is {numbers[0]}, and cycle {numbers[1]} is next"
    if numbers[1] == 10 and len(numbers) == 3:
        return f"operation {numbers[0] + 1} adds to a slot that is free from cycle {numbers[2]} on"
    return f"operation {numbers[0] + 1} is malformed by rule {numbers[1]} of docs/FORMATS.md"


def kind_of(verdict, cycle):
    """What verdicts are alike: the slot of a miss and when it comes, counted from the cycle that was asked before."""
    word, numbers = verdict
    if word == "miss":
        return word, numbers[0], numbers[1] - cycle, numbers[2] - cycle
    return (word, *numbers[:2]) if word == "malformed" else (word,)


def told_change(number, asked, purpose, teller):
    """What a change asks for."""
    words = {}
    for it in asked.operations:
        words.setdefault(it.word, []).append(it.fields["SLOT"])
    parts = "; ".join(f"{word} {teller.slots(slots)}" for word, slots in words.items())
    front = f"change {number}" + (f" {purpose}" if purpose else "")
    later = f", START {some(asked.ahead, 'cycle')} ahead" if asked.ahead else ""
    return f"{front}, {some(len(asked.operations), 'operation')} of operator {asked.operator}{later}: {parts}"


def told_refusals(sweep, teller):
    """In which cycles changes are refused, and why: those that are alike together."""
    lines = []
    for is_of, front in ((is_half, "half done"), (lambda it: not is_whole(it) and not is_half(it), "refused")):
        trials = [it for it in sweep.trials if is_of(it)]
        if not trials:
            continue
        whole = "one of the changes is accepted and another one refused" if front == "half done" else "nothing is changed"
        lines.append(f"{front} in {len(trials)}: before the {'cycle' if len(trials) == 1 else 'cycles'} "
                     f"{cycles_told(it.cycle for it in trials)} {whole}")
        alike = {}
        for trial in trials:
            place = next(at for at, it in enumerate(trial.verdicts) if it.word != ACCEPTED)
            alike.setdefault((place, kind_of(trial.verdicts[place], trial.cycle)), []).append(trial)
        for (place, _), some_trials in sorted(alike.items(), key=lambda it: -len(it[1]))[:NAMED]:
            first = some_trials[0]
            many = f" (alike in {len(some_trials)})" if len(some_trials) > 1 else ""
            lines.append(f"  before cycle {first.cycle}{many}: change {place + 1} is refused: "
                         f"{why_refused(first.verdicts[place], first.cycle, teller)}")
    return lines


def told_hit(sweep, teller):
    """How late the last first frame has ended after the hit."""
    trials = [it for it in sweep.trials if it.hit is not None]
    if not trials:
        return []
    worst, best = max(trials, key=lambda it: it.hit), min(trials, key=lambda it: it.hit)
    return [f"from the hit, at any time of the cycle before, to the end of the last first frame: at most "
            f"{teller.time(worst.hit)}, of {teller.slot(worst.slot)} before cycle {worst.cycle}; at least "
            f"{teller.time(best.hit - sweep.base.rules.cycle)}"]


def table_of(sweep, teller):
    """A row for each message: its part, its longest gap before and over the switch, and its first frame."""
    rows = [("message", "part", "gap before", "over the switch", "first frame")]
    subject = sweep.subject
    for slot in subject.of(STAYS, CHANGES, COMES, GOES):
        part = subject.parts[slot]
        gap, first = sweep.gaps.get(slot), sweep.firsts.get(slot)
        rows.append((teller.slot(slot), part, teller.time(sweep.steady.get(slot)),
                     teller.time(gap.bits if gap else None), teller.time(first.bits if first else None)))
    widths = [max(len(row[at]) for row in rows) for at in range(len(rows[0]))]
    return ["  ".join([row[0].ljust(widths[0]), row[1].ljust(widths[1]),
                       *(cell.rjust(width) for cell, width in zip(row[2:], widths[2:]))]).rstrip() for row in rows]


def told_lesser(lesser, teller):
    """What is said of an order that loses less."""
    if lesser is None:
        return []
    kept, lost, before = lesser
    first = f"remove {teller.slots(kept)} first, and the others in the change that adds" if kept else (
        "remove in the change that adds, so that all is one change")
    return [f"what loses less where it is refused: {first}: {lost} of {some(before, 'message')} gone without the rest"]


def told_helps(found, vain, is_all, teller):
    """What makes the switch whole in every cycle, and what was tried in vain."""
    lines = []
    where = "" if is_all else ", tried in the refused cycles alone"
    for it in found:
        hit = "" if it.hit is None else f"; hit to last first frame {teller.time(it.hit)} at most"
        lines.append(f"  {it.told}{hit}{where if it.sweep is not None else ''}")
    front = ["what makes it whole before every cycle, each alone:" if found else
             "nothing that was tried makes it whole before every cycle:"]
    return front + lines + ([f"  in vain: {'; '.join(vain)}"] if vain else [])
