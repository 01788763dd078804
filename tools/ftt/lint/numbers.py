"""What is wrong with a field that should be a number, and a number that is taken in its place."""
import re
from collections import namedtuple
from fractions import Fraction

from .. import limits
from ..frames import TRIGGER
from ..limits import FIRST_SLOT

# The bit rate of the examples that turn milliseconds into bit times, in kbit/s.
EXAMPLE_RATE = 500
UNITS = {name: "elementary cycles" for name in ("COUNT", "START", "PHASE", "PERIOD", "DEADLINE")} | {
    "AT": "bit times", "LENGTH": "data bytes"}


class Bounds(namedtuple("Bounds", "name low high cycle deadline", defaults=(0,))):
    """The numbers that a field may have where the rest of the row is right; without a greatest one `low` alone is
    named. `cycle` has the bit times of a cycle, or None where they are not known; `deadline` the DEADLINE that stands
    after a PERIOD."""

    def has(self, number):
        """Whether the field may have this number."""
        return self.low <= number and (self.high is None or number <= self.high)

    def take(self):
        """What to take."""
        if self.name == "START":
            return f"Take {self.low}, which is the next cycle, or a little more."
        low = max(self.low, self.deadline)
        if self.high in (None, low):
            return f"Take {low}."
        is_short = self.name == "PERIOD" and self.high < limits.TIMES
        more = ": no longer one repeats within the horizon" if is_short else ""
        return f"Take {low} to {self.high}{more}."

    def kind(self):
        """What the number counts, in words."""
        unit = UNITS.get(self.name)
        return f"{self.name} is a whole number" + (f" of {unit}" if unit else "")


def whole(field, high):
    """The number of a field where it is at most so great; 0 else."""
    return int(field) if re.fullmatch(rb"0*[0-9]{1,5}", field) and int(field) <= high else 0


def bounds_of(name, row, system, cycles):
    """The bounds of a field of a steps file. The row has its fields by their names; so many cycles were opened
    above."""
    horizon = limits.USUAL_HORIZON if system is None else system.horizon
    longest = min(horizon, limits.TIMES)
    period, phase, deadline = (whole(row.get(it, b""), longest) for it in ("PERIOD", "PHASE", "DEADLINE"))
    # The first repeat needs a period after the first release, before the horizon.
    latest = max(cycles + horizon - phase - period, cycles)
    slots, nodes = (limits.FEW_SLOTS, None) if system is None else (system.slots, system.nodes)
    high = {"COUNT": max(limits.CYCLES - cycles, 0), "OPERATOR": limits.OPERATORS, "START": latest, "SLOT": slots - 1,
            "NODE": None if nodes is None else nodes - 1, "LENGTH": limits.LENGTH,
            "PHASE": period - 1 if period else None, "PERIOD": longest, "DEADLINE": period or longest,
            "PRIORITY": limits.PRIORITY}[name]
    low = {"OPERATOR": 1, "START": cycles, "PERIOD": 1, "DEADLINE": 1}.get(name, 0)
    return Bounds(name, low, high, None if system is None else system.cycle, deadline if name == "PERIOD" else 0)


def by_rate(millis, bounds):
    """How milliseconds become the number that is needed, with an example that is taken; empty where there is none."""
    unit, bits = UNITS.get(bounds.name), millis * EXAMPLE_RATE
    if unit == "bit times" and bits.denominator == 1 and bounds.has(int(bits)):
        return (f" For milliseconds multiply by the bit rate in kbit/s: {float(millis):g} ms at {EXAMPLE_RATE} kbit/s "
                f"are {int(bits)}.")
    if unit == "elementary cycles" and bounds.cycle and bounds.has(bits // bounds.cycle) and (
            bits // bounds.cycle >= bounds.deadline):
        return (f" For milliseconds multiply by the bit rate in kbit/s, and divide by bus.cycle: {float(millis):g} ms "
                f"at {EXAMPLE_RATE} kbit/s are {bits // bounds.cycle}.")
    return ""


def meant(text, bounds):
    """What to do where a text most likely means this number: write it, where it is in the bounds."""
    if re.fullmatch(r"[0-9]{1,20}", text) and bounds.has(int(text)):
        return f"Write {int(text)}" + (f", and a DEADLINE of 1 to {int(text)}." if int(text) < bounds.deadline else ".")
    return bounds.take()


def why_no_decimal(text, bounds):
    """What to do about a number with a decimal point, or with a unit after it."""
    number, unit = re.fullmatch(r"([0-9]+(?:[.,][0-9]*)?) *([mu\u00b5]?s)?", text).groups()
    value = Fraction(number.replace(",", ".").rstrip("."))
    millis = value * {"s": 1000, "ms": 1, "us": Fraction(1, 1000), "\u00b5s": Fraction(1, 1000)}[unit or "ms"]
    way = by_rate(millis, bounds)
    if unit:
        return f"a unit stands after it. {bounds.kind()}.{way or f' {bounds.take()}'}"
    # A time that is rounded down promises no less.
    return f"it has a decimal point. {bounds.kind()}. {meant(str(int(value)), bounds)}{way}"


def why_no_hexadecimal(number, bounds):
    """What to do about hexadecimal digits, and about an identifier in place of a slot."""
    slot = number - FIRST_SLOT
    if bounds.name == "SLOT" and 0 <= slot and bounds.has(slot):
        return f"{number:#05x} is the identifier of slot {slot}. Write {slot}."
    return f"digits alone are taken, and no hexadecimal ones. {meant(str(number), bounds)}"


def why_no_number(field, bounds):
    """What is wrong with a field that is no number in its range, and what to do."""
    text = field.decode("utf-8", "replace")
    if not text:
        return f"it is empty. {bounds.take()}"
    if "#" in text or "//" in text:
        return f"a row has no comment. {meant(re.split('#|//', text)[0].strip(), bounds)}"
    if "\t" in text:
        return f"a tab stands in it, and spaces alone are dropped. {meant(text.strip(), bounds)}"
    if re.fullmatch(r"0[xX][0-9a-fA-F]{1,16}", text):
        return why_no_hexadecimal(int(text, 16), bounds)
    if re.fullmatch(r"[0-9]{1,20}([.,][0-9]{1,20})?[eE][+-]?[0-9]{1,2}", text):
        value = Fraction(text.replace(",", "."))
        return f"it is a spreadsheet's form of a number. {meant(str(value), bounds)}"
    if re.fullmatch(r"[0-9]+([.,][0-9]*)? *[mu\u00b5]?s|[0-9]+[.,][0-9]*", text):
        return why_no_decimal(text, bounds)
    if re.fullmatch(r"[+-][0-9]+", text):
        return f"a sign is not taken. {meant(text.removeprefix('+'), bounds)}"
    if not re.fullmatch(r"[0-9]+", text):
        return f"digits alone are taken. {bounds.take()}"
    slot = int(text) - FIRST_SLOT if len(text) <= 20 else -1
    if bounds.name == "SLOT" and slot >= 0 and bounds.has(slot):
        return f"it is {int(text):#05x}, the identifier of slot {slot}. Write {slot}."
    is_known = bounds.high is not None and bounds.name != "START"
    return (f"it is above {bounds.high}. " if is_known else "it is too great. ") + bounds.take()


def why_no_slot(slot, system):
    """What is said of a slot that the bus does not have."""
    slots = limits.FEW_SLOTS if system is None else system.slots
    told = f"SLOT is {slot}. The slots are 0 to {slots - 1}."
    if not slots <= slot < limits.MANY_SLOTS:
        return told
    need = 0 if system is None else TRIGGER[limits.MANY_SLOTS] + system.turnaround + system.window
    more = f", and bus.cycle has to be at least {need}" if system is not None and need > system.cycle else ""
    return f"{told} With bus.slots = 96 they are 0 to 95{more}."
