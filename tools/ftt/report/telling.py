"""How times and shares are told in a report: nothing is told as less than it is."""
import math
from fractions import Fraction

from ..telling import decimal, fixed


def up(millis):
    """Milliseconds as text, rounded up to microseconds."""
    return fixed(Fraction(math.ceil(millis * 1000)) / 1000, 3)


def down(millis):
    """The same, rounded down: what is left."""
    text = fixed(abs(Fraction(math.floor(millis * 1000)) / 1000), 3)
    return f"-{text}" if millis < 0 else text


def percent(share):
    """A share in percent, with one place."""
    return f"{decimal(Fraction(share) * 100, 1)} %"
