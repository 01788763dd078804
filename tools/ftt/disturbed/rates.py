"""How often more disturbances come than are planned for, where bits are disturbed independently."""
import math

from .budget import IDLE

# Disturbed bits, as a share of all, that J. Ferreira, A. Oliveira, P. Fonseca and J. A. Fonseca measured on a CAN bus in
# three places (RTN 2004). The numbers stand here from memory.
MEASURED = (("an office", 3.0e-11), ("a factory", 3.1e-9), ("beside arc welding", 2.6e-7))
SECONDS_OF_HOUR = 3600


def exceeded(rate, bits, most):
    """How probable more than `most` disturbed bits are, of so many."""
    mean, term, found = rate * bits, 1.0, 0.0
    # The terms of a Poisson distribution behind `most`, the least last.
    for count in range(1, most + 1):
        term *= mean / count
    for count in range(most + 1, most + 60):
        term *= mean / count
        found += term
    return found * math.exp(-mean)


def exposed(window, reserve):
    """The bit times in which a disturbance takes a part of a window: it, and what a hit of the idle bus before it takes."""
    return window + reserve + IDLE


def in_an_hour(rate, bits, most, cycle, kbits):
    """In how many cycles of an hour more bits than `most` are disturbed, of so many in each cycle."""
    return exceeded(rate, bits, most) * SECONDS_OF_HOUR * 1000 * float(kbits) / cycle


def number(value):
    """A number with two places that count, as 0.0031 or 1,200; of less than a millionth of a millionth, 0."""
    if value < 1e-12:
        return "0"
    places = max(0, 1 - math.floor(math.log10(value)))
    if places > 5:
        return f"{value:.1e}"
    return f"{round(value, 1 - math.floor(math.log10(value))):,.{places}f}"


def table(window, cycle, kbits, cost, turnaround_of, most=3):
    """The rows of a table: by place, in how many cycles of an hour a window has more disturbances than it is planned for,
    up to so many; and the same of the trigger part, of which `turnaround_of` says how long it is."""
    for what, bits in (("windows", lambda count: exposed(window, count * cost)),
                       ("trigger parts", lambda count: turnaround_of(count) + IDLE)):
        for place, rate in MEASURED:
            yield what, place, rate, [in_an_hour(rate, bits(count), count, cycle, kbits) for count in range(most + 1)]
