"""Cycles of a list that fall to the horizon alone: which of them leave more with a longer one, and which other periods let
the plan repeat sooner.

A line falls to the horizon where its common period is longer, so nothing is asked there. What it leaves at most is known
without asking: what the messages need on average, and their longest frame, bound its least window. So the lines that
may leave more than the best one are tried in the order of what they may leave, until no other one can leave more.
"""
import math
import os
import time
from collections import namedtuple
from fractions import Fraction

from ..limits import HORIZON
from ..model.said import percent
from ..telling import decimal, listed, some
from .asking import Progress, workers_of
from .engine import MODULE
from .listed import Source, Unfit
from .listed_said import Lines, best_of, least_of, share_left
from .reasons import HORIZON as FELL, kind_of
from .refined import LineQuestion

# The greatest horizon that a system may have, and by how much a period may be cut to let the plan repeat sooner: to this
# part of it. At most so many periods are changed.
MOST, LEAST_PART, CHANGES = HORIZON[1], Fraction(3, 4), 3
# So many seconds are spent on lines with a longer horizon.
SECONDS = 60
# What is found at a rate: how many cycles fell to the horizon; how many lines were tried with a longer one, of how many
# that may leave more; the best of them with its least window, or None; and where the plan repeats too late, the placing of
# that line.
Looked = namedtuple("Looked", "cycles tried open best late")


def fallen(lines, rate):
    """The lines of a rate that fell to the horizon alone, and whose cycle has no accepted line."""
    good = {lines.values(line)["cycle_us"] for line, windows in lines.of(rate).items() if least_of(windows) is not None}
    return [line for line, windows in lines.of(rate).items() if lines.values(line)["cycle_us"] not in good
            and all(kind_of(said) == FELL for said in windows.values())]


def most_left(source, values):
    """The greatest share of a cycle that a line may leave; None where it has no table, or no plan within the longest
    horizon."""
    try:
        placing = source.placing(values)
    except Unfit:
        return None
    windows = placing.windows()
    return share_left(source, values, windows[0])[0] if windows and placing.repeats <= source.horizon else None


def look(asked, source, grid, found, words):
    """Tries the lines that fell to the horizon of a call, with the longest one. By rates what was found; nothing where the
    horizon was asked for, or where a plain program would need hours."""
    lines = Lines(grid.names, found)
    is_slow = asked.kind != MODULE and "reference" in os.path.basename(asked.path)
    longer = Source(source.messages, source.names, source.turnaround, MOST)
    looked = {}
    for rate in lines.rates():
        low = fallen(lines, rate)
        if low:
            looked[rate] = look_at(asked, longer, grid, lines, rate, low, words, words.is_horizon_asked or is_slow)
    return looked


def look_at(asked, longer, grid, lines, rate, low, words, is_told_only):
    """The same of a rate and the lines that fell there."""
    cycles = {lines.values(line)["cycle_us"] for line in low}
    shares = {line: share for line in low for share in [most_left(longer, lines.values(line))] if share is not None}
    order, tried, best = sorted(shares, key=lambda line: -shares[line]), 0, None
    first = best_of(longer, lines, rate)
    least = Fraction(-1) if first is None else share_left(longer, lines.values(first[0]), first[1])[0]
    late = longer.placing(lines.values(order[0])) if order else None
    waiting = [line for line in order if shares[line] > least]
    if is_told_only or not waiting:
        return Looked(len(cycles), 0, len(waiting), None, late)
    begun = time.monotonic()
    question, progress = LineQuestion(longer, grid.axes["window"], True), Progress(len(waiting), "lines with a longer horizon, at most")
    with workers_of(question, asked, words) as workers:
        while waiting and shares[waiting[0]] > least and time.monotonic() - begun < SECONDS:
            some_lines, waiting = waiting[:4 * words.jobs], waiting[4 * words.jobs:]
            tried += len(some_lines)
            for (line, _), new in workers.answers([(line, {}) for line in some_lines], 1):
                window = least_of(new)
                progress.step(window is not None)
                if window is None:
                    continue
                key = share_left(longer, lines.values(line), window)[0], lines.values(line)["cycle_us"]
                if key[0] > least or best and key > best[0]:
                    best, least = (key, line, window), key[0]
    progress.end()
    left = sum(shares[line] > least for line in waiting)
    if best is None:
        return Looked(len(cycles), tried, left, None, late)
    return Looked(len(cycles), tried, left, best[1:], longer.placing(lines.values(best[1])))


def sooner(placing, horizon):
    """Other periods in cycles, by the old ones, with which the common period is shorter: of each message that has one and
    is synchronous. None where none brings it to the horizon."""
    periods = {it.period for it in placing.placed}
    fixed = {it.period for it in placing.placed if it.message.kind != "sync"}
    changes = {}
    while math.lcm(*periods) > horizon and len(changes) < CHANGES:
        choices = [(math.lcm(*(periods - {old}), new), old - new, old, new) for old in periods - fixed - set(changes.values())
                   for new in range(math.ceil(old * LEAST_PART), old)]
        common, _, old, new = min(choices, default=(math.inf, 0, 0, 0))
        if common >= math.lcm(*periods):
            return None
        changes[old], periods = new, periods - {old} | {new}
    return changes if math.lcm(*periods) <= horizon else None


def told_sooner(placing, horizon):
    """A sentence on periods with which a plan repeats sooner; none where there are none."""
    changes = sooner(placing, horizon)
    if not changes:
        return []
    bus, texts = placing.bus, []
    for old, new in changes.items():
        names = [it.message.name for it in placing.placed if it.period == old]
        more = f" and {some(len(names) - 1, 'other')}" if len(names) > 1 else ""
        texts.append(f"{names[0]}{more} every {decimal(bus.millis(new))} ms in place of {decimal(bus.millis(old))}")
    common = math.lcm(*(changes.get(it.period, it.period) for it in placing.placed))
    whole = math.lcm(*(it.period for it in placing.placed))
    return [f"the plan repeats after {common} cycles in place of {whole} with {listed(texts)}"]


def more_told(looked):
    """What is said where the time was not enough for all lines."""
    return f", and {some(looked.open, 'line')} may leave more still: --horizon {MOST} tries all" if looked.open else ""


def told(source, grid, found, looked):
    """The sentences on the cycles that fell to the horizon, at each rate."""
    lines, said = Lines(grid.names, found), []
    for rate, it in looked.items():
        front = f"{rate} kbit/s: horizon: {some(it.cycles, 'cycle')} fell to the horizon of {source.horizon} alone"
        if it.best is not None:
            line, window = it.best
            values = lines.values(line)
            share, left, cycle = share_left(source, values, window)
            said.append(f"{front}; with --horizon {it.late.repeats if it.late.repeats <= MOST else MOST} the best cycle is "
                        f"{values['cycle_us']} us, {values['fill']} {values['policy']}: least window {window} of {cycle} bit "
                        f"times, {left} left ({percent(share, 1)}); {some(it.tried, 'line')} tried{more_told(it)}")
        elif it.open:
            tried = f"; {some(it.tried, 'line')} tried" if it.tried else ""
            said.append(f"{front}{tried}; {some(it.open, 'line')} of them may leave more: --horizon {MOST} tries all")
        elif it.late is None:
            said.append(f"{front}, and to one of {MOST} too")
        else:
            tried = f", by {some(it.tried, 'line')} tried" if it.tried else ""
            said.append(f"{front}; none of them leaves more with --horizon {MOST}{tried}")
        if it.late is not None and (it.best is not None or it.open):
            said += [f"{rate} kbit/s: at {decimal(it.late.bus.millis(1) * 1000)} us {text}"
                     for text in told_sooner(it.late, source.horizon)]
    return said
