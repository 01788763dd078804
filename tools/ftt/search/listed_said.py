"""What is said of a search over a list: for each rate the best cycle, the least window, and what is left."""
import re
from fractions import Fraction

from ..frames import TRIGGER, worst
from ..model import polled
from ..model.bus import KINDS
from ..model.said import percent
from ..telling import decimal, listed, some

from . import disturbed
from .listed import Unfit, rounded
from .reasons import HORIZON, MISS, NO_BOUND, NO_ROOM, NO_TABLE, TOO_LATE, kind_of
from .said import axis_name, jumps, label, told_bounded, value_name

# So many messages are named in a sentence.
SHOWN = 5
# What a line has: the values of its axes, and by its windows the answers.
NARROW = ("kbits", "cycle_us")


class Lines:
    """The lines of a search: by the values of all axes but the window, the answers by windows."""

    def __init__(self, names, found):
        self.names, self.lines = names[:-1], {}
        for point, said in found.items():
            self.lines.setdefault(point[:-1], {})[point[-1]] = said

    def values(self, line):
        """The values of a line by their names."""
        return dict(zip(self.names, line))

    def rates(self):
        """The rates, each once."""
        return sorted({self.values(line)["kbits"] for line in self.lines})

    def of(self, rate):
        """The lines of a rate."""
        return {line: windows for line, windows in self.lines.items() if self.values(line)["kbits"] == rate}


def least_of(windows):
    """The least accepted window of a line; None where none is."""
    return min((window for window, said in windows.items() if said.accepted), default=None)


def share_left(source, values, window):
    """The share of a cycle that is left beside trigger, turnaround and a window; and its bit times."""
    cycle = int(Fraction(values["kbits"]) * Fraction(values["cycle_us"]) / 1000)
    left = cycle - TRIGGER[values["slots"]] - source.turnaround - window
    return Fraction(left, cycle), left, cycle


def best_of(source, lines, rate):
    """The line of a rate that leaves the greatest share of each cycle beside its least window, and that window. Of equal
    ones the longest cycle, and then the first in the order of the grid. None where nothing is accepted."""
    best = None
    for line, windows in lines.of(rate).items():
        least = least_of(windows)
        if least is None:
            continue
        values = lines.values(line)
        key = share_left(source, values, least)[0], values["cycle_us"]
        if best is None or key > best[0]:
            best = key, line, least
    return best and best[1:]


def widest_of(windows):
    """The widest accepted window of a line."""
    return max(window for window, said in windows.items() if said.accepted)


def point_label(values):
    """A point without its window, in words."""
    words = [it for name, it in values.items() if name in ("fill", "policy")]
    more = label(tuple(values), tuple(values.values()),
                 ("kbits", "cycle_us", "slots", "fill", "policy", "window"))
    return (f"{values['kbits']} kbit/s, cycle {values['cycle_us']} us, {values['slots']} slots, {' '.join(words)}"
            f"{', ' + more if more else ''}")


def told_rounding(placing):
    """What rounding costs in a table."""
    rows = [row for row in rounded(placing) if row.taken != row.period or row.kept != row.deadline]
    if not rows:
        return "rounding costs nothing"
    added = sum(row.added for row in rows)
    worst_rows = sorted(rows, key=lambda row: -row.added)[:SHOWN]
    texts = [f"{row.message.name} {decimal(row.period)} to {decimal(row.taken)} ms" for row in worst_rows if row.added > 0]
    most = f"; most for {listed(texts)}" if texts else ""
    return (f"rounding: {some(len(rows), 'message')} of {len(placing.placed)} get other times, and take "
            f"{percent(abs(added), 1)} {'less' if added < 0 else 'more'} of the bus{most}")


def told_rate(source, lines, rate):
    """The sentences on a rate."""
    best = best_of(source, lines, rate)
    of_rate = lines.of(rate)
    if best is None:
        return none_accepted(source, of_rate, rate)
    line, least = best
    values = lines.values(line)
    placing = source.placing(values)
    share, left, cycle = share_left(source, values, least)
    mean = left + least - placing.need
    extra = [name for name in lines.names if name.partition(".")[0] in ("period_ms", "deadline_ms")]
    at = "".join(f", {value_name(name, values[name])}" for name in extra)
    said = [f"{rate} kbit/s: best cycle {values['cycle_us']} us, with {values['slots']} slots, {values['fill']} "
            f"{values['policy']}{at}: least window {least} of {cycle} bit times",
            f"{rate} kbit/s: left in each cycle: {left} bit times ({percent(share, 1)}); on average {decimal(mean, 1)} "
            f"({percent(mean / cycle, 1)})"]
    others = [f"{' '.join(map(str, one[at:]))} {least_of(windows) or 'none'}" for one, windows in of_rate.items()
              for at in [len(one) - 2] if one[:at] == line[:at]]
    if len(others) > 1:
        said.append(f"{rate} kbit/s: least windows at this cycle: {', '.join(others)}")
    cycles = {}
    for one, windows in of_rate.items():
        good = least_of(windows) is not None
        cycles[lines.values(one)["cycle_us"]] = cycles.get(lines.values(one)["cycle_us"], False) or good
    good = [cycle for cycle, is_good in cycles.items() if is_good]
    said.append(f"{rate} kbit/s: accepted cycles: {len(good)} of {len(cycles)} tried, from {min(good)} to {max(good)} us")
    said += told_fallen(lines, of_rate, rate)
    said += [told_extra(lines, of_rate, line, name, rate) for name in extra]
    said.append(f"{rate} kbit/s: {told_rounding(placing)}")
    return said


# Why cycles fell, in the order in which a cycle is told of: the first of these that some point of it has.
WHYS = {NO_BOUND: "to an asynchronous message without a bound", TOO_LATE: "to a bound that is after its deadline",
        MISS: "to a missed deadline", HORIZON: "to the horizon", NO_ROOM: "since no window has room",
        NO_TABLE: "since the list has no table there"}


def told_fallen(lines, of_rate, rate):
    """Why the cycles of a rate fell that are not accepted; nothing where all are."""
    kinds, good = {}, set()
    for line, windows in of_rate.items():
        cycle = lines.values(line)["cycle_us"]
        kinds.setdefault(cycle, set()).update(kind_of(said) for said in windows.values())
        good |= {cycle} if least_of(windows) is not None else set()
    counts = {}
    for cycle, of_one in kinds.items():
        if cycle not in good:
            kind = next((kind for kind in WHYS if kind in of_one), None)
            counts[kind] = counts.get(kind, 0) + 1
    parts = [f"{counts[kind]} {WHYS[kind]}" for kind in WHYS if kind in counts]
    parts += [f"{counts[None]} to other verdicts"] if None in counts else []
    return [f"{rate} kbit/s: cycles that fell: {', '.join(parts)}"] if parts else []


def told_extra(lines, of_rate, line, name, rate):
    """The values of an axis of deadlines or periods that are accepted, where all others are those of a line."""
    at = lines.names.index(name)
    tried = {one[at]: least_of(windows) is not None for one, windows in of_rate.items()
             if one[:at] + one[at + 1:] == line[:at] + line[at + 1:]}
    good = [value for value, is_good in tried.items() if is_good]
    return (f"{rate} kbit/s: accepted {axis_name(name)} with the rest as there: {len(good)} of {len(tried)} tried, from "
            f"{min(good)} to {max(good)} ms")


def need_of(messages, rate):
    """The share of a bus that messages need where nothing is rounded."""
    need = Fraction(0)
    for it in messages:
        if it.kind == polled.KIND:
            period = min(time for time in (it.period, it.deadline / 2) if time)
            need += Fraction(worst(it.length + 1)) / (period * Fraction(rate))
        elif it.kind in KINDS:
            need += Fraction(worst(it.length)) / (it.period * Fraction(rate))
    return need


def none_accepted(source, of_rate, rate):
    """The sentences on a rate at which nothing is accepted."""
    whys = {}
    for windows in of_rate.values():
        for said in windows.values():
            whys.setdefault(re.sub(r"[0-9]+(?:\.[0-9]+)?", "N", said.why), []).append(said.why)
    same = max(whys.values(), key=len)
    need = need_of(source.messages, rate)
    more = ", more than there is" if need > 1 else ""
    return [f"{rate} kbit/s: nothing is accepted, in {some(len(of_rate), 'line')}; the messages need "
            f"{percent(need, 1)} of the bus without triggers and rounding{more}",
            f"{rate} kbit/s: most often refused, at {some(len(same), 'point')}, with such as: {same[0]}"]


def told_axis(source, names, found, axis):
    """Whether something is refused above what is accepted along an axis, of what was tried."""
    many, bad, bounded = jumps(names, found, axis)
    called = {it.id: it.name for it in source.messages if it.id is not None}
    lines = told_bounded(names, bounded, many, axis, called)
    if not bad:
        return lines
    rest, one, other = bad[0]
    where = label(names, rest, (axis,))
    return [*lines, f"not monotone: in {len(bad)} of {some(many, 'line')} along the {axis}, first {where}: {one} is accepted and "
            f"{other} is not"]


def told_refined(grid):
    """Which axes are refined, and what that means."""
    return f"refined: {listed(grid.refined)}; a border between two tried values of the same answer is not found"


def told_errors(source, lines, rate):
    """For how many disturbances a cycle has room beside the least window, at the best cycle of a rate."""
    best = best_of(source, lines, rate)
    if best is None:
        return []
    values, least = lines.values(best[0]), best[1]
    placing = source.placing(values)
    size = max((entry.length for entry in placing.placed), default=0)
    return [disturbed.told_list(rate, placing.bus.cycle, values["slots"], source.turnaround, least, size)]


def told(source, grid, found, has_errors=False):
    """The sentences on a list, where it is asked for also those on disturbances."""
    lines = Lines(grid.names, found)
    count = sum(said.accepted for said in found.values())
    said = [f"points: {len(found)} tried in {some(len(lines.lines), 'line')}, {count} accepted"]
    if grid.refined:
        said.append(told_refined(grid))
    for rate in lines.rates():
        said += told_rate(source, lines, rate) + (told_errors(source, lines, rate) if has_errors else [])
    said += told_axis(source, grid.names, found, "window")
    return said


def rounding_rows(source, lines):
    """The rows of --rounding: for each table that was tried what each message lost."""
    seen = set()
    yield ["kbits", "cycle_us", "name", "kind", "period_ms", "taken_ms", "deadline_ms", "kept_ms", "bus_added_percent"]
    for line in lines.lines:
        values = lines.values(line)
        key = values["kbits"], values["cycle_us"]
        if key in seen:
            continue
        seen.add(key)
        try:
            placing = source.placing(values)
        except Unfit:
            continue
        for row in rounded(placing):
            yield [*map(str, key), row.message.name, row.message.kind,
                   *(decimal(time) for time in (row.period, row.taken, row.deadline, row.kept)),
                   ("-" if row.added < 0 else "") + decimal(abs(row.added) * 100, 4)]


