"""What is said of a grid, in sentences."""
import itertools

from ..telling import listed, some
from . import reasons

# So many lines of an axis are said.
SHOWN = 40
# Axes of a list whose values are told with their units: the rate without its name.
AMOUNTS_SAID = {"kbits": "kbit/s", "cycle_us": "us", "slots": "slots", "deadline_ms": "ms"}
UNITS = {"window": " in bit times", "deadline": " in cycles", "period": " in cycles"}


def axis_name(name):
    """The name of an axis in words."""
    if name.startswith("period_ms."):
        return f"period of {name.partition('.')[2]}"
    if name == "deadline_ms":
        return "deadline"
    return f"period of slot {name.partition('.')[2]}" if name.startswith("period.") else name


def with_unit(name):
    """The name of an axis, and the unit of its values."""
    return axis_name(name) + UNITS.get(name.partition(".")[0], "")


def value_name(name, value):
    """A value of an axis in words, or some of its values."""
    if name in ("policy", "fill"):
        return f"{value}"
    if name in AMOUNTS_SAID or name.startswith("period_ms."):
        return f"{axis_name(name)} {value} {AMOUNTS_SAID.get(name, 'ms')}".removeprefix(f"{name} ")
    return f"slot {name.partition('.')[2]} with period {value}" if name.startswith("period.") else f"{name} {value}"


def label(names, point, left_out=()):
    """The values of a point on the axes that have more than one."""
    return ", ".join(value_name(name, it) for name, it in zip(names, point) if name not in left_out)


def lines_along(names, found, axis):
    """The lines of the grid along an axis: for each point of the others what is said by the axis' values, in order."""
    at, lines = names.index(axis), {}
    for point, said in found.items():
        lines.setdefault(point[:at] + (None,) + point[at + 1:], {})[point[at]] = said
    return {rest: dict(sorted(line.items())) for rest, line in lines.items()}


def wide_axes(names, found):
    """The axes that have more than one value."""
    return [name for at, name in enumerate(names) if len({point[at] for point in found}) > 1]


def along(names, found, axis, narrow):
    """What is said of an axis of numbers: for each point of the other axes the least accepted value, of periods the
    greatest too. Policies and fillings stand in one line, and so do neighbours for which the same is said."""
    groups = {}
    for rest, line in lines_along(names, found, axis).items():
        good = [value for value, said in line.items() if said.accepted]
        if not good:
            said = f"none of {min(line)} to {max(line)}"
        elif axis in ("window", "deadline"):
            said = f"{good[0]}"
        else:
            said = f"{good[0]} to {good[-1]} ({len(good)} of {len(line)} values)"
        front = tuple((name, it) for name, it in zip(names, rest) if name not in (axis, "policy", "fill", *narrow))
        words = [it for name, it in zip(names, rest) if name in ("policy", "fill") and name not in narrow]
        groups.setdefault(front, []).append(" ".join([*words, said]))
    what = "accepted" if axis.startswith("period.") else "least"
    lines = []
    for (_, said), same in itertools.groupby(groups.items(), key=lambda it: (it[0][:-1], it[1])):
        fronts = [front for front, _ in same]
        parts = [value_name(name, it) for name, it in fronts[0]]
        if len(fronts) > 1:
            parts[-1] += f" to {fronts[-1][-1][1]}"
        lines.append(f"{what} {', '.join([axis_name(axis), *parts])}: {', '.join(said)}")
    return lines


def jumps(names, found, axis):
    """The lines of the grid along an axis; those among them where a value is refused above one that is accepted, each
    with two neighbours; and those where the bound of an asynchronous message is the reason for that, each with what is
    said of the upper one."""
    lines = lines_along(names, found, axis)
    bad, bounded = [], []
    for rest, line in lines.items():
        pairs = [(one, other) for one, other in itertools.pairwise(line)
                 if line[one].accepted and not line[other].accepted]
        planned = next((pair for pair in pairs if not reasons.is_bounded(line[pair[1]])), None)
        if planned:
            bad.append((rest, *planned))
        late = next((pair for pair in pairs if reasons.is_bounded(line[pair[1]])), None)
        if late:
            bounded.append((rest, *late, line[late[1]]))
    return len(lines), bad, bounded


def told_bounded(names, bounded, many, axis, called=None, left_out=()):
    """A sentence on values above which the bound of an asynchronous message is the reason; none where it is none."""
    if not bounded:
        return []
    rest, one, other, said = bounded[0]
    where, rates = label(names, rest, (axis, *left_out)), dict(zip(names, rest))
    why = reasons.bound_told(said, called, rates.get("kbits"))
    return [f"{axis_name(axis)}: in {len(bounded)} of {some(many, 'line')}{', first ' + where if where else ''}: {one} is "
            f"accepted, and at {other} {why}"]


def wider(names, found, widest):
    """A sentence on windows that were not tried, where for some point of the other axes none was accepted."""
    lines = lines_along(names, found, "window").values() if "window" in names and widest else ()
    last = max((value for line in lines for value in line), default=0)
    if last < (widest or 0) and any(not any(said.accepted for said in line.values()) for line in lines):
        return [f"windows above {last} were not tried: a cycle has room for {widest}"]
    return []


def best_words(names, found, words):
    """A sentence on the policies and fillings that are accepted at most points, where there are several."""
    if not words:
        return []
    sums = {}
    for point, said in found.items():
        key = " ".join(it for name, it in zip(names, point) if name in words)
        sums[key] = sums.get(key, 0) + said.accepted
    best = [key for key, number in sums.items() if number == max(sums.values())]
    rest = [f"{key} {number}" for key, number in sums.items()]
    winner = f"{listed(best)} ({', '.join(rest)})" if any(sums.values()) else "none, since nothing is accepted"
    return [f"best {' and '.join(words)} by accepted points: {winner}"]


def told(names, found, many, widest=None):
    """The sentences on a grid of so many points. The widest window for which a cycle has room is told where that
    helps."""
    wide = wide_axes(names, found)
    narrow = [name for name in names if name not in wide]
    count = sum(said.accepted for said in found.values())
    lines = [f"points: {len(found)}{'' if len(found) == many else f' of {many}'} tried, {count} accepted"]
    lines += best_words(names, found, [name for name in ("policy", "fill") if name in wide])
    for axis in dict.fromkeys(name for name in ("window", "deadline", *names) if name in wide):
        if axis in ("policy", "fill"):
            continue
        more = along(names, found, axis, narrow)
        lines += more[:SHOWN]
        if len(more) > SHOWN:
            lines.append(f"and {len(more) - SHOWN} more, which --csv has")
        many, bad, bounded = jumps(names, found, axis)
        lines += told_bounded(names, bounded, many, axis, left_out=narrow)
        if bad:
            rest, one, other = bad[0]
            where = label(names, rest, (axis, *narrow))
            lines.append(f"not monotone: in {len(bad)} of {many} lines along the {axis_name(axis)}, first "
                         f"{where + ': ' if where else ''}{one} is accepted and {other} is not")
        else:
            lines.append(f"along the {axis_name(axis)} nothing{' else' if bounded else ''} is refused above what is "
                         f"accepted, in {many} line{'' if many == 1 else 's'} of tried points")
    lines += wider(names, found, widest)
    if not count:
        whys = {}
        for said in found.values():
            whys[said.why] = whys.get(said.why, 0) + 1
        why, number = max(whys.items(), key=lambda it: it[1])
        lines.append(f"refused with {why} at {number} point{'' if number == 1 else 's'}")
    return lines
