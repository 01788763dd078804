"""A plain planner of tables whose messages are all added in cycle 0, for checks of fttsearch: it simulates cycle by cycle,
as docs/FORMATS.md says under Plans and Verdicts. It also makes the table of a list in milliseconds. It shares no code
with the tools and with tools/reference.
"""
import csv
import math
from collections import namedtuple
from fractions import Fraction

# A message of a table: times in cycles.
Row = namedtuple("Row", "slot length phase period deadline priority")
MOST_OPERATIONS = 16


class NoTable(Exception):
    """A list that has no table at a rate and a cycle."""


def width_of(row):
    """The worst length of its frame, in bit times."""
    return 55 + 10 * row.length


def key_of(row, release, policy):
    """What orders an instance among those that wait, the least first."""
    first = {"rm": row.period, "dm": row.deadline, "edf": release + row.deadline}[policy]
    return first, row.priority, row.slot


def sent_of(waiting, window, fill):
    """What a cycle takes of the instances that wait, in their order; and what is left."""
    sent, left = [], []
    for place, it in enumerate(waiting):
        if width_of(it[1]) <= window:
            window -= width_of(it[1])
            sent.append(it)
        elif fill == "prefix":
            return sent, left + waiting[place:]
        else:
            left.append(it)
    return sent, left


def verdict(rows, window, policy, fill, horizon):
    """What is said of a table that is planned from cycle 0 on, as a row of the log has it, without FIRST and LENGTH."""
    repeat, settled = math.lcm(*(row.period for row in rows)), max(row.phase for row in rows)
    releases = {}
    for row in rows:
        releases.setdefault(row.phase, []).append(row)
    waiting, seen = [], set()
    for cycle in range(horizon):
        if cycle >= settled:
            state = cycle % repeat, frozenset(row.slot for _, row, _ in waiting)
            if state in seen:
                return "accepted"
            seen.add(state)
        for row in releases.pop(cycle, ()):
            waiting.append((key_of(row, cycle, policy), row, cycle))
            releases.setdefault(cycle + row.period, []).append(row)
        waiting.sort(key=lambda it: it[0])
        _, waiting = sent_of(waiting, window, fill)
        missed = [(row.slot, release) for _, row, release in waiting if release + row.deadline - 1 <= cycle]
        if missed:
            slot, release = min(missed)
            return f"miss,{slot},{release},{cycle}"
    if horizon >= settled and (horizon % repeat, frozenset(row.slot for _, row, _ in waiting)) in seen:
        return "accepted"
    return f"horizon,0,{horizon}"


def answer(rows, window, policy, fill, horizon):
    """What is said of the changes of 16 messages that make a table: yes, or the first change that is refused."""
    for number, end in enumerate(range(MOST_OPERATIONS, len(rows) + MOST_OPERATIONS, MOST_OPERATIONS), 1):
        said = verdict(rows[:end], window, policy, fill, horizon)
        if said != "accepted":
            return "no", str(number), said
    return "yes", "", ""


def messages_in(path):
    """The messages of a list with plain columns: comments and empty rows are left out."""
    with open(path, encoding="utf-8", newline="") as file:
        rows = [row for row in csv.reader(file) if row and not row[0].startswith("#")]
    return [dict(zip(rows[0], row)) for row in rows[1:]]


def time_of(message, name):
    """A time of a message in milliseconds; None where it has none."""
    return Fraction(message[name]) if message.get(name) else None


def times_in(message, cycles):
    """Phase, period and deadline of a message in cycles. Of a time in milliseconds `cycles` says how many it is."""
    period, deadline = time_of(message, "period"), time_of(message, "deadline")
    phase = cycles(time_of(message, "offset") or Fraction(0))
    if message.get("kind") == "polled":
        whole = cycles(deadline)
        if whole < 2:
            raise NoTable
        every = (whole + 1) // 2 if period is None else min((whole + 1) // 2, cycles(period))
        if every < 1 or phase >= every:
            raise NoTable
        return phase, every, min(every, whole - every)
    every, within = cycles(period), cycles(period if deadline is None else deadline)
    if min(every, within) < 1:
        raise NoTable
    return phase, every, within


def table_of(messages, kbits, cycle_us, slots):
    """The table of a list at a rate and a cycle, and the bit times of a cycle."""
    bits = math.floor(Fraction(kbits) * Fraction(cycle_us) / 1000)
    chosen = [it for it in messages if it.get("kind", "sync") in ("", "sync", "polled")]
    if not 400 <= bits <= 100_000 or len(chosen) > slots:
        raise NoTable

    def cycles(millis):
        many = math.floor(millis * Fraction(kbits) / bits)
        if many > 65_535:
            raise NoTable
        return many

    ids = [int(it["id"], 0) if it.get("id") else 1 << 16 for it in chosen]
    rows = []
    for slot, place in enumerate(sorted(range(len(chosen)), key=lambda place: ids[place])):
        it = chosen[place]
        rows.append(Row(slot, int(it["length"]) + (it.get("kind") == "polled"), *times_in(it, cycles),
                        int(it.get("priority") or 0)))
    return rows, bits


def of_point(messages, point, horizon):
    """What is said at a point of the table of fttsearch: its fields by the names of the columns."""
    try:
        rows, bits = table_of(messages, point["kbits"], point["cycle_us"], int(point["slots"]))
    except NoTable:
        return "no", "", "list"
    window, trigger = int(point["window"]), 135 if point["slots"] == "40" else 270
    if trigger + window > bits:
        return "no", "", "list" if not rows else f"system: narrow {trigger + window} {bits}"
    return answer(rows, window, point["policy"], point["fill"], horizon)
