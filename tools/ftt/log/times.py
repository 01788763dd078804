"""How late asynchronous frames and instances of entries are sent."""
import collections
import re

from .. import places
from ..declared import Asked
from ..frames import INTERMISSION
from ..limits import FIRST_SLOT, LAST_SLOT, TRIGGERS
from ..rows import identifier_of
from ..telling import some
from ..worst import Strange, worst_of, worst_sent
from .own import run_in
from .promised import Promised
from .rows import NoLog, Summary, is_slot, millis
from .slots import planned, ridden, sent_of
from .steps import records_of
from .strips import Picture, histogram

PERCENTILES = (50, 90, 99)
PERCENTS = [f"p{percent}" for percent in PERCENTILES]
LEFT = "waiting: requests that were not sent by the end of the run; later: those that arrive after it\n"

# A request of an asynchronous identifier: its line in the file, its arrival, and the start, the length and the row in
# the log of its frame.
Send = collections.namedtuple("Send", "line at start length row")


def read_requests(path):
    """The requests of a file by identifier, in the order of the file: the line, the arrival and the data of each."""
    requests = collections.defaultdict(list)
    for line, record in records_of(path):
        identifier = identifier_of(record[1]) if len(record) == 3 else None
        if identifier is None or not re.fullmatch("[0-9]+", record[0]):
            raise NoLog(f"{path}: line {line}: this is no row of a requests file; {places.tool('fttlint')} says why")
        requests[identifier].append((line, int(record[0]), record[2].lower()))
    return requests


def sends_of(rows, requests, path):
    """By identifier: of each request its line, its arrival, and the start, the length and the row of its frame. The
    last three are None where it was not sent."""
    sent = collections.defaultdict(list)
    for word, fields, place in rows:
        identifier = int(fields[2], 16) if word == "frame" else TRIGGERS[0]
        if identifier <= LAST_SLOT:
            continue
        place_in = len(sent[identifier])
        known = place_in < len(requests[identifier])
        line, at, data = requests[identifier][place_in] if known else (None, 0, None)
        if data != fields[3]:
            raise NoLog(f"row {place}: no request of {path} asks for this frame here. Is the log whole, and theirs?")
        sent[identifier].append(Send(line, at, int(fields[0]), int(fields[1]), place))
    for identifier, asked in sorted(requests.items()):
        sent[identifier] += [Send(line, at, None, None, None) for line, at, _ in asked[len(sent[identifier]):]]
    return {identifier: sent[identifier] for identifier in sorted(requests)}


def latencies_of(sends, end):
    """Of the requests of an identifier: the times in bit times from each one's arrival to the end of its frame, how
    many of before the end of the run wait still, and how many arrive later."""
    times = [it.start + it.length - INTERMISSION - it.at for it in sends if it.start is not None]
    left = [it.at for it in sends if it.start is None]
    return times, sum(at < end for at in left), sum(at >= end for at in left)


def percentile(values, percent):
    """The least of the sorted values that at least so many percent of them do not exceed."""
    return values[max(0, -(-len(values) * percent // 100) - 1)]


def statistics(values, shown):
    """Least, mean, percentiles and greatest of some values as texts, or dashes where there are none."""
    if not values:
        return ["-"] * (3 + len(PERCENTILES))
    values = sorted(values)
    tenths = (20 * sum(values) // len(values) + 1) // 2
    found = [percentile(values, percent) for percent in PERCENTILES]
    return [shown(values[0]), shown(tenths, True), *map(shown, found), shown(values[-1])]


def table(head, lines):
    """A table with columns as wide as they need to be: the first one to the left, the others to the right."""
    told = ""
    widths = [max(len(line[place]) for line in (head, *lines)) for place in range(len(head))]
    for line in (head, *lines):
        cells = [line[0].ljust(widths[0])] + [cell.rjust(width) for cell, width in zip(line[1:], widths[1:])]
        told += "  ".join(cells).rstrip() + "\n"
    return told


def shown_by(kbits):
    """How times of the bus are shown, tenths of them too: in bit times, or in milliseconds where the rate is known."""
    def shown(value, is_tenths=False):
        if kbits is not None:
            return millis(value, kbits * 10 if is_tenths else kbits)
        return f"{value // 10}.{value % 10}" if is_tenths else str(value)
    return shown


def asked_of(requests):
    """The requests of a file in its order, as what their streams are compared with."""
    return sorted((Asked(line, at, identifier, len(data) // 2) for identifier, asked in requests.items()
                   for line, at, data in asked), key=lambda it: it.line)


def asynchronous(rows, words, names, end):
    """The table of latencies, what is needed for their histograms, and whether a bound that the words ask for is
    broken."""
    unit, shown, lines, pictures = "bit times" if words.kbits is None else "ms", shown_by(words.kbits), [], []
    what, requests = "from the request to the end of the frame", read_requests(words.requests)
    sends = sends_of(rows, requests, words.requests)
    promised = None if words.bounds is None else Promised(words, rows, end)
    columns = {} if promised is None else promised.columns()
    for identifier, of_one in sends.items():
        values, waiting, later = latencies_of(of_one, end)
        beside = [column(identifier) for column in columns.values()]
        lines.append([names.of(identifier), str(len(values)), *statistics(values, shown),
                      *("-" if it is None else shown(it) for it in beside), str(waiting), str(later)])
        pictures.append(Picture(names.of(identifier), values, shown, f"asynchronous frames, {what}, in {unit}",
                                dict(zip(columns, (column(identifier) for column in columns.values())))))
    head = ["identifier", "sent", "least", "mean", *PERCENTS, "greatest", *columns, "waiting", "later"]
    told = f"asynchronous frames, {what}, in {unit}\n" + table(head, lines) + LEFT
    if promised is None:
        return told, pictures, False
    found, is_broken = promised.told(asked_of(requests), sends)
    return told + found, pictures, is_broken


def spans(cycles, length, shown):
    """Some numbers of cycles as texts, the least first, each once."""
    return "/".join(shown(it * length) for it in sorted(cycles)) or "-"


def plan_in(path):
    """A plan of admit."""
    plan = run_in(path)
    if plan.has_frames:
        raise NoLog(f"{path}: this is a log, and --plan takes a plan, as `fttcan admit SYSTEM STEPS` writes it")
    return plan


def worsts_of(rows, sent, words, length):
    """By slot how late a frame is at worst with any data, in bit times from its release: by the plan that the words name,
    else by the cycles of the run. And what is said of these."""
    table, until = planned(rows, words.steps)
    many = Summary(rows).many
    if words.plan is None:
        found = {slot: it.bits for slot, it in worst_sent(sent, length).items()}
        if until <= many:
            return found, "worst: with any data, in all cycles of the plan up to its repeat\n"
        return found, (f"worst: with any data, in the {some(many, 'cycle')} of this run; the plan has {until} up to its repeat. "
                       "With more cycles, or with --plan and the plan of admit, it is that of the plan\n")
    plan = plan_in(words.plan)
    try:
        found = worst_of(table, plan.masks, length, plan.first)
    except Strange as fault:
        raise NoLog(f"{words.plan}: it sends slot {fault.args[0]} in cycle {fault.args[1]}, of which {words.steps} has no "
                    "instance then. Is it the plan of these steps, and are all of them accepted?") from fault
    return {slot: it.bits for slot, it in found.items()}, "worst: with any data, by the plan\n"


def synchronous(sent, words, names, length, worsts):
    """The table of delays, and what is needed for their histograms: in cycles to the one that sends an instance; or in
    milliseconds to the end of its frame, with the worst case of any data and its deadline, where the rate is known."""
    lines, pictures, by_slot = [], [], collections.defaultdict(list)
    for it in sent:
        by_slot[it.slot].append(it)
    is_timed, shown = words.kbits is not None, shown_by(words.kbits)
    what = "from the release to the " + ("end of the frame, in ms" if is_timed else "cycle that sends them, in cycles")
    for slot, found in sorted(by_slot.items()):
        values = [it.end - it.release * length if is_timed else it.cycle - it.release for it in found]
        last = [shown(worsts[slot]), spans({it.deadline for it in found}, length, shown)] if is_timed else []
        lines.append([names.of_slot(slot), str(len(values)), *statistics(values, shown), *last])
        beside = {"worst": worsts.get(slot), "deadline": min(it.deadline for it in found) * length} if is_timed else {}
        pictures.append(Picture(names.of_slot(slot), values, shown, f"synchronous frames, {what}", beside))
    head = ["message", "sent", "least", "mean", *PERCENTS, "greatest", *(["worst", "deadline"] if is_timed else [])]
    told = f"synchronous frames, {what}\n" + table(head, lines)
    return told, pictures


def polled(rows, sent, words, names, length, end):
    """The table of requests that ride on slots, and what is needed for their histograms. Where the steps are known, the
    bound stands beside: PERIOD and DEADLINE of the entries that took them."""
    ends, entries, slot_cycle = {}, {}, None
    for word, fields, _ in rows:
        if word == "open":
            slot_cycle = int(fields[0])
        elif word == "frame" and is_slot(int(fields[2], 16)):
            ends[int(fields[2], 16) - FIRST_SLOT, slot_cycle] = int(fields[0]) + int(fields[1]) - INTERMISSION
    for it in sent:
        entries[it.slot, it.release, it.cycle] = it.period + it.deadline
    lines, pictures, shown = [], [], shown_by(words.kbits)
    what = f"from the arrival to the end of the frame, in {'bit times' if words.kbits is None else 'ms'}"
    for slot, (values, left, taken) in ridden(rows, words.streams, ends).items():
        bounds = spans({entries[slot, *it] for it in taken if (slot, *it) in entries}, length, shown)
        lines.append([names.of_slot(slot), str(len(values)), *statistics(values, shown), bounds,
                      str(sum(at < end for at in left)), str(sum(at >= end for at in left))])
        bound = max((entries[slot, *it] for it in taken if (slot, *it) in entries), default=None)
        pictures.append(Picture(names.of_slot(slot), values, shown, f"requests of polled slots, {what}",
                                {"bound": None if bound is None else bound * length}))
    head = ["message", "sent", "least", "mean", *PERCENTS, "greatest", "bound", "waiting", "later"]
    told = f"requests of polled slots, {what}\n" + table(head, lines)
    return told + LEFT, pictures


def late(rows, words, names, put):
    """Tables of latencies and delays, and their histograms as SVG where a file is named. Whether a bound is broken."""
    whole = Summary(rows)
    if not whole.is_whole():
        raise NoLog("the log is not whole, and late needs all of it")
    parts, length, ends = [], words.cycle, [whole.ends]
    if length is None and (words.requests, words.streams, words.kbits) != (None, None, None):
        length = whole.length()
    sent = [] if words.steps is None else sent_of(rows, words.steps)
    is_broken = False
    if words.requests is not None:
        told, pictures, is_broken = asynchronous(rows, words, names, length * ends[0])
        parts.append((told, pictures))
    if words.streams is not None:
        parts.append(polled(rows, sent, words, names, length, length * ends[0]))
    if words.steps is not None:
        worsts, told = worsts_of(rows, sent, words, length) if words.kbits is not None else ({}, "")
        table_told, pictures = synchronous(sent, words, names, length, worsts)
        parts.append((table_told + told, pictures))
    pictures = [picture for _, more in parts for picture in more]
    if words.svg is not None:
        with open(words.svg, "w", encoding="utf-8", newline="\n") as file:
            histogram(pictures, words.kbits, file.write)
        parts.append((f"histograms of {some(len(pictures), 'message')}: {words.svg}\n", []))
    put("\n".join(told for told, _ in parts))
    return is_broken
