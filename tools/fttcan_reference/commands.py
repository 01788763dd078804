"""The commands, from words to rows and a status."""
import collections
import itertools
import math

from .types import Change, Entry, MOST_COMBINATIONS, PERIODS, Refused, System, Unread
from .bus import mask_text, slots_in, worst
from .files import files_of, USAGE
from .table import applied, broken_rule, sendable
from .plan import Master
from .run import Run


def replay(names, tail, has_report):
    """The log of a run, or its last rows, with the report or without."""
    files = files_of(("system", "steps", "requests"), names)
    run = Run(files["system"], files.get("requests", ())).of(files["steps"])
    return run.rows[-tail if tail else 0:] + (run.report() if has_report else []), int(run.is_refused)


def poll(names):
    """The log of a run whose polled slots carry requests, and what became of each request."""
    files = files_of(("system", "steps", "streams"), names)
    run = Run(files["system"], (), files["streams"]).of(files["steps"])
    return run.rows + run.rides.rows(), int(run.is_refused)


def plan_rows(plan):
    """The lines of a plan text, version 2."""
    rows = ["fttcan plan 2", f"from {plan.start}", f"pending {mask_text(plan.pending)}", f"first {plan.first}",
            f"length {plan.length}"]
    place = 0
    while place < len(plan.masks):
        end = place
        while end < len(plan.masks) and plan.masks[end] == plan.masks[place]:
            end += 1
        rows.append(f"{mask_text(plan.masks[place])} {end - place}")
        place = end
    return rows + ["end"]


def answered(files):
    """A master that has answered the steps, and whether it refused a change."""
    master, is_refused = Master(files["system"]), False
    for word, what in files["steps"]:
        if word == "cycle":
            for _ in range(what):
                master.open()
        elif word == "change":
            is_refused |= master.submit(what).word != "accepted"
    return master, is_refused


def admit(names):
    """The plan text of the table after the steps."""
    master, is_refused = answered(files_of(("system", "steps"), names))
    return plan_rows(master.certificate()), int(is_refused)


def elastic(names):
    """The first combination of periods that is accepted after the steps, or the verdicts on all."""
    files = files_of(("system", "steps", "wishes"), names)
    (master, _), (start, lists) = answered(files), files["wishes"]
    for place in range(len(lists)):
        count = math.prod(len(each) for each in lists[:place + 1])
        if count > MOST_COMBINATIONS:
            return [f"toomany,{count}"], 1
    rows = []
    for operations in itertools.product(*lists):
        verdict = master.submit(Change(1, start, list(operations)))
        fields = ",".join(map(str, verdict.fields))
        if verdict.word == "accepted":
            periods = ",".join(str(entry.period) for _, _, entry in operations if entry)
            return [f"choice,{len(rows)},{periods},{fields}"], 0
        rows.append(f"tried,{len(rows)},{verdict.word},{fields}")
    return [f"none,{len(rows)}", *rows], 1


def asked_table(system, steps):
    """The table that the steps ask for, where no admission is asked."""
    table, cycles = [], 0
    for word, what in steps:
        if word == "cycle":
            cycles += what
        elif word == "change" and what.start >= cycles and broken_rule(system, table, what) is None:
            table = applied(table, what)
    return table


def bad_loop(table, plan):
    """The least slot with an entry that does not go round with the repeated part of a plan; None for none."""
    slots = []
    for placed in table:
        entry = placed.entry
        is_round = (plan.length % entry.period == 0 and placed.origin + entry.phase <= plan.first
                    if placed.end is None else placed.end + entry.deadline - 1 <= plan.first)
        if not is_round:
            slots.append(entry.slot)
    return min(slots, default=None)


def breach(system, table, plan):
    """The line of the first breach of a plan, or yes."""
    slot = bad_loop(table, plan)
    if slot is not None:
        return f"no,badloop,{slot}"
    sent, before = {}, {}
    for cycle, mask in enumerate(plan.masks):
        now = sendable(table, cycle)
        unsent = {slot: it for slot, it in now.items() if sent.get(slot) != it[2]}
        if cycle == plan.first:
            before = {slot for slot in unsent if unsent[slot][2] < cycle}
        strange = [slot for slot in slots_in(mask) if slot not in unsent]
        if strange:
            return f"no,notreleased,{cycle},{strange[0]}"
        width = sum(worst(unsent[slot][0].entry.length) for slot in slots_in(mask))
        if width > system.window:
            return f"no,toowide,{cycle},{width}"
        for slot in slots_in(mask):
            sent[slot] = unsent.pop(slot)[2]
        missed = [(slot, release) for slot, (placed, _, release) in sorted(unsent.items())
                  if release + placed.entry.deadline - 1 == cycle]
        if missed:
            return f"no,missed,{missed[0][0]},{missed[0][1]},{cycle}"
    behind = {slot for slot, it in unsent.items()}
    return f"no,notclosed,{min(before ^ behind)}" if before ^ behind else "yes"


def check(names):
    """Whether a plan keeps the table that the steps ask for."""
    files = files_of(("system", "steps", "plan"), names)
    line = breach(files["system"], asked_table(files["system"], files["steps"]), files["plan"])
    return [line], 0 if line == "yes" else 7


def follow(run, acts, cycles, row):
    """Lets a run go on with the event that a row of a log tells of, where it can: its rows are after those of the
    run then."""
    word, *fields = row.split(",")
    if word == "open":
        if run.master.next < cycles:
            run.open()
        return
    if word not in ("submit", "look"):
        return
    left = acts[int(fields[0])]
    if not left or (left[0][0] == "look") != (word == "look"):
        return
    what = left[0][1]
    if word == "look":
        run.look(what)
    elif int(fields[1]) in run.master.before:
        run.submit(what, int(fields[1]))
    else:
        return
    left.popleft()


def audit(names):
    """Whether a log is that of a whole run of the steps, in any order of the operators' calls and of the cycles."""
    files = files_of(("system", "steps", "log", "requests"), names)
    run = Run(files["system"], files.get("requests", ()))
    acts, cycles, is_ended = collections.defaultdict(collections.deque), 0, False
    for word, what in files["steps"]:
        if word == "cycle":
            cycles += what
        else:
            acts[what if word == "look" else what.operator].append((word, what))
    for number, row in enumerate(files["log"], 1):
        if is_ended:
            return [f"no,row,{number}"], 7
        is_ended = number > len(run.rows) and row == f"end,{run.master.next}"
        if number > len(run.rows) and not is_ended:
            follow(run, acts, cycles, row)
        if not is_ended and run.rows[number - 1:number] != [row]:
            return [f"no,row,{number}"], 7
    is_whole = is_ended and run.master.next == cycles and not any(acts.values())
    return (["yes"], 0) if is_whole else (["no,unfinished"], 7)


def generated(number):
    """The system, the steps and the requests that a number makes."""
    state = number

    def draw(modulus):
        nonlocal state
        state = (state * 6364136223846793005 + 1442695040888963407) % 2 ** 64
        return (state >> 33) % modulus

    system = System(2000, 10, 810, 8, 40, ("rm", "dm", "edf")[number % 3], "prefix", 10_000,
                    {512 + place: place % 8 for place in range(32)})
    steps, requests, at = [], [], 0
    for slot in range(40):
        node, length, phase, period = draw(8), draw(9), draw(8), PERIODS[draw(8)]
        entry = Entry(slot, node, length, phase, period, 1 + draw(period), draw(4))
        steps.append(("change", Change(1, 0, [("add", slot, entry)])))
    for _ in range(20_000):
        at += draw(1000)
        identifier, count = 512 + draw(32), draw(9)
        requests.append((at, identifier, bytes(draw(256) for _ in range(count))))
    return system, steps + [("cycle", 5000)], requests


def summary(number):
    """The summary of the run of a generated input."""
    system, steps, requests = generated(number)
    run = Run(system, requests).of(steps)
    accepted = sum(",accepted," in row for row in run.rows)
    synchronous = sum(count for identifier, count in run.frames.items() if 0x100 <= identifier <= 0x127)
    asynchronous = sum(count for identifier, count in run.frames.items() if identifier >= 0x200)
    return [f"gen,{number}", f"accepted,{accepted}", f"refused,{40 - accepted}", "cycles,5000",
            f"synchronous,{synchronous}", f"asynchronous,{asynchronous}", f"left,{len(requests) - asynchronous}",
            f"busy,{run.busy}", "end"], 0


def answer(words):
    """The rows and the status for some words; None where they are those of no command."""
    words = [part for word in words for part in (word.split("=", 1) if word.startswith("--tail=") else [word])]
    has_report, tail = "--report" in words, None
    if has_report:
        words.remove("--report")
    if "--tail" in words:
        place = words.index("--tail")
        tail = int(words[place + 1]) if words[place + 1:] and words[place + 1].isdecimal() else 0
        del words[place:place + 2]
        if not 1 <= tail <= 10_000:
            return None
    is_plain = tail is None and not has_report
    if any(word.startswith("-") and word != "-" for word in words):
        return None
    if words[:1] == ["replay"] and len(words) in (3, 4):
        return replay(words[1:], tail, has_report)
    if words[:1] == ["admit"] and len(words) == 3 and is_plain:
        return admit(words[1:])
    if words[:1] == ["check"] and len(words) == 4 and is_plain:
        return check(words[1:])
    if words[:1] == ["elastic"] and len(words) == 4 and is_plain:
        return elastic(words[1:])
    if words[:1] == ["poll"] and len(words) == 4 and is_plain:
        return poll(words[1:])
    if words[:1] == ["audit"] and len(words) in (4, 5) and is_plain:
        return audit(words[1:])
    if words[:1] == ["handover"] and len(words) in (4, 5) and is_plain:
        at = words.pop(3).removeprefix("+")
        return replay(words[1:], None, False) if at.isdecimal() and int(at) <= 20_000 else None
    if words[:1] == ["gen"] and len(words) == 2 and is_plain and words[1].isdecimal() and int(words[1]) < 2 ** 32:
        return summary(int(words[1]))
    return None


def told(words):
    """The lines for standard output and for standard error, and the status."""
    try:
        found = answer(words)
    except Unread:
        return [], ["read fault"], 4
    except Refused as fault:
        return [], [str(fault)], 3
    if found is None:
        return [], [f"usage: fttcan {each}" for each in USAGE], 2
    return found[0], [], found[1]
