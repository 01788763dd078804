"""A process that answers calls of a master by tools/reference, one line of JSON for each: for tools/check-python.

    reference_asked.py < CALLS

A call is a list: a word, and what stands after it below in `WORDS`. It loads the package of tools/reference, and shares
nothing with what is compared to it. Masters have keys. An operation is [word, slot] or [word, slot, node, length,
phase, period, deadline, priority], and a placed entry [origin, end or null, slot, node, ..].
"""
import copy
import json
import pathlib
import sys

sys.dont_write_bytecode = True
sys.path.insert(0, str(pathlib.Path(__file__).resolve().parent.parent))

import fttcan_reference as reference  # noqa: E402  pylint: disable=wrong-import-position

MASTERS = {}


def new(key, window, nodes, slots, policy, fill, horizon):
    """Makes a master of these rules."""
    MASTERS[key] = reference.Master(reference.System(100_000, 0, window, nodes, slots, policy, fill, horizon, {}))


def twin(key, other):
    """Makes a master that is as another one is."""
    MASTERS[other] = copy.deepcopy(MASTERS[key])


def drop(key):
    """Forgets a master."""
    del MASTERS[key]


def submit(key, start, operations, since=None):
    """The verdict on a change as a row, its trail, and whether it was planned from the cycle `since`: only where
    no change was accepted since."""
    master = MASTERS[key]
    made = [(word, slot, reference.Entry(slot, *rest) if rest else None) for word, slot, *rest in operations]
    # A change without operations can't stand in a file, so the program has no rule for it: docs/FORMATS.md has.
    if not made:
        return "malformed,0,1", [], False
    is_since = since is not None and since in master.before
    verdict = master.submit(reference.Change(1, start, made), since if is_since else None)
    return ",".join(map(str, (verdict.word, *verdict.fields))), verdict.masks if verdict.word == "miss" else [], is_since


def opened(key):
    """Opens a cycle: its number, its slots, and the length of its window."""
    cycle, mask, sent = MASTERS[key].open()
    return cycle, mask, sum(reference.worst(placed.entry.length) for placed, _, _ in sent.values())


def planned(key):
    """The slots of the next cycle, and their window."""
    other = copy.deepcopy(MASTERS[key])
    _, mask, sent = other.open()
    return mask, sum(reference.worst(placed.entry.length) for placed, _, _ in sent.values())


def placed(key):
    """The entries in the order of their placing."""
    return [(it.origin, it.end, *it.entry) for it in MASTERS[key].table]


def pending(key):
    """The slots that are pending before the next cycle."""
    return sorted(MASTERS[key].before[MASTERS[key].next])


def plan(key):
    """The masks of the plan from the next cycle on, the first cycle of its repeat, and the length of that."""
    master = MASTERS[key]
    verdict = reference.walk(master.system, master.table, master.next, set(master.planning.pending))
    return verdict.masks, *verdict.fields


def breach(key, masks, first, length):
    """The line of the first breach of a plan from cycle 0 on."""
    master = MASTERS[key]
    return reference.breach(master.system, master.table, reference.Certificate(0, 0, first, length, masks))


def wire(identifier, data):
    """The length of a frame."""
    return reference.wire_length(identifier, bytes.fromhex(data))


def trigger(cycle, width, mask, slots):
    """The bytes of the frames of a trigger."""
    return [data.hex() for data in reference.triggers(cycle, width, mask, slots)]


WORDS = {it.__name__: it for it in (new, twin, drop, submit, opened, planned, placed, pending, plan, breach, wire, trigger)}


def main():
    """Answers each line."""
    for line in sys.stdin:
        word, *rest = json.loads(line)
        print(json.dumps(WORDS[word](*rest)), flush=True)


if __name__ == "__main__":
    main()
