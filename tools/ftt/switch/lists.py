"""Two lists of messages, before and after, become a switch: messages that are in both keep their slots.

What goes is removed first, so that there is room; what comes is added in free slots, so that none of it waits for the end
of an old entry. What differs is changed in place, and keeps its identifier.
"""
import pathlib
from collections import namedtuple
from fractions import Fraction

from .. import limits
from ..desk import ACCEPTED, Asked, rows_of
from ..faults import Refused
from ..frames import worst
from ..limits import FEW_SLOTS, OPERATIONS
from ..model import nodes_of, table
from ..model.bus import Bus, alike, entries_of, owned_of, window_of as bus_window
from ..model.files import names_text, system_text, write_all
from ..model.messages import Mistakes, text_of
from ..table import Operation
from ..telling import listed, some

# What two lists make: the bus, the nodes, the entries before, those of messages that come or change, by slot the entries
# after, the asynchronous messages, and the changes with what each is for.
Made = namedtuple("Made", "bus nodes before after owned asked purposes")
ROOM, TOGETHER, ONE = "makes room", "comes together", "is all of it"


def read(path, bus, slots):
    """The messages of a list, which are refused where fttmodel refuses them, and the mistakes."""
    mistakes = Mistakes(path)
    messages = table.read(path, text_of(path), mistakes).messages
    if not messages and not mistakes.lines:
        raise Refused(f"{path}:1: there are no messages. Write a row for each.")
    alike(messages, mistakes)
    nodes = nodes_of(messages, mistakes)
    entries = entries_of(messages, bus, nodes, slots, mistakes)
    owned = owned_of(messages, nodes, False, mistakes)
    mistakes.stop()
    return messages, entries, owned


def values_of(entry):
    """What a change would change of an entry: all but its slot and its node."""
    return entry.length, entry.phase, entry.period, entry.deadline, entry.message.priority


def placed_after(before, after, slots):
    """The entries after in their slots: those of messages that were there before in the same ones, and the others in the
    first free ones, in the order in which they would get slots alone."""
    known = {it.message.name: it for it in before}
    free = [slot for slot in range(slots) if slot not in {it.slot for it in before}]
    found = []
    for it in after:
        if it.message.name in known:
            found.append(it._replace(slot=known[it.message.name].slot))
            continue
        wished = getattr(it.message, "slot", None)
        if not free or wished is not None and wished not in free:
            taken = f"slot {wished} of {it.message.name}" if free else "no slot"
            more = " Take --slots 96." if slots == FEW_SLOTS else ""
            raise Refused(f"{taken} is free: each message that comes needs a slot that no message before has.{more}")
        found.append(it._replace(slot=free.pop(free.index(wished) if wished is not None else 0)))
    return sorted(found, key=lambda it: it.slot)


def operation(word, entry):
    """An operation of a change."""
    if word == "remove":
        return Operation(None, word, {"SLOT": entry.slot})
    return Operation(None, word, {"SLOT": entry.slot, "NODE": entry.node, "LENGTH": entry.length, "PHASE": entry.phase,
                                  "PERIOD": entry.period, "DEADLINE": entry.deadline,
                                  "PRIORITY": entry.message.priority})


def needs_less(old, new):
    """Whether a changed message needs no more of the bus than before, and is due no sooner."""
    return (Fraction(worst(new.length), new.period) <= Fraction(worst(old.length), old.period)
            and new.deadline >= old.deadline)


def parted(operations):
    """Operations as changes of at most so many."""
    return [operations[first:first + OPERATIONS] for first in range(0, len(operations), OPERATIONS)]


def changes_of(before, after, operator, ahead):
    """The changes that lead from the entries before to those after, and what each is for: one if it has room for all; else
    first what makes room, and then what has to come together."""
    old, new = {it.slot: it for it in before}, {it.slot: it for it in after}
    room = [operation("remove", it) for slot, it in sorted(old.items()) if slot not in new]
    together = [operation("add", it) for slot, it in sorted(new.items()) if slot not in old]
    for slot, it in sorted(new.items()):
        if slot in old and values_of(it) != values_of(old[slot]):
            (room if needs_less(old[slot], it) else together).append(operation("change", it))
        elif slot in old and it.node != old[slot].node:
            together.append(operation("change", it))
    if not room and not together:
        raise Refused("the two lists ask for the same: there is nothing to switch.")
    if len(room) + len(together) <= OPERATIONS:
        return [Asked(operator, ahead, room + together)], [ONE]
    made = [(part, ROOM) for part in parted(room)] + [(part, TOGETHER) for part in parted(together)]
    return [Asked(operator, ahead, part) for part, _ in made], [purpose for _, purpose in made]


def made_of(words):
    """What the lists of a call make."""
    bus = Bus(words.kbits, words.cycle_us)
    messages, before, owned = read(words.before, bus, words.slots)
    others, after, owned_after = read(words.after, bus, words.slots)
    known = {it.name: it for it in messages}
    for it in others:
        same = known.get(it.name)
        if same is not None and it.id is not None and same.id is not None and it.id != same.id:
            raise Refused(f"{words.after}:{it.line}: id is '{it.id:#05x}': {it.name} has {same.id:#05x} in {words.before}, "
                          "and a message keeps its identifier over a switch. Give it another name, or the same id.")
    mistakes = Mistakes(words.after)
    both = messages + [it for it in others if it.name not in known]
    nodes = nodes_of(both, mistakes)
    mistakes.stop()
    before = [it._replace(node=nodes[it.message.sender]) for it in before]
    after = [it._replace(node=nodes[it.message.sender]) for it in placed_after(before, after, words.slots)]
    named = {it.id for it in owned}
    owned += [it for it in owned_after if it.id not in named]
    owned = [it._replace(node=nodes[it.message.sender]) for it in owned]
    asked, purposes = changes_of(before, after, words.operator, words.ahead)
    return Made(bus, nodes, before, after, owned, asked, purposes)


def setup_of(before):
    """The changes that make the table before, as fttmodel writes them."""
    return [Asked(1, 0, [operation("add", it) for it in before[first:first + OPERATIONS]])
            for first in range(0, len(before), OPERATIONS)]


def told_parts(made):
    """How many messages go, come, change and stay."""
    old, new = {it.slot: it for it in made.before}, {it.slot: it for it in made.after}
    words = [it.word for asked in made.asked for it in asked.operations]
    stay = len(set(old) & set(new)) - words.count("change")
    return (f"{some(words.count('remove'), 'message')} {'goes' if words.count('remove') == 1 else 'go'}, "
            f"{words.count('add')} {'comes' if words.count('add') == 1 else 'come'}, {words.count('change')} "
            f"{'changes' if words.count('change') == 1 else 'change'}, {stay} {'stays' if stay == 1 else 'stay'}")


def window_of(made, words):
    """The window that a call takes: for the messages of both lists."""
    return bus_window(made.bus, words, made.before + made.after, made.owned)


def every(made):
    """The entries of both lists, one for each slot."""
    slots = {it.slot for it in made.before}
    return made.before + [it for it in made.after if it.slot not in slots]


def steps_with(made, at, cycles):
    """The steps: the messages before, so many cycles, the switch, and some more."""
    rows, start = [row for it in setup_of(made.before) for row in rows_of(it, 0)], at
    rows.append(f"cycle,{at}")
    for it in made.asked:
        rows += rows_of(it, start + it.ahead)
    return "\n".join([*rows, f"cycle,{cycles}"]) + "\n"


def cycle_to_show(trying):
    """The cycle before which the written steps ask: the first one that is refused, else that with the latest first frame."""
    trials = trying.sweep.trials
    refused = [it.cycle for it in trials if any(each.word != ACCEPTED for each in it.verdicts)]
    return refused[0] if refused else max(trials, key=lambda it: it.hit or 0).cycle


def write(made, words, trying):
    """Writes the files of a switch, and says so."""
    at, rules = cycle_to_show(trying) if words.at is None else words.at, trying.base.rules
    after = min(limits.CYCLES - at, trying.sweep.most)
    if after < 1:
        raise Refused(f"--out: the steps would ask before cycle {at}, and a run has at most {limits.CYCLES}. Take --at.")
    texts = {"system.toml": system_text(made.bus, made.owned, words, rules.window, rules.nodes),
             "steps.csv": steps_with(made, at, after), "names.csv": names_text(every(made), made.owned)}
    write_all(pathlib.Path(words.out), texts)
    return f"written: {listed(texts)} in {words.out}; the steps ask before cycle {at}"
