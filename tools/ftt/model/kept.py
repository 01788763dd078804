"""What a design keeps of an earlier one, by its names.csv: slots, identifiers of asynchronous messages, and nodes.

Messages are the same where their names are, and nodes where those of their senders are. So a message that comes or goes
renumbers nobody.
"""
import csv
import io
import re
from collections import namedtuple

from ..faults import Refused
from ..limits import FIRST_ASYNC, LAST_ASYNC, MANY_SLOTS, NODES
from ..telling import listed, shown
from .bus import KINDS
from .messages import text_of

NEEDED = ("slot_or_id", "name", "sender", "node")
# The slots and identifiers by the names of messages, and the nodes by those of senders.
Kept = namedtuple("Kept", "slots ids nodes")
# So many messages are named in a sentence.
SHOWN = 8
NOTHING = Kept({}, {}, {})


def read(path):
    """What stands in a file of names, as an earlier call of fttmodel has written it."""
    if path is None:
        return NOTHING
    kept, rows = Kept({}, {}, {}), csv.DictReader(io.StringIO(text_of(path), newline=""))
    if not set(NEEDED) <= set(rows.fieldnames or ()):
        raise Refused(f"{path}:1: this is no names.csv of fttmodel, whose first row begins with {','.join(NEEDED)}.")
    for row in rows:
        key, node = row["slot_or_id"] or "", row["node"] or ""
        if not re.fullmatch("[0-9]{1,2}", node) or int(node) >= NODES[1]:
            raise Refused(f"{path}:{rows.line_num}: node is {shown(node)}, and a node is a number below {NODES[1]}.")
        kept.nodes[row["sender"]] = int(node)
        if re.fullmatch("[0-9]{1,2}", key) and int(key) < MANY_SLOTS:
            kept.slots[row["name"]] = int(key)
        elif re.fullmatch("0x[0-9a-f]{3}", key) and FIRST_ASYNC <= int(key, 16) <= LAST_ASYNC:
            kept.ids[row["name"]] = int(key, 16)
        else:
            raise Refused(f"{path}:{rows.line_num}: slot_or_id is {shown(key)}, and this is no slot and no identifier.")
    return kept


def pinned(messages, kept, path, mistakes):
    """The messages, each with the slot that it is to keep."""
    found = []
    for it in messages:
        slot = kept.slots.get(it.name) if it.kind in KINDS else None
        if slot is not None and it.slot not in (None, slot):
            mistakes.add(it.line, "slot", str(it.slot), f"{path} has {slot} for {it.name}. Take one of them away.")
        found.append(it if slot is None else it._replace(slot=slot))
    return found


def told(messages, entries, kept, path):
    """What is said of the messages that came and went."""
    names = {it.name for it in messages}
    old = [*kept.slots, *kept.ids]
    come = [f"{it.message.name} in slot {it.slot}" for it in entries if it.message.name not in kept.slots]
    gone = [f"{name} from slot {kept.slots[name]}" if name in kept.slots else name for name in old if name not in names]
    again = [str(it.slot) for it in entries if it.message.name not in kept.slots and it.slot in kept.slots.values()]
    lines = [f"kept: {sum(name in names for name in old)} of {len(old)} messages of {path}; new: {some_of(come)}; gone: "
             f"{some_of(gone)}"]
    if again:
        lines.append(f"kept: no other slot was free, so slot {listed(again)} of a message that is gone is taken again")
    return lines


def some_of(texts):
    """The first ones of some texts, and how many others there are."""
    more = [f"{len(texts) - SHOWN} more"] if len(texts) > SHOWN else []
    return listed([*texts[:SHOWN], *more], "none")
