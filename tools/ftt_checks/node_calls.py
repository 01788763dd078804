"""The classes of the package for nodes, changes and reserves: each answer against that of a plain node, and each error."""
import random

import fttcan
from fttcan import changes
from fttcan_reference import bus
from fttcan_reference.types import Entry, Placed, System

from . import plain_node
from .cases import case

LAYOUT = fttcan.Layout(cycle=1000, turnaround=20, window=400)
TABLE = [fttcan.Placed(fttcan.Entry(slot=5, node=1, length=8, period=1, deadline=1), 0),
         fttcan.Placed(fttcan.Entry(slot=6, node=1, length=2, period=2, deadline=1), 0)]


def raises(kind, call):
    """Whether a call raises an error of this kind."""
    try:
        call()
    except kind:
        return True
    return False


def node(**how):
    """A node with the table, before cycle 0."""
    made = fttcan.Node(LAYOUT, **{"number": 1, "owners": {0x210: 1, 0x220: 2}, "room": 1, "entries": 2} | how)
    made.go_to(0)
    made.learn(TABLE)
    return made


def answers():
    """What a node answers, and the errors of its calls. The times are worked out by hand."""
    one = node()
    trigger = fttcan.frames.encode(fttcan.Trigger(cycle=0, flags={5, 6}, window=210))[0]
    case("a node hears its trigger, and again", one.opened is None and one.trigger(trigger) is fttcan.Heard.OPENED
         and one.trigger(trigger) is fttcan.Heard.AGAIN and one.opened == fttcan.Trigger(0, {5, 6}, 210) and one.next == 1)
    request = fttcan.Frame(0x210, b"hello")
    case("requests wait, and a full mailbox says so", one.put(request) and not one.put(request) and one.waiting(0x210) == 1)
    case("offers have their ends", one.offer(154) is None and one.wake(0) == 155 and one.offer(155) == fttcan.Offer(0x210, 685)
         and one.offer(686) is None and one.wake(685) == 790 and one.offer(790) == fttcan.Offer(0x105, 865) and one.offer(1 << 40) is None)
    loaded = one.load(200, 0x210)
    case("a loaded frame is in flight", loaded.frame == request and loaded.users and one.offer(200) is None and not one.drop(0x210)
         and one.withdrawn(loaded.ticket) and not one.withdrawn(loaded.ticket) and one.frame(200, 0x210) == request)
    case("a ticket counts once", one.sent(loaded.ticket) and not one.sent(loaded.ticket) and one.waiting(0x210) == 0)
    one.set(6, b"\1\2")
    case("slots are owed", one.due() == 0x60 and one.slot_due(6) == fttcan.Due(start=790, last=925, loaded=False, users=True)
         and one.slot_frame(6) == fttcan.Frame(0x106, b"\1\2") and one.slot_due(7) is None and one.slot_frame(7) is None)
    case("what is out of range is an error", all(raises(fttcan.OutOfRange, call) for call in (
        lambda: one.put(fttcan.Frame(0x220)), lambda: one.waiting(0x220), lambda: one.drop(0x220), lambda: one.go_to(0),
        lambda: one.set(40, b""), lambda: one.set(5, bytes(9)), lambda: one.trigger(fttcan.Frame(0x7F0)), lambda: one.offer(-1),
        lambda: node(number=30), lambda: node(tolerance=128), lambda: node(owners={0x1FF: 1}))))
    other = TABLE + [fttcan.Placed(fttcan.Entry(slot=7, node=1, length=0, period=1, deadline=1), 0)]
    bad = [fttcan.Placed(fttcan.Entry(slot=7, node=1, length=0, period=1, deadline=2), 0)]
    case("tables that are too long or wrong are errors", raises(fttcan.Full, lambda: one.learn(other)) and raises(fttcan.BadTable, lambda: one.learn(bad)))
    one.close()
    case("a closed node says so", one.closed and raises(fttcan.Closed, one.due))
    applied = fttcan.apply(TABLE, 10, fttcan.Remove(5), fttcan.Add(slot=8, node=29, length=1, period=3, deadline=2))
    case("a change is applied to a table", [placed.end for placed in applied] == [10, None, None] and applied[2].origin == 10
         and raises(fttcan.NotAccepted, lambda: fttcan.apply(TABLE, 10, fttcan.Remove(7)))
         and raises(fttcan.BadTable, lambda: fttcan.apply(bad, 10, fttcan.Remove(7))))


def reserves():
    """A reserve in triggers, and the numbers of it."""
    case("reserves are those of the definition", [fttcan.reserve(1, length=length) for length in range(9)] == [83 + 10 * n for n in range(9)]
         and fttcan.reserve(2) == 326 and fttcan.errors_within(325) == 1 and raises(fttcan.OutOfRange, lambda: fttcan.reserve(1, length=9)))
    with fttcan.Standby(fttcan.Rules(window=540, nodes=5)) as standby:
        frames = fttcan.frames.encode(fttcan.Trigger(0, 0, 0), reserve=326)
        case("a standby takes the reserve off", raises(fttcan.OtherWindow, lambda: standby.trigger(*frames))
             and fttcan.frames.decode(frames).window == 326 and standby.trigger(*frames, reserve=326) is None and standby.next == 1)
    case("a reserve that no trigger can tell is an error",
         raises(fttcan.OutOfRange, lambda: fttcan.frames.encode(fttcan.Trigger(0, 0, 16383), reserve=1)))


def told():
    """Changes and tables as frames, in any order."""
    operations = (fttcan.Add(slot=8, node=29, length=1, period=3, deadline=2, phase=1, priority=4), fttcan.Remove(5),
                  fttcan.Change(slot=6, node=0, length=8, period=9, deadline=9))
    table = (TABLE[0], fttcan.Placed(TABLE[1].entry, 7, 9))
    wanted = [changes.ToldChange(3, 12, operations), changes.ToldTable(4, table)]
    for place, frames in enumerate((changes.encode_change(0x7EF, 3, 12, *operations), changes.encode_table(0x7EF, 4, table))):
        collector, draw = changes.Collector(entries=2), random.Random(place)
        mixed = frames + draw.sample(frames, 4)
        draw.shuffle(mixed)
        heard = [it for it in map(collector.hear, mixed) if it is not None]
        case(f"a {type(wanted[place]).__name__} comes out of its frames", heard == [wanted[place]], [str(heard), str(wanted[place])])
    small = changes.Collector(entries=9)
    case("a message that is too long is an error",
         raises(fttcan.Full, lambda: [small.hear(frame) for frame in changes.encode_table(0x7EF, 5, table * 10)]))
    case("no message is none", small.hear(fttcan.Frame(0x7EF, b"\0")) is None)


def session(seed):
    """Random calls of a node and of a plain one. The answer is the first call that differs; None if none does."""
    draw = random.Random(seed)
    slots = draw.choice((40, 96))
    system = System(2000, 30, 700, 3, slots, "rm", "prefix", 1000, {0x210: 1, 0x211: 1, 0x300: 2})
    silent, tolerance, entries = draw.random() < .3, draw.randrange(3), draw.randrange(3, 9)
    plain = plain_node.PlainNode(system, plain_node.Made(1, tolerance, silent, 3, entries, [0x210, 0x211]))
    one = fttcan.Node(fttcan.Layout(2000, 30, 700, slots), number=1, owners=system.owners, room=3, entries=entries, tolerance=tolerance,
                      silent=silent)
    cycle, tickets = draw.choice((0, 1 << 41)), {}
    one.go_to(cycle)
    plain.go_to(cycle)
    for _ in range(200):
        what, into = draw.randrange(8), draw.choice((draw.randrange(2000), draw.randrange(300), draw.randrange(1250, 2001)))
        if what == 0:
            cycle += draw.choice((0, 1, 1, 1, 2, 3))
            frames = bus.triggers(cycle, draw.randrange(0, 720), draw.randrange(1 << 12), slots)
            pairs = []
            for identifier, data in enumerate(frames):
                passed = draw.choice((0, 0, 0, 1, 2))
                pairs.append((one.trigger(fttcan.Frame(identifier, data), passed=passed), plain.trigger(identifier, data, passed)))
        elif what == 1:
            table = [Placed(Entry(slot, draw.choice((1, 1, 2)), draw.randrange(9), draw.randrange(3), 2, draw.choice((1, 2)), 0), draw.choice((0, cycle & ~1)), None)
                     for slot in draw.sample(range(12), draw.randrange(0, 10))]
            given = [fttcan.Placed(fttcan.Entry(**p.entry._asdict()), p.origin, p.end) for p in table]
            pairs = [(raises(fttcan.Full, lambda given=given: one.learn(given)), plain.learn(table) != 0)]
        elif what == 2:
            identifier, data = draw.choice((0x210, 0x211)), draw.randbytes(draw.randrange(9))
            pairs = [(one.put(fttcan.Frame(identifier, data)), plain.put(identifier, data) == 0)]
        elif what == 3:
            slot, data = draw.randrange(12), draw.randbytes(draw.randrange(9))
            one.set(slot, data)
            pairs = [(None, plain.set(slot, data) or None), (one.due(), plain.due())]
        elif what < 6:
            offer = plain.offer(into)
            pairs = [(one.offer(into), offer), (one.wake(into), plain.wake(into))]
            if offer is not None:
                loaded, data = one.load(into, offer[0]), plain.load(into, offer[0])
                pairs.append((loaded and loaded.frame.data, data))
                tickets[offer[0]] = loaded.ticket if loaded else None
        elif tickets:
            identifier = draw.choice(list(tickets))
            name = "sent" if what == 6 else "withdrawn"
            pairs = [(getattr(one, name)(tickets[identifier]), getattr(plain, name)(identifier) == 0)]
        else:
            pairs = [(one.drop(0x210), plain.drop(0x210) == 0)]
        if any(mine != wanted for mine, wanted in pairs):
            return f"session {seed}: call {what} answers {pairs}"
    return None


def nodes(sessions=300):
    """All of it."""
    for part in (answers, reserves, told):
        part()
    wrong = [it for it in map(session, range(sessions)) if it is not None]
    case(f"{sessions} random sessions of a node answer as a plain node does", not wrong, wrong)
