"""Random sessions of a master, each with the answers of tools/reference: for tools/check-wasm.

    asked_sessions.py COUNT SEED

It writes a line of JSON for each session: its rules, and its calls in order, each as a word, what the call is passed, and what it
must answer. library/tests/play.mjs plays them. Nothing of the library is loaded here. Sets of slots are lists of slots.
"""
import json
import pathlib
import random
import sys

sys.dont_write_bytecode = True
sys.path.insert(0, str(pathlib.Path(__file__).resolve().parent))

import reference_asked as asked  # noqa: E402  pylint: disable=wrong-import-position

PERIODS = (1, 2, 2, 3, 4, 4, 5, 6, 8, 8, 10, 12)
NAMES = ("slot", "node", "length", "phase", "period", "deadline", "priority")
# How many calls a session has, and how often each of them is made.
LEAST, MOST = 25, 75
WEIGHTS = {"submit": 14, "open": 40, "planned": 3, "next": 2, "table": 2, "certificate": 2, "saved": 3, "take over": 1,
           "snapshot": 2, "plan": 3, "settle": 3, "wrong trigger": 3, "copy": 1, "frame": 5, "refused caller": 1}


def slots_of(mask):
    """The slots of a set."""
    return [slot for slot in range(mask.bit_length()) if mask >> slot & 1]


class Session:
    """A session, as it grows."""

    def __init__(self, draw):
        self.draw, self.calls, self.next, self.is_learned = draw, [], 0, False
        self.slots, self.window = draw.choice((40, 40, 96)), draw.choice((55, 135, 135, 200, 200, 270, 270, 405, 540, 16_383))
        self.nodes, self.policy, self.fill = draw.randint(1, 30), draw.choice(("rm", "dm", "edf")), draw.choice(("prefix", "skip"))
        self.horizon = draw.choice((1, 7, 60, 150, 300))
        # Few slots are asked for again and again, so that they are taken, changed and freed.
        self.own, self.live, self.has_standby = draw.sample(range(self.slots), draw.randint(1, 12)), set(), True
        self.accepted, self.snapshots, self.plans, self.keys = 0, [], [], 0
        asked.new("own", self.window, self.nodes, self.slots, self.policy, self.fill, self.horizon)

    def put(self, word, given, wanted):
        """Notes a call."""
        self.calls.append([word, given, wanted])

    def change(self):
        """A change: its start, and its operations."""
        draw = self.draw
        start = self.next + draw.choice((0, 0, 0, 1, 2, 5, 20)) if draw.random() < 0.93 else \
            max(0, draw.choice((self.next - 1, 0, 1 << 40, (1 << 53) - 1, self.next - 3)))
        count = draw.choice((1, 1, 1, 1, 2, 3)) if draw.random() < 0.98 else draw.choice((0, 16, 17))
        slots = draw.sample(range(self.slots), count) if count > 4 else None
        operations = []
        for place in range(count):
            period = draw.choice(PERIODS)
            fields = [slots[place] if slots else draw.choice(self.own), draw.randrange(self.nodes), draw.choice((0, 1, 2, 4, 8, 8)),
                      draw.choice((0, 0, 1, 3, 9)), period, draw.choice((period, period, draw.randint(1, period))), draw.randrange(4)]
            if draw.random() < 0.03:
                field, values = draw.choice(((0, (96, 255, 40)), (1, (30, 255)), (2, (9, 255)), (4, (0,)), (5, (0, 13))))
                fields[field] = draw.choice(values)
            word = draw.choice(("change", "change", "remove") if fields[0] in self.live else ("add",)) if draw.random() < 0.95 \
                else draw.choice(("add", "change", "remove"))
            operations.append([word, fields[0]] if word == "remove" else [word, *fields])
        return start, operations

    @staticmethod
    def told(operations):
        """Operations as JavaScript has them."""
        return [{"kind": word, **dict(zip(NAMES, rest))} for word, *rest in operations]

    def follow(self, row, operations):
        """What a verdict changes."""
        if not row.startswith("accepted"):
            return
        self.accepted, self.is_learned = self.accepted + 1, True
        self.live |= {slot for word, slot, *_ in operations if word == "add"}
        self.live -= {slot for word, slot, *_ in operations if word == "remove"}

    def submit(self):
        """A change."""
        start, operations = self.change()
        row, trail, _ = asked.submit("own", start, operations)
        self.put("submit", [start, self.told(operations), self.draw.randint(1, 8)], [row, [slots_of(mask) for mask in trail]])
        self.follow(row, operations)

    def open(self):
        """A cycle."""
        cycle, mask, width = asked.opened("own")
        self.put("open", [], [cycle, slots_of(mask), width, self.is_learned, asked.trigger(cycle, width, mask, self.slots)])
        self.next, self.is_learned = cycle + 1, False

    def planned(self):
        """What comes next."""
        self.put("planned", [], slots_of(asked.planned("own")[0]))

    def next_(self):
        """The next cycle."""
        self.put("next", [self.draw.randint(1, 8)], self.next)

    def table(self):
        """The table. A master lets go what is over and has a later entry: the others have to be there, in their order."""
        rows = [{"entry": dict(zip(NAMES, entry)), "origin": origin, "end": end} for origin, end, *entry in asked.placed("own")]
        needed = [row["end"] is None or row["end"] + row["entry"]["deadline"] - 1 > self.next for row in rows]
        self.put("table", [], [rows, needed, asked.pending("own")])

    def certificate(self):
        """The plan, and one with a fault."""
        masks, first, length = asked.plan("own")
        given, breach = None, None
        if self.next == 0 and masks:
            other, place = list(masks), self.draw.randrange(len(masks))
            other[place] ^= 1 << self.draw.choice(self.own)
            given = [[slots_of(mask)] for mask in other]
            breach = asked.breach("own", other, first, length)
        self.put("certificate", given, [self.next, first, length, [slots_of(mask) for mask in masks], breach])

    def saved(self):
        """The master goes on in another one."""
        self.put("saved", self.draw.random() < 0.5, None)

    def take_over(self):
        """The standby takes over."""
        if self.has_standby:
            self.has_standby = False
            self.put("take over", [], None)

    def snapshot(self):
        """What a change is planned from."""
        self.keys += 1
        asked.twin("own", self.keys)
        self.snapshots.append((self.keys, self.next, self.accepted))
        self.put("snapshot", self.keys, None)

    def plan(self):
        """A change is planned apart."""
        if not self.snapshots:
            self.snapshot()
        key, since, accepted = self.snapshots.pop(self.draw.randrange(len(self.snapshots)))
        start, operations = self.change()
        row = asked.submit(key, start, operations)[0]
        asked.drop(key)
        self.put("plan", [key, start, self.told(operations)], row)
        self.plans.append((key, since, accepted, start, operations))

    def settle(self):
        """A change that was planned apart is settled."""
        if not self.plans:
            self.plan()
        key, since, accepted, start, operations = self.plans.pop(self.draw.randrange(len(self.plans)))
        row, trail, _ = asked.submit("own", start, operations, since if accepted == self.accepted else None)
        self.put("settle", [key, start, self.told(operations), self.draw.randint(1, 8)], [row, [slots_of(mask) for mask in trail]])
        self.follow(row, operations)

    def wrong_trigger(self):
        """The standby hears a trigger that is not the planned one."""
        if not self.has_standby:
            return
        mask, width = asked.planned("own")
        kind = self.draw.randrange(4)
        if kind == 0:
            other = mask ^ 1 << self.draw.randrange(self.slots)
            self.put("wrong trigger", [self.next, slots_of(other), width], ["OtherFlags", self.next, slots_of(other), slots_of(mask)])
        elif kind == 1:
            self.put("wrong trigger", [self.next + 1, slots_of(mask), width], ["NoTrigger", self.next])
        elif kind == 2:
            self.put("wrong trigger", [self.next, slots_of(mask), (width + 1) % 16_384], ["OtherWindow", (width + 1) % 16_384, width])
        else:
            self.put("wrong trigger", None, ["NoTrigger", self.next])

    def copy(self):
        """A copy of the pair."""
        self.put("copy", [], None)

    def frame(self):
        """A frame, and a payload."""
        draw = self.draw
        identifier, data = draw.randrange(0x7F0), bytes(draw.choice((0, 255, draw.randrange(256))) for _ in range(draw.randrange(9)))
        number, length = draw.randrange(1 << 53), draw.randrange(9)
        self.put("frame", [identifier, data.hex(), number, length],
                 [asked.wire(identifier, data.hex()), (number % 256 ** length).to_bytes(length, "big").hex()])

    def refused_caller(self):
        """An operator that is none."""
        self.put("refused caller", self.draw.choice((0, 9, 255)), None)

    def made(self):
        """The session as a value."""
        names = {word: getattr(self, word.replace(" ", "_") + ("_" if word == "next" else "")) for word in WEIGHTS}
        for _ in range(self.draw.randint(LEAST, MOST)):
            names[self.draw.choices(list(WEIGHTS), list(WEIGHTS.values()))[0]]()
        rules = {"window": self.window, "nodes": self.nodes, "slots": self.slots, "policy": self.policy, "fill": self.fill,
                 "horizon": self.horizon}
        return {"rules": rules, "calls": self.calls}


def main():
    """All sessions."""
    count, seed = int(sys.argv[1]), sys.argv[2]
    for number in range(count):
        print(json.dumps(Session(random.Random(f"{seed} {number}")).made(), separators=(",", ":")))


if __name__ == "__main__":
    main()
