"""Random tables and changes, with the sums of the verdicts and orders that tools/reference gives: what library/tests/tables.c
plays on each processor."""
import pathlib
import random
import sys

TOP = pathlib.Path(__file__).resolve().parent.parent.parent
sys.path.insert(0, str(TOP / "tools"))

KINDS = ("add", "rm", "change")
POLICIES, FILLS = ("rm", "dm", "edf"), ("prefix", "skip")
PERIODS = (1, 2, 3, 4, 5, 6, 8, 10, 12, 15, 20, 24, 30)
START = 0xcbf29ce484222325


def summed(text, sum_=START):
    """The sum of a text, as the test has it: FNV-1a of 64 bits."""
    for byte in text.encode():
        sum_ = (sum_ ^ byte) * 0x100000001b3 & (1 << 64) - 1
    return sum_


def numbers(verdict):
    """A verdict as numbers: kind, op, why, slot, known, first, second."""
    fields = verdict.fields
    if verdict.word == "accepted":
        return 4, 0, 0, 0, 0, fields[0], fields[1]
    if verdict.word == "miss":
        return 2, 0, 0, fields[0], 0, fields[1], fields[2]
    if verdict.word == "horizon":
        return 3, 0, 0, 0, 0, fields[0], fields[1]
    if verdict.word == "passed":
        return 1, 0, 0, 0, 0, fields[0], fields[1]
    return 0, fields[0] if fields[1] > 3 else 0, fields[1], 0, int(len(fields) > 2), fields[2] if len(fields) > 2 else 0, 0


class Table:
    """A random table: its rows, and the lines of answers of its front and its back."""

    def __init__(self, rnd, of):
        self.rnd, self.of = rnd, of
        self.slots, self.nodes = rnd.choice((40, 40, 96)), rnd.randint(1, 30)
        policy, fill = rnd.choice(POLICIES), rnd.choice(FILLS)
        window, horizon = rnd.choice((55, 200, 540, 900, 1500, 4000, 16383)), rnd.choice((60, 300, 2000))
        self.master = of.Master(of.System(0, 0, window, self.nodes, self.slots, policy, fill, horizon, None))
        self.rows = [f"R {horizon} {window} {self.nodes} {self.slots} {POLICIES.index(policy)} {FILLS.index(fill)}"]
        self.halves, self.learned = ["", ""], 0
        self.used = rnd.sample(range(self.slots), rnd.choice((4, 10, 30, self.slots)))
        many = rnd.randint(2, 7)
        for place in range(many):
            if place == many // 2:
                self.rows.append("H")
            self.change(self.halves, int(place >= many // 2))
        self.rows.append("F")

    def entry(self, slot):
        """A random entry, of which one in fifty breaks a rule."""
        rnd, is_odd = self.rnd, self.rnd.random() < .02
        period = rnd.choice(PERIODS) * (0 if is_odd and rnd.random() < .3 else 1)
        deadline = rnd.randint(1, max(1, period)) + (1 if is_odd and rnd.random() < .3 else 0)
        return self.of.Entry(slot, rnd.randrange(self.nodes + is_odd), rnd.randint(0, 9 if is_odd else 8),
                             rnd.choice((0, 0, 1, 2, 7, rnd.randrange(50))), period, deadline, rnd.randrange(256))

    def operations(self):
        """The operations of a random change."""
        rnd, operations = self.rnd, []
        live = [placed.entry.slot for placed in self.master.table if placed.end is None]
        for _ in range(rnd.choice((1, 1, 2, 4, 8, 16))):
            word = rnd.choices(KINDS, (6, 2, 1))[0] if live else "add"
            free = [slot for slot in self.used if slot not in live and slot not in [it[1] for it in operations]]
            slot = rnd.choice(live) if word != "add" else rnd.choice(free) if free and rnd.random() < .97 else rnd.randrange(self.slots)
            operations.append((word, slot, self.entry(slot) if word != "rm" else None))
        return operations

    def change(self, halves, half):
        """A change, and cycles after it."""
        rnd, operations = self.rnd, self.operations()
        start = max(0, self.master.next + rnd.choice((0, 0, 1, 2, 5, 20, -1 if rnd.random() < .2 else 3)))
        change = self.of.Change(rnd.randint(1, 8), start, operations)
        told = " ".join(f"{KINDS.index(word)} {slot} " + ("0 0 0 0 0 0" if it is None else
                                                         f"{it.node} {it.phase} {it.period} {it.deadline} {it.length} {it.priority}")
                        for word, slot, it in operations)
        self.rows.append(f"C {change.operator} {start} {len(operations)} {told}")
        verdict = self.master.submit(change)
        self.learned |= verdict.word == "accepted"
        halves[half] += "v " + " ".join(map(str, numbers(verdict))) + "\n"
        cycles = rnd.choice((0, 1, 3, 10, 40))
        self.rows.append(f"N {cycles}")
        for _ in range(cycles):
            cycle, mask, sent = self.master.open()
            window = sum(self.of.worst(it[0].entry.length) for it in sent.values())
            halves[half] += f"o {cycle} {mask & (1 << 64) - 1:x} {mask >> 64:x} {window} {int(self.learned)}\n"
            self.learned = 0


class Tables:
    """So many random tables, in a file, and what the test has to print of them."""

    def __init__(self, file, count, seed=1):
        from fttcan_reference import bus, plan, types  # pylint: disable=import-outside-toplevel
        of = type("Of", (), {"Master": plan.Master, "System": types.System, "Change": types.Change, "Entry": types.Entry,
                             "worst": staticmethod(bus.worst)})
        self.file, self.count, self.whole, self.front, self.back = pathlib.Path(file), count, [], [], []
        rnd = random.Random(seed)
        with open(file, "w", encoding="ascii") as rows:
            for _ in range(count):
                table = Table(rnd, of)
                rows.writelines(f"{row}\n" for row in table.rows)
                for wanted, text in ((self.whole, "".join(table.halves)), (self.front, table.halves[0]), (self.back, table.halves[1])):
                    wanted.append(f"f {summed(text):016x}")
