"""A design: the files of a folder as fttmodel writes them, what they say, and what the planner says of them."""
import csv
import hashlib
import io
import pathlib
import re
import tomllib
from collections import namedtuple
from fractions import Fraction

from .. import bounds, declared, places
from ..desk import Asked, rules_of
from ..faults import Refused, Unread
from ..frames import TRIGGER, worst
from ..limits import FIRST_SLOT
from ..rows import MARK
from ..switch.blocks import acts_in, blocks_in, trimmed
from ..switch.said import Teller, why_refused
from ..switch.sweep import table_of
from ..table import live_of
from ..worst import worst_of

SYSTEM, STEPS, NAMES, ASYNC = FILES = ("system.toml", "steps.csv", "names.csv", "async.csv")
MADE = re.compile(r"# made by fttmodel: ([0-9]+(?:\.[0-9]+)?) kbit/s")

# A message with a slot: what the list says of it (times in milliseconds, None where it says nothing), its entry in cycles,
# and how late it is at worst in bit times; None where no plan is known.
Slotted = namedtuple("Slotted", "slot name sender kind real period deadline entry node priority worst")
# An asynchronous message: its stream or None, its bound in bit times or None, and its deadline in bit times or None.
Owned = namedtuple("Owned", "id name sender real stream bound deadline")
# A file: its name, how many bytes it has, and a sum over them.
Kept = namedtuple("Kept", "name bytes sum")


def millis_in(text):
    """A time of names.csv; None where there is none."""
    return Fraction(text) if re.fullmatch(r"[0-9]+(\.[0-9]+)?", text or "") else None


class Design:
    """What a folder has. `plan` asks for its plan."""

    def __init__(self, folder, kbits=None):
        self.folder, self.texts, self.files = pathlib.Path(folder), {}, []
        for name in FILES:
            self.take(name, name in (SYSTEM, STEPS))
        try:
            document = tomllib.loads(self.texts[SYSTEM])
            self.rules = rules_of(document)
        except (tomllib.TOMLDecodeError, KeyError, TypeError) as fault:
            raise Refused(f"{self.folder / SYSTEM}: this is no system file; {places.tool('fttlint')} says why") from fault
        self.owners = {each["id"]: each["node"] for each in document.get("async", [])}
        made = MADE.match(self.texts[SYSTEM])
        self.kbits = kbits or (Fraction(made[1]) if made else None)
        if self.kbits is None:
            raise Refused(f"{self.folder / SYSTEM}: nothing says the bit rate. Give it with --kbits.")
        path = str(self.folder / STEPS)
        self.blocks = blocks_in(path)
        acts = [act if isinstance(act, int) else Asked(act.operator, act.start, act.operations) for _, act in acts_in(path)
                if isinstance(act, int) or act.operations]
        self.setup = self.blocks[0].setup if self.blocks else trimmed(acts)
        self.table = table_of(self.setup)
        self.named = self.names()
        self.base = self.refused = None
        self.worsts, self.messages, self.owned = {}, [], []

    def take(self, name, is_needed):
        """Reads a file of the folder."""
        path = self.folder / name
        try:
            data = path.read_bytes()
        except OSError as fault:
            if is_needed or path.exists():
                raise Unread(f"{path}: {fault.strerror or fault}. Is it a folder as fttmodel makes it?") from fault
            return
        self.files.append(Kept(name, len(data), hashlib.sha256(data).hexdigest()[:16]))
        try:
            self.texts[name] = data.removeprefix(MARK).decode()
        except UnicodeDecodeError as fault:
            raise Refused(f"{path}: a byte is not UTF-8.") from fault

    def names(self):
        """The rows of names.csv, by slots and identifiers."""
        found = {}
        for row in csv.DictReader(io.StringIO(self.texts.get(NAMES, ""))):
            key = (row.get("slot_or_id") or "").strip()
            if re.fullmatch(r"0x[0-9a-fA-F]+|[0-9]+", key):
                found[int(key, 16) if key.startswith("0x") else int(key)] = row
        return found

    def millis(self, bits):
        """Bit times in milliseconds."""
        return Fraction(bits) / self.kbits

    @property
    def cycle_ms(self):
        """A cycle in milliseconds."""
        return self.millis(self.rules.cycle)

    def teller(self):
        """How its slots are told."""
        return Teller({slot: row.get("name") or f"slot {slot}" for slot, row in self.named.items() if slot <= 95}, self.kbits)

    def plan(self, asked_of):
        """Asks for the plan, and works out what it says of each message."""
        asked_of.call(["replay"], {SYSTEM: self.texts[SYSTEM], STEPS: "cycle,0\n"})
        self.base = asked_of.base(asked_of, self.rules, self.setup)
        if self.base.refused is not None:
            self.refused = why_refused(self.base.refused, 0, self.teller())
        else:
            self.worsts = {slot: it.bits for slot, it in
                           worst_of(self.table, self.base.masks(), self.rules.cycle, self.base.begin).items()}
        self.messages = [self.message(slot, live) for slot, entries in sorted(self.table.items())
                         for live in [live_of(entries)] if live]
        self.owned = self.asynchronous()
        return self

    def message(self, slot, entry):
        """A message with a slot."""
        row = self.named.get(slot, {})
        kind, late = row.get("kind") or "sync", self.worsts.get(slot)
        if late is not None and kind == "polled":
            late += entry.period * self.rules.cycle
        fields = next((it.fields for asked in reversed([it for it in self.setup if not isinstance(it, int)])
                       for it in asked.operations if it.fields["SLOT"] == slot and it.word != "remove"), {})
        return Slotted(slot, row.get("name") or f"slot {slot}", row.get("sender") or f"node {fields.get('NODE')}", kind,
                       row.get("real_id") or "", millis_in(row.get("period_ms")), millis_in(row.get("deadline_ms")), entry,
                       fields.get("NODE"), fields.get("PRIORITY"), late)

    def due(self, it):
        """The deadline of a message with a slot in milliseconds: that of the list, else that of its entry."""
        if it.deadline is not None:
            return it.deadline
        cycles = it.entry.deadline + (it.entry.period if it.kind == "polled" else 0)
        return self.cycle_ms * cycles

    def asynchronous(self):
        """The asynchronous messages, with their bounds."""
        streams, faults = declared.declared_in(self.texts[ASYNC].encode()) if ASYNC in self.texts else ([], [])
        if faults:
            raise Refused(f"{self.folder / ASYNC}: line {faults[0].line}: {faults[0].what}")
        rules, by_id = self.rules, {it.stream.id: it for it in streams}
        layout = bounds.Layout(rules.cycle, rules.turnaround, rules.window, rules.slots)
        found = []
        for identifier in sorted(self.owners):
            it, row = by_id.get(identifier), self.named.get(identifier, {})
            stream = None if it is None or declared.is_any(it.stream) else it.stream
            bound = None if stream is None else bounds.end_bound(layout, [each.stream for each in streams], stream)
            found.append(Owned(identifier, row.get("name") or f"{identifier:#05x}", row.get("sender") or
                               f"node {self.owners[identifier]}", row.get("real_id") or "", stream, bound,
                               None if it is None else it.deadline))
        return found

    def shares(self):
        """The share of the bus that each kind of traffic takes, by the longest frames."""
        rules = self.rules
        found = {"slots": sum((Fraction(worst(it.entry.length), it.entry.period) for it in self.messages), Fraction(0))
                 / rules.cycle, "triggers": Fraction(TRIGGER[rules.slots], rules.cycle)}
        if rules.turnaround:
            found["turnaround"] = Fraction(rules.turnaround, rules.cycle)
        if self.owned:
            found["asynchronous"] = sum((Fraction(worst(it.stream.bytes) * it.stream.burst, it.stream.gap)
                                         for it in self.owned if it.stream), Fraction(0))
        return found

    def least_left(self):
        """The message with a slot of whose deadline the least is left, and how much in milliseconds; None for none."""
        known = [(self.due(it) - self.millis(it.worst), it) for it in self.messages if it.worst is not None]
        return min(known, key=lambda pair: (pair[0], pair[1].slot), default=None)


def bus_id(slot):
    """The identifier of a slot on the bus."""
    return f"{FIRST_SLOT + slot:#05x}"

