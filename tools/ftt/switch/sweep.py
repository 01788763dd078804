"""Changes that are asked for before each cycle of a plan: what is said, when the first frames come, and the gaps."""
import copy
from collections import namedtuple

from ..desk import ACCEPTED
from ..ends import earliest_end, latest_end, slots_in
from ..table import changed, live_of

STAYS, COMES, GOES, CHANGES = "stays", "comes", "goes", "changes"

# What was found before a cycle: the verdicts on the changes; and where all are accepted, how many bit times after the hit
# the last first frame has ended at the latest, and its slot. None where no message comes.
Trial = namedtuple("Trial", "cycle verdicts hit slot")
# The longest time between the ends of two frames of a slot, in bit times, and the cycle before which was asked then.
Gap = namedtuple("Gap", "bits cycle")
# A change with its START, as the tables of the tools take it.
Made = namedtuple("Made", "start operations")


def table_of(script, cycle=0):
    """The table after a script in which all is accepted, and the cycle that is next."""
    table = {}
    for item in script:
        if isinstance(item, int):
            cycle += item
        else:
            table = changed(table, Made(cycle + item.ahead, item.operations))
    return table


class Subject:
    """What a switch does to each slot: its part, and its entries before and after, whose times count from START."""

    def __init__(self, setup, asked):
        self.before = {slot: live for slot, entries in table_of(setup).items() for live in [live_of(entries)] if live}
        self.parts = {slot: STAYS for slot in self.before}
        self.operations, self.ahead, many = {}, {}, max((it.ahead for it in asked), default=0)
        self.most_ahead = many
        for change in asked:
            for operation in change.operations:
                slot = operation.fields["SLOT"]
                self.parts[slot] = {"add": COMES, "remove": GOES, "change": CHANGES}[operation.word]
                self.operations[slot], self.ahead[slot] = operation.fields, change.ahead
        olds = {slot: it.length for slot, it in self.before.items()}
        news = {slot: it["LENGTH"] for slot, it in self.operations.items() if "LENGTH" in it}
        self.least = {slot: min(it for it in (olds.get(slot), news.get(slot)) if it is not None)
                      for slot in {**olds, **news}}
        self.most = {slot: max(it for it in (olds.get(slot), news.get(slot)) if it is not None)
                     for slot in {**olds, **news}}
        # From how many cycles after the asked one on a frame of a slot is one of the new entry.
        self.since = {}
        for slot, part in self.parts.items():
            fields, ahead = self.operations.get(slot), self.ahead.get(slot, 0)
            if part == COMES:
                self.since[slot] = ahead + fields["PHASE"]
            elif part == CHANGES:
                old = self.before.get(slot)
                self.since[slot] = ahead + fields["PHASE"] + (old.deadline - 1 if old else 0)
            elif part == STAYS:
                self.since[slot] = 0

    def of(self, *parts):
        """The slots of these parts, the least first."""
        return sorted(slot for slot, part in self.parts.items() if part in parts)

    def span(self, begin):
        """Within how many cycles all messages that come, change or stay have been sent."""
        spans = [1]
        for slot, since in self.since.items():
            fields, old = self.operations.get(slot), self.before.get(slot)
            if fields is not None:
                spans.append(since + fields["DEADLINE"])
            if old is not None:
                spans.append(max(0, old.origin + old.phase - begin) + old.period + old.deadline)
        return max(spans) + 1


class Ends:
    """The latest and the earliest end of the frame of a slot in a cycle of these slots, each worked out once."""

    def __init__(self, cycle, subject):
        self.cycle, self.subject, self.late, self.early = cycle, subject, {}, {}

    def latest(self, mask, slot):
        """At the latest."""
        key = mask, slot
        if key not in self.late:
            self.late[key] = latest_end(self.cycle, mask, slot, self.subject.least)
        return self.late[key]

    def earliest(self, mask, slot):
        """At the earliest."""
        key = mask, slot
        if key not in self.early:
            self.early[key] = earliest_end(self.cycle, mask, slot, self.subject.least, self.subject.most)
        return self.early[key]


def steady_gaps(base, subject, ends):
    """By slot: the longest time between the ends of two frames of the plan that runs, however long it runs; and by slot the
    cycle of its last frame before `end` with its slots."""
    masks, last, found = base.masks(), {}, {}
    first = max(base.first, base.begin)
    cycles = [(base.begin + place, mask) for place, mask in enumerate(masks)]
    again = [(cycle + base.length, mask) for cycle, mask in cycles if cycle >= first]
    at_end = None
    for cycle, mask in cycles + again:
        if cycle == base.end:
            at_end = dict(last)
        for slot in slots_in(mask):
            if slot in last and subject.parts.get(slot) is not None:
                before, of_before = last[slot]
                bits = (cycle - before) * base.rules.cycle + ends.latest(mask, slot) - ends.earliest(of_before, slot)
                found[slot] = max(found.get(slot, 0), bits)
            last[slot] = cycle, mask
    return found, last if at_end is None else at_end


class Sweep:
    """What is found before each of some cycles."""

    def __init__(self, base, asked):
        self.base, self.asked = base, asked
        self.subject = Subject(base.setup, asked)
        self.ends = Ends(base.rules.cycle, self.subject)
        self.most = self.subject.span(base.begin) + self.subject.most_ahead
        self.steady, self.last = steady_gaps(base, self.subject, self.ends)
        self.trials, self.gaps, self.firsts = [], {}, {}
        # By slot the cycle of its last frame before the next cycle that is tried, and the slots of that cycle.
        self.before, self.seen = {}, base.begin
        self.begin()

    def fresh(self):
        """Another one of the same base and changes, which has tried nothing. What the plan says is not worked out again."""
        other = copy.copy(self)
        other.trials, other.gaps, other.firsts = [], {}, {}
        other.before, other.seen = {}, self.base.begin
        other.begin()
        return other

    def take(self, trials, gaps, firsts):
        """Takes what another one has found before later cycles."""
        self.trials += trials
        for mine, theirs in ((self.gaps, gaps), (self.firsts, firsts)):
            for slot, gap in theirs.items():
                if slot not in mine or gap.bits > mine[slot].bits:
                    mine[slot] = gap

    def begin(self):
        """Takes the last frames before the first cycle, where the plan has repeated before."""
        base = self.base
        if base.first <= base.begin:
            self.before = {slot: (cycle - base.length, mask) for slot, (cycle, mask) in self.last.items()}

    def upto(self, cycle):
        """Goes on in the plan that runs, up to a cycle."""
        masks, base = self.base.masks(), self.base
        while self.seen < cycle:
            if self.seen == base.first:
                steady = {slot: (at - base.length, mask) for slot, (at, mask) in self.last.items()}
                self.before = steady | self.before
            for slot in slots_in(masks[self.seen - base.begin]):
                self.before[slot] = self.seen, masks[self.seen - base.begin]
            self.seen += 1
        if cycle == base.first:
            self.before = {slot: (at - base.length, mask) for slot, (at, mask) in self.last.items()} | self.before

    def at(self, cycle):
        """Asks before a cycle, which is not before the one that was asked for last."""
        verdicts, masks = self.base.trial(cycle, self.asked, self.most)
        if any(it.word != ACCEPTED for it in verdicts):
            trial = Trial(cycle, verdicts, None, None)
        else:
            self.upto(cycle)
            trial = Trial(cycle, verdicts, *self.followed(cycle, masks))
        self.trials.append(trial)
        return trial

    def followed(self, cycle, masks, later=None):
        """Follows the cycles after a switch until all messages have been sent. How late the last first frame has ended
        after the hit, and its slot. Some slots may be asked for so many cycles later."""
        subject, length, ends = self.subject, self.base.rules.cycle, self.ends
        waiting, before = dict(subject.since), self.before
        for slot, more in (later or {}).items():
            if slot in waiting:
                waiting[slot] += more
        last = {}
        worst, of_slot = None, None
        wanted = sum(1 << slot for slot in waiting)
        for place, mask in enumerate(masks):
            hits = mask & wanted
            while hits:
                bit = hits & -hits
                hits ^= bit
                slot = bit.bit_length() - 1
                part, late = subject.parts[slot], ends.latest(mask, slot)
                if part != COMES:
                    known = last.get(slot) or before.get(slot)
                    if known is not None:
                        bits = (cycle + place - known[0]) * length + late - ends.earliest(known[1], slot)
                        if slot not in self.gaps or bits > self.gaps[slot].bits:
                            self.gaps[slot] = Gap(bits, cycle)
                    last[slot] = cycle + place, mask
                if place < waiting[slot]:
                    continue
                if part != STAYS:
                    # A hit comes at any time of the cycle before.
                    hit = (1 + place) * length + late
                    if slot not in self.firsts or hit > self.firsts[slot].bits:
                        self.firsts[slot] = Gap(hit, cycle)
                    if worst is None or hit > worst:
                        worst, of_slot = hit, slot
                wanted ^= bit
            if not wanted:
                break
        return worst, of_slot

    def refused(self):
        """The trials in which a change is refused."""
        return [it for it in self.trials if any(each.word != ACCEPTED for each in it.verdicts)]


def is_whole(trial):
    """Whether all changes of a trial are accepted."""
    return all(it.word == ACCEPTED for it in trial.verdicts)


def is_half(trial):
    """Whether one is accepted and another one is refused."""
    words = [it.word == ACCEPTED for it in trial.verdicts]
    return any(words) and not all(words)
