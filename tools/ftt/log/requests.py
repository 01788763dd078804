"""Requests of a recording beside those of a run, some cycles at a time: asynchronous frames, and those that ride on slots."""
import collections

from .asked import Pairs, Sent

# A request that the bus sends in another cycle than the run is found so many cycles away at least, and those of the run
# outside of the recording at most so many cycles away.
CARRIED, EDGE = 512, 256


class Requests:
    """The requests of a recording that no request of the run was found for yet, and those of the run. What is wrong goes to
    the comparison."""

    def __init__(self, whole):
        self.whole, self.run = whole, whole.run
        self.asked = set() if whole.words.requests == "any" else self.run.asked
        self.on_slots = set() if whole.words.any_data else self.run.polled
        self.own = {it: [] for it in sorted({*self.asked, *self.on_slots})}
        self.seen = collections.defaultdict(list)
        # The line of each frame of a polled slot.
        self.lines = {}
        self.lag, self.first, self.reached = 0, None, None

    def of_run(self, first, last):
        """Takes the requests that the run sends in some cycles. Where the recording ends, later ones are left out."""
        whole, begin = self.whole, self.whole.begin
        for number in range(first, last + 1) if self.own else ():
            cycle = self.run.at(number)
            for start, _, identifier, data in cycle.frames if cycle is not None else ():
                if identifier in self.own and (identifier not in self.run.polled or any(data)):
                    if not whole.is_cut(number - begin, start - number * whole.length):
                        self.own[identifier].append(Sent(number, data, None))

    def look(self, last, is_last):
        """Compares the requests up to a cycle of the run. Before the end of the recording those of the last cycles wait.
        Up to which cycle all is told."""
        if self.first is None:
            self.first = self.whole.begin
            edge = min(EDGE, last + 1 - self.first) if is_last else EDGE
            self.of_run(self.first - edge, self.first - 1)
            self.reached = self.first - 1
        edge = min(EDGE, last + 1 - self.whole.begin)
        self.of_run(self.reached + 1, last + (edge if is_last else 0))
        self.reached = last
        pairs = {it: Pairs(self.own[it], self.seen[it], self.first, last) for it in self.own}
        self.lag = max([self.lag, *(it.lag for it in pairs.values())])
        cut = float("inf") if is_last else last - CARRIED
        if cut < self.first:
            return cut
        for identifier, pair in pairs.items():
            pair.at_edges(min(self.lag, edge))
            self.tell(identifier, pair, cut, is_last)
            self.carry(identifier, pair, cut)
        self.lines = {key: line for key, line in self.lines.items() if key[0] > cut}
        for identifier in set(self.seen) - set(self.own):
            self.seen[identifier].clear()
        self.first = cut + 1
        return cut

    def carry(self, identifier, pair, cut):
        """Keeps what comes after a cycle, but for what belongs to a request up to it."""
        told_own = {it for at, it in pair.of_seen.items() if pair.seen[at].cycle <= cut}
        told_seen = {at for at, it in pair.of_seen.items() if pair.own[it].cycle <= cut}
        self.own[identifier] = [own for it, own in enumerate(pair.own) if own.cycle > cut and it not in told_own]
        self.seen[identifier] = [seen for at, seen in enumerate(pair.seen) if seen.cycle > cut and at not in told_seen]

    def tell(self, identifier, pair, cut, is_last):
        """The findings of the requests of one identifier, up to a cycle."""
        is_polled = identifier in self.on_slots

        def tell(cycle, kind, line, own=None, seen=None):
            if cycle <= cut:
                self.whole.tell(cycle, kind, identifier, line=line, own=own, seen=seen)

        for at, it in pair.changed():
            seen, own = pair.seen[at], pair.own[it]
            kind = "payload" if len(seen.data) == len(own.data) else "length"
            texts = (own.data.hex(), seen.data.hex()) if kind == "payload" else (len(own.data), len(seen.data))
            tell(seen.cycle, kind, seen.line, *texts)
        head = self.lag if pair.first == self.whole.begin and pair.first > self.run.first else 0
        is_open = self.run.last is None or pair.last < self.run.last
        for it in pair.missing(head, self.lag if is_last and is_open else 0):
            own = pair.own[it]
            if not is_polled:
                tell(own.cycle, "missing", None)
            elif (own.cycle, identifier) in self.lines:
                tell(own.cycle, "payload", self.lines[own.cycle, identifier], own.data.hex(), "00" * len(own.data))
        for at in pair.free():
            seen = pair.seen[at]
            if is_polled:
                tell(seen.cycle, "payload", seen.line, "00" * len(seen.data), seen.data.hex())
            elif at and pair.seen[at - 1].data == seen.data:
                tell(seen.cycle, "doubled", seen.line, seen=2)
            else:
                tell(seen.cycle, "stray", seen.line)
        for at in pair.out_of_order():
            tell(pair.seen[at].cycle, "order", pair.seen[at].line)
