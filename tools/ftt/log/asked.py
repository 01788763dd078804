"""Requests of a recording against those of a run: each is there once, in the order of its identifier, in any place."""
import collections

# A request that was sent: its cycle, its data, and its line in the recording, or None of one of the run.
Sent = collections.namedtuple("Sent", "cycle data line")


class Pairs:
    """The requests of one identifier: which of the recording is which of the run. Those of the run before and after
    the recorded cycles are edges: a request that the bus sent earlier or later than the run did is found there."""

    def __init__(self, own, seen, first, last):
        self.own, self.seen, self.first, self.last = own, seen, first, last
        self.of_seen, self.taken, self.lag = {}, set(), 0
        self.in_cycle()
        self.moved(first, last)
        self.lag = max((abs(seen[at].cycle - own[it].cycle) for at, it in self.of_seen.items()), default=0)

    def take(self, at, it):
        """The request at this place of the recording is that of the run."""
        self.of_seen[at] = it
        self.taken.add(it)

    def free(self):
        """The places of the recording that have no request of the run."""
        return [at for at in range(len(self.seen)) if at not in self.of_seen]

    def left(self, first, last):
        """The places of the run between two cycles that no request of the recording has."""
        return [it for it, own in enumerate(self.own) if it not in self.taken and first <= own.cycle <= last]

    def in_cycle(self):
        """Those that are sent in the cycle of the run."""
        own = collections.defaultdict(collections.deque)
        for it, sent in enumerate(self.own):
            own[sent[:2]].append(it)
        for at, sent in enumerate(self.seen):
            if own.get(sent[:2]):
                self.take(at, own[sent[:2]].popleft())

    def moved(self, first, last):
        """Those that are sent in another cycle, of the run's cycles from first to last."""
        own = collections.defaultdict(collections.deque)
        for it in self.left(first, last):
            own[self.own[it].data].append(it)
        for at in self.free():
            if own.get(self.seen[at].data):
                self.take(at, own[self.seen[at].data].popleft())

    def at_edges(self, lag):
        """Those that the run sends outside of the recorded cycles, at most so many cycles away."""
        outside = self.left(self.first - lag, self.first - 1) + self.left(self.last + 1, self.last + lag)
        for at in self.free() if outside else ():
            sent = self.seen[at]
            found = next((it for it in outside if self.own[it].data == sent.data
                          and abs(self.own[it].cycle - sent.cycle) <= lag and it not in self.taken), None)
            if found is not None:
                self.take(at, found)

    def changed(self):
        """Pairs of one cycle whose data differ: the place of each in the recording and in the run."""
        free = collections.defaultdict(collections.deque)
        for at in self.free():
            free[self.seen[at].cycle].append(at)
        for it in self.left(self.first, self.last):
            if free.get(self.own[it].cycle):
                at = free[self.own[it].cycle].popleft()
                self.take(at, it)
                yield at, it

    def missing(self, head, tail):
        """The requests of the run that are not there, without those of so many cycles at both ends, which may have been
        sent outside of the recording."""
        return self.left(self.first + head, self.last - tail)

    def out_of_order(self):
        """The places of the recording whose request stands before one that was sent earlier. Equal data have no
        order."""
        groups = collections.defaultdict(list)
        for at, it in self.of_seen.items():
            groups[self.own[it].data].append((at, it))
        turns = {}
        for group in groups.values():
            turns.update(zip(sorted(at for at, _ in group), sorted(it for _, it in group)))
        found, least = [], float("inf")
        for at in sorted(turns, reverse=True):
            if turns[at] > least:
                found.append(at)
            least = min(least, turns[at])
        return found[::-1]
