"""A round of the search for phases: each message in turn where the load is least, and then one moved after the other."""
import itertools
import operator
import random
import time

# A load is counted in millionths of a bit time.
SCALE = 1_000_000
# So many tables are tried for a window before a wider one is, in the shortest rounds; and so many windows below one that
# is found are tried.
TRIES, NEAR = 40, 8


def length_of(number):
    """How much longer than the shortest one a round is, counted from 1: 1, 1, 2, 1, 1, 2, 4, 1 and so on. By Luby, Sinclair
    and Zuckerman no other lengths do much better where nothing is known of how long the luck takes."""
    while number & (number + 1):
        number -= (1 << (number.bit_length() - 1)) - 1
    return (number + 1) // 2


class Round:
    """One way from an order of the messages to phases. `windows` are tried, the first of them that is not out of
    question being at `low`; `moved` are the places of the messages whose phase may be chosen. Rounds have numbers from 0
    on. It ends early at `until`, a time of time.time()."""

    def __init__(self, plan, windows, low, moved, seed, number, until=None):
        self.plan, self.windows, self.low, self.moved = plan, windows, low, moved
        self.chance, self.until = random.Random(f"{seed} {number}"), until
        self.is_first, self.tries = number == 0, TRIES * length_of(number + 1)
        self.phases = [it.phase for it in plan.messages]
        self.load = [0] * plan.common
        # The place of the least window that was reached, its phases, and how many plans were made.
        self.best, self.found, self.tried = len(windows), None, 0

    def is_over(self):
        """Whether the time is over."""
        return self.until is not None and time.time() > self.until

    def spread(self, at, phase):
        """The load of a message: the frame of an instance, over the cycles in which it may be sent."""
        it = self.plan.messages[at]
        one, first = [0] * it.period, it.origin + phase
        for cycle in range(first, first + it.deadline):
            one[cycle % it.period] = it.cost * SCALE // it.deadline
        return one * (self.plan.common // it.period)

    def put(self, at, phase):
        """Adds a message to the load."""
        self.phases[at] = phase
        self.load = list(map(operator.add, self.load, self.spread(at, phase)))

    def take(self, at):
        """Takes a message out of the load."""
        self.load = list(map(operator.sub, self.load, self.spread(at, self.phases[at])))

    def ranked(self, at):
        """The phases of a message, those first that add least to the sum of the fourth powers of the load."""
        it = self.plan.messages[at]
        cubes = [(load / SCALE) ** 3 for load in self.load]
        sums = [0, *itertools.accumulate(cubes + cubes[:it.deadline])]
        added = list(map(operator.sub, sums[it.deadline:], sums))
        by_phase = [sum(added[(it.origin + phase) % it.period::it.period]) for phase in range(it.period)]
        order = list(range(it.period))
        self.chance.shuffle(order)
        # Sums that differ by rounding alone are equal.
        return sorted(order, key=lambda phase: round(by_phase[phase], 3))

    def place_all(self):
        """Places all messages, the longest ones first, or in an order that is near to that."""
        for at in set(range(len(self.phases))) - set(self.moved):
            self.put(at, self.phases[at])
        blur = 0 if self.is_first else 0.5
        keys = {at: self.plan.messages[at].cost / self.plan.messages[at].deadline ** 0.5 *
                self.chance.uniform(1 - blur, 1 + blur) for at in self.moved}
        for at in sorted(self.moved, key=keys.__getitem__, reverse=True):
            self.put(at, self.ranked(at)[0])

    def missed(self, place, most=0):
        """What is missed at a window."""
        self.tried += 1
        return self.plan.missed(self.phases, self.windows[place], most)

    def narrow(self, high):
        """Notes these phases with the least window below `high` that halving finds, or one of some below that. Another
        one may be there, since a wider window may be refused where a narrower one is accepted."""
        low = self.low
        while low < high:
            middle = (low + high) // 2
            low, high = (low, middle) if not self.missed(middle) else (middle + 1, high)
        place = high - 1
        while place >= max(self.low, high - NEAR):
            high = place if not self.missed(place) else high
            place -= 1
        if high < self.best:
            self.best, self.found = high, list(self.phases)

    def next_phase(self, late):
        """A message to move, and its new phase."""
        late = [at for at in late if at in self.moved]
        at = self.chance.choice(late if late and self.chance.random() < 0.5 else self.moved)
        self.take(at)
        ranked = self.ranked(at)
        return at, ranked[int(len(ranked) * self.chance.random() ** 3)]

    def reach(self, place):
        """Moves messages until a window is reached. Whether it is."""
        cost, heat = self.missed(place, float("inf")), 100
        for _ in range(self.tries):
            if cost == 0 or self.is_over():
                break
            at, phase = self.next_phase(self.plan.late_ones())
            old = self.phases[at]
            self.put(at, phase)
            most = cost + self.chance.expovariate(1) * heat
            found = self.missed(place, most)
            heat *= 0.98
            if found <= most:
                cost = found
            else:
                self.take(at)
                self.put(at, old)
        return cost == 0

    def run(self):
        """The place of the least window that was reached, and the phases; len(windows) and None where none was."""
        self.place_all()
        last = len(self.windows) - 1
        if self.missed(last) == 0 or self.reach(last):
            self.narrow(last)
            self.best, self.found = (last, list(self.phases)) if self.found is None else (self.best, self.found)
        low = self.low
        while low < self.best <= last and not self.is_over():
            middle = (low + self.best) // 2
            if self.reach(middle):
                self.narrow(middle)
                self.best, self.found = (middle, list(self.phases)) if self.best > middle else (self.best, self.found)
            else:
                low = middle + 1
        return self.best, self.found
