"""Refining: points are tried coarsely, and then between neighbours of which one is accepted and one is refused.

A line is a point of all axes but the window. The windows of a line are refined where the line is asked, and the other
axes of numbers in rounds over all lines; a line counts as accepted where one of its windows is. Acceptance need not be
monotone, so a border that lies between two neighbours of the same answer is not found. The table has what was tried.
"""
import itertools
import math

from .asking import Progress, workers_of

# So many values of an axis are tried first.
COARSE = 9


def coarse(many, few=COARSE):
    """Places of so many values, spread evenly, with both ends: at most a few."""
    if many <= few:
        return list(range(many))
    return sorted({round(place * (many - 1) / (few - 1)) for place in range(few)})


def searched(values, ask):
    """Asks at values in order: coarsely, and then between neighbours that are answered in another way, down to two that
    stand side by side. By its value each answer."""
    found = {}

    def at(place):
        if values[place] not in found:
            found[values[place]] = ask(values[place])
        return found[values[place]].accepted

    places = coarse(len(values))
    for low, high in itertools.pairwise(places if len(places) != 1 else places * 2):
        while high - low > 1 and at(low) != at(high):
            middle = (low + high) // 2
            if at(middle) == at(low):
                low = middle
            else:
                high = middle
        at(low), at(high)
    return found


class LineQuestion:
    """What is asked of a line: windows that are wanted, or None for all that may be accepted; and whether they are
    refined. The source gives what may be asked of a line."""

    def __init__(self, source, wanted, is_refined):
        self.source, self.wanted, self.is_refined = source, wanted, is_refined

    def answer(self, engine, task):
        """The answers along a line that are not known yet, by their windows."""
        line, known = task
        one, new = self.source.line(line), {}

        def ask(window):
            if window not in known:
                new[window] = one.ask(engine, window)
            return known.get(window) or new[window]

        windows = one.windows(self.wanted)
        if self.is_refined:
            searched(windows, ask)
        else:
            for window in windows:
                ask(window)
        return new


class Rounds:
    """The lines of a grid, round by round: first those of coarse values, and then those between neighbours of which one
    is accepted and one is not. Axes that are not refined are tried whole."""

    def __init__(self, axes, refined):
        self.axes, self.names = axes, list(axes)
        self.refined = [at for at, name in enumerate(self.names) if name in refined]
        self.found = {}

    def first(self):
        """The lines of the first round, as places in the axes."""
        return list(itertools.product(*([*coarse(len(values))] if at in self.refined else range(len(values))
                                        for at, values in enumerate(self.axes.values()))))

    def line(self, places):
        """The values of a line."""
        return tuple(values[place] for values, place in zip(self.axes.values(), places))

    def next(self):
        """The lines of the next round."""
        wanted = set()
        for axis in self.refined:
            along = {}
            for places in self.found:
                along.setdefault(places[:axis] + (None,) + places[axis + 1:], []).append(places[axis])
            for rest, tried in along.items():
                def at(place, rest=rest):
                    return rest[:axis] + (place,) + rest[axis + 1:]
                for low, high in itertools.pairwise(sorted(tried)):
                    if high - low > 1 and self.found[at(low)] != self.found[at(high)]:
                        wanted.add(at((low + high) // 2))
        return sorted(wanted - set(self.found))


def tried(asked, question, rounds, table, words):
    """Tries the lines, round by round, and gives their answers to the table: those of a line at once."""
    lines = rounds.first()
    with workers_of(question, asked, words) as workers:
        while lines:
            progress, by_line = Progress(len(lines), "lines"), {rounds.line(places): places for places in lines}
            tasks = [(line, table.known(line)) for line in by_line]
            try:
                for (line, known), new in workers.answers(tasks, 12, True):
                    table.take(line, new)
                    is_accepted = any(said.accepted for said in [*known.values(), *new.values()])
                    rounds.found[by_line[line]] = is_accepted
                    progress.step(is_accepted)
            finally:
                progress.end()
            lines = rounds.next()


def most_lines(axes):
    """How many lines a grid has."""
    return math.prod(len(values) for values in axes.values())
