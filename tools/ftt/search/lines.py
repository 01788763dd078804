"""A search along lines, over a list or over a system and steps; and what is asked after it."""
import sys

from . import headroom
from .asking import workers_of
from .files import FilesQuestion
from .grid import text_of
from .listed_said import Lines, best_of, point_label, rounding_rows, widest_of
from .ranges import amounts
from .refined import LineQuestion, Rounds, tried


class FilesSource:
    """A system and steps whose windows are asked for; and the names of the axes of a line."""

    def __init__(self, document, rows, names, streams=None):
        self.question = FilesQuestion(document, rows, (*names, "window"), streams)

    def line(self, line):
        """What may be asked along the windows of a line."""
        return FilesLine(self.question, line)


class FilesLine:
    """The windows of one line."""

    def __init__(self, question, line):
        self.question, self.at = question, line

    def windows(self, wanted):
        """The windows to be tried."""
        return wanted

    def ask(self, engine, window):
        """What is said of a window."""
        return self.question.answer(engine, (*self.at, window))


def search_lines(asked, source, grid, table, words):
    """Tries the lines of a grid."""
    outer = {name: values for name, values in grid.axes.items() if name != "window"}
    question = LineQuestion(source, grid.axes["window"], "window" in grid.refined)
    rounds = Rounds(outer, grid.refined)
    tried(asked, question, rounds, table, words)
    table.is_whole = True


def write_rounding(output, source, grid):
    """Writes what rounding costs, for each rate and cycle of a grid."""
    axes = {name: values if name in ("kbits", "cycle_us") else values[:1] for name, values in grid.axes.items()
            if name != "window"}
    rounds = Rounds(axes, ())
    lines = Lines(grid.names, {(*rounds.line(places), 0): None for places in rounds.first()})
    output.begin()
    output.put(text_of(rounding_rows(source, lines)))
    output.end()


def chosen(source, grid, found, rate):
    """The point of a rate at which headroom is asked for: of the best line the widest accepted window; where nothing is
    accepted, the first line that has a table, at the widest window that was tried."""
    lines = Lines(grid.names, found)
    best = best_of(source, lines, rate)
    if best is not None:
        line, window = best[0], widest_of(lines.lines[best[0]])
        return dict(zip(grid.names, (*line, window)))
    with_table = [(windows, line) for line, windows in lines.of(rate).items()
                  if all(said.change is not None for said in windows.values())]
    if not with_table:
        return None
    windows, line = max(with_table, key=lambda it: (lines.values(it[1])["cycle_us"], max(it[0])))
    return dict(zip(grid.names, (*line, max(windows))))


def heads(asked, source, grid, found, words):
    """What is said of the room at the best point of each rate."""
    lines = []
    for rate in Lines(grid.names, found).rates():
        values = chosen(source, grid, found, rate)
        if values is None:
            lines.append(f"headroom at {rate} kbit/s: no point has a table")
            continue
        point = headroom.Point(source, values)
        periods = amounts(words.add, "add")[0] if words.add else headroom.usual_periods(point.messages)
        tasks = headroom.tasks_of(point, periods)
        print(f"fttsearch: headroom at {rate} kbit/s, {len(tasks)} questions", file=sys.stderr)
        with workers_of(headroom.HeadroomQuestion(point), asked, words) as workers:
            answers = dict(workers.answers(tasks, 4))
        answers = {task: answers[task] for task in tasks}
        lines += headroom.told(point, answers, point_label(values))
    return lines
