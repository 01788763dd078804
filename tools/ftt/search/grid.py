"""The tables of fttsearch: the grid that was asked for, and what the program says of each of its points."""
import csv
import io
import itertools
import os
import pathlib
import re
import stat
import sys
from collections import namedtuple
from fractions import Fraction

from ..faults import Refused
from ..limits import FILLS, POLICIES
from ..rows import MARK
from ..telling import decimal, listed, some

WORDS = {"policy": POLICIES, "fill": FILLS}
# Axes whose values are decimal numbers, as texts with at most so many places; those of a message have its name after.
AMOUNTS, PLACES = ("kbits", "cycle_us", "deadline_ms", "period_ms"), 6
# What an axis has where its values are all that may be accepted.
ALL = "all"
# The first row of a table, and the columns after those of the axes.
FRONT, COLUMNS = "#grid", ["accepted", "change", "why"]

# A point of the grid is a tuple of values, one for each axis. What is said of it: whether all is accepted; else the
# number of the first change that is not, and its verdict or the program's line on a file.
Answer = namedtuple("Answer", "accepted change why")


class Failed(Exception):
    """A file that can't be read or written, or a program that gives no answer."""


class Amount(Fraction):
    """A decimal number of an axis, which is written as one."""

    def __str__(self):
        return decimal(self, PLACES)

    def __format__(self, spec):
        return format(str(self), spec)


def read(path):
    """The text of a file, without a byte order mark."""
    try:
        return pathlib.Path(path).read_bytes().removeprefix(MARK).decode("utf-8", "surrogateescape")
    except OSError as fault:
        raise Failed(f"{path}: {fault.strerror or fault}. Is it the right path?") from fault


def ranges(values):
    """The values of an axis as a text: words, or numbers as FIRST:LAST:STEP where three or more have one distance."""
    if values is None:
        return ALL
    values, texts = list(values), []
    while values:
        many = 1
        if len(values) > 2 and not isinstance(values[0], str):
            step = values[1] - values[0]
            many = next((at for at in range(1, len(values)) if values[at] - values[at - 1] != step), len(values))
        if many > 2:
            texts.append(f"{values[0]}:{values[many - 1]}:{decimal(step, PLACES)}")
        else:
            many = 1
            texts.append(str(values[0]))
        del values[:many]
    return " ".join(texts)


def value_of(name, text):
    """The value of an axis of this name."""
    words = WORDS.get(name)
    if words is not None:
        return words[words.index(text)]
    if name.partition(".")[0] in AMOUNTS:
        return Amount(text)
    if name not in ("window", "deadline", "slots") and not re.fullmatch(r"period\.[0-9]{1,2}", name):
        raise ValueError
    return int(text)


def stepped_range(first, last, step):
    """The numbers from the first one to the last one, as far from each other as the step says."""
    return [type(first)(first + step * place) for place in range((last - first) // step + 1)]


def values_of(name, text):
    """The values of an axis from such a text."""
    if text == ALL:
        return None
    values = []
    for part in text.split(" "):
        numbers = [value_of(name, it) for it in part.split(":")]
        values += stepped_range(*numbers) if len(numbers) == 3 else numbers
    return values


class Grid:
    """What is asked for: the values of each axis, of how many parts this is which one, a sum over the files, and the
    axes that are refined. The last axis may have all windows that may be accepted, as None."""

    def __init__(self, axes, part=(1, 1), files="", refined=None):
        self.axes, self.part, self.files, self.refined = axes, part, files, refined
        self.names = list(axes)
        self.places = {name: {value: at for at, value in enumerate(values)} for name, values in axes.items()
                       if values is not None}

    def has(self, point):
        """Whether a point is one of the grid."""
        return all(value in self.places.get(name, (value,)) for name, value in zip(self.names, point))

    def key(self, point):
        """The place of a point in the order of the grid."""
        return tuple(self.places[name][value] if name in self.places else value
                     for name, value in zip(self.names, point))

    def points(self, part=None):
        """The points of a part of the grid, in their order; without a part, those of this one."""
        number, many = part or self.part
        return list(itertools.product(*self.axes.values()))[number - 1::many]

    def row(self):
        """The first row of a table of these points."""
        axes = [f"{name}={ranges(values)}" for name, values in self.axes.items()]
        refined = [] if self.refined is None else [f"refined={' '.join(self.refined) or 'nothing'}"]
        return [FRONT, f"part={self.part[0]}/{self.part[1]}", f"files={self.files}", *refined, *axes]

    def header(self):
        """The second row."""
        return [*self.names, *COLUMNS]

    def differs(self, other, is_part=False):
        """What another grid has in another way, as a text of both; None where it has nothing, the part left out."""
        pairs = itertools.zip_longest(self.row()[1 if is_part else 2:], other.row()[1 if is_part else 2:],
                                      fillvalue="nothing")
        return next((f"{one}, and not {two}" for one, two in pairs if one != two), None)


def grid_of(row):
    """The grid of the first row of a table."""
    fields = dict(field.split("=", 1) for field in row[1:])
    number, many = (int(it) for it in fields.pop("part").split("/"))
    files, refined = fields.pop("files"), fields.pop("refined", None)
    if not 1 <= number <= many or not fields:
        raise ValueError
    return Grid({name: values_of(name, text) for name, text in fields.items()}, (number, many), files,
                None if refined is None else [name for name in refined.split(" ") if name in fields])


def row_of(point, said):
    """The row of a point."""
    return [*point, "yes" if said.accepted else "no", said.change or "", said.why]


def point_of(names, row):
    """The point of a row of a table, and what is said of it."""
    if len(row) != len(names) + 3 or row[-3] not in ("yes", "no"):
        raise ValueError
    point = tuple(value_of(name, it) for name, it in zip(names, row))
    return point, Answer(row[-3] == "yes", int(row[-2]) if row[-2] else None, row[-1])


class Tables:
    """What some tables of one grid say: that grid, how often each part of it stands there, and the points."""

    def __init__(self):
        self.grid, self.parts, self.found = None, {}, {}

    def begin(self, grid, place):
        """A first row."""
        if self.grid is None:
            self.grid = grid
        other = grid.differs(self.grid)
        if other or grid.part[1] != self.grid.part[1]:
            other = other or f"{grid.part[1]} parts"
            raise Refused(f"{place}: this is another grid than above: {other}. Join parts of one grid.")
        self.parts[grid.part[0]] = self.parts.get(grid.part[0], 0) + 1

    def row(self, row, place):
        """A row that is none of the first two."""
        try:
            point, said = point_of(self.grid.names, row)
        except ValueError as fault:
            raise Refused(f"{place}: this is no row of a table. Give files that --csv has written.") from fault
        if not self.grid.has(point):
            raise Refused(f"{place}: the grid of this table has no such point. Give files that --csv has written.")
        if self.found.setdefault(point, said) != said:
            raise Refused(f"{place}: this point has another answer above. Join parts of one grid.")

    def take(self, path, text):
        """The rows of a table."""
        for line, row in enumerate(csv.reader(io.StringIO(text, newline="")), 1):
            place = f"{path}:{line}"
            if row[:1] == [FRONT]:
                try:
                    self.begin(grid_of(row), place)
                except (ValueError, KeyError) as fault:
                    raise Refused(f"{place}: this is no first row of a table. Give files that --csv has "
                                  "written.") from fault
            elif line == 1:
                raise Refused(f"{place}: this is no row of a table: a row {FRONT} with the grid stands in front of "
                              "each. Give files that --csv has written.")
            elif row != self.grid.header():
                self.row(row, place)

    def holes(self):
        """The parts of the grid that are not whole, as texts."""
        texts, many = [], self.grid.part[1]
        for number in range(1, many + 1):
            points = self.grid.points((number, many))
            known = sum(point in self.found for point in points)
            if known < len(points):
                texts.append(f"part {number}/{many} " + (f"has {known} of its {some(len(points), 'point')}"
                                                        if number in self.parts else "is missing"))
        return texts


def joined(paths):
    """The tables of all parts of a grid as one, with its points in order. Parts that are not whole are refused."""
    tables = Tables()
    for path in paths:
        tables.take(path, sys.stdin.read() if path == "-" else read(path))
    if not tables.found:
        raise Refused("there is no point in these tables.")
    if tables.grid.refined is not None:
        raise Refused("a table of lines is no part of a grid, and is not joined: --resume goes on with it, and tells what "
                      "it has.")
    holes = tables.holes()
    if holes:
        more = f", and {len(holes) - 5} more parts are not whole" if len(holes) > 5 else ""
        raise Refused(f"the grid has holes: {listed(holes[:5])}{more}. Give the tables of all parts; --resume goes on "
                      "with a table that is not whole.")
    for number, many in sorted(tables.parts.items()):
        if many > 1:
            print(f"fttsearch: part {number}/{tables.grid.part[1]} stands here {many} times, with the same answers",
                  file=sys.stderr)
    whole = Grid(tables.grid.axes, files=tables.grid.files)
    return whole, {point: tables.found[point] for point in whole.points()}


class Output:
    """A file that is written to, from its beginning. It is opened at once, and keeps what it has until `begin`. For -
    it is standard output. A file that is still empty at the end, and was not there before, is taken away."""

    def __init__(self, path):
        self.path, self.is_new, self.file = path, path != "-" and not os.path.exists(path), sys.stdout
        if path != "-":
            with self.told():
                # pylint: disable-next=consider-using-with
                self.file = open(path, "a", encoding="utf-8", errors="surrogateescape", newline="")
        self.is_regular = path != "-" and stat.S_ISREG(os.fstat(self.file.fileno()).st_mode)

    def told(self):
        """Turns a fault of the file into a line."""
        return Told(self)

    def begin(self, kept=0):
        """Leaves so many bytes of what the file had."""
        if self.is_regular:
            with self.told():
                self.file.truncate(kept)

    def put(self, text):
        """Writes a text. A reader that has ended, as head, is no fault: it gets no more."""
        if self.file is None:
            return
        with self.told():
            self.file.write(text)
            self.file.flush()

    def stop(self):
        """Writes no more."""
        if self.path == "-":
            sys.stdout = None
        self.file = None

    def end(self):
        """Closes the file."""
        if self.path != "-" and self.file is not None:
            with self.told():
                self.file.close()
            if self.is_new and self.is_regular and os.path.getsize(self.path) == 0:
                os.unlink(self.path)


class Told:
    """What makes a line of a fault of an output. A reader that has ended gets no more, and that is no fault."""

    def __init__(self, output):
        self.output = output

    def __enter__(self):
        return self

    def __exit__(self, kind, fault, trace):
        if isinstance(fault, BrokenPipeError):
            self.output.stop()
            return True
        if isinstance(fault, OSError):
            self.output.stop()
            raise Failed(f"{self.output.path}: {fault.strerror or fault}. May it be written?") from fault
        return False


class AnyTable:
    """A table of a grid: what was found, of which an earlier call may have left some, and so many bytes of it."""

    def __init__(self, path, grid, is_resumed):
        self.output, self.grid, self.found, self.kept = Output(path), grid, {}, 0
        if is_resumed and self.output.is_regular:
            self.resume(pathlib.Path(path).read_bytes())

    def resume(self, old):
        """Takes the rows of an earlier call, without a last one that it has not ended."""
        whole = old[:old.rfind(b"\n") + 1]
        if old and not old.startswith(FRONT.encode() + b","):
            raise Refused(f"{self.output.path}: this is no table that can be gone on with: its first row is no "
                          f"{FRONT}. Write to another file.")
        tables = Tables()
        tables.take(self.output.path, whole.decode("utf-8", "surrogateescape"))
        other = tables.grid and tables.grid.differs(self.grid, True)
        if other:
            raise Refused(f"{self.output.path}: this table is of another grid, or of other files: {other}. Write to "
                          "another file.")
        if tables.found:
            self.found, self.kept = tables.found, len(whole)

    def begin(self):
        """Writes the first two rows, where they are not there."""
        self.output.begin(self.kept)
        if not self.kept:
            self.put([self.grid.row(), self.grid.header()])

    def put(self, rows):
        """Writes some rows at once."""
        self.output.put(text_of(rows))

    def rewrite(self, points):
        """Writes the table anew, with the points in this order."""
        other = Output(self.output.path + ".new")
        other.begin()
        other.put(text_of([self.grid.row(), self.grid.header(), *(row_of(it, self.found[it]) for it in points)]))
        other.end()
        os.replace(other.path, os.path.realpath(self.output.path))


class Table(AnyTable):
    """A table whose rows are written as the answers come: in the order of the grid, each as soon as those in front of
    it are there."""

    def __init__(self, path, grid, is_resumed):
        super().__init__(path, grid, is_resumed)
        self.points = grid.points()
        self.is_in_order = list(self.found) == self.points[:len(self.found)]
        self.waiting = [point for point in reversed(self.points) if point not in self.found]

    def add(self, point, said):
        """Takes an answer, and writes what can be written."""
        self.found[point] = said
        rows = []
        while self.waiting and self.waiting[-1] in self.found:
            point = self.waiting.pop()
            rows.append(row_of(point, self.found[point]))
        if rows:
            self.put(rows)

    def end(self):
        """Writes the answers that wait for one in front of them. A whole table is left in the order of the grid."""
        self.put([row_of(point, self.found[point]) for point in reversed(self.waiting) if point in self.found])
        self.output.end()
        if not self.is_in_order and len(self.found) == len(self.points) and self.output.file is not None:
            self.rewrite(self.points)


class LineTable(AnyTable):
    """A table of lines: each is written when all of it is known. At the end the rows are left in the order of the grid.
    What can't be written anew, as standard output, is written then alone."""

    def __init__(self, path, grid, is_resumed):
        super().__init__(path, grid, is_resumed)
        self.lines, self.is_whole, self.written = {}, False, list(self.found)
        for point, said in self.found.items():
            self.lines.setdefault(point[:-1], {})[point[-1]] = said

    def known(self, line):
        """What is known along a line, by its windows."""
        return self.lines.get(line, {})

    def take(self, line, new):
        """Takes the answers of a line that were not known."""
        self.lines.setdefault(line, {}).update(new)
        points = [(*line, window) for window in sorted(new)]
        self.found.update({point: new[point[-1]] for point in points})
        if self.output.is_regular:
            self.put([row_of(point, self.found[point]) for point in points])
            self.written += points

    def end(self):
        """Ends the table."""
        points = sorted(self.found, key=self.grid.key)
        if not self.output.is_regular:
            self.put([row_of(point, self.found[point]) for point in points])
        self.output.end()
        if self.output.is_regular and self.is_whole and self.written != points and self.output.file is not None:
            self.rewrite(points)


def text_of(rows):
    """Rows as text."""
    text = io.StringIO()
    csv.writer(text, lineterminator="\n").writerows(rows)
    return text.getvalue()
