"""A search: its points or its tables, what is written, and what is said."""
import csv
import os
import signal
import sys
import tomllib

from ..faults import Refused, Unread
from ..limits import FEW_SLOTS, WINDOW
from ..system import room
from . import disturbed, horizons, listed
from .asking import tried
from .bounds import read_streams
from .engine import built, engine, first_call
from .files import FilesQuestion, rows_of
from .grid import Failed, LineTable, Output, Table, joined, read
from .lines import FilesSource, heads, search_lines, write_rounding
from .listed_said import told as told_list, told_refined
from .offsets import Offsets
from .picture import draw
from .ranges import asked_grid, list_grid, refined_grid
from .said import told

SIGNALS = (signal.SIGINT, signal.SIGTERM, signal.SIGHUP)
# After so many seconds an interrupt that was lost comes once more.
AGAIN = 0.01


class Search:
    """What is found: the names of the axes, what is said of each point, how many points there are, and the widest
    window for which a cycle has room. And the outputs."""

    def __init__(self):
        self.names, self.found, self.many, self.widest = [], {}, 0, None
        self.table, self.picture, self.source, self.heads, self.rounding = None, None, None, [], None
        # Of a system and steps: the bus, and the rows of the steps.
        self.bus, self.rows, self.looked = None, [], {}

    def open(self, words, grid):
        """Opens the outputs, before anything is asked."""
        kind = Table if grid.refined is None else LineTable
        self.table = kind(words.resume or words.csv or os.devnull, grid, words.resume is not None)
        self.picture = Output(words.svg) if words.svg else None
        self.rounding = Output(words.rounding) if words.rounding else None
        self.names, self.found = grid.names, self.table.found
        self.many = len(self.table.points) if grid.refined is None else None
        if self.found:
            of_all = "" if self.many is None else f"of {self.many} "
            print(f"fttsearch: {len(self.found)} {of_all}points are known from {words.resume}", file=sys.stderr)

    def try_list(self, words):
        """Tries the lines of a list, and asks for what is left at a point."""
        messages = listed.read(words.system)
        grid = list_grid(words, messages)
        self.source = listed.Source(messages, grid.names[:-1], words.turnaround, words.horizon)
        self.open(words, grid)
        asked = built(engine(words))
        print(f"fttsearch: asks {asked.told()}", file=sys.stderr)
        self.table.begin()
        if self.rounding:
            write_rounding(self.rounding, self.source, grid)
        search_lines(asked, self.source, grid, self.table, words)
        self.looked = horizons.look(asked, self.source, grid, self.found, words)
        if words.headroom:
            self.heads = heads(asked, self.source, grid, self.found, words)

    def try_lines(self, words, system, rows, streams):
        """Tries the lines of a system and steps that are refined."""
        self.open(words, refined_grid(words, rows, system, streams))
        asked, document = first_call(engine(words), words), tomllib.loads(system)
        print(f"fttsearch: asks {asked.told()}", file=sys.stderr)
        self.widest, self.bus, self.rows = widest_of(document["bus"]), document["bus"], rows
        self.table.begin()
        search_lines(asked, FilesSource(document, rows, self.names[:-1], streams), self.table.grid, self.table, words)

    def try_points(self, words):
        """Tries the points of the grid. The words and the outputs are looked at before the program, which may have to
        be built first."""
        if words.steps is None:
            self.try_list(words)
            return
        system, rows = read(words.system), rows_of(read(words.steps))
        streams = None if words.bounds is None else read_streams(words.bounds)
        if words.refine:
            self.try_lines(words, system, rows, streams)
            return
        self.open(words, asked_grid(words, rows, system, streams))
        asked, document = first_call(engine(words), words), tomllib.loads(system)
        print(f"fttsearch: asks {asked.told()}", file=sys.stderr)
        self.widest, self.bus, self.rows = widest_of(document["bus"]), document["bus"], rows
        self.table.begin()
        tried(asked, FilesQuestion(document, rows, self.names, streams), self.table, words)

    def join(self, words):
        """Reads the tables of all parts."""
        grid, found = joined(words.files)
        self.open(words, grid)
        self.table.begin()
        for point, said in found.items():
            self.table.add(point, said)

    def end(self):
        """Ends the table and brings the points into the order of the grid."""
        if self.table is None:
            return
        if self.many is not None:
            self.found = {point: self.found[point] for point in self.table.points if point in self.found}
        else:
            self.found = {point: self.found[point] for point in sorted(self.found, key=self.table.grid.key)}
        try:
            self.table.end()
        finally:
            if self.picture:
                self.draw()

    def draw(self):
        """Paints the picture, where there is something to paint."""
        if self.found:
            texts = []
            draw(self.names, self.found, texts.append)
            self.picture.begin()
            self.picture.put("".join(texts))
        self.picture.end()

    def tell(self, words):
        """Prints the sentences."""
        if self.source is not None:
            lines = told_list(self.source, self.table.grid, self.found, words.errors)
            lines += horizons.told(self.source, self.table.grid, self.found, self.looked) + self.heads
        else:
            lines = told(self.names, self.found, len(self.found) if self.many is None else self.many, self.widest)
            if self.table.grid.refined:
                lines.insert(1, told_refined(self.table.grid))
            if words.errors and self.bus is not None:
                lines += disturbed.told_files(self.names, self.found, self.bus, self.rows)
        if words.part:
            lines = [lines[0], f"this is part {words.part} of the grid; --join tells of the whole"]
        print("\n".join(lines), flush=True, file=sys.stderr if "-" in (words.csv, words.svg, words.rounding)
              else None)

    def status(self, words):
        """0 where some point is accepted, or where this is a part and all of its points were tried."""
        is_part = bool(words.part) and len(self.found) == self.many
        return 0 if is_part or any(said.accepted for said in self.found.values()) else 1


def widest_of(bus):
    """The widest window for which a cycle has room."""
    return min(room(bus["cycle"], bus.get("slots", FEW_SLOTS), bus.get("turnaround", 0)), WINDOW[1])


def interrupted(*_):
    """Ends the search, and takes no second signal."""
    for number in SIGNALS:
        signal.signal(number, signal.SIG_IGN)
    raise KeyboardInterrupt


def lost(told):
    """Python drops what is raised within calls of its own, as those after a fork. An interrupt comes once more then."""
    if told.exc_type is KeyboardInterrupt:
        signal.signal(signal.SIGALRM, interrupted)
        signal.setitimer(signal.ITIMER_REAL, AGAIN)
    else:
        sys.__unraisablehook__(told)


def carry_out(words, search):
    """Tries the points or joins tables. The status, or None where it is that of the answers."""
    try:
        if words.join:
            search.join(words)
        else:
            search.try_points(words)
    except Unread as fault:
        print(fault, file=sys.stderr)
        return 3
    except (Refused, csv.Error, tomllib.TOMLDecodeError) as fault:
        print(fault, file=sys.stderr)
        return 2
    except Failed as fault:
        print(fault, file=sys.stderr)
        return 3
    except KeyboardInterrupt:
        path = None if words.offsets else words.resume or words.csv
        more = f"; --resume {path} goes on" if path not in (None, "-") else ""
        of_all = "" if search.many is None else f"of {search.many} "
        print(f"fttsearch: interrupted, {len(search.found)} {of_all}points were tried{more}", file=sys.stderr)
        return 130
    return None


def run(words):
    """Tries the points or joins tables, and tells what was found. The status."""
    search = Offsets() if words.offsets else Search()
    sys.unraisablehook = lost
    for number in SIGNALS:
        if signal.getsignal(number) is not signal.SIG_IGN:
            signal.signal(number, interrupted)
    status = carry_out(words, search)
    try:
        search.end()
    except Failed as fault:
        print(fault, file=sys.stderr)
        status = 3
    if search.found and status != 2:
        try:
            search.tell(words)
        except BrokenPipeError:
            # A reader that has ended, as head, is no fault.
            sys.stdout = None
        except OSError as fault:
            print(f"standard output: {fault.strerror}", file=sys.stderr)
            sys.stdout, status = None, 3
    return search.status(words) if status is None else status
