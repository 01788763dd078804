"""Phases by which the least window is narrower: rounds of a search, and what the program says of what they find."""
import collections
import concurrent.futures
import csv
import io
import itertools
import multiprocessing
import os
import sys
import time

from ..faults import Refused
from ..limits import CYCLES, FEW_SLOTS, USUAL_HORIZON, WINDOW
from ..system import room
from ..telling import listed, some
from . import floor
from .alike import PLURALS
from .asking import begin
from .files import system_text
from .grid import Output
from .levelling import NEAR, Round
from .placing import Plan, messages_of, with_phases
from .ranges import number_range
from .said import label
from .subjects import FilesSubject, ListSubject

# What is known of a point of the grid: the least window with the phases of the files and that with the phases that were
# found, None where there is none; the window that no phases go below; those phases by slots, None where none are better;
# the rounds that were made, and the bit times of a cycle that its trigger and turnaround leave.
Found = collections.namedtuple("Found", "before after bound phases rounds room")
COLUMNS = ["files", "found", "bound", "rounds", "phases"]
# The head of what is printed: windows with the phases of the files and with those that were found, the bound, and what is
# left with each.
HEAD = ["", "files", "found", "bound", "left: files", "left: found"]


def one_round(asked, number):
    """A round, in a process of a pool: the place of its window, and the phases."""
    plan, windows, low, moved, seed, until = asked
    made = Round(plan, windows, low, moved, seed, number, until)
    return (len(windows), None) if number and made.is_over() else made.run()


class Judge:
    """What the program says of a point: the system and the steps, asked with other windows and phases."""

    def __init__(self, asked, case, values, windows):
        self.asked, self.case, self.values, self.windows = asked, case, values, windows

    def accepts(self, place, phases):
        """Whether the program accepts these phases, by slots, at a window."""
        values = self.values | {"window": self.windows[place]}
        return self.asked.answer(system_text(self.case.document, values), with_phases(self.case.text, phases)).accepted

    def least(self, guess, low, phases):
        """The place of the least window that is found for these phases: the guess or the last one, and else by halving;
        then those below it are tried. None where the last one is not accepted."""
        high = min(guess, len(self.windows) - 1)
        if not self.accepts(high, phases):
            low, high = high + 1, len(self.windows) - 1
            if low > high or not self.accepts(high, phases):
                return None
            while low < high:
                middle = (low + high) // 2
                low, high = (low, middle) if self.accepts(middle, phases) else (middle + 1, high)
        place = high - 1
        while place >= max(low, high - NEAR):
            high = place if self.accepts(place, phases) else high
            place -= 1
        return high


class Point:
    """The search at a point of the grid."""

    def __init__(self, judge, plan, kept, space):
        """`plan` has the keys of the system's table of this name."""
        self.judge, self.horizon, self.room = judge, plan.get("horizon", USUAL_HORIZON), space
        self.plan = Plan(messages_of(judge.case.text), plan.get("policy", "rm"), plan.get("fill", "prefix"))
        self.moved = [at for at, it in enumerate(self.plan.messages) if it.slot not in kept and it.period > 1]
        self.low = floor.least(self.plan.messages, judge.windows)

    def is_endless(self):
        """Whether no plan repeats within the horizon, from whatever phases."""
        return self.plan.common > self.horizon or max(it.origin for it in self.plan.messages) > self.horizon + CYCLES

    def phases(self, found=None):
        """Phases by slots: those of the entries as they are, or others."""
        return {it.slot: it.phase if found is None else found[at] for at, it in enumerate(self.plan.messages)}

    def before(self):
        """The place of the least window with the phases of the files; None where there is none."""
        phases, many = [it.phase for it in self.plan.messages], len(self.judge.windows)
        guess = next((place for place in range(self.low, many) if not self.plan.missed(phases, self.judge.windows[place])),
                     many)
        return self.judge.least(guess, self.low, self.phases())

    def asked(self, seed, until):
        """What each round is asked."""
        return self.plan, self.judge.windows, self.low, self.moved, seed, until


class Rounds:
    """Rounds of a point, in processes, and what they come to in their order."""

    def __init__(self, words):
        self.words = words
        self.pool = concurrent.futures.ProcessPoolExecutor(words.jobs, initializer=begin,
                                                           initargs=(None, None, os.getpid()))

    def results(self, point):
        """The number of each round, the place of its window and its phases, until the time is over."""
        until = time.time() + self.words.seconds
        asked, waiting = point.asked(self.words.seed, until), collections.deque()
        try:
            for number in itertools.count() if self.words.rounds is None else range(self.words.rounds):
                waiting.append((number, self.pool.submit(one_round, asked, number)))
                if len(waiting) > self.words.jobs:
                    yield self.first_of(waiting)
                if time.time() > until:
                    break
            while waiting:
                yield self.first_of(waiting)
        finally:
            for _, result in waiting:
                result.cancel()

    @staticmethod
    def first_of(waiting):
        """The result of the first round that waits."""
        number, result = waiting.popleft()
        return (number, *result.result())

    def end(self):
        """Ends all rounds, which take no other signal: what they come to is known, or not waited for."""
        for child in multiprocessing.active_children():
            child.kill()
        self.pool.shutdown(cancel_futures=True)


def table_of(names, found):
    """What was found, as lines: windows, and what each cycle has left. Policies and fillings for which the same was found
    stand in one row."""
    words = [name for name in ("policy", "fill") if len({dict(zip(names, point)).get(name) for point in found}) > 1]
    rows = {}
    for point, it in found.items():
        values = dict(zip(names, point))
        rest = tuple(values[name] for name in names if name not in words)
        rows.setdefault((rest, it.room, it.before, it.after, it.bound), []).append(" ".join(values[name] for name in words))
    others = [name for name in names if name not in words]
    table = [HEAD]
    for (rest, space, *windows), alike in rows.items():
        spare = [None if it is None else space - it for it in windows[:2]]
        table.append([", ".join(filter(None, [label(others, rest), listed(alike) if words else ""])) or "the files",
                      *("none" if it is None else str(it) for it in (*windows, *spare))])
    wide = [max(len(row[at]) for row in table) for at in range(len(HEAD))]
    lines = ["  ".join([row[0].ljust(wide[0]), *(it.rjust(size) for it, size in zip(row[1:], wide[1:]))])
             for row in table]
    lines.insert(0, "Least windows, and what each cycle has left for asynchronous frames, in bit times:")
    if words and len(rows) == len({rest for rest, *_ in rows}):
        lines.append(f"no difference between {' and '.join(PLURALS[name] for name in words)}")
    return lines


class Offsets:
    """The search over a grid of everything but phases: what is found at each point."""

    def __init__(self):
        self.names, self.found, self.points, self.many = [], {}, [], 0
        self.table, self.steps, self.text, self.endless, self.case = None, None, "", [], None

    def open(self, words, subject):
        """Looks at the words, and opens the outputs."""
        axes = subject.axes()
        self.names, self.points = list(axes), list(itertools.product(*axes.values()))
        self.many = len(self.points)
        if words.out and self.many > 1:
            raise Refused(f"--out: the grid has {self.many} points, and FILE takes the steps of one. Leave one value of "
                          "each option.")
        slots = subject.slots()
        wrong = next((slot for slot in words.keep if slot not in slots), None)
        if wrong is not None:
            raise Refused(f"--keep: slot {wrong} has no entry after the last change. Take a slot of STEPS.")
        if not slots:
            raise Refused("there is no entry after the last change.")
        self.table = Output(words.csv or os.devnull)
        self.steps = Output(words.out) if words.out else None

    @staticmethod
    def window_range(words, messages, space):
        """The windows that are tried: those of --window; else each sum of lengths that a cycle has room for."""
        first = max(it.cost for it in messages)
        last = min(space, WINDOW[1])
        if words.window:
            asked = number_range(words.window, "window")
            found = [it for it in asked if first <= it <= last]
            if not found:
                raise Refused(f"--window: the longest frame needs {first}, and a cycle has room for {last}. Take windows "
                              "from there.")
            return found
        if first > last:
            raise Refused(f"the longest frame needs a window of {first}, and a cycle has room for {last}.")
        return list(range(first, last + 1, 5))

    def try_points(self, words):
        """Searches at each point. The words and the outputs are looked at before the program."""
        subject = FilesSubject(words) if words.steps else ListSubject(words)
        try:
            self.open(words, subject)
        except (KeyError, TypeError, ValueError) as fault:
            # A file that is none: the program says what is wrong.
            subject.engine()
            raise Refused("fttcan takes these files, and fttsearch does not.") from fault
        asked = subject.engine()
        print(f"fttsearch: asks {asked.told()}", file=sys.stderr)
        self.table.begin()
        self.put([*self.names, *COLUMNS])
        rounds = Rounds(words)
        try:
            for values in self.points:
                named = dict(zip(self.names, values))
                try:
                    point = self.point(words, asked, subject.at(named), named)
                except Refused as fault:
                    self.refuse(values, fault)
                    continue
                self.search(rounds, values, point)
        finally:
            rounds.end()

    def refuse(self, values, fault):
        """Notes why a point has no window. The only point is refused."""
        if self.many == 1:
            raise fault
        self.leave(values, f"{label(self.names, values)}: {fault}")

    def leave(self, values, why):
        """Notes that a point has no window."""
        self.found[values] = Found(None, None, None, None, 0, 0)
        self.endless.append(why)
        self.put([*values, "", "", "", 0, ""])

    def point(self, words, asked, case, values):
        """The search at a point."""
        self.case = case
        bus = case.document["bus"]
        space = room(bus["cycle"], bus.get("slots", FEW_SLOTS), bus.get("turnaround", 0))
        judge = Judge(asked, case, values, self.window_range(words, messages_of(case.text), space))
        return Point(judge, case.document.get("plan", {}) | values, words.keep, space)

    def search(self, rounds, values, point):
        """Searches at a point, and notes each window that is better than those before it."""
        if point.is_endless():
            self.leave(values, f"{label(self.names, values) or 'the files'}: the periods have {point.plan.common} cycles in "
                               f"common, and the horizon is {point.horizon}: no window is accepted")
            return
        windows, high = point.judge.windows, point.before()
        of = dict(enumerate(windows))
        bound = of.get(point.low)
        self.found[values] = Found(of.get(high), of.get(high), bound, None, 0, point.room)
        if high is not None:
            self.write(values, point)
        high = len(windows) if high is None else high
        began = time.monotonic()
        if high > point.low and point.moved:
            for number, place, phases in rounds.results(point):
                self.found[values] = self.found[values]._replace(rounds=number + 1)
                place = point.judge.least(place, point.low, point.phases(phases)) if place < high else None
                if place is not None and place < high:
                    high = place
                    self.found[values] = self.found[values]._replace(after=of[place], phases=point.phases(phases))
                    self.better(values, point, number, time.monotonic() - began)
                if high <= point.low:
                    break
        self.put([*values, *self.row(values, point)])

    def better(self, values, point, number, passed):
        """Tells of a better window, and writes the steps."""
        found, where = self.found[values], label(self.names, values)
        print(f"fttsearch: {where + ': ' if where else ''}window {found.after} by round {number + 1}, after "
              f"{passed:.1f} s; no phases go below {found.bound}", file=sys.stderr)
        self.write(values, point)

    def write(self, values, point):
        """Writes the steps, where they are asked for: what can't be written anew, as standard output, at the end alone."""
        if self.steps:
            self.text = point.judge.case.written(self.found[values].phases or point.phases())
            if self.steps.is_regular:
                self.steps.begin()
                self.steps.put(self.text)

    def put(self, row):
        """Writes a row of the table."""
        text = io.StringIO()
        csv.writer(text, lineterminator="\n").writerow(row)
        self.table.put(text.getvalue())

    def row(self, values, point):
        """The fields of a point after its values."""
        found = self.found[values]
        phases = " ".join(f"{slot}={phase}" for slot, phase in (found.phases or point.phases()).items())
        return [*("" if it is None else it for it in (found.before, found.after, found.bound)), found.rounds, phases]

    def end(self):
        """Ends the outputs."""
        if self.steps and not self.steps.is_regular:
            self.steps.put(self.text)
        for output in filter(None, (self.table, self.steps)):
            output.end()

    def tell(self, words):
        """Prints what was found, as a table."""
        lines = table_of(self.names, self.found)
        lines += self.endless + (self.phases() if self.many == 1 else [])
        if len(self.found) < self.many:
            lines.append(f"{len(self.found)} of {some(self.many, 'point')} were searched")
        if any(it.after is not None and it.after != it.bound for it in self.found.values()):
            lines.append(f"Windows were found by halving, and the {NEAR} below each were tried too. Acceptance need not be "
                         "monotone, so a narrower one may be accepted.")
        if words.out and self.case is not None and any(it.after is not None for it in self.found.values()):
            keys = self.keys() if words.steps else [f"--{key.replace(' = ', ' ').replace(chr(34), '')}" for key in self.keys()]
            lines.append(f"written: {words.out}; {self.case.needs.format(listed(keys))}")
        print("\n".join(lines), flush=True, file=sys.stderr if "-" in (words.csv, words.out) else None)

    def phases(self):
        """A line of the phases of the only point, where others than those of the files were found."""
        return [self.case.told(found.phases) for found in self.found.values() if found.phases]

    def keys(self):
        """What the system file of the only point has to have."""
        (values, found), = self.found.items()
        words = [f'{name} = "{it}"' for name, it in zip(self.names, values) if name in ("policy", "fill")]
        return [f"window = {found.after}", *words]

    def status(self, _):
        """0 where some window is accepted at some point, else 1."""
        return 0 if any(it.after is not None for it in self.found.values()) else 1
