"""What is asked at a point: the proved library in this process, or the program, a process a call.

Both give the same answers. `answer` takes a system and steps as texts; `decide` takes the table itself, where all of
its messages are added in cycle 0, as the files of fttmodel have it. An engine is handed to other processes by its kind
and its path, and loads its library anew there.
"""
import ctypes
import itertools
import math
import os
import pathlib
import subprocess
import sys
import tempfile

from .. import places
from ..faults import Refused
from ..limits import FILLS, MANY_SLOTS, OPERATIONS, POLICIES
from ..system import room
from .grid import Answer, Failed

MODULE, PROGRAM = KINDS = ("module", "program")
# The first room for what a call in this process writes, in bytes; a greater one is taken where that is too small.
ROOM, ERRORS, MOST = 1 << 18, 1 << 12, 1 << 30
UNWRITTEN = 5
# The most messages of a table without one that has ended, and those of a change that is refused.
MOST_PLACED = MANY_SLOTS + OPERATIONS
# The number of the verdict that accepts.
ACCEPTED = 4


class Rules:
    """What a table is asked for: cycle, turnaround and window in bit times, nodes and slots; policy, filling, horizon."""

    __slots__ = ("cycle", "turnaround", "window", "nodes", "slots", "policy", "fill", "horizon")

    def __init__(self, cycle, turnaround, window, nodes, slots, policy, fill, horizon):
        self.cycle, self.turnaround, self.window, self.nodes, self.slots = cycle, turnaround, window, nodes, slots
        self.policy, self.fill, self.horizon = policy, fill, horizon

    def text(self):
        """The system file."""
        return (f"[bus]\ncycle = {self.cycle}\nturnaround = {self.turnaround}\nwindow = {self.window}\n"
                f'nodes = {self.nodes}\nslots = {self.slots}\n[plan]\npolicy = "{self.policy}"\n'
                f'fill = "{self.fill}"\nhorizon = {self.horizon}\n')


class Entries:
    """Messages of a table that are added in cycle 0: tuples of slot, node, bytes, phase, period, deadline and priority, as
    a steps file has them. A change has so many of them as the sizes say; without sizes, each has 16 and the last one what
    is left. What a library reads of them is made once: the changes, and the table before the last one."""

    __slots__ = ("rows", "sizes", "structs", "front")

    def __init__(self, rows, sizes=None):
        self.rows, self.structs, self.front = rows, None, None
        self.sizes = [min(OPERATIONS, len(rows) - first) for first in range(0, len(rows), OPERATIONS)] if sizes is None \
            else sizes

    def changes(self):
        """The rows of each change."""
        first = 0
        for size in self.sizes:
            yield self.rows[first:first + size]
            first += size

    def text(self):
        """The steps file."""
        return "".join(("and,add," if place else "add,1,0,") + ",".join(map(str, row)) + "\n"
                       for rows in self.changes() for place, row in enumerate(rows))

    def __reduce__(self):
        return Entries, (self.rows, self.sizes)


class Front:
    """The messages before the last change of a table, as a table that a library reads; and what all changes need: so many
    slots and nodes, and a horizon in which the plan repeats whatever messages are left out. Behind the last phase the slots
    that are pending become more from one common period to the next, until they stay the same."""

    __slots__ = ("placed", "many", "slots", "nodes", "horizon")

    def __init__(self, library, entries):
        rows = entries.rows
        self.many = len(rows) - entries.sizes[-1]
        self.placed = (library.CPlaced * max(1, self.many))()
        for it, (slot, node, length, phase, period, deadline, priority) in zip(self.placed, rows[:self.many]):
            it.entry = library.CEntry(phase, period, deadline, slot, node, length, priority)
        self.slots, self.nodes = (1 + max(row[field] for row in rows) for field in (0, 1))
        self.horizon = max(row[3] for row in rows) + (len(rows) + 1) * math.lcm(*(row[4] for row in rows))


def answer_of(out, err, status, who):
    """What a call of `replay` says, by its output, its lines on standard error and its status."""
    if status not in (0, 1, 3):
        raise Failed(f"{who}: it ended with status {status}: {err.strip() or 'no line'}")
    if status == 3:
        return Answer(False, None, "; ".join(err.strip().splitlines()))
    rows = [row.split(",", 3)[3] for row in out.splitlines() if row.startswith("submit,")]
    refused = [(number, row) for number, row in enumerate(rows, 1) if not row.startswith("accepted,")]
    if bool(refused) != (status == 1):
        raise Failed(f"{who}: its status {status} and its rows do not agree")
    return Answer(False, *refused[0]) if refused else Answer(True, None, "")


class Calls:
    """Calls of the program, each a process, and an end of all of them."""

    def __init__(self):
        self.running, self.is_over = set(), False

    def make(self, program, words, told=subprocess.PIPE):
        """The output, the lines on standard error and the status of a call. Lines that aren't asked for are shown."""
        if self.is_over:
            raise KeyboardInterrupt
        try:
            # pylint: disable-next=consider-using-with
            process = subprocess.Popen([program, *words], stdin=subprocess.DEVNULL, stdout=subprocess.PIPE, stderr=told)
        except OSError as fault:
            raise Failed(f"{program}: {fault.strerror}. FTTCAN names the program.") from fault
        self.running.add(process)
        if self.is_over:
            # It began while the others were ended.
            process.terminate()
        try:
            out, err = process.communicate()
        except KeyboardInterrupt:
            # The launcher ends all of a build, where it is asked to.
            process.terminate()
            process.wait()
            raise
        finally:
            self.running.discard(process)
        return out.decode(), (err or b"").decode(errors="replace"), process.returncode

    def end(self):
        """Ends the calls that run, and lets none begin."""
        self.is_over = True
        for process in tuple(self.running):
            process.terminate()


CALLS = Calls()


class Engine:
    """What answers at a point. The path is that of the library or of the program."""

    # Whether a table is decided faster than the texts that say it.
    kind, takes_tables = None, False

    def __init__(self, path):
        self.path = path

    def answer(self, system, steps):
        """What is said of a system and steps, both as texts: Answer(accepted, change, why)."""
        raise NotImplementedError

    def decide(self, rules, entries):
        """What is said of a table whose messages are all added in cycle 0."""
        return self.answer(rules.text(), entries.text())

    def __reduce__(self):
        return engine_at, (self.kind, self.path)


class ProgramEngine(Engine):
    """The program, a process a call."""

    kind = PROGRAM

    def answer(self, system, steps):
        with tempfile.TemporaryDirectory(prefix="fttsearch.") as room:
            files = [os.path.join(room, name) for name in ("system.toml", "steps.csv")]
            for path, text in zip(files, (system, steps)):
                pathlib.Path(path).write_text(text, errors="surrogateescape")
            out, err, status = CALLS.make(self.path, ["replay", *files])
        if status == 130 or status < 0:
            raise KeyboardInterrupt
        return answer_of(out, err, status, self.path)

    def told(self):
        """What is said of it."""
        return f"the program {self.path}, a process for each point"


class ModuleEngine(Engine):
    """The library in this process, by the package fttcan."""

    kind, takes_tables = MODULE, True

    def __init__(self, path):
        super().__init__(path)
        if path is not None:
            # The package looks there first, in the processes of a pool too.
            os.environ["FTTCAN_LIBRARY"] = path
        from fttcan import library  # pylint: disable=import-outside-toplevel
        self.library, self.calls = library, library.calls
        self.number = library.version()
        self.path = os.path.realpath(library.loaded()._name) if os.sep in library.loaded()._name else None
        self.decides, self.runs = self.calls.decide, self.calls.run
        self.size = ROOM
        self.out, self.err = (library.U8 * ROOM)(), (library.U8 * ERRORS)()
        # The rules and the first changes that were accepted last, each with the table after it: a table that begins with
        # the same changes is asked for the others alone.
        self.last, self.accepted, self.rooms = None, [], []
        self.room = (library.CPlaced * MOST_PLACED)()
        self.empty = (library.CPlaced * 1)()
        self.rules, self.state, self.verdict = library.CRules(), library.CState(), library.CVerdict()
        self.count = library.SIZE()

    def answer(self, system, steps):
        given = [b"replay\0000\0001", system.encode("utf-8", "surrogateescape"),
                 steps.encode("utf-8", "surrogateescape"), b"", b""]
        parts = [part for it in given for part in (it, len(it))]
        wrote, told = self.library.SIZE(), self.library.SIZE()
        while True:
            status = self.runs(*parts, self.out, self.size, wrote, self.err, ERRORS, told)
            if status != UNWRITTEN or self.size >= MOST:
                break
            self.size *= 8
            self.out = (self.library.U8 * self.size)()
        return answer_of(bytes(memoryview(self.out)[:wrote.value]).decode(),
                         bytes(memoryview(self.err)[:told.value]).decode(errors="replace"), status, "libfttcan")

    def decide(self, rules, entries):
        # The call of the library knows no cycle.
        most = room(rules.cycle, rules.slots, rules.turnaround)
        if rules.window > most:
            return Answer(False, None, f"system: narrow {rules.cycle - most + rules.window} {rules.cycle}")
        if entries.structs is None:
            entries.structs = [(rows, *self.structs_of(rows)) for rows in entries.changes()]
        given, verdict, count = self.rules, self.verdict, self.count
        key = (rules.horizon, rules.window, rules.nodes, rules.slots, POLICIES.index(rules.policy),
               FILLS.index(rules.fill))
        if key != self.last:
            (given.horizon, given.window, given.nodes, given.slots, given.policy, given.fill), self.last = key, key
            self.accepted.clear()
        whole, last = self.whole(rules, entries), len(entries.structs) - 1
        if whole is not None and whole.accepted and self.are_parts_taken(rules, entries):
            return whole
        placed, many = self.empty, 0
        for number, (rows, ops, size) in enumerate(entries.structs):
            if number < len(self.accepted):
                if self.accepted[number][0] == rows:
                    _, placed, many = self.accepted[number]
                    continue
                del self.accepted[number:]
            if number == last and whole is not None:
                return whole
            if number == len(self.rooms):
                self.rooms.append((self.library.CPlaced * MOST_PLACED)())
            status = self.decides(given, placed, many, self.state, 0, ops, size, verdict, self.rooms[number], MOST_PLACED,
                                  count)
            if status:
                self.last = None
                raise Failed(f"libfttcan: {self.library.fault_of(status)}")
            if verdict.kind != ACCEPTED:
                return Answer(False, number + 1, self.library.verdict_out(verdict).row)
            placed, many = self.rooms[number], count.value
            self.accepted.append((rows, placed, many))
        return Answer(True, None, "")

    def whole(self, rules, entries):
        """What is said of the whole table: of its last change, beside all messages before it. It is asked first, where one
        answer may serve for all changes; else this is `None`."""
        if rules.fill != "prefix" or max(entries.sizes) > OPERATIONS or min(entries.sizes) < 1:
            return None
        if len(entries.sizes) - self.known(entries) < 2:
            return None
        if entries.front is None:
            entries.front = Front(self.library, entries)
        front, verdict, (_, ops, size) = entries.front, self.verdict, entries.structs[-1]
        if front.slots > rules.slots or front.nodes > rules.nodes:
            return None
        status = self.decides(self.rules, front.placed, front.many, self.state, 0, ops, size, verdict, self.room, MOST_PLACED,
                              self.count)
        if status:
            return None
        if verdict.kind == ACCEPTED:
            return Answer(True, None, "")
        return Answer(False, len(entries.sizes), self.library.verdict_out(verdict).row)

    def known(self, entries):
        """How many of the first changes were accepted before."""
        return sum(1 for _ in itertools.takewhile(lambda pair: pair[0][0] == pair[1][0], zip(self.accepted, entries.structs)))

    def are_parts_taken(self, rules, entries):
        """Whether the changes before the last one are accepted too, where the whole table was just accepted. With `prefix`
        nothing is sent later because messages are left out. So nothing is missed in a part of the table. Where the plan of
        all repeats from cycle 0 on, nothing is pending where it begins anew, and a part repeats with it. Else the horizon
        has to leave time for any repeat."""
        return self.verdict.first == 0 or entries.front.horizon <= rules.horizon

    def structs_of(self, rows):
        """A change of rows as the library reads it, and how many operations it has."""
        library = self.library
        ops = (library.COp * max(1, len(rows)))()
        for op, (slot, node, length, phase, period, deadline, priority) in zip(ops, rows):
            op.entry = library.CEntry(phase, period, deadline, slot, node, length, priority)
        return ops, len(rows)

    def told(self):
        """What is said of it."""
        number = ".".join(map(str, self.number))
        return f"the library {self.path or self.library.NAME} {number}, in this process"


def engine_at(kind, path):
    """The engine of a kind and a path: in another process, that of the first one."""
    return ModuleEngine(path) if kind == MODULE else ProgramEngine(path)


def module_engine():
    """The engine in this process; and where there is none, why."""
    try:
        return ModuleEngine(None), None
    except ImportError as fault:
        return None, str(fault)


def program_engine():
    """The engine of the program: the one that FTTCAN names; else, in a checkout, the one that its launcher has built. A
    search builds none, since that takes long. Else the program that is installed."""
    named, usual = os.environ.get("FTTCAN"), places.program()
    if named:
        return ProgramEngine(named)
    if usual is None:
        raise Failed("There is no program to ask: no fttcan is beside fttsearch, and none on the path. With "
                     "FTTCAN=fttcan-reference in front, fttsearch asks a plain program: slower, and not proved.")
    if not places.checkout():
        return ProgramEngine(usual)
    place, _, status = CALLS.make(usual, ["where"])
    if status != 0:
        raise Failed("There is no program to ask: ./fttcan has built none of these sources, and a search builds none. With "
                     f"FTTCAN={places.TOOLS}/reference in front, fttsearch asks a plain program: slower, and not proved. "
                     "`./fttcan replay SYSTEM STEPS` proves and builds one, and docs/BUILDING.md says how to keep one without "
                     "proofs.")
    return ProgramEngine(place.strip())


def engine(words):
    """The engine that the words ask for: that of --engine; else the program, where FTTCAN names one; else the library,
    where it is found; else the program."""
    kind = getattr(words, "engine", None)
    if kind is None and os.environ.get("FTTCAN"):
        kind = PROGRAM
    if kind == PROGRAM:
        return program_engine()
    found, why = module_engine()
    if found is None and kind == MODULE:
        raise Failed(f"--engine module: {why}.")
    return found or program_engine()


def first_call(asked, words):
    """Asks of the files as they are, and gives the engine for the points. What the program writes to standard error is
    shown."""
    if asked.kind == MODULE:
        check_files(asked, words)
        return asked
    _, _, status = CALLS.make(asked.path, ["replay", words.system, words.steps], None)
    if status == 3:
        refuse(words)
    return built(asked, status)


def built(asked, status=None):
    """The engine for the points. Where no status of a call is given, one is made, which shows whether there is a program."""
    if asked.kind == MODULE:
        return asked
    if status is None:
        with tempfile.TemporaryDirectory(prefix="fttsearch.") as room:
            files = [os.path.join(room, name) for name in ("system.toml", "steps.csv")]
            for path, text in zip(files, ("[bus]\ncycle = 400\nwindow = 55\nnodes = 1\n", "cycle,0\n")):
                pathlib.Path(path).write_text(text, encoding="utf-8")
            _, _, status = CALLS.make(asked.path, ["replay", *files], None)
    if status not in (0, 1):
        raise Failed(f"{asked.path}: it ended with status {status}.")
    return asked


def check_files(asked, words):
    """Refuses files that the library refuses, with its lines."""
    system, steps = (pathlib.Path(path).read_bytes().decode("utf-8", "surrogateescape")
                     for path in (words.system, words.steps))
    said = asked.answer(system, steps)
    if not said.accepted and said.change is None:
        print(said.why.replace("; ", "\n"), file=sys.stderr)
        refuse(words)


def refuse(words):
    """Refuses the files of a call."""
    raise Refused(f"fttcan refuses a file. {places.tool('fttlint')} {words.system} {words.steps} tells what to do.")
