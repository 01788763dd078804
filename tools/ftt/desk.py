"""A master at the desk, which is asked what it would do: the proved library in this process, a program that is called once
for each question, or the plain planner of tools/reference in this process, which is slow. All answer the same.

A base is a table and the plan that it runs. `trial` asks it for changes before a cycle, and changes nothing of it.
"""
import itertools
import math
import os
import pathlib
import sys
import tempfile
from collections import namedtuple

from . import places
from .faults import Refused, Unread
from .limits import FILLS, OPERATIONS, POLICIES

MODULE, PROGRAM, REFERENCE = KINDS = ("module", "program", "reference")
# How a program is called that is tools/reference: it is asked in this process then.
REFERENCES = ("reference", "fttcan-reference")

# What a table is planned for: bit times, bit times, bit times, numbers, words, cycles.
Rules = namedtuple("Rules", "cycle turnaround window nodes slots policy fill horizon")
# A change that is asked for: by which operator, how many cycles after the next one it starts, and its operations
# (ftt.table.Operation), whose fields are those of a steps file.
Asked = namedtuple("Asked", "operator ahead operations")
# The answer to a change: the word and the numbers of its row in a log.
Verdict = namedtuple("Verdict", "word numbers")

ENTRY = ("SLOT", "NODE", "LENGTH", "PHASE", "PERIOD", "DEADLINE", "PRIORITY")
ACCEPTED = "accepted"


def rules_of(document):
    """What a document of a system says."""
    bus, plan = document["bus"], document.get("plan", {})
    return Rules(bus["cycle"], bus.get("turnaround", 0), bus["window"], bus["nodes"], bus.get("slots", 40),
                 plan.get("policy", "rm"), plan.get("fill", "prefix"), plan.get("horizon", 10_000))


def system_text(rules):
    """The system file of rules."""
    return (f"[bus]\ncycle = {rules.cycle}\nturnaround = {rules.turnaround}\nwindow = {rules.window}\n"
            f'nodes = {rules.nodes}\nslots = {rules.slots}\n[plan]\npolicy = "{rules.policy}"\n'
            f'fill = "{rules.fill}"\nhorizon = {rules.horizon}\n')


def rows_of(asked, start):
    """The rows of a change in a steps file."""
    for place, operation in enumerate(asked.operations):
        front = ["and", operation.word] if place else [operation.word, asked.operator, start]
        names = ("SLOT",) if operation.word == "remove" else ENTRY
        yield ",".join(map(str, [*front, *(operation.fields[name] for name in names)]))


class Base:
    """A table and its plan: after a setup, which is a list of changes and of numbers of cycles that are opened."""

    def __init__(self, rules, setup):
        self.rules, self.setup = rules, setup
        # The cycle that is next after the setup; and from when on its plan repeats, every so many cycles.
        self.begin, self.first, self.length = sum(it for it in setup if isinstance(it, int)), 0, 1
        self.refused = None

    def noted(self, verdict):
        """Notes the answer to a change of the setup, the first refusal of all."""
        if verdict.word == ACCEPTED:
            self.first, self.length = verdict.numbers
        elif self.refused is None:
            self.refused = verdict

    @property
    def end(self):
        """The cycle after the first repeat: what is asked for before a later one is answered as before one of these."""
        return max(self.first, self.begin) + self.length

    def masks(self):
        """The slots of each cycle from `begin` to `end`, as sets."""
        raise NotImplementedError

    def trial(self, cycle, script, most):
        """What is said where changes are asked for before a cycle, one after the other: the verdicts, and the slots of the
        cycles from this one on, at most so many, as an iterator. A number in the script opens so many cycles."""
        raise NotImplementedError


class ModuleBase(Base):
    """The library answers."""

    def __init__(self, desk, rules, setup):
        super().__init__(rules, setup)
        self.desk, library = desk, desk.library
        self.given = library.CRules(rules.horizon, rules.window, rules.nodes, rules.slots, POLICIES.index(rules.policy),
                                    FILLS.index(rules.fill))
        self.verdict, self.count, self.plan = library.CVerdict(), library.SIZE(), library.CPlan()
        self.rooms, self.changes, self.settled = [], {}, {}
        self.placed, self.many, state = (library.CPlaced * 1)(), 0, library.CState()
        for place, item in enumerate(setup):
            if isinstance(item, int):
                for _ in range(item):
                    self.opened(self.placed, self.many, state)
                continue
            room = (library.CPlaced * (self.many + OPERATIONS))()
            verdict = self.decided(self.placed, self.many, state, item, room)
            self.noted(verdict)
            if verdict.word == ACCEPTED:
                self.placed, self.many = room, self.count.value
        self.flags, self.states = [], []
        while state.cycle < self.end:
            self.states.append((state.cycle, state.pending.low, state.pending.high))
            self.flags.append(self.opened(self.placed, self.many, state))

    def failed(self, status):
        """Ends where the library gives no answer."""
        raise Unread(f"libfttcan: {self.desk.library.fault_of(status)}")

    def opened(self, placed, many, state):
        """The slots of the next cycle of a table, which is opened."""
        status = self.desk.opens(self.given, placed, many, state, self.plan)
        if status:
            self.failed(status)
        flags = self.plan.flags
        return flags.low | flags.high << 64

    def decided(self, placed, many, state, asked, room):
        """The answer to a change. The table with it is in the room then, if it is accepted."""
        library = self.desk.library
        key = id(asked)
        if key not in self.changes:
            ops = (library.COp * max(1, len(asked.operations)))()
            for op, operation in zip(ops, asked.operations):
                fields = operation.fields
                op.kind = ("add", "remove", "change").index(operation.word)
                op.entry = library.CEntry(slot=fields["SLOT"]) if operation.word == "remove" else library.CEntry(
                    *(fields[it] for it in ("PHASE", "PERIOD", "DEADLINE", "SLOT", "NODE", "LENGTH", "PRIORITY")))
            # The change is kept, so that no other one gets its number.
            self.changes[key] = ops, len(asked.operations), asked
        ops, size, _ = self.changes[key]
        status = self.desk.decides(self.given, placed, many, state, state.cycle + asked.ahead, ops, size, self.verdict,
                                   room, len(room), self.count)
        if status:
            self.failed(status)
        verdict = self.verdict
        if verdict.kind == 4:
            return Verdict(ACCEPTED, (verdict.first, verdict.second))
        word, *numbers = library.verdict_out(verdict).row.split(",")
        return Verdict(word, tuple(map(int, numbers)))

    def masks(self):
        return self.flags

    def trial(self, cycle, script, most):
        library, (number, low, high) = self.desk.library, self.states[cycle - self.begin]
        state = library.CState(number, library.CMask(low, high))
        placed, many, verdicts, masks, depth = self.placed, self.many, [], [], 0
        for item in script:
            if isinstance(item, int):
                masks += [self.opened(placed, many, state) for _ in range(item)]
                continue
            if depth == len(self.rooms):
                self.rooms.append((library.CPlaced * (self.many + OPERATIONS * (depth + 1)))())
            verdict = self.decided(placed, many, state, item, self.rooms[depth])
            verdicts.append(verdict)
            if verdict.word == ACCEPTED:
                placed, many, depth = self.rooms[depth], self.count.value, depth + 1

        if masks or depth != len(script):
            return verdicts, itertools.chain(masks, (self.opened(placed, many, state) for _ in range(most - len(masks))))
        return verdicts, self.followed(cycle, script, placed, many, state, most)

    def followed(self, cycle, script, placed, many, state, most):
        """The slots of the cycles from one on, at most so many, where a whole script was accepted before it.

        Once all that it changes has begun and nothing that it ended waits, a cycle depends on its place in the common
        period, on the place of the new entries in theirs, and on what waits. Each such cycle is opened once."""
        key = tuple(map(id, script))
        if key not in self.settled:
            self.settled[key] = settled(script, placed, many, cycle), script, {}
        (late, begun, gone, common, of_new), _, known = self.settled[key]
        begin, place = max(cycle + late, begun), cycle % of_new
        pending, state_low, state_high = state.pending, gone & LOW, gone >> 64
        for number in range(cycle, cycle + most):
            if number < begin or pending.low & state_low or pending.high & state_high:
                yield self.opened(placed, many, state)
                continue
            break
        else:
            return
        low, high = pending.low, pending.high
        for number in range(number, cycle + most):
            at = place, number % common, low, high
            if at not in known:
                state.cycle, pending.low, pending.high = number, low, high
                mask = self.opened(placed, many, state)
                known[at] = mask, pending.low, pending.high
            mask, low, high = known[at]
            yield mask


LOW = (1 << 64) - 1


def settled(script, placed, many, cycle):
    """Of a script that was accepted before a cycle: how many cycles later all that it changes has begun, from which cycle on
    all other entries have begun, the slots of which nothing is live any more, the common period, and that of the new
    entries."""
    new = {operation.fields["SLOT"] for asked in script for operation in asked.operations if operation.word != "remove"}
    late, begun, common, of_new, live, ended = max((it.ahead for it in script), default=0), 0, 1, 1, 0, 0
    for place in range(many):
        entry, origin = placed[place].entry, placed[place].origin
        if placed[place].ended:
            ended |= 1 << entry.slot
            continue
        live |= 1 << entry.slot
        common = math.lcm(common, entry.period)
        if entry.slot in new:
            late, of_new = max(late, origin + entry.phase - cycle), math.lcm(of_new, entry.period)
        else:
            begun = max(begun, origin + entry.phase)
    return late, begun, ended & ~live, common, of_new


class ReferenceBase(Base):
    """The plain planner of tools/reference answers, in this process."""

    def __init__(self, desk, rules, setup):
        super().__init__(rules, setup)
        self.plain = desk.plain
        self.system = self.plain.System(rules.cycle, rules.turnaround, rules.window, rules.nodes, rules.slots,
                                        rules.policy, rules.fill, rules.horizon, {})
        self.master = self.plain.Master(self.system)
        for item in setup:
            if isinstance(item, int):
                for _ in range(item):
                    self.master.open()
            else:
                self.noted(self.said(self.master, item))
        self.flags, self.states = [], []
        while self.master.next < self.end:
            self.states.append(set(self.master.before[self.master.next]))
            self.flags.append(self.master.open()[1])

    def said(self, master, asked):
        """The answer of a master to a change."""
        operations = [(it.word, it.fields["SLOT"], None if it.word == "remove" else
                       self.plain.Entry(*(it.fields[name] for name in ENTRY))) for it in asked.operations]
        verdict = master.submit(self.plain.Change(asked.operator, master.next + asked.ahead, operations))
        return Verdict(verdict.word, tuple(verdict.fields))

    def masks(self):
        return self.flags

    def trial(self, cycle, script, most):
        pending = self.states[cycle - self.begin]
        master = self.plain.Master(self.system)
        master.table, master.next, master.before = self.master.table, cycle, {cycle: set(pending)}
        master.planning = self.plain.Planning(self.system, master.table, cycle, pending)
        verdicts, masks = [], []
        for item in script:
            if isinstance(item, int):
                masks += [master.open()[1] for _ in range(item)]
            else:
                verdicts.append(self.said(master, item))
        return verdicts, itertools.chain(masks, (master.open()[1] for _ in range(most - len(masks))))


class ProgramBase(Base):
    """A program answers, which is called for each trial."""

    def __init__(self, desk, rules, setup):
        super().__init__(rules, setup)
        self.desk = desk
        verdicts, _ = self.replayed(list(setup))
        for verdict in verdicts:
            self.noted(verdict)
        self.asked = len(verdicts)
        _, self.flags = self.replayed([*setup, self.end - self.begin])

    def replayed(self, script):
        """The verdicts of a script and the slots of all cycles after the setup."""
        rows, cycle = [], 0
        for item in script:
            if isinstance(item, int):
                rows.append(f"cycle,{item}")
                cycle += item
            else:
                rows += rows_of(item, cycle + item.ahead)
        log = self.desk.call(["replay"], {"system.toml": system_text(self.rules), "steps.csv": "\n".join(rows) + "\n"})
        verdicts, flags = [], []
        for row in log.splitlines():
            if row.startswith("submit,"):
                _, _, _, word, *numbers = row.split(",")
                verdicts.append(Verdict(word, tuple(map(int, numbers))))
            elif row.startswith("open,"):
                _, cycle, mask, _ = row.split(",")
                if int(cycle) >= self.begin:
                    flags.append(int(mask, 16))
        return verdicts, flags

    def masks(self):
        return self.flags

    def trial(self, cycle, script, most):
        opened = sum(it for it in script if isinstance(it, int))
        verdicts, flags = self.replayed([*self.setup, cycle - self.begin, *script, max(0, most - opened)])
        return verdicts[self.asked:], iter(flags[cycle - self.begin:])


class ModuleDesk:
    """The library in this process."""

    kind, base, is_fast = MODULE, ModuleBase, True

    def __init__(self):
        from fttcan import checkers, library  # pylint: disable=import-outside-toplevel
        self.library, self.checkers = library, checkers
        self.number = ".".join(map(str, library.version()))
        self.decides, self.opens = library.calls.decide, library.calls.open

    def told(self):
        """What is said of it."""
        name = self.library.loaded()._name  # pylint: disable=protected-access
        return f"the library {os.path.realpath(name) if os.sep in name else name} {self.number}, in this process"

    def run(self, words, files):
        """The output, the lines on standard error and the status of a call of the program over files in memory."""
        said = self.checkers.run([*words, *files], files)
        return said.output.decode(), said.errors.decode(errors="replace"), said.status

    def call(self, words, files):
        """The output of a call that has to end with status 0 or 1."""
        return checked(self.run(words, files))


def checked(said):
    """The output of a call; a refused file is told."""
    out, err, status = said
    if status == 3:
        raise Refused(f"fttcan refuses a file: {err.strip()}. {places.tool('fttlint')} SYSTEM STEPS says what to do.")
    if status not in (0, 1):
        raise Unread(f"the program ended with status {status}: {err.strip() or 'no line'}")
    return out


class ProgramDesk:
    """A program, a process for each question."""

    kind, base, is_fast = PROGRAM, ProgramBase, False

    def __init__(self, path):
        self.path = path

    def told(self):
        """What is said of it."""
        return f"the program {self.path}, a process for each question"

    def run(self, words, files):
        """The output, the lines on standard error and the status of a call over files, which are written first."""
        import subprocess  # pylint: disable=import-outside-toplevel
        with tempfile.TemporaryDirectory(prefix="ftt.") as room:
            for name, text in files.items():
                data = text if isinstance(text, bytes) else text.encode()
                pathlib.Path(room, name).write_bytes(data)
            try:
                done = subprocess.run([self.path, *words, *(os.path.join(room, name) for name in files)], check=False,
                                      stdin=subprocess.DEVNULL, capture_output=True)
            except OSError as fault:
                raise Unread(f"{self.path}: {fault.strerror}. FTTCAN names the program.") from fault
        return done.stdout.decode(), done.stderr.decode(errors="replace"), done.returncode

    def call(self, words, files):
        """The output of a call that has to end with status 0 or 1."""
        return checked(self.run(words, files))


class ReferenceDesk(ProgramDesk):
    """The plain planner of tools/reference, in this process."""

    kind, base = REFERENCE, ReferenceBase

    def __init__(self):
        import fttcan_reference  # pylint: disable=import-outside-toplevel
        from fttcan_reference import plan, types  # pylint: disable=import-outside-toplevel
        super().__init__(None)
        self.plain, self.commands = Plain(types.System, types.Entry, types.Change, plan.Master, plan.Planning), None
        self.answer = fttcan_reference.commands.told

    def told(self):
        """What is said of it."""
        return "tools/reference, a plain planner in this process: slower than the library, and not proved"

    def run(self, words, files):
        """The same of the plain program."""
        with tempfile.TemporaryDirectory(prefix="ftt.") as room:
            for name, text in files.items():
                pathlib.Path(room, name).write_bytes(text if isinstance(text, bytes) else text.encode())
            rows, lines, status = self.answer([*words, *(os.path.join(room, name) for name in files)])
        return "".join(f"{row}\n" for row in rows), "".join(f"{line}\n" for line in lines), status


# What is taken of tools/reference.
Plain = namedtuple("Plain", "System Entry Change Master Planning")


def module_desk():
    """The library, where it is found; and else why it is not."""
    try:
        return ModuleDesk(), None
    except ImportError as fault:
        return None, str(fault)


def named_program():
    """The program that FTTCAN names; None where it names none."""
    return os.environ.get("FTTCAN") or None


def desk(kind=None):
    """Who answers: of this kind; else the program that FTTCAN names; else the library, where it is found; else the plain
    planner. Nothing is built or proved for it."""
    named = named_program()
    if kind is None and named:
        kind = REFERENCE if os.path.basename(named) in REFERENCES else PROGRAM
    if kind == REFERENCE:
        return ReferenceDesk()
    if kind == PROGRAM:
        usual = named or (None if places.checkout() else places.program())
        if usual is None:
            raise Unread("--engine program: FTTCAN names no program. Set it to the path of one.")
        return ProgramDesk(usual)
    found, why = module_desk()
    if found is None and kind == MODULE:
        raise Unread(f"--engine module: {why}.")
    return found or ReferenceDesk()


def tell(asked, name):
    """Says on standard error who answers."""
    print(f"{name}: asks {asked.told()}", file=sys.stderr)
