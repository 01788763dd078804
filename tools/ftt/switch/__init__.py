"""Tries changes of a running plan before each cycle in which they may be asked for.

    tools/fttsearch --switch KBITS CYCLE_US BEFORE AFTER [--window W] [--turnaround R] [--policy P] [--fill F] [--slots S]
                             [--horizon H] [--operator N] [--ahead N] [--cycles RANGE] [--out FOLDER [--at CYCLE]]
                             [--csv FILE] [--brief] [--engine KIND] [--jobs N]
    tools/fttsearch --ask SYSTEM STEPS [--block N] [--cycles RANGE] [--names NAMES] [--kbits K] [--csv FILE] [--brief]
                          [--engine KIND] [--jobs N]

--switch takes two lists of messages, as fttmodel reads them: those that are sent before, and those that are to be sent after
the switch. Messages of both keep their slots. It makes the changes: one if that has room for all operations, and else first
those that make room and then those that have to come together, of at most 16 operations each.

--ask takes a system and steps. A block is the changes that stand together after a row `cycle`: each block is tried, or the
one that --block names.

Both ask for the changes before each cycle up to the first repeat of the plan that runs: what is asked for later is answered
as in one of these. They say in how many cycles all changes are accepted, where a switch ends half done and why, how late
the last first frame is, the longest gap of each message, and what would make the switch whole in every cycle.

If FTTCAN names a program, that one answers, a process for each cycle. Otherwise the library libfttcan.so.1 answers in this
process, if it is found, and else the plain planner of tools/reference, which takes minutes in place of seconds. Nothing is
built or proved.

    tools/fttsearch --switch 500 5000 work.csv emergency.csv --window 600 --policy edf
    tools/fttsearch --ask examples/emergency-switch/system.toml examples/emergency-switch/steps.csv

Status: 0 all changes are accepted before each cycle; 1 they are not; 2 a file or a range is refused; 3 a file can't be read
or written, or the program fails; 4 wrong words, or a Python before 3.11; 130 interrupted.
"""
import argparse
import csv
import io
import os
import pathlib
import re
import sys
import time
import tomllib

from .. import limits
from ..command import Parser, put_lines
from ..desk import KINDS, desk, rules_of, tell
from ..faults import Refused, Unread
from ..log.rows import FIRST_SLOT, NoLog, names_in
from ..model import positive, within
from ..rows import MARK
from ..search.asking import Progress
from ..telling import decimal, some
from . import lists, said
from .blocks import blocks_in
from .parallel import swept
from .remedies import Search, cycles_of
from .sweep import Sweep, is_half, is_whole

ASK, SWITCH = "--ask", "--switch"
# Where a sweep takes fewer seconds, what may help is tried before all cycles too.
SHORT = 2


def parser(form):
    """The reader of the words of a form."""
    made = Parser(prog=f"fttsearch {form}", description=__doc__, formatter_class=argparse.RawDescriptionHelpFormatter)
    if form == SWITCH:
        made.add_argument("kbits", metavar="KBITS", type=positive, help="the bit rate in kbit/s")
        made.add_argument("cycle_us", metavar="CYCLE_US", type=positive, help="the elementary cycle in microseconds")
        made.add_argument("before", metavar="BEFORE", help="the messages before the switch")
        made.add_argument("after", metavar="AFTER", help="those after it")
        made.add_argument("--window", type=within(*limits.WINDOW), help="the synchronous window in bit times; without it, all "
                          "that leaves room for the longest asynchronous frame")
        made.add_argument("--turnaround", type=within(*limits.TURNAROUND), default=0, help="in bit times; without it 0")
        made.add_argument("--policy", choices=limits.POLICIES, default="rm", help="without it rm")
        made.add_argument("--fill", choices=limits.FILLS, default="prefix", help="without it prefix")
        made.add_argument("--slots", type=int, choices=limits.SLOTS, default=limits.FEW_SLOTS, help="without it 40")
        made.add_argument("--horizon", type=within(*limits.HORIZON), default=limits.USUAL_HORIZON, help="without it 10000")
        made.add_argument("--operator", type=within(1, limits.OPERATORS), default=2, help="who asks for the switch; without "
                          "it 2, since operator 1 asks for the messages before")
        made.add_argument("--ahead", type=within(0, 1000), default=0, help="how many cycles after the next one the changes "
                          "start; without it 0")
        made.add_argument("--out", metavar="FOLDER", help="write system.toml, steps.csv and names.csv, with the switch before "
                          "the cycle of --at")
        made.add_argument("--at", type=within(0, limits.CYCLES), help="with --out: the cycle before which the steps ask; "
                          "without it the first one that is refused, else that with the latest first frame")
        # A window beside which nothing is kept for errors.
        made.set_defaults(errors=None)
    else:
        made.add_argument("system", metavar="SYSTEM")
        made.add_argument("steps", metavar="STEPS")
        made.add_argument("--block", type=within(1, 1000), help="the block that is tried, counted from 1; without it all")
        made.add_argument("--names", metavar="FILE", help="names of messages, as names.csv of fttmodel")
        made.add_argument("--kbits", type=positive, help="the bit rate in kbit/s: times in milliseconds")
    made.add_argument("--cycles", metavar="RANGE", help="before which cycles is asked, as 0:99 or 1:2701:300; without it all")
    made.add_argument("--csv", metavar="FILE", help="write a row for each cycle; - is standard output, and then the sentences "
                      "go to standard error")
    made.add_argument("--brief", action="store_true", help="look for nothing that helps")
    made.add_argument("--jobs", metavar="N", type=within(1, 9999), default=len(os.sched_getaffinity(0)), help="how many "
                      "processes try; without it, one for each processor")
    made.add_argument("--engine", choices=KINDS, help="what answers; without it, the program if FTTCAN names one, otherwise "
                      "the library if it is found, otherwise tools/reference")
    return made


def file_text(path):
    """The text of a file."""
    try:
        return pathlib.Path(path).read_bytes().removeprefix(MARK).decode()
    except OSError as fault:
        raise Unread(f"{path}: {fault.strerror or fault}. Is it the right path?") from fault
    except UnicodeDecodeError as fault:
        raise Refused(f"{path}: a byte is not UTF-8.") from fault


def cycles_in(text):
    """The cycles of a range."""
    found = set()
    for part in text.split(","):
        match = re.fullmatch(r"([0-9]{1,7})(?::([0-9]{1,7})(?::([0-9]{1,7}))?)?", part)
        if match is None or match[3] is not None and int(match[3]) == 0 or match[2] and int(match[2]) < int(match[1]):
            raise Refused(f"--cycles: {part!r} is no range. Write FIRST:LAST, FIRST:LAST:STEP, or a number.")
        first = int(match[1])
        found.update(range(first, int(match[2] or first) + 1, int(match[3] or 1)))
    return found


class Looking:
    """How far the look for what helps is, on standard error: a line that moves on a terminal, and else one in ten seconds."""

    def __init__(self):
        self.many, self.told, self.is_terminal = 0, time.monotonic(), sys.stderr.isatty()
        self.front = "\r" if self.is_terminal else ""

    def step(self):
        """A trial more."""
        self.many += 1
        now = time.monotonic()
        if now - self.told >= (0.2 if self.is_terminal else 10):
            self.told = now
            print(f"{self.front}fttsearch: looks for what makes it whole, {self.many} trials so far  ", file=sys.stderr,
                  end="" if self.is_terminal else "\n", flush=True)

    def end(self):
        """Leaves the line that moves."""
        if self.is_terminal and self.many:
            print(file=sys.stderr)


class Trying:
    """A switch that is tried: who answers, the base, the changes, their purposes and how they are told."""

    def __init__(self, words, asked_of, base, asked, purposes, teller):
        self.words, self.desk, self.base, self.asked, self.teller = words, asked_of, base, asked, teller
        self.purposes = purposes or [""] * len(asked)
        self.sweep, self.took = Sweep(base, asked), 0.0
        self.chosen = None if words.cycles is None else sorted(cycles_in(words.cycles))

    def run(self):
        """Tries all cycles, and says what was found. The lines."""
        base, teller = self.base, self.teller
        cycles = list(cycles_of(base, self.chosen))
        if not cycles:
            raise Refused(f"--cycles is {self.words.cycles}: the plan repeats in cycle {base.end}, so take some of "
                          f"{base.begin} to {base.end - 1}")
        lines = [told_plan(base, teller)]
        lines += [said.told_change(number, it, purpose, teller)
                  for number, (it, purpose) in enumerate(zip(self.asked, self.purposes), 1)]
        progress, began = Progress(len(cycles), "cycles"), time.monotonic()
        try:
            swept(self.sweep, cycles, self.words.jobs, lambda trial: progress.step(is_whole(trial)))
        finally:
            progress.end()
        self.took = time.monotonic() - began
        whole = sum(map(is_whole, self.sweep.trials))
        which = f"each cycle of {self.words.cycles}" if self.chosen else f"each of the cycles {base.begin} to {base.end - 1}"
        lines.append(f"accepted in {whole} of {len(cycles)}, asked for before {which}")
        lines += said.told_refusals(self.sweep, teller)
        lines += said.told_hit(self.sweep, teller)
        if whole:
            lines += said.table_of(self.sweep, teller)
        if whole < len(cycles) and not self.words.brief:
            lines += self.helped()
        return lines

    def helped(self):
        """What makes it whole."""
        is_all, looking = self.desk.is_fast or self.took < SHORT, Looking()
        try:
            search = Search(self.sweep, self.desk, self.chosen, is_all, self.words.jobs, looking.step)
            lines = said.told_helps(*search.all(), is_all, self.teller)
            return lines + said.told_lesser(search.lesser(), self.teller)
        finally:
            looking.end()

    def is_whole(self):
        """Whether all changes are accepted in all cycles."""
        return all(map(is_whole, self.sweep.trials))


def told_plan(base, teller):
    """What runs before the switch."""
    rules, every = base.rules, "cycle" if base.length == 1 else some(base.length, "cycle")
    lasts = f" ({teller.time(base.length * rules.cycle)})" if teller.kbits else ""
    return (f"before: {some(len(sent_in(base)), 'slot')}; from cycle {max(base.first, base.begin)} on the plan repeats "
            f"every {every}{lasts}; window {rules.window}, {rules.policy}, {rules.fill}")


def sent_in(base):
    """The slots that are sent in a plan."""
    found = 0
    for mask in base.masks():
        found |= mask
    return [it for it in range(limits.MANY_SLOTS) if found >> it & 1]


def table_text(tries, teller):
    """The table: a row for each cycle of each block."""
    out = io.StringIO()
    rows = csv.writer(out, lineterminator="\n")
    rows.writerow(["block", "cycle", "whole", "verdicts", "hit_to_last_first_frame", "last_slot"])
    for number, trying in enumerate(tries, 1):
        for it in trying.sweep.trials:
            verdicts = " ".join(":".join(map(str, (each.word, *each.numbers))) for each in it.verdicts)
            word = "yes" if is_whole(it) else "half" if is_half(it) else "no"
            hit = "" if it.hit is None else it.hit if teller.kbits is None else teller.time(it.hit).split()[0]
            rows.writerow([number, it.cycle, word, verdicts, hit, "" if it.slot is None else it.slot])
    return out.getvalue()


def base_of(asked_of, rules, setup):
    """The base of a setup, in which all has to be accepted."""
    base = asked_of.base(asked_of, rules, setup)
    if base.refused is not None:
        why = said.why_refused(base.refused, 0, said.Teller())
        raise Refused(f"what is to run before the switch is refused: {why}")
    return base


def tries_of_lists(words, asked_of):
    """The switch of two lists, and what it was made of."""
    made = lists.made_of(words)
    window = lists.window_of(made, words)
    rules = rules_of({"bus": {"cycle": made.bus.cycle, "turnaround": words.turnaround, "window": window,
                              "nodes": max(len(made.nodes), 1), "slots": words.slots},
                      "plan": {"policy": words.policy, "fill": words.fill, "horizon": words.horizon}})
    names = {it.slot: it.message.name for it in [*made.before, *made.after]}
    teller = said.Teller(names, words.kbits)
    base = base_of(asked_of, rules, lists.setup_of(made.before))
    return [Trying(words, asked_of, base, made.asked, made.purposes, teller)], teller, made


def tries_of_files(words, asked_of):
    """The blocks of a steps file."""
    text = file_text(words.system)
    asked_of.call(["replay"], {"system.toml": text, "steps.csv": "cycle,0\n"})
    rules = rules_of(tomllib.loads(text))
    blocks = blocks_in(words.steps)
    if not blocks:
        raise Refused(f"{words.steps}: no change stands after a row `cycle`, so nothing runs when it is asked for")
    if words.block is not None and words.block > len(blocks):
        raise Refused(f"--block is {words.block}: {words.steps} has {some(len(blocks), 'block')}")
    names = {} if words.names is None else {key - FIRST_SLOT: name for key, name in names_in(words.names).items()}
    teller = said.Teller(names, words.kbits)
    chosen = blocks if words.block is None else [blocks[words.block - 1]]
    tries = [Trying(words, asked_of, base_of(asked_of, rules, it.setup), it.asked,
                    [f"(line {line})" for line in it.lines], teller) for it in chosen]
    return tries, teller, chosen


def put(words, tries, teller, lines):
    """Writes the sentences and the table."""
    if words.csv is not None:
        text = table_text(tries, teller)
        if words.csv == "-":
            print("\n".join(lines), file=sys.stderr)
            lines = text.splitlines()
        else:
            try:
                pathlib.Path(words.csv).write_text(text, encoding="utf-8")
            except OSError as fault:
                raise Unread(f"{words.csv}: {fault.strerror}. May it be written?") from fault
    why = put_lines(lines)
    if why is not None:
        raise Unread(why)


def carry_out(form, words):
    """Tries what the words ask for. The status."""
    asked_of = desk(words.engine)
    tell(asked_of, "fttsearch")
    lines = []
    if form == SWITCH:
        tries, teller, made = tries_of_lists(words, asked_of)
        lines.append(f"switch: {lists.told_parts(made)}; cycles of {decimal(made.bus.millis(1), 6)} ms")
        lines += [f"rounded: {it}" for it in dict.fromkeys(it.split(", ", 1)[-1] for it in made.bus.said)]
    else:
        tries, teller, blocks = tries_of_files(words, asked_of)
    for place, trying in enumerate(tries):
        if form == ASK:
            block = blocks[place]
            lines.append(f"block {words.block or place + 1}: {some(len(block.asked), 'change')} of "
                         f"{'line' if len(block.lines) == 1 else 'lines'} {said.listed(block.lines)}, before cycle {block.at} "
                         "in the file")
        lines += trying.run()
    if form == SWITCH and words.out is not None:
        lines.append(lists.write(made, words, tries[0]))
    put(words, tries, teller, lines)
    return 0 if all(it.is_whole() for it in tries) else 1


def main(words):
    """Reads the words after the form, which stands in front, and tries what they ask for. The status."""
    form, *rest = words
    reader = parser(form)
    given = reader.parse_intermixed_args(rest)
    if form == SWITCH and given.at is not None and given.out is None:
        reader.error("--at is for --out")
    try:
        return carry_out(form, given)
    except (Refused, NoLog, csv.Error, tomllib.TOMLDecodeError) as fault:
        print(fault, file=sys.stderr)
        return 2
    except Unread as fault:
        print(fault, file=sys.stderr)
        return 3
    except OSError as fault:
        print(f"{fault.filename}: {fault.strerror}", file=sys.stderr)
        return 3
    except KeyboardInterrupt:
        print("fttsearch: interrupted", file=sys.stderr)
        return 130
