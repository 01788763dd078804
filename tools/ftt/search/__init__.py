"""Asks fttcan at many points whether all messages are accepted: of a list in milliseconds, or of a system and steps.

    tools/fttsearch MESSAGES --cycle-us RANGE --kbits RANGE [--slots N,..] [--window RANGE] [--policy P,..] [--fill F,..]
                             [--deadline RANGE] [--period NAME=RANGE].. [--turnaround N] [--horizon N] [--refine]
                             [--headroom [--add RANGE]] [--rounding FILE] [--errors] [--csv FILE | --resume FILE]
                             [--svg FILE] [--jobs N] [--engine KIND]
    tools/fttsearch SYSTEM STEPS [--window RANGE] [--policy P,..] [--fill F,..] [--deadline RANGE]
                                 [--period SLOT=RANGE].. [--bounds FILE] [--errors] [--refine | --part K/N]
                                 [--csv FILE | --resume FILE] [--svg FILE] [--jobs N] [--engine KIND]
    tools/fttsearch --join FILE.. [--csv FILE] [--svg FILE]
    tools/fttsearch (SYSTEM STEPS | MESSAGES ..) --offsets [--out FILE] [--keep SLOT,..] [--seconds S] [--rounds N]
                                                 [--seed N] [--csv FILE] ..
    tools/fttsearch .. --scheduler ADDRESS [--tls-ca FILE --tls-cert FILE --tls-key FILE]
    tools/fttsearch --switch KBITS CYCLE_US BEFORE AFTER ..
    tools/fttsearch --ask SYSTEM STEPS ..

A RANGE is FIRST:LAST, FIRST:LAST:STEP or a number, or some of these with commas. A point is accepted if the master accepts
each change, as the program answers it.

Of a list, MESSAGES is what fttmodel reads. Rates are in kbit/s, cycles in microseconds, deadlines and periods in
milliseconds. At each rate and cycle the list becomes the table that fttmodel writes. The step of a cycle may be `fit`:
then those cycles are tried in which some period or deadline is a whole number of cycles, rounded down to microseconds.
Without --policy, --fill and --window all policies and fillings are tried, and the windows that may be accepted. For each
rate it says the best cycle, which leaves the greatest share of each cycle free beside its least window; what is left;
and what rounding costs. --headroom says at that point which message decides, what may be added, which message frees most
if it is removed or comes half as often, and how far each deadline may be cut, one at a time.

Of a system and steps, what is not asked for stays as it stands in the files. Cycles and looks after the last change are
left out, since no verdict waits for them. It says the least window for each policy and filling, the best of these, and
which periods of a slot are accepted.

Acceptance need not be monotone: a wider window or a longer period may be refused although a narrower or a shorter one is
accepted. So each point is tried, and how many were is said. --refine tries fewer: coarse values first, then those between
an accepted and a refused neighbour. A border between two neighbours of one answer is not found then. The table has each
point that was tried.

--csv writes a row for each point as the answers come, and --svg a picture of the region that is accepted; - is standard
output, and then the sentences go to standard error. The first row of the table names the grid. --resume goes on with a
table that an earlier call left, or begins it. --part tries each N-th point from the K-th one on,
so that several machines share a grid, and --join reads the rows of all parts. A grid with holes is refused there.

--offsets looks for phases by which the least window is narrower. It says each window with the phases of the files and
with those that were found, which the program has accepted. --out writes the steps with them whenever a better window is
found, or the list with them as offsets.

--switch and --ask try changes of a running plan before each cycle in which they may be asked for: --switch --help and
--ask --help.

--scheduler lets the workers of a scheduler of dask.distributed answer: on this machine by tcp://, on others by tls://.

If FTTCAN names a program, that one answers, a process for each point. Otherwise the library libfttcan.so.1 answers in
this process, through the package fttcan, if it is found. If not, the program answers that ./fttcan at the top of the
repository has built; or, for an installed fttsearch, the fttcan beside it or on the path. All answer the same.

The least windows of messages in milliseconds, at two rates, in the cycles that fit their periods:

    tools/fttsearch messages.csv --kbits 250,500 --cycle-us 1000:5000:fit --headroom

Status: 0 some point is accepted, or all points of a part were tried; 1 none is accepted; 2 a file or a range is
refused; 3 a file can't be read or written, or the program fails; 4 wrong words, or a Python before 3.11; 130
interrupted by INT, TERM or HUP, and the rows of the points that were tried are written.

This program is a help for people. Nothing of it is proved, and nothing that is proved rests on it.
"""
import argparse
import os
import re
import sys

from ..command import Help, Parser, needs_tomllib, takes_version
from ..limits import HORIZON, TURNAROUND, USUAL_HORIZON
from .engine import KINDS


def jobs_of(text):
    """A number of calls at once."""
    if not re.fullmatch(r"[0-9]{1,4}", text) or int(text) == 0:
        raise argparse.ArgumentTypeError(f"{text!r} is no number from 1 to 9999")
    return int(text)


def seconds_of(text):
    """A number of seconds."""
    if not re.fullmatch(r"[0-9]{1,6}(\.[0-9]{1,3})?", text) or float(text) == 0:
        raise argparse.ArgumentTypeError(f"{text!r} is no number of seconds above 0 and below a million")
    return float(text)


def slots_of(text):
    """Some slots."""
    if not re.fullmatch(r"[0-9]{1,2}(,[0-9]{1,2})*", text):
        raise argparse.ArgumentTypeError(f"{text!r} is no list of slots, such as 0,12")
    return [int(it) for it in text.split(",")]


def takes_offsets(made):
    """The words of the search for phases."""
    made.add_argument("--offsets", action="store_true", help="look for phases by which the least window is narrower")
    made.add_argument("--out", metavar="FILE", help="write the steps with the best phases; of a list, the "
                      "list with them as offsets")
    made.add_argument("--keep", metavar="SLOT,..", type=slots_of, help="leave the phases of these slots as they are")
    made.add_argument("--seconds", metavar="S", type=seconds_of, help="look at most so long at each point; without it, 10")
    made.add_argument("--rounds", metavar="N", type=jobs_of, help="make at most so many rounds at each point. The "
                      "result is the same on each machine, if the time is enough for them")
    made.add_argument("--seed", metavar="N", type=int, help="take other chances by another number; without it, 1")


def takes_scheduler(made):
    """The words of a scheduler."""
    made.add_argument("--scheduler", metavar="ADDRESS", help="let the workers of a scheduler of dask.distributed answer: "
                      "tcp://127.0.0.1:8786 on this machine, or tls://HOST:8786")
    for name, what in (("ca", "the certificate that signed those of all machines"), ("cert", "this machine's certificate"),
                       ("key", "its key")):
        made.add_argument(f"--tls-{name}", metavar="FILE", help=f"for tls://: {what}, in PEM")


def within(low, high):
    """A reader of whole numbers in a range."""
    def read(text):
        if not re.fullmatch(r"[0-9]{1,9}", text) or not low <= int(text) <= high:
            raise argparse.ArgumentTypeError(f"{text!r} is no whole number from {low} to {high}")
        return int(text)
    return read


def parser():
    """The reader of the words."""
    made = Parser(prog="fttsearch", description=__doc__, formatter_class=Help)
    made.add_argument("files", metavar="FILE", nargs="*", help="MESSAGES; or SYSTEM and STEPS; or with --join the tables")
    made.add_argument("--cycle-us", metavar="RANGE", help="of a list: elementary cycles in microseconds. A step may be "
                      "`fit`: the cycles in which some period or deadline is a whole number of cycles")
    made.add_argument("--kbits", metavar="RANGE", help="of a list: bit rates in kbit/s")
    made.add_argument("--slots", metavar="N,..", help="of a list: 40, 96, or both; without it the least that it fits")
    made.add_argument("--window", metavar="RANGE", help="synchronous windows in bit times")
    made.add_argument("--policy", metavar="P,..", help="some of rm, dm, edf")
    made.add_argument("--fill", metavar="F,..", help="prefix, skip, or both")
    made.add_argument("--deadline", metavar="RANGE", help="each deadline becomes at most so many cycles")
    made.add_argument("--bounds", metavar="FILE", help="of SYSTEM and STEPS: accept a point only if each stream of "
                      "asynchronous requests that FILE declares, as async.csv of fttmodel, has a bound, and one of at most "
                      "its deadline. Of a list the asynchronous messages that have a deadline are asked for")
    made.add_argument("--turnaround", metavar="N", type=within(*TURNAROUND), default=None, help="of a list: the "
                      "turnaround in bit times; without it 0")
    made.add_argument("--horizon", metavar="N", type=within(*HORIZON), default=None, help="of a list: within how many "
                      "cycles a plan has to repeat; without it 10000")
    made.add_argument("--errors", action="store_true", help="tell for how many disturbances of each window the least window "
                      "leaves room, and beside it the cycle")
    made.add_argument("--refine", action="store_true", help="try an axis of numbers coarsely, and then between an accepted "
                      "and a refused neighbour, down to the step; windows of a list are always refined if --window "
                      "is left out")
    made.add_argument("--headroom", action="store_true", help="of a list: tell at the best point of each rate which message "
                      "decides, what may be added, and how far each deadline may be cut")
    made.add_argument("--add", metavar="RANGE", help="with --headroom: the periods in milliseconds of what is added; "
                      "without it those of the list")
    made.add_argument("--rounding", metavar="FILE", help="of a list: write what rounding costs each message, for each rate "
                      "and cycle")
    made.add_argument("--period", metavar="SLOT=RANGE", action="append", help="periods of a slot in cycles, in the "
                      "last row that adds or changes it; its deadline goes along if the two are equal, and is "
                      "otherwise at most the period. For several slots it is written several times")
    made.add_argument("--part", metavar="K/N", help="each N-th point alone, from the K-th one on")
    made.add_argument("--join", action="store_true", help="read tables in place of trying points")
    made.add_argument("--csv", metavar="FILE", help="write a row for each point, as the answers come")
    made.add_argument("--resume", metavar="FILE", help="the same, and go on with what an earlier call of the same "
                      "grid and files has written there; if FILE is not there, begin it")
    made.add_argument("--svg", metavar="FILE", help="write a picture")
    made.add_argument("--engine", choices=KINDS, help="what answers: the library in this process, or the program, a "
                      "process for each point; without it, the program if FTTCAN names one, otherwise the library if "
                      "it is found, otherwise the program")
    made.add_argument("--switch", action="store_true", help="alone, in front: try the switch from one list of messages to "
                      "another before each cycle; --switch --help says the words")
    made.add_argument("--ask", action="store_true", help="alone, in front: try the changes of SYSTEM and STEPS that are asked "
                      "for while something runs before each cycle; --ask --help says the words")
    takes_offsets(made)
    takes_scheduler(made)
    made.add_argument("--jobs", metavar="N", type=jobs_of, default=len(os.sched_getaffinity(0)),
                      help="how many calls run at once; without it, one for each processor")
    takes_version(made)
    return made


def words_of():
    """The words of the call."""
    reader = parser()
    words = reader.parse_intermixed_args()
    if words.switch or words.ask:
        reader.error("--switch and --ask stand in front")
    if words.join and not words.files or not words.join and len(words.files) not in (1, 2):
        reader.error("MESSAGES is needed, or SYSTEM and STEPS, or --join and tables")
    is_list = not words.join and len(words.files) == 1
    if is_list and None in (words.cycle_us, words.kbits):
        reader.error("of a list --cycle-us and --kbits are needed; of files SYSTEM and STEPS are needed")
    if not is_list and any((words.cycle_us, words.kbits, words.slots, words.headroom, words.add, words.rounding,
                            words.turnaround is not None, words.horizon is not None)):
        reader.error("--cycle-us, --kbits, --slots, --turnaround, --horizon, --headroom, --add and --rounding are for a "
                     "list")
    if words.bounds and (is_list or words.join):
        reader.error("--bounds is for SYSTEM and STEPS")
    if words.errors and (words.join or words.offsets or words.part):
        reader.error("--errors is for a whole grid of windows")
    if words.part and (is_list or words.refine):
        reader.error("--part takes a grid that is tried whole")
    if words.add and not words.headroom:
        reader.error("--add is for --headroom")
    if words.join and any((words.window, words.policy, words.fill, words.deadline, words.period, words.part,
                           words.resume, words.refine)):
        reader.error("--join takes --csv and --svg alone")
    if words.resume is not None and (words.csv is not None or words.resume == "-"):
        reader.error("--resume takes a file, which is the table: leave --csv out")
    if words.csv == words.svg == "-":
        reader.error("--csv and --svg can't both be standard output")
    words.is_horizon_asked = words.horizon is not None
    words.turnaround, words.horizon = words.turnaround or 0, words.horizon or USUAL_HORIZON
    if not words.scheduler and any((words.tls_ca, words.tls_cert, words.tls_key)):
        reader.error("--tls-ca, --tls-cert and --tls-key are for --scheduler")
    if words.scheduler and (words.join or words.offsets):
        reader.error("--scheduler is for the points of a grid")
    if words.offsets and any((words.part, words.join, words.resume, words.svg, words.refine, words.headroom, words.bounds,
                              words.rounding)):
        reader.error("--offsets takes no --part, --join, --resume, --svg, --refine, --headroom, --bounds and --rounding")
    if not words.offsets and any(it is not None for it in (words.out, words.keep, words.seconds, words.rounds, words.seed)):
        reader.error("--out, --keep, --seconds, --rounds and --seed are for --offsets")
    if words.csv == words.out == "-":
        reader.error("--csv and --out can't both be standard output")
    words.system, words.steps = (*words.files, None, None)[:2]
    words.keep, words.seconds = words.keep or (), words.seconds or 10.0
    words.seed = 1 if words.seed is None else words.seed
    return words


def main():
    """Tries the points or joins tables, and tells what was found. The status."""
    needs_tomllib("fttsearch")
    if sys.argv[1:2] in (["--ask"], ["--switch"]):
        from ..switch import main as switched  # pylint: disable=import-outside-toplevel
        return switched(sys.argv[1:])
    from .run import run  # pylint: disable=import-outside-toplevel
    return run(words_of())
