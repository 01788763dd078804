"""A report of a design, and what changed from one design to another.

    tools/fttmodel --report FOLDER [--since OLD] [--out FILE] [--title TEXT] [--kbits K] [--brief] [--engine KIND]
    tools/fttmodel --compare OLD NEW [--kbits K] [--engine KIND]

A design is a folder as fttmodel or fttsearch --switch makes it: system.toml, steps.csv, names.csv and, with asynchronous
messages, async.csv. The bit rate is that of the first line of system.toml, or of --kbits.

--report writes one page of HTML, report.html in the folder if --out names no other file, which a browser shows and prints on
A4: messages, load, margin, worst cases, bounds, a timeline, the switches that the steps ask for while something runs, the
files and the version; and with --since what changed since another design. Switches are tried before each cycle, as
fttsearch --ask does; --brief leaves that out. The same files give the same page.

--compare says what changed: the system, messages, slots, times and verdicts.

    tools/fttmodel --report mine --since released --out review.html
    chromium --headless --print-to-pdf=review.pdf review.html

Status: 0 written, or nothing changed; 1 with --compare something changed, with --report the table is refused, a message is
late or a switch may be refused; 2 a file is refused; 3 a file can't be read or written; 4 wrong words.
"""
import argparse
import csv
import os
import pathlib
import sys

from .. import version
from ..command import Parser, put_lines
from ..desk import KINDS, desk, tell
from ..faults import Refused, Unread
from ..log.rows import NoLog
from ..switch import Trying, base_of
from .compare import differences
from .design import Design
from .page import page

REPORT, COMPARE = "--report", "--compare"


def parser(form):
    """The reader of the words of a form."""
    from ..model import positive  # pylint: disable=import-outside-toplevel
    made = Parser(prog=f"fttmodel {form}", description=__doc__, formatter_class=argparse.RawDescriptionHelpFormatter)
    if form == REPORT:
        made.add_argument("folder", metavar="FOLDER")
        made.add_argument("--since", metavar="OLD", help="say what changed since the design of this folder")
        made.add_argument("--out", metavar="FILE", help="the page; without it report.html in FOLDER, and - is standard output")
        made.add_argument("--title", help="the title of the page; without it the folder's name")
        made.add_argument("--brief", action="store_true", help="try no switch")
    else:
        made.add_argument("old", metavar="OLD")
        made.add_argument("new", metavar="NEW")
    made.add_argument("--kbits", type=positive, help="the bit rate in kbit/s, where system.toml does not say it")
    made.add_argument("--engine", choices=KINDS, help="what makes the plans; without it, the program if FTTCAN names one, "
                      "otherwise the library if it is found, otherwise tools/reference")
    return made


class Words:
    """What a switch that is tried for a report asks for: all cycles, and what helps."""

    cycles, brief, jobs = None, False, len(os.sched_getaffinity(0))


def switched(design, asked_of):
    """What is said of the switches that the steps ask for, and whether all of them are whole."""
    lines, is_whole = [], True
    for number, block in enumerate(design.blocks, 1):
        lines.append(f"switch {number}: {len(block.asked)} changes, before cycle {block.at} in the steps")
        try:
            trying = Trying(Words, asked_of, base_of(asked_of, design.rules, block.setup), block.asked,
                            [f"(line {line})" for line in block.lines], design.teller())
        except Refused as fault:
            lines.append(str(fault))
            is_whole = False
            continue
        lines += trying.run()
        is_whole = is_whole and trying.is_whole()
    return lines, is_whole


def report(words):
    """Writes the page. The status."""
    asked_of = desk(words.engine)
    tell(asked_of, "fttmodel")
    design = Design(words.folder, words.kbits).plan(asked_of)
    found = None if words.since is None else differences(Design(words.since, words.kbits).plan(asked_of), design)
    lines, is_whole = ([], True) if words.brief or design.refused is not None else switched(design, asked_of)
    text = page(design, words.title or f"Design {design.folder.resolve().name}", version.line("fttmodel"), asked_of.told(), lines,
                found, words.since)
    least = design.least_left()
    late = [it for it in design.owned if it.deadline is not None and (it.bound is None or it.bound > it.deadline)]
    is_good = design.refused is None and is_whole and not late and (least is None or least[0] >= 0)
    if words.out == "-":
        why = put_lines(text.splitlines())
        if why is not None:
            raise Unread(why)
        return 0 if is_good else 1
    path = pathlib.Path(words.out) if words.out else design.folder / "report.html"
    try:
        path.write_text(text, encoding="utf-8")
    except OSError as fault:
        raise Unread(f"{path}: {fault.strerror}. May it be written?") from fault
    print(f"written: {path}")
    return 0 if is_good else 1


def compare(words):
    """Says what changed. The status."""
    asked_of = desk(words.engine)
    tell(asked_of, "fttmodel")
    found = differences(*(Design(folder, words.kbits).plan(asked_of) for folder in (words.old, words.new)))
    wide = max((len(it.about) for it in found), default=0)
    why = put_lines([f"{it.about.ljust(wide)}  {it.told}" for it in found] or ["nothing changed"])
    if why is not None:
        raise Unread(why)
    return 1 if found else 0


def main(words):
    """Reads the words, of which the form stands in front, and does what they ask. The status."""
    form, *rest = words
    given = parser(form).parse_intermixed_args(rest)
    try:
        return report(given) if form == REPORT else compare(given)
    except (Refused, NoLog, csv.Error) as fault:
        print(fault, file=sys.stderr)
        return 2
    except Unread as fault:
        print(fault, file=sys.stderr)
        return 3
    except KeyboardInterrupt:
        print("fttmodel: interrupted", file=sys.stderr)
        return 130
