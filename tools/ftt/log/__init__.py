"""Turns a log of fttcan into what other tools and people read.

    tools/fttlog say [LOG]                        sentences on verdicts, cycles and frames
    tools/fttlog late [LOG]                       how late frames were sent, with --requests, --steps or --streams
    tools/fttlog svg FIRST LAST [LOG]             a drawing of the cycles FIRST to LAST, as SVG
    tools/fttlog html [LOG]                       a page that shows the whole run, to pan and to search
    tools/fttlog json [LOG]                       one JSON object a row
    tools/fttlog accepted STEPS [LOG]             the steps without the changes that the log refuses
    tools/fttlog candump KBITS [LOG]              the form of `candump -L`
    tools/fttlog pcap KBITS [LOG]                 a recording for tcpdump and Wireshark
    tools/fttlog from-candump KBITS [RECORDING]   the rows of a recording of candump -L
    tools/fttlog conform KBITS OWN [RECORDING]    whether a recording is that of the run OWN, a log or a plan
    tools/fttlog bits [LOG]                       the bits of the bus
    tools/fttlog traffic SYSTEM STEPS REQUESTS STREAMS
                                                  a run with asynchronous requests and requests of polled slots

With no LOG or RECORDING, or with -, standard input is read. The log is one that `fttcan replay` or `fttcan live` wrote,
with or without a report. If it was cut by `--tail`, most forms tell the rows that are there.
`tools/fttlog FORM --help` says the options of a form. docs/tools.md has examples.

How late each message was sent, in milliseconds at 250 kbit/s, and the run in sentences:

    tools/fttlog late --kbits 250 --names mine/names.csv --steps mine/steps.csv log
    tools/fttlog say --kbits 250 --names mine/names.csv --steps mine/steps.csv log

Status: 0 done; 1 a file can't be read, or a row of it can't be used: a line on standard error says which; 2 the words
are wrong. For conform, 1 also says that something was found, and for late with --bounds that a bound is broken. This
program is a help for people. Nothing of it is proved, and nothing that is proved rests on it.
"""
import argparse
import fractions
import sys

from ..command import Help, stop, takes_version
from . import bus, conform, drawing, reading, recording, rows, steps, times, words as sentences
from .clock import PPM

# The forms that tell what stands after the row `end` too.
WHOLE = ("say", "json", "late", "html")
# The forms that read a log more than once; with steps `say` does too.
TWICE = ("late", "svg", "html")
# The forms that read recordings.
RECORDINGS = ("from-candump", "conform")
# The form that reads no log.
TRAFFIC = "traffic"


def at_least(least):
    """A reader of numbers that are at least this one."""
    def number(text):
        value = int(text)
        if value < least:
            raise argparse.ArgumentTypeError(f"{value} is below {least}")
        return value
    return number


def seconds(text):
    """A reader of seconds, in decimals."""
    value = fractions.Fraction(text)
    if value < 0 or "/" in text:
        raise ValueError
    return value


def kbits(text):
    """A reader of bit rates."""
    return rows.rate(text)


def takes_kbits(made):
    """Gives a form an option for a bit rate."""
    made.add_argument("--kbits", type=kbits, help="the bit rate in kbit/s, as 500 or 83.333: times in milliseconds")


def takes_names(made):
    """Gives a form an option for names."""
    made.add_argument("--names", metavar="FILE",
                      help="names of messages: rows SLOT,NAME or 0xID,NAME, as names.csv of fttmodel")


def takes_cycle(made):
    """Gives a form an option for the length of a cycle."""
    made.add_argument("--cycle", type=at_least(400),
                      help="the length of a cycle in bit times; without it, the distance of the triggers")


def takes_starts(made):
    """Gives a form a choice of what times are. All forms have the same one where nothing is said."""
    moment = made.add_mutually_exclusive_group()
    moment.add_argument("--starts", action="store_true", help="times are starts of frames; without it ends, as of candump")
    moment.add_argument("--ends", dest="starts", action="store_false", help="as without it: times are ends of frames")


def takes_times(made):
    """Gives a form that makes recordings a bit rate, and how bit times become seconds."""
    made.add_argument("kbits", type=kbits, help="the bit rate in kbit/s, as 500 or 83.333")
    made.add_argument("--at", type=seconds, default=fractions.Fraction(1), metavar="SECONDS",
                      help="the time of bit time 0; without it 1, since log2asc takes a first second of 0 for none")
    takes_starts(made)


def form(forms, name, told, *options):
    """A form with these options."""
    made = forms.add_parser(name, help=told, description=told)
    for option in options:
        option(made)
    return made


def forms_of(reader):
    """The forms, each with its words."""
    forms = reader.add_subparsers(dest="form", required=True, metavar="FORM")
    tell = form(forms, "say", "sentences on verdicts, cycles and frames", takes_kbits, takes_names)
    tell.add_argument("--steps", metavar="FILE", help="the steps file, to say which row of it asked for a change")
    tell.add_argument("--all", action="store_true", help="the whole plan of a missed deadline")
    tell.add_argument("--from", dest="first", type=at_least(0), default=0, metavar="CYCLE", help="begin at this cycle")
    tell.add_argument("--to", dest="last", type=at_least(0), default=float("inf"), metavar="CYCLE", help="end with this cycle")
    tell.add_argument("--changes", action="store_true", help="changes and looks alone, and no cycles")
    late = form(forms, "late", "how late frames were sent", takes_kbits, takes_names, takes_cycle)
    late.add_argument("--requests", metavar="FILE", help="the requests file: the latencies of asynchronous frames")
    late.add_argument("--bounds", metavar="FILE", help="with --requests: the file that declares the streams of the "
                      "requests, as async.csv of fttmodel. Their bounds stand beside, and the status is 1 if one is "
                      "broken")
    late.add_argument("--system", metavar="FILE", help="with --bounds: the system file")
    late.add_argument("--steps", metavar="FILE", help="the steps file: the delays of synchronous frames")
    late.add_argument("--plan", metavar="FILE", help="with --steps and --kbits: the plan that admit writes of these steps, by "
                      "which the worst case of each message is told; without it, by the cycles of the run")
    late.add_argument("--streams", metavar="FILE", help="the streams file of a log of poll: the latencies of requests of "
                      "polled slots")
    late.add_argument("--svg", metavar="FILE", help="writes histograms into this file")
    draw = form(forms, "svg", "a drawing of some cycles", takes_kbits, takes_names, takes_cycle)
    draw.add_argument("first", type=at_least(0), help="the first cycle")
    draw.add_argument("last", type=at_least(0), help="the last cycle")
    page = form(forms, "html", "a page that shows the whole run", takes_kbits, takes_names, takes_cycle)
    page.add_argument("--steps", metavar="FILE", help="the steps file, to say what each change asked for")
    page.add_argument("--title", default="A run of fttcan", help="the title of the page")
    form(forms, "json", "one JSON object a row", takes_names)
    keep = form(forms, "accepted", "the steps without refused changes")
    keep.add_argument("steps", help="the steps file")
    recordings_of(forms)
    whole = form(forms, "traffic", "a run with asynchronous requests and requests of polled slots, composed of two runs")
    for name in ("system", "steps", "requests", "streams"):
        whole.add_argument(name, metavar=name.upper(), help=f"the {name} file")
    for name, made in forms.choices.items():
        if name == TRAFFIC:
            continue
        read = "recording" if name in RECORDINGS else "log"
        made.add_argument("log", nargs="?", default="-", metavar=read, help=f"the {read}; without it, standard input")


def recordings_of(forms):
    """The forms of recordings, each with its words."""
    dump = form(forms, "candump", "the form of candump -L", takes_times)
    dump.add_argument("--interface", default="can0", help="the name of the interface; without it can0")
    form(forms, "pcap", "a recording for tcpdump and Wireshark", takes_times)
    take = form(forms, "from-candump", "the rows of a recording", takes_cycle, takes_starts, takes_recording)
    take.add_argument("--calls", metavar="LOG",
                      help="puts the rows submit, plan and look of this log in front of the cycles that were next")
    take.add_argument("--snap", type=seconds, metavar="US",
                      help="moves each frame by at most so many microseconds to its exact time, by order and lengths")
    take.add_argument("--moved", metavar="FILE", help="with --snap: writes by how much each frame was moved, as CSV")
    conforms(forms)
    line = form(forms, "bits", "the bits of the bus, as text of 0 and 1")
    line.add_argument("--until", type=at_least(0),
                      help="the time before which the bits end; without it, the last frame's end")


def takes_recording(made):
    """Gives a form that reads recordings a bit rate, and what of a recording it takes."""
    made.add_argument("kbits", type=kbits, help="the bit rate in kbit/s")
    made.add_argument("--interface", help="the interface whose frames are taken; without it, that of the first line")
    made.add_argument("--strict", action="store_true",
                      help="refuses frames of other identifiers, of 29 bits and of CAN FD, remote and error frames; "
                      "without it, they are left out and counted")


def conforms(forms):
    """The form that compares a recording with a run, and its words."""
    made = form(forms, "conform", "whether a recording is that of a run", takes_names, takes_cycle, takes_starts,
                takes_recording)
    made.add_argument("own", help="the run: a log of replay, live, handover or poll, or a plan of admit")
    made.add_argument("--tolerance", type=seconds, default=conform.TOLERANCE, metavar="US",
                      help=f"what a frame may be off, in microseconds; without it {conform.TOLERANCE}")
    made.add_argument("--ppm", type=seconds, default=PPM,
                      help=f"what the recorder's clock may run off, in parts per million; without it {PPM}")
    made.add_argument("--requests", choices=("own", "any"), default="own",
                      help="whether the bus has the run's requests, in any place, or any others; without it own")
    made.add_argument("--reserve", type=at_least(0), default=None, metavar="N", help="the bus is disturbed: each trigger says "
                      "N bit times more than its frames need, and frames may be late by what is lost of them")
    made.add_argument("--turnaround", type=at_least(0), default=None, metavar="R", help="the bus is disturbed: a trigger may "
                      "be late by R bit times")
    made.add_argument("--any-data", action="store_true",
                      help="compares no data of slots, only how many bytes there are")
    made.add_argument("--csv", metavar="FILE", help="writes all findings as CSV; - is standard output")
    made.add_argument("--json", metavar="FILE", help="writes all findings as JSON; - is standard output")
    made.add_argument("--show", type=at_least(0), default=20, metavar="N", help="says N findings; without it 20")
    made.add_argument("--all", action="store_true", help="says all findings")


def parser():
    """The reader of the words."""
    made = argparse.ArgumentParser(prog="fttlog", description=__doc__,
                                   formatter_class=Help)
    takes_version(made)
    forms_of(made)
    return made


def read_words():
    """The words. A log may stand after the options too."""
    reader = parser()
    words, more = reader.parse_known_args()
    if len(more) == 1 and getattr(words, "log", None) == "-" and not more[0].startswith("-"):
        words.log = more[0]
    elif more:
        reader.error(f"unrecognized arguments: {' '.join(more)}")
    if words.form == "late" and (words.requests, words.steps, words.streams) == (None, None, None):
        reader.error("late needs --requests, --steps or --streams")
    if words.form == "late" and words.plan is not None and None in (words.steps, words.kbits):
        reader.error("--plan needs --steps and --kbits")
    if words.form == "late" and words.bounds is not None and None in (words.requests, words.system):
        reader.error("--bounds needs --requests and --system")
    if words.form == "late" and words.bounds is None and words.system is not None:
        reader.error("--system needs --bounds")
    if getattr(words, "moved", None) is not None and words.snap is None:
        reader.error("--moved needs --snap")
    return words


def note(text):
    """Says on standard error what a reader has to know of the output."""
    sys.stderr.write(f"fttlog: {text}\n")


def turn(words, put):
    """Turns a log, or a recording, into what the words ask for. Whether something was found that the status has to
    tell."""
    if words.form in RECORDINGS:
        recording.look_at(words.log)
        return conform.conform(words, put, note) if words.form == "conform" else bus.from_candump(words, put, note)
    names = rows.Names(getattr(words, "names", None))
    is_once = words.form not in TWICE and (words.form != "say" or words.steps is None)
    return turned(words, reading.Again(words.log, words.form in WHOLE, is_once), names, put)


def turned(words, read, names, put):
    """Turns the rows of a log into what the words ask for."""
    if words.form == "say":
        return sentences.say(read, names, words, put)
    if words.form == "json":
        return sentences.as_json(read, names, put)
    if words.form == "accepted":
        return steps.accepted(read, words.steps, put)
    if words.form == "candump":
        return bus.candump(read, words.kbits, words.at, not words.starts, words.interface, put)
    if words.form == "pcap":
        return bus.pcap(read, words.kbits, words.at, not words.starts, sys.stdout.buffer.write)
    if words.form == "bits":
        return bus.bits(read, words.until, put)
    return {"late": times.late, "svg": drawing.svg, "html": drawing.html}[words.form](read, words, names, put)


def main():
    """Reads the words, and does what they ask."""
    words, is_found = read_words(), False
    try:
        if words.form == TRAFFIC:
            from . import traffic  # pylint: disable=import-outside-toplevel
            traffic.traffic(words, sys.stdout.write, note)
            sys.stdout.flush()
            return
        is_found = turn(words, sys.stdout.write)
        sys.stdout.flush()
    except BrokenPipeError:
        sys.stdout = None
    except OSError as fault:
        sys.exit(f"fttlog: {fault.filename or 'standard output'}: {fault.strerror}")
    except rows.NoLog as fault:
        sys.exit(f"fttlog: {fault}")
    except KeyboardInterrupt:
        sys.exit(stop("fttlog"))
    if is_found is True:
        sys.exit(1)
