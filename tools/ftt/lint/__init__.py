"""Finds mistakes in the files of fttcan, and says what to do about each.

    tools/fttlint SYSTEM STEPS [REQUESTS] [--plan PLAN] [--streams STREAMS] [--wishes WISHES] [--log LOG]
                  [--bounds BOUNDS] [--ask] [--live | --replay] [--all]
    tools/fttlint --words WORD..

A mistake is what the program refuses: a file that breaks its format, or a change that is malformed, late or after the
horizon. A warning is something that the program does not report. A change is taken for accepted
if nothing here refuses it: only the program finds a missed deadline. Of a plan only the form is looked at; `fttcan check`
says whether it keeps the table. Of a log only the rows are looked at; `fttcan audit` judges what they say.

--bounds looks at the file that declares how far apart asynchronous requests are, as async.csv of fttmodel. It warns of
requests that break their stream, and of streams without a bound, or with one after their deadline.

Changes that are asked for together while something runs are a warning if one makes room and another one needs it: a
switch may end half done. --ask tries them before each cycle, as fttsearch --ask does, and warns of those alone that end
half done before some cycle.

--words looks at the words of a call of fttcan, all that come after it, and says which one is wrong: the command, an
option, a number, or a word that is missing or in another's place. Outside of a checkout the fttcan of the path says
what its commands are.

Each finding is a line: FILE:LINE, `mistake` or `warning`, what is wrong, and what to do: a value or a row that the
program takes. LINE is that of an editor.
Below the first mistake of a file stands the program's own line, or verdict.

The files of the folder mine, as fttmodel makes them from milliseconds:

    tools/fttlint mine/system.toml mine/steps.csv

Status: 0 nothing; 1 warnings; 2 mistakes; 3 a file that can't be read; 4 wrong words, or a Python before
3.11.

This program is a help for people. Nothing of it is proved, and nothing that is proved rests on it.
"""
import argparse
import sys

from ..command import Help, Parser, needs_tomllib, stop, takes_version

# So many findings of a file are printed.
SHOWN = 20


def parser():
    """The reader of the words."""
    made = Parser(prog="fttlint", description=__doc__, formatter_class=Help)
    made.add_argument("system", metavar="SYSTEM")
    made.add_argument("steps", metavar="STEPS")
    made.add_argument("requests", metavar="REQUESTS", nargs="?")
    made.add_argument("--plan", metavar="PLAN", help="the plan text that check is to read")
    made.add_argument("--streams", metavar="STREAMS", help="the requests of polled slots that poll is to read")
    made.add_argument("--wishes", metavar="WISHES", help="the wishes that elastic is to read")
    made.add_argument("--log", metavar="LOG", help="the log that audit is to read")
    made.add_argument("--bounds", metavar="BOUNDS", help="the streams that are declared of the requests")
    made.add_argument("--ask", action="store_true", help="try changes that are asked for together before each cycle; without "
                      "the library libfttcan.so.1 this takes minutes")
    made.add_argument("--words", action="store_true", help="look at the words of a call, all that come after it")
    modes = made.add_mutually_exclusive_group()
    modes.add_argument("--live", action="store_const", const="live", dest="mode", default="both",
                       help="for live alone: a START may pass, and no row waits for a cycle row")
    modes.add_argument("--replay", action="store_const", const="replay", dest="mode",
                       help="for replay, admit and check alone: no warning about live")
    made.add_argument("--all", action="store_true", help=f"print all findings of a file, not {SHOWN}")
    takes_version(made)
    return made


def main():
    """Reads the words, looks at the files, and prints what was found. The status."""
    try:
        return linted()
    except KeyboardInterrupt:
        return stop("fttlint")


def linted():
    """The same, where nobody interrupts it."""
    needs_tomllib("fttlint")
    # A path that is not UTF-8 is printed with ? in place of its bytes.
    sys.stdout.reconfigure(errors="replace")
    # What a call does not need is not loaded: the launcher waits for --words.
    if sys.argv[1:2] == ["--words"]:
        from .words import lint_words  # pylint: disable=import-outside-toplevel
        return lint_words(sys.argv[2:])
    reader = parser()
    words = reader.parse_intermixed_args()
    if words.words:
        reader.error("--words stands in front")
    from .look import look_at, put_findings  # pylint: disable=import-outside-toplevel
    return put_findings(look_at(words), None if words.all else SHOWN)
