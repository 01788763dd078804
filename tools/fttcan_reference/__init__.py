"""Answers the words of fttcan as docs/FORMATS.md says, by a plain program that shares nothing with fttcan.

    tools/reference replay SYSTEM STEPS [REQUESTS] [--tail N] [--report]
    tools/reference admit SYSTEM STEPS
    tools/reference check SYSTEM STEPS PLAN
    tools/reference gen NUMBER
    tools/reference audit SYSTEM STEPS LOG [REQUESTS]
    tools/reference handover SYSTEM STEPS AT [REQUESTS]
    tools/reference poll SYSTEM STEPS STREAMS
    tools/reference elastic SYSTEM STEPS WISHES
    tools/reference --version

Standard output, standard error and the status are those of fttcan, except for status 5 and 6. If its readers can't tell
what a file means (quotes in rows, some forms of TOML), the status is 9.

It goes cycle by cycle and frame by frame over the definitions, and is slow: a cycle with forty frames takes about a
millisecond. Expected outputs of examples come from it, or are compared with it: tools/check-reference. It has readers
of its own, and shares nothing with the other tools and with the checks but the number of the version, so that it can
tell where they are wrong.

This program is a help for people. Nothing of it is proved, and nothing that is proved rests on it.
"""
import importlib.resources
import sys

from .bus import triggers, wire_length, worst
from .commands import breach, replay, told
from .plan import Master, walk
from .types import Certificate, Change, Entry, Placed, System, Unsure

# What a check asks for call by call.
__all__ = ["Certificate", "Change", "Entry", "Master", "Placed", "System", "breach", "main", "replay", "triggers",
           "walk", "wire_length", "worst"]


def version():
    """The version of the tools with which this package came, the commit, and the sum of its files."""
    try:
        from ftt import version as of_tools  # pylint: disable=import-outside-toplevel
    except ImportError:
        return "reference, of an unknown version"
    return of_tools.line("reference", of_tools.files_below(importlib.resources.files(__package__)))


def main():
    """Answers the words of the call."""
    if sys.version_info < (3, 11):
        print("reference needs Python 3.11 or later.", file=sys.stderr)
        return 9
    if sys.argv[1:2] in (["-h"], ["--help"]):
        print(__doc__.strip())
        return 0
    if sys.argv[1:] == ["--version"]:
        print(version())
        return 0
    try:
        rows, lines, status = told(sys.argv[1:])
    except Unsure:
        print("reference: its readers don't tell what a file means", file=sys.stderr)
        return 9
    except KeyboardInterrupt:
        print("reference: interrupted", file=sys.stderr)
        return 130
    sys.stdout.write("".join(f"{row}\n" for row in rows))
    sys.stderr.write("".join(f"{line}\n" for line in lines))
    return status
