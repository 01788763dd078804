"""What the commands share: how words are read, which Python is needed, and how lines are written."""
import argparse
import itertools
import sys
import textwrap


class Parser(argparse.ArgumentParser):
    """A reader of words that ends with 4 where they are wrong."""

    def error(self, message):
        self.print_usage(sys.stderr)
        self.exit(4, f"{self.prog}: {message}\n")


class Help(argparse.RawDescriptionHelpFormatter):
    """Writes a help. On a narrow terminal the paragraphs of its text are wrapped; rows of calls and lists stay."""

    def _fill_text(self, text, width, indent):
        parts = []
        for is_row, lines in itertools.groupby(text.splitlines(), key=lambda line: not line or line[0] == " "):
            lines = list(lines)
            if not is_row and max(map(len, lines)) > width:
                lines = textwrap.wrap(" ".join(lines), max(width, 20), break_long_words=False, break_on_hyphens=False)
            parts += lines
        return "\n".join(f"{indent}{line}".rstrip() for line in parts)


class Version(argparse.Action):
    """Tells the version, which nobody looks for where it is not asked for."""

    def __init__(self, option_strings, dest, **more):
        super().__init__(option_strings, dest, nargs=0, default=argparse.SUPPRESS, **more)

    def __call__(self, parser, namespace, values, option_string=None):
        from . import version  # pylint: disable=import-outside-toplevel
        print(version.line(parser.prog))
        parser.exit()


def takes_version(parser):
    """Gives a reader of words the option for the version."""
    parser.add_argument("--version", action=Version, help="show the version, the commit and the sum of the sources")


def needs_tomllib(name):
    """Ends where Python is too old for a tool: the module tomllib came with 3.11."""
    if sys.version_info < (3, 11):
        print(f"{name} needs Python 3.11 or later.", file=sys.stderr)
        sys.exit(4)


def put_lines(lines):
    """Writes lines to standard output. What is said where they can't be written; else None."""
    try:
        print("\n".join(lines), flush=True)
    except OSError as fault:
        # A reader that has ended, as head, is no fault.
        sys.stdout = None
        return None if isinstance(fault, BrokenPipeError) else f"standard output: {fault.strerror}"
    return None


def stop(name):
    """Says that a tool was interrupted by Ctrl-C. The status, which is that of a shell for it."""
    sys.stdout = None
    print(f"{name}: interrupted", file=sys.stderr)
    return 130
