"""Looks at the files of a call, and prints what was found."""
import sys

from ..command import put_lines
from ..faults import Unread
from ..telling import some
from .bounds import lint_bounds
from .files import Findings
from .plan import lint_plan
from .requests import lint_requests
from .steps import lint_steps
from .streams import lint_streams
from .system import lint_system
from .wishes import lint_wishes


def look_at(words):
    """Looks at the files that the words of a call name. What was found in each."""
    files = []

    def look(path, reader, *more):
        """Looks at a file, where it can be read."""
        found = Findings(path)
        files.append(found)
        try:
            return reader(path, *more, found)
        except Unread as fault:
            found.is_unread = True
            found.lines.append(str(fault))
            return None

    system = look(words.system, lint_system)
    cycles, table = look(words.steps, lint_steps, system, words.mode) or (None, None)
    if files[-1].has_blocks and system is not None and not any(it.mistakes or it.is_unread for it in files):
        # The planner is needed here alone.
        from .switches import lint_switches  # pylint: disable=import-outside-toplevel
        lint_switches(words.system, words.steps, words.ask, files[-1])
    streams = None if words.bounds is None else look(words.bounds, lint_bounds, system)
    if words.requests is not None:
        look(words.requests, lint_requests, system, cycles, streams)
    if words.plan is not None:
        look(words.plan, lint_plan)
    if words.streams is not None:
        look(words.streams, lint_streams, system, cycles, table)
    if words.wishes is not None:
        look(words.wishes, lint_wishes, system, cycles)
    if words.log is not None:
        # The readers of logs are needed here alone.
        from .logs import lint_log  # pylint: disable=import-outside-toplevel
        look(words.log, lint_log)
    return files


def put_findings(files, most):
    """Prints what was found in the files, of each so many lines; None prints all. The status."""
    lines = []
    for found in files:
        lines += found.lines[:most]
        if most is not None and len(found.lines) > most:
            lines.append(f"{found.path}: {len(found.lines) - most} more, which --all prints")
    mistakes, warnings = sum(it.mistakes for it in files), sum(it.warnings for it in files)
    unread = sum(it.is_unread for it in files)
    lines.append(f"{some(mistakes, 'mistake')}, {some(warnings, 'warning')}"
                 f"{', and ' + some(unread, 'file') + ' not read' if unread else ''}")
    why = put_lines(lines)
    if why is not None:
        print(why, file=sys.stderr)
        return 3
    return 3 if unread else 2 if mistakes else 1 if warnings else 0
