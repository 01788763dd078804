"""Looks at the file that declares the streams of asynchronous requests."""
from .. import bounds, declared
from ..limits import WINDOW
from .files import bytes_of


def lint_bounds(path, system, found):
    """Looks at the streams. Those that the file declares; None where something is wrong with it."""
    data = bytes_of(path, "bounds", found, False)
    if data is None:
        return None
    streams, faults = declared.declared_in(data)
    for fault in faults:
        found.mistake(fault.line, fault.what)
    if faults:
        return None
    if system is not None:
        warn_streams(streams, system, found)
    return streams


def warn_streams(streams, system, found):
    """Warns of identifiers of which no stream is declared, and of streams without a bound, or with a late one."""
    missing = declared.missing_of(streams, system.owners)
    if missing is not None:
        found.warning(None, f"{missing}, and the system owns it: if one of its requests comes, no bound holds.")
    layout = bounds.Layout(system.cycle, system.turnaround, system.window, system.slots)
    every = [it.stream for it in streams]
    for it, bound in declared.late_of(streams, layout):
        said = f"{it.stream.id:#05x} has no bound: a request may still wait when the next one comes."
        if bound is not None:
            said = f"{it.stream.id:#05x} may take {bound} bit times, and its deadline is {it.deadline}."
        window = bounds.widest_window(layout, every, it.stream, it.deadline, WINDOW[0])
        what = f"Take a window of at most {window}." if window else "Take greater distances, or a longer cycle."
        found.warning(it.line, f"{said} {what}")
