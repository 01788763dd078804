"""Looks at changes that are asked for together while something runs: one may be accepted and another one refused."""
import os
import tomllib

from .. import places
from ..desk import desk, rules_of, tell
from ..faults import Refused, Unread
from ..search.asking import Progress
from ..switch.blocks import blocks_in
from ..switch.parallel import swept
from ..switch.remedies import cycles_of
from ..switch.said import Teller, cycles_told, why_refused
from ..switch.sweep import Sweep, is_half, is_whole
from ..telling import listed, some


def may_end_half(block):
    """Whether a block has changes of which one makes room, and another one needs it."""
    makes = [any(it.word != "add" for it in asked.operations) for asked in block.asked]
    needs = [any(it.word != "remove" for it in asked.operations) for asked in block.asked]
    return any(one and other for at, one in enumerate(makes) for place, other in enumerate(needs) if at != place)


def tried(block, rules, asked_of):
    """The sweep of a block before each cycle of the plan that runs; None where that plan is refused."""
    base = asked_of.base(asked_of, rules, block.setup)
    if base.refused is not None:
        return None
    sweep, cycles = Sweep(base, block.asked), list(cycles_of(base))
    progress = Progress(len(cycles), "cycles")
    try:
        swept(sweep, cycles, len(os.sched_getaffinity(0)), lambda trial: progress.step(is_whole(trial)))
    finally:
        progress.end()
    return sweep


def told_half(sweep):
    """What is said of a sweep with trials that end half done; None where it has none."""
    half = [it for it in sweep.trials if is_half(it)]
    if not half:
        return None
    first = half[0]
    place = next(at for at, it in enumerate(first.verdicts) if it.word != "accepted")
    return (f"asked for before {some(len(sweep.trials), 'cycle')}, one by one, they end half done in {len(half)}: before "
            f"{cycles_told(it.cycle for it in half)}. Before cycle {first.cycle} change {place + 1} of them is refused: "
            f"{why_refused(first.verdicts[place], first.cycle, Teller())}. {places.tool('fttsearch')} --ask says what helps.")


def lint_switches(system, steps, is_asked, found):
    """Warns of changes that may end half done: of all such, or where it is to be asked, of those that do so before some
    cycle."""
    try:
        blocks = [it for it in blocks_in(steps) if may_end_half(it)]
    except (Refused, Unread):
        return
    asked_of = desk() if is_asked and blocks else None
    if asked_of is not None:
        tell(asked_of, "fttlint")
        with open(system, "rb") as file:
            rules = rules_of(tomllib.load(file))
    for block in blocks:
        front = f"this change and that of line {block.lines[0]}" if len(block.lines) == 2 else (
            f"the changes of lines {listed(block.lines)}")
        if not is_asked:
            found.warning(block.lines[-1], f"{front} are asked for together: one may be accepted and the other one refused, "
                          f"and then a switch ends half done. {places.tool('fttsearch')} --ask SYSTEM STEPS tries them before "
                          "each cycle, and so does --ask here.")
            continue
        sweep = tried(block, rules, asked_of)
        told = None if sweep is None else told_half(sweep)
        if told is not None:
            found.warning(block.lines[-1], f"{front}: {told}")
