"""The changes that are asked for together in a steps file: a block, which stands between two rows `cycle`."""
from collections import namedtuple

from .. import places
from ..desk import Asked
from ..faults import Refused
from ..log.rows import NoLog
from ..log.steps import read_steps
from ..steps import MOST

# What is asked for together: the setup before it, which is changes and numbers of cycles; the changes; the cycle before
# which the file asks for them; and the lines of the changes.
Block = namedtuple("Block", "setup asked at lines")


def acts_in(path):
    """The rows of a steps file as changes, looks and numbers of cycles, each with its line."""
    found = []
    try:
        for line, record, act in read_steps(path):
            if act is None:
                found.append((line, int(record[1])))
            elif not found or found[-1][1] is not act:
                found.append((line, act))
    except NoLog as fault:
        raise Refused(str(fault)) from fault
    for line, act in found:
        for operation in () if isinstance(act, int) else act.operations:
            for name, value in operation.fields.items():
                if value > MOST[name]:
                    raise Refused(f"{path}: line {operation.line}: {name} is {value}; {places.tool('fttlint')} says what it "
                                  "may be")
    return found


def blocks_in(path):
    """The blocks of a steps file that stand after a row `cycle`, so that something runs when they are asked for."""
    found, setup, opened, block = [], [], 0, None
    for line, act in acts_in(path):
        if isinstance(act, int):
            block, opened = None, opened + act
            setup.append(act)
        elif act.operations:
            asked = Asked(act.operator, act.start - opened, act.operations)
            if asked.ahead < 0:
                raise Refused(f"{path}: line {line}: START is {act.start}, and {opened} cycles were opened above: it has "
                              "passed whenever it is asked for")
            if block is None and opened:
                block = Block(trimmed(setup), [], opened, [])
                found.append(block)
            if block is not None:
                block.asked.append(asked)
                block.lines.append(line)
            setup.append(asked)
    return found


def trimmed(setup):
    """A setup up to its last change: the cycles after it are those before which is asked."""
    while setup and isinstance(setup[-1], int):
        setup = setup[:-1]
    return list(setup)
