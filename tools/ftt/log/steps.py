"""The rows of a steps file, and which of them asked for which row of a log."""
import pathlib

from .. import places, rows
from ..steps import CHANGES, ROWS, key_of, width_of
from ..table import Operation
from .rows import NoLog


class Act:
    """A call that the steps ask for: a change with the rows of its operations, or a look."""

    def __init__(self, operator, start, line):
        self.operator, self.start, self.line = operator, start, line
        self.operations = []
        self.verdict = None


def records_of(path):
    """The records of a CSV file, each with its line."""
    try:
        for record in rows.records_of(pathlib.Path(path).read_bytes().removeprefix(rows.MARK)):
            yield record.line, [field.decode() for field in record.fields]
    except UnicodeDecodeError as fault:
        raise NoLog(f"{path}: {fault}") from fault


def numbers_of(fields, path, line):
    """Fields as numbers."""
    if not all(field.isascii() and field.isdigit() for field in fields):
        raise NoLog(f"{path}: line {line}: a field is no number; {places.tool('fttlint')} says which")
    return [int(field) for field in fields]


def read_steps(path):
    """The records of a steps file, each with the act that it belongs to, or None for a row `cycle`."""
    found, act = [], None
    for line, record in records_of(path):
        key = key_of(record)
        if key is None or key[0] == "and" and (act is None or not act.operations):
            raise NoLog(f"{path}: line {line}: this is no row of a steps file; {places.tool('fttlint')} says why")
        numbers = numbers_of(record[len(key):], path, line)
        if len(record) != width_of(key):
            raise NoLog(f"{path}: line {line}: {len(record)} fields, and not {width_of(key)}")
        if key[0] != "and":
            operator = numbers.pop(0)
            act = None if key[0] == "cycle" else Act(operator, numbers.pop(0) if key[0] in CHANGES else None, line)
        if key[-1] in CHANGES:
            act.operations.append(Operation(line, key[-1], dict(zip(ROWS[key][-len(numbers):], numbers))))
        found.append((line, record, act))
    return found


class Asked:
    """Which act of the steps asked for the rows of a log: the acts of an operator are answered in their order."""

    def __init__(self, path):
        self.path = path
        self.rows = read_steps(path)
        self.waiting = {}
        for act in dict.fromkeys(act for _, _, act in self.rows if act is not None):
            self.waiting.setdefault(act.operator, []).append(act)
        for acts in self.waiting.values():
            acts.reverse()

    def next(self, word, operator, place):
        """The act that asked for the row `submit` or `look` at this place of the log."""
        acts = self.waiting.get(operator)
        if not acts:
            raise NoLog(f"row {place}: {self.path} has no further call of operator {operator}")
        act = acts.pop()
        if (word == "submit") != bool(act.operations):
            raise NoLog(f"row {place}: line {act.line} of {self.path} asks for another call")
        return act

    def left(self):
        """A call that the log does not answer, or None."""
        return next((acts[-1] for acts in self.waiting.values() if acts), None)


def answered(rows, path):
    """The steps, with the verdicts of a log that answers all of their calls."""
    asked = Asked(path)
    for word, fields, place in rows:
        if word in ("submit", "look"):
            asked.next(word, int(fields[0]), place).verdict = fields[2] if word == "submit" else "look"
    act = asked.left()
    if act is not None:
        raise NoLog(f"the log does not answer line {act.line} of {path}: a log that was cut can't tell")
    return asked


def accepted(rows, path, put):
    """The steps without the changes that the log refuses."""
    asked = answered(rows, path)
    for _, record, act in asked.rows:
        if act is None or act.verdict in ("accepted", "look"):
            put(",".join(record) + "\n")
