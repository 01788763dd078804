"""The files of each point of a grid: those of the call with the values of the point."""
import hashlib
import json
import tomllib

from .. import declared
from ..bounds import Layout
from ..faults import Refused
from ..limits import FEW_SLOTS, OPERATORS, TIMES, USUAL_HORIZON
from ..rows import records_of
from ..steps import ENTRY, key_of, slot_in
from .bounds import why_late
from .engine import Entries, Rules
from .grid import Answer


def rows_of(text):
    """The rows of a steps file up to its last change, each as its fields."""
    rows = [[field.decode("utf-8", "surrogateescape") for field in record.fields]
            for record in records_of(text.encode("utf-8", "surrogateescape"))]
    while rows and rows[-1][0] in ("cycle", "look"):
        rows.pop()
    if not rows:
        raise Refused("STEPS asks for no change. Write rows such as add.")
    return rows


def sum_of(system, rows, streams=None):
    """A sum over what the files say: the values of the system, the rows of the steps up to the last change, and the
    declared streams, where there are some."""
    try:
        system = json.dumps(tomllib.loads(system), sort_keys=True, default=str)
    except tomllib.TOMLDecodeError:
        # The program refuses it.
        pass
    more = "" if streams is None else declared.text_of(streams)
    return hashlib.sha256((system + stepped(rows, {}) + more).encode("utf-8", "surrogateescape")).hexdigest()[:16]


def stepped(rows, values):
    """The text of the steps with the periods and the deadlines of a point. Where DEADLINE was PERIOD it goes along."""
    rows = [list(row) for row in rows]
    for name, value in values.items():
        if not name.startswith("period."):
            continue
        slot = int(name.partition(".")[2])
        row = next(row for row in reversed(rows) if slot_in(row) and int(row[slot_in(row)]) == slot)
        at = slot_in(row) + ENTRY.index("PERIOD")
        is_same = int(row[at]) == int(row[at + 1])
        row[at + 1] = str(value if is_same else min(value, int(row[at + 1])))
        row[at] = str(value)
    for row in rows:
        if slot_in(row) and "deadline" in values:
            at = slot_in(row) + ENTRY.index("DEADLINE")
            row[at] = str(min(values["deadline"], int(row[at])))
    return "".join(",".join(row) + "\n" for row in rows)


def plain_entries(rows, values):
    """The messages of steps that do nothing but add them in cycle 0, with the periods and the deadlines of a point; None
    where they do more. Such steps need no text: the table says it all."""
    entries, sizes = [], []
    for row in (row.split(",") for row in stepped(rows, values).splitlines()):
        key = key_of(row)
        if key == ("add",) and len(row) == 10 and row[2] == "0" and row[1] in map(str, range(1, OPERATORS + 1)):
            sizes.append(0)
        elif key != ("and", "add") or len(row) != 9 or not sizes:
            return None
        fields = row[-len(ENTRY):]
        most = (255, 255, 255, TIMES, TIMES, TIMES, 255)
        if not all(field.isascii() and field.isdigit() and int(field) <= high for field, high in zip(fields, most)):
            return None
        sizes[-1] += 1
        entries.append(tuple(map(int, fields)))
    return Entries(entries, sizes)


def rules_of(document, values):
    """What a system and the values of a point ask of a table."""
    bus, plan = document["bus"], document.get("plan", {})
    return Rules(bus["cycle"], bus.get("turnaround", 0), values.get("window", bus["window"]), bus["nodes"],
                 bus.get("slots", FEW_SLOTS), values.get("policy", plan.get("policy", "rm")),
                 values.get("fill", plan.get("fill", "prefix")), plan.get("horizon", USUAL_HORIZON))


class FilesQuestion:
    """What is asked of a system and steps that the engine takes: what is said with the values of a point. The table of
    the last one is kept, for points that differ in the rules alone."""

    def __init__(self, document, rows, names, streams=None):
        self.document, self.rows, self.names, self.streams = document, rows, names, streams
        self.last = (None, None)

    def answer(self, engine, point):
        """What is said of a point: the engine's answer, and where it accepts, whether the streams are in time."""
        values = dict(zip(self.names, point))
        answer = self.asked(engine, values)
        if self.streams is None or not answer.accepted:
            return answer
        rules = rules_of(self.document, values)
        why = why_late(Layout(rules.cycle, rules.turnaround, rules.window, rules.slots), self.streams)
        return answer if why is None else Answer(False, None, why)

    def asked(self, engine, values):
        """What the engine says."""
        key = tuple(value for name, value in values.items() if name not in ("window", "policy", "fill"))
        if self.last[0] != key or self.last[1] is None:
            self.last = key, plain_entries(self.rows, values)
        if engine.takes_tables and self.last[1] is not None:
            return engine.decide(rules_of(self.document, values), self.last[1])
        return engine.answer(system_text(self.document, values), stepped(self.rows, values))


def system_text(document, values):
    """The text of the system with the window, the policy and the filling of a point."""
    bus = document["bus"] | {name: values[name] for name in ("window",) if name in values}
    plan = document.get("plan", {}) | {name: values[name] for name in ("policy", "fill") if name in values}

    def lines(table):
        return "".join(f'{key} = "{it}"\n' if isinstance(it, str) else f"{key} = {it}\n" for key, it in table.items())

    owners = "".join(f"[[async]]\n{lines(each)}" for each in document.get("async", []))
    return f"[bus]\n{lines(bus)}[plan]\n{lines(plan)}{owners}"
