"""What is wrong with a recording: findings as sentences, as rows and as JSON."""
import collections
import csv
import io
import json
import pickle
import tempfile

from ..limits import TRIGGERS
from ..masks import slots_of
from ..telling import listed

KINDS = ("missing", "doubled", "late", "early", "past", "inside", "cycle", "flags", "window", "payload", "length",
         "stray", "order", "clock", "place")
# So many findings are kept in memory.
KEPT = 2_000
COLUMNS = ("cycle", "kind", "frame", "name", "line", "by_us", "own", "seen", "sentence")

# What is said of a kind; of flags it is worked out, and of a clock and a place it stands in the finding.
SAYS = {
    "missing": "{name} is missing",
    "doubled": "{name} is there {seen} times",
    "late": "{name} is late by {by}",
    "early": "{name} is early by {by}",
    "past": "{name} ends {by} past its window",
    "inside": "{name} touches the synchronous window, by {by}",
    "cycle": "{name} has {seen} as its cycle modulo 256, and {run} {own}",
    "window": "{name} has a window of {seen} bit times, and {run} one of {own}",
    "payload": "{name} has the data {seen}, and {run} {own}",
    "length": "{name} has {seen} data bytes, and {run} {own}",
    "stray": "{name} is not due: {run} does not have it here",
    "order": "{name} comes before its turn",
}


class Finding:
    """One thing that is wrong: the cycle of the run, the kind, the identifier of the frame, its line in the recording,
    by how many microseconds, and what the run and the recording have. Some of these may be None."""
    __slots__ = ("cycle", "kind", "frame", "line", "by", "own", "seen", "what")

    def __init__(self, cycle, kind, frame, line=None, by=None, own=None, seen=None, what=None):
        self.cycle, self.kind, self.frame, self.line, self.by = cycle, kind, frame, line, by
        self.own, self.seen, self.what = own, seen, what

    def fields(self):
        """All of it."""
        return tuple(getattr(self, name) for name in self.__slots__)

    def said(self, names, run):
        """It as a sentence."""
        if self.what is not None:
            return self.what
        name = names.of(self.frame)
        at = "" if self.line is None else f" (line {self.line})"
        if self.kind == "flags":
            return f"Cycle {self.cycle}: {flags_said(name, self.own, self.seen, run)}{at}."
        values = {it: "nothing" if value == "" else value for it, value in (("own", self.own), ("seen", self.seen))}
        text = SAYS[self.kind].format(name=name, by=f"{abs(self.by or 0):.0f} us", run=run, **values)
        return f"Cycle {self.cycle}: {text}{at}."

    def row(self, names, run):
        """It as a row of COLUMNS."""
        given = names.own(self.frame) if self.frame is not None else None
        fields = (self.cycle, self.kind, None if self.frame is None else f"{self.frame:03x}", given, self.line,
                  None if self.by is None else round(self.by, 1), self.own, self.seen, self.said(names, run))
        return dict(zip(COLUMNS, fields))


def flags_said(name, own, seen, run):
    """What is said of other flags: which slots are too many, and which are not there."""
    own, seen = set(slots_of(own)), set(slots_of(seen))
    more, less = sorted(seen - own), sorted(own - seen)
    parts = []
    if more:
        parts.append(f"flags {plural(more)}, which {run} does not")
    if less:
        parts.append(f"does not flag {plural(less)}, which {run} does")
    return f"{name} " + ", and ".join(parts)


def plural(slots):
    """Slots as text."""
    return f"slot{'s' if len(slots) > 1 else ''} {listed(slots)}"


def ordered(findings):
    """Findings in the order of the cycles, those of the whole recording first; in a cycle triggers first, then as the
    recording has them."""
    return sorted(findings, key=lambda it: (-1 if it.cycle is None else it.cycle, it.frame not in TRIGGERS,
                                            it.line if it.line is not None else float("inf"), it.frame or 0))


class Found:
    """Findings in their order, any number of them: the first ones are kept here, and the others in a file without a
    name."""

    def __init__(self):
        self.kept, self.many, self.kinds, self.file = [], 0, collections.Counter(), None

    def add(self, finding):
        """A finding more."""
        self.many += 1
        self.kinds[finding.kind] += 1
        if self.many <= KEPT:
            self.kept.append(finding)
            return
        if self.file is None:
            self.file = tempfile.TemporaryFile()
        pickle.dump(finding.fields(), self.file)

    def take(self, findings):
        """Some findings, brought into their order."""
        for it in ordered(findings):
            self.add(it)

    def first(self, many=None):
        """The first findings, or all."""
        for place, it in enumerate(self.kept):
            if many is not None and place >= many:
                return
            yield it
        if self.file is not None:
            self.file.seek(0)
            for _ in range(self.many - len(self.kept) if many is None else min(many, self.many) - len(self.kept)):
                yield Finding(*pickle.load(self.file))


def write_csv(findings, names, run, put):
    """Writes findings as CSV, with a header row."""
    text = io.StringIO()
    out = csv.DictWriter(text, COLUMNS, lineterminator="\n")
    out.writeheader()
    for it in findings.first():
        out.writerow(it.row(names, run))
        put(text.getvalue())
        text.seek(0)
        text.truncate()
    put(text.getvalue())


def write_json(findings, facts, names, run, put):
    """Writes the facts of a comparison, and its findings, as one JSON object."""
    head = json.dumps(dict(conforms=not findings.many, **facts, findings=[]), indent=1)
    put(head.removesuffix("]\n}"))
    for place, it in enumerate(findings.first()):
        put(("," if place else "") + "\n  " + json.dumps(it.row(names, run), indent=1).replace("\n", "\n  "))
    put(("\n ]" if findings.many else "]") + "\n}\n")
