"""The readers of the files."""
import collections
import math
import pathlib
import re
import unicodedata

try:
    import tomllib
except ImportError:
    # Python is older than 3.11, which the script tells.
    tomllib = None

from .types import Certificate, Change, Entry, Faulty, Refused, System, Unread, Unsure
from .bus import trigger_part

USAGE = (
    "replay SYSTEM STEPS [REQUESTS] [--tail N] [--report]", "admit SYSTEM STEPS", "check SYSTEM STEPS PLAN",
    "gen NUMBER", "live SYSTEM STEPS [REQUESTS] [--report]", "audit SYSTEM STEPS LOG [REQUESTS]",
    "handover SYSTEM STEPS AT [REQUESTS]", "poll SYSTEM STEPS STREAMS", "elastic SYSTEM STEPS WISHES")
# The greatest length of a file in bytes, and that of a log.
LONGEST, LONGEST_LOG = 4_194_304, 134_217_728
# The greatest values of numbers of eight, sixteen, 32 and 64 bits, and of a time in bit times.
BYTE, SHORT, WORD, LONG, TIME = 2 ** 8 - 1, 2 ** 16 - 1, 2 ** 32 - 1, 2 ** 64 - 1, 2 ** 40 - 1
# By its word: the greatest values of the fields of an operation.
OPERATIONS = {b"add": (BYTE, BYTE, BYTE, SHORT, SHORT, SHORT, BYTE), b"remove": (BYTE,)}
OPERATIONS[b"change"] = OPERATIONS[b"add"]
WISHES = {b"add": (BYTE, BYTE, BYTE, SHORT, SHORT, BYTE), b"remove": (BYTE,)}
# The keys of a system: what each may be, and what it is where it is not there. None is needed.
BUS = {"cycle": (range(400, 100_001), None), "turnaround": (range(1001), 0), "window": (range(55, 16_384), None),
       "nodes": (range(1, 31), None), "slots": ((40, 96), 40)}
PLAN = {"policy": (("rm", "dm", "edf"), "rm"), "horizon": (range(1, 100_001), 10_000),
        "fill": (("prefix", "skip"), "prefix")}
OWNED = {"id": (range(0x200, 0x7F0), None), "node": (range(30), None)}
# A set of slots: ten digits, and 24 where a slot from 40 on is in it.
NARROW, MASK = rb"[0-9a-f]{10}", rb"[0-9a-f]{10}|(?!0{14})[0-9a-f]{24}"
# The fields of the rows of a log: the greatest number, or a form.
ROWS = {b"look": (BYTE, LONG), b"end": (LONG,), b"plan": (LONG, MASK), b"open": (LONG, MASK, WORD),
        b"frame": (LONG, WORD, rb"[0-6][0-9a-f]{2}|7[0-9a-e][0-9a-f]", rb"([0-9a-f]{2}){0,8}")}
VERDICTS = {b"accepted": (LONG, LONG), b"passed": (LONG, LONG), b"miss": (BYTE, LONG, LONG), b"horizon": (LONG, LONG),
            b"malformed": (BYTE, BYTE)}


def is_deep(text):
    """Whether values of TOML may be nested nearly as deep as a reader takes them, or deeper."""
    depth = deepest = 0
    for sign in re.findall(rb"[][{}]", text):
        depth = max(depth + (1 if sign in b"[{" else -1), 0)
        deepest = max(deepest, depth)
    return deepest > 40 or any(line.count(b".") > 40 for line in text.split(b"\n"))


def decimal(digits):
    """A number of TOML with a fraction or an exponent. Readers differ on one that is too great."""
    number = float(digits)
    if math.isinf(number) and "inf" not in digits:
        raise Unsure
    return number


def integers_in(value):
    """All integers of a value of TOML."""
    if isinstance(value, (dict, list)):
        for each in value.values() if isinstance(value, dict) else value:
            yield from integers_in(each)
    elif type(value) is int:
        yield value


def document_of(text):
    """The values of a text of TOML. A lone CR, times and dates are read by one reader and refused by another."""
    if is_deep(text) or re.search(rb"\r(?!\n)|\d[-:]\d|\d[Tt ]\d", text):
        raise Unsure
    try:
        document = tomllib.loads(text.decode("utf-8").removeprefix("\ufeff"), parse_float=decimal)
    except (UnicodeDecodeError, tomllib.TOMLDecodeError) as fault:
        raise Refused("system: toml") from fault
    except (RecursionError, ValueError) as fault:
        raise Unsure from fault
    if not all(-2 ** 63 <= each < 2 ** 63 for each in integers_in(document)):
        raise Refused("system: toml")
    return document


def known_keys(front, table, known):
    """Refuses the first key in byte order of a table that is not known."""
    strange = min((key for key in table if key not in known), key=str.encode, default=None) \
        if isinstance(table, dict) else None
    if strange is not None:
        path = "".join("?" if unicodedata.category(sign) == "Cc" else sign for sign in front + strange)
        raise Refused(f"system: key {path}")


def values_in(path, table, known):
    """The values of a table, those that are not there as usual. One that is missing or of another kind is refused."""
    if not isinstance(table, dict):
        raise Refused(f"system: key {path}")
    values = {key: table.get(key, usual) for key, (_, usual) in known.items()}
    for key, value in values.items():
        if type(value) is not type(known[key][0][0]):
            raise Refused(f"system: key {path}.{key}")
    return values


def in_range(path, values, known):
    """Refuses the first value that is none of those that it may be."""
    for key, (choices, _) in known.items():
        if values[key] not in choices:
            raise Refused(f"system: range {path}.{key}")


def system_of(text, _):
    """The system of a file."""
    document = document_of(text)
    owned = document.get("async", [])
    places = [(f"async.{place}", each) for place, each in enumerate(owned if isinstance(owned, list) else [])]
    known_keys("", document, ("bus", "plan", "async"))
    known_keys("bus.", document.get("bus"), BUS)
    known_keys("plan.", document.get("plan"), PLAN)
    for path, each in places:
        known_keys(f"{path}.", each, OWNED)
    bus, plan = values_in("bus", document.get("bus"), BUS), values_in("plan", document.get("plan", {}), PLAN)
    if not isinstance(owned, list):
        raise Refused("system: key async")
    owners = [(path, values_in(path, each, OWNED)) for path, each in places]
    in_range("bus", bus, BUS)
    in_range("plan", plan, PLAN)
    free = set(OWNED["id"][0])
    for path, each in owners:
        in_range(path, each, {"id": (free, None), "node": (range(bus["nodes"]), None)})
        free.remove(each["id"])
    need = trigger_part(bus["slots"]) + bus["turnaround"] + bus["window"]
    if need > bus["cycle"]:
        raise Refused(f"system: narrow {need} {bus['cycle']}")
    return System(**bus, **plan, owners={each["id"]: each["node"] for _, each in owners})


def rows_in(text):
    """The rows of a text of comma-separated fields, without blanks at the ends of fields. Empty lines are none."""
    if b'"' in text:
        raise Unsure
    lines = text.removeprefix(b"\xef\xbb\xbf").replace(b"\r", b"\n").split(b"\n")
    return [[field.strip(b" ") for field in line.split(b",")] for line in lines if line]


def whole(field, most):
    """A field as a number of 0 to this one; None where it is none."""
    digits = field.lstrip(b"0")
    if not field.isdigit() or len(digits) > 20 or int(digits or b"0") > most:
        return None
    return int(digits or b"0")


def numbers_of(fields, mosts):
    """As many fields as there are greatest values, as numbers up to these."""
    if len(fields) != len(mosts):
        raise Faulty("fields")
    numbers = [whole(field, most) for field, most in zip(fields, mosts)]
    if None in numbers:
        raise Faulty("number")
    return numbers


def operation_of(word, numbers):
    """An operation: its word, its slot, and its entry, where it has one."""
    return word.decode(), numbers[0], None if word == b"remove" else Entry(*numbers)


def step_of(row, before):
    """The step of a row; None where it is an operation of the step before, to which it is added."""
    word, *fields = row
    if word == b"and":
        if fields and fields[0] not in OPERATIONS:
            raise Faulty("word")
        if not fields:
            raise Faulty("fields")
        numbers = numbers_of(fields[1:], OPERATIONS[fields[0]])
        if before is None or before[0] != "change":
            raise Faulty("loose")
        before[1].operations.append(operation_of(fields[0], numbers))
        return None
    if word == b"cycle":
        return "cycle", *numbers_of(fields, (20_000,))
    if word != b"look" and word not in OPERATIONS:
        raise Faulty("word")
    operator, *numbers = numbers_of(fields, (BYTE,) if word == b"look" else (BYTE, LONG, *OPERATIONS[word]))
    if not 1 <= operator <= 8:
        raise Faulty("operator")
    if word == b"look":
        return "look", operator
    return "change", Change(operator, numbers[0], [operation_of(word, numbers[1:])])


def steps_of(text, _):
    """The steps of a file: pairs of a word and a number or a change."""
    steps, counts = [], collections.Counter()
    for place, row in enumerate(rows_in(text), 1):
        try:
            step = step_of(row, steps[-1] if steps else None)
            if step:
                steps.append(step)
                counts[step[0]] += step[1] if step[0] == "cycle" else 1
            for word, most in (("change", 1000), ("look", 1000), ("cycle", 20_000)):
                if counts[word] > most:
                    raise Faulty(f"{word}s")
        except Faulty as fault:
            raise Refused(f"steps: row {place} {fault}") from fault
    return steps


def arrivals_of(text, kind, most, read):
    """The requests of a text of this kind, at most so many, each an arrival and what is read of the rest of its row."""
    found = []
    for place, row in enumerate(rows_in(text), 1):
        try:
            if len(row) != 3:
                raise Faulty("fields")
            at = whole(row[0], TIME)
            rest = read(at, *row[1:])
            if found and at < found[-1][0]:
                raise Faulty("order")
            if place > most:
                raise Faulty("many")
        except Faulty as fault:
            raise Refused(f"{kind}: row {place} {fault}") from fault
        found.append((at, *rest))
    return found


def data_of(field, most):
    """Data of at most so many bytes."""
    if not re.fullmatch(rb"([0-9a-fA-F]{2})*", field) or len(field) > 2 * most:
        raise Faulty("data")
    return bytes.fromhex(field.decode())


def requests_of(text, system):
    """The requests of a file: arrival, identifier and data."""
    def read(at, field, data):
        is_hexadecimal = re.fullmatch(rb"0x[0-9a-fA-F]{1,3}", field)
        identifier = int(field, 16) if is_hexadecimal else whole(field, SHORT)
        if None in (at, identifier):
            raise Faulty("number")
        if identifier not in system.owners:
            raise Faulty("identifier")
        return identifier, data_of(data, 8)

    return arrivals_of(text, "requests", 50_000, read)


def streams_of(text, system):
    """The requests of streams: arrival, slot and payload."""
    def read(at, field, payload):
        slot = whole(field, BYTE)
        if None in (at, slot):
            raise Faulty("number")
        if slot >= system.slots:
            raise Faulty("slot")
        return slot, data_of(payload, 7)

    return arrivals_of(text, "streams", 10_000, read)


def wished(row):
    """An operation of a wish: a word, a slot, and by period the entry, where it has one."""
    word, *fields = row
    if word not in WISHES:
        raise Faulty("word")
    many = len(fields) - len(WISHES[word])
    if not (1 <= many <= 8 if word == b"add" else many == 0):
        raise Faulty("fields")
    slot, *rest = numbers_of(fields, WISHES[word] + (SHORT,) * many)
    if word == b"remove":
        return [("remove", slot, None)]
    node, length, phase, deadline, priority, *periods = rest
    return [("add", slot, Entry(slot, node, length, phase, period, min(deadline, period), priority))
            for period in periods]


def wishes_of(text, _):
    """The start of a wish, and its operations."""
    rows, start, operations = rows_in(text), None, []
    # A row that is lacking is one without a word.
    for place, row in enumerate(rows + [[b""]] * (2 - len(rows)), 1):
        try:
            if place > 1:
                operations.append(wished(row))
            elif row[0] != b"start":
                raise Faulty("word")
            else:
                start, = numbers_of(row[1:], (LONG,))
            if place > 17:
                raise Faulty("many")
        except Faulty as fault:
            raise Refused(f"wishes: row {place} {fault}") from fault
    return start, operations


class Lines:
    """The lines of a plan text."""

    def __init__(self, text):
        self.lines, self.at = text.split(b"\n"), 0

    def refuse(self):
        """Refuses the line that was taken last."""
        raise Refused(f"plan: line {self.at}")

    def take(self, form):
        """The parts of the next line, which has this form and a line feed after it."""
        self.at += 1
        found = re.fullmatch(form, self.lines[self.at - 1]) if self.at < len(self.lines) else None
        return found or self.refuse()

    def number(self, word, least, most):
        """The number of the next line, which has a word in front."""
        value = int(self.take(word + rb" (0|[1-9][0-9]{0,13})")[1])
        return value if least <= value <= min(most, 2 ** 42 - 1) else self.refuse()

    def run(self, before, left):
        """The mask of the next line and for how many of the cycles that are left it stands; None where it is `end`."""
        found = self.take(rb"end|(" + MASK + rb") ([1-9][0-9]{0,13})")
        if found[0] == b"end":
            return self.refuse() if left else None
        mask, count = int(found[1], 16), int(found[2])
        return self.refuse() if mask == before or count > left else (mask, count)


def plan_of(text, _):
    """The certificate of a plan text, of version 1 or 2."""
    lines, masks = Lines(text), []
    version = lines.take(rb"fttcan plan ([12])")[1]
    start = lines.number(b"from", 0, LONG)
    pending = int(lines.take(rb"pending (" + (NARROW if version == b"1" else MASK) + rb")")[1], 16)
    first = lines.number(b"first", start, start + 200_000)
    length = lines.number(b"length", 1, 200_000)
    if version == b"1":
        masks = [int(lines.take(NARROW)[0], 16) for _ in range(first + length - start)]
        lines.take(b"end")
    else:
        run = lines.run(None, first + length - start)
        while run:
            masks += [run[0]] * run[1]
            run = lines.run(run[0], first + length - start - len(masks))
    lines.at += 1
    if lines.lines[lines.at - 1:] != [b""]:
        lines.refuse()
    if start or pending:
        raise Refused("plan: start")
    return Certificate(start, pending, first, length, masks)


def is_field(field, form):
    """Whether a field of a log is a number without leading zeros up to this one, or has this form."""
    if isinstance(form, int):
        return re.fullmatch(rb"0|[1-9][0-9]{0,19}", field) is not None and int(field) <= form
    return re.fullmatch(form, field) is not None


def is_log_row(word, *fields):
    """Whether a row has one of the forms of a log's rows."""
    forms = ROWS.get(word, ())
    if word == b"submit" and len(fields) > 2:
        verdict = VERDICTS.get(fields[2], ())
        more = (LONG,) if fields[2:3] + fields[4:5] == (b"malformed", b"10") and len(fields) == 6 else ()
        forms = (BYTE, LONG, fields[2], *verdict, *more) if verdict else ()
    return len(fields) == len(forms) > 0 and all(map(is_field, fields, forms))


def log_of(text, _):
    """The rows of a log as texts. No field is trimmed."""
    if b'"' in text:
        raise Unsure
    rows = [row for row in re.split(rb"[\r\n]+", text.removeprefix(b"\xef\xbb\xbf")) if row]
    for place, row in enumerate(rows, 1):
        if not is_log_row(*row.split(b",")):
            raise Refused(f"log: row {place}")
    return [row.decode() for row in rows]


READERS = {"system": system_of, "steps": steps_of, "requests": requests_of, "plan": plan_of, "wishes": wishes_of,
           "streams": streams_of, "log": log_of}


def files_of(kinds, names):
    """What the files of these kinds say, up to the first that is refused."""
    files = {}
    for kind, name in zip(kinds, names):
        try:
            text = pathlib.Path(name).read_bytes()
        except OSError as fault:
            raise Unread from fault
        longest = LONGEST_LOG if kind == "log" else LONGEST
        if len(text) > longest:
            raise Refused(f"{kind}: longer than {longest} bytes")
        files[kind] = READERS[kind](text, files.get("system"))
    return files
