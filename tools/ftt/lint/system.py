"""Looks at the system file."""
import re
import tomllib
from collections import namedtuple

from .. import limits
from ..frames import SHORTEST, TRIGGER
from ..system import CHOICES, KEYS, LAST_NODE, RANGES, room
from ..telling import close, shown
from . import advice, slips
from .files import bytes_of, looks_like

KINDS = {int: "an integer", str: "a text", dict: "a table", list: "an array of tables"}
# The deepest nesting of values that the program's reader takes.
DEEPEST = 80

System = namedtuple("System", "cycle turnaround window nodes slots horizon owners")


def lines_of(text):
    """The line of each path that is written as `key = value` below its header; of a header, that of the header."""
    lines, table, elements = {}, "", -1
    for line, row in enumerate(text.splitlines(), 1):
        header = re.match(r"\s*(\[\[?)\s*([\w.\"-]+)\s*\]", row)
        key = re.match(r"\s*([\w.\"-]+)\s*=", row)
        if header is not None:
            table = header[2].replace('"', "")
            lines.setdefault(table, line)
            if header[1] == "[[" and table == "async":
                elements += 1
                table = f"async.{elements}"
                lines.setdefault(table, line)
        elif key is not None:
            path = key[1].replace('"', "")
            lines.setdefault(f"{table}.{path}" if table else path, line)
    return lines


def line_of(lines, path):
    """The line of a path, or of the nearest one above it that has a line; None where none has."""
    while path and path not in lines:
        path = path.rpartition(".")[0]
    return lines.get(path)


def kind_of(value):
    """What a value of TOML is, in words, and what to do where an integer is needed."""
    if isinstance(value, bool):
        return "true or false", ""
    if isinstance(value, str):
        return f"the text {shown(value)}", " without quotes"
    if isinstance(value, float):
        return f"{value}", " without a decimal point"
    if isinstance(value, dict):
        return "a table", ""
    return ("an array", "") if isinstance(value, list) else (f"{value}", "")


def is_of(value, kind):
    """Whether a value is of a kind; true and false are no integers."""
    return isinstance(value, kind) and not isinstance(value, bool)


def beyond(document):
    """What the program's reader does not take in a document: a long integer, or values that are nested deep; None where
    there is no such thing."""
    waiting = [(document, 0)]
    while waiting:
        value, depth = waiting.pop()
        if depth > DEEPEST:
            return f"values are nested deeper than {DEEPEST}. Write flat tables."
        if isinstance(value, (dict, list)):
            waiting += [(it, depth + 1) for it in (value.values() if isinstance(value, dict) else value)]
        elif is_of(value, int) and not -(1 << 63) <= value < 1 << 63:
            return "an integer has more than 64 bits. Write a smaller one."
    return None


def parse_toml(data, found):
    """The text and the document of a system file; None where it is none."""
    try:
        text = data.decode("utf-8")
    except UnicodeDecodeError as fault:
        found.mistake(data[:fault.start].count(b"\n") + 1, "a byte is not UTF-8. Save the file as UTF-8.",
                      "system: toml")
        return None
    other = looks_like(data)
    try:
        document = tomllib.loads(text)
    except RecursionError:
        found.mistake(None, f"values are nested deeper than {DEEPEST}. Write flat tables.", "system: toml")
        return None
    except ValueError as fault:
        line = re.search(r"line (\d+)", str(fault))
        line = int(line[1]) if line else len(text.splitlines())
        row = (text.splitlines() or [""])[min(line, len(text.splitlines())) - 1].strip()
        why = re.sub(r" \(at .*", "", str(fault))
        if other in ("steps", "requests"):
            found.mistake(1, f"this looks like a {other} file. The words are SYSTEM STEPS [REQUESTS], in this order.",
                          "system: toml")
        else:
            found.mistake(line, f"{shown(row)} is no TOML: {why[:1].lower()}{why[1:]}. "
                          f"{slips.remedy_of(text, line, why, RANGES)}", "system: toml")
        return None
    what = beyond(document)
    if what is not None:
        found.mistake(None, what, "system: toml")
        return None
    return text, document


def unknown_keys(document, lines, found):
    """Keys that are in no table: at the top, in bus, in plan, in each element of async."""
    places = {below: top for top in KEYS for below in KEYS[top] if top != "async"}

    def look(table, known, front):
        for key in sorted(set(table) - set(known), key=lambda it: it.encode()):
            path = front + key
            found.mistake(line_of(lines, path), f"{shown(path)} is no key. "
                          f"{slips.why_no_key(path, table, known, places)}",
                          "system: key " + re.sub(r"[\x00-\x1f\x7f-\x9f]", "?", path))

    look(document, KEYS, "")
    for top in ("bus", "plan"):
        if isinstance(document.get(top), dict):
            look(document[top], KEYS[top], f"{top}.")
    if isinstance(document.get("async"), list):
        for place, element in enumerate(document["async"]):
            if isinstance(element, dict):
                look(element, KEYS["async"], f"async.{place}.")


def keys_of(table, top, front, known, lines, found):
    """The values of a table that are of their kinds, by their paths; what is missing or of another kind is told. All
    integers of the document are known."""
    values = {}
    for key, (kind, is_needed, low, high) in KEYS[top].items():
        path = front + key
        if key not in table:
            if is_needed:
                near = close(key, set(table) - set(KEYS[top]))
                where = f"[[{top}]]" if top == "async" else f"[{top}]"
                low, high = advice.bounds_beside(path, known, low, LAST_NODE if high is None else high)
                remedy = (f"Is {front}{near} meant for it?" if near else
                          f"Write {key} = NUMBER below {where}, a NUMBER of {low} to {high}.")
                found.mistake(line_of(lines, front[:-1]), f"{path} is missing. {remedy}", f"system: key {path}")
        elif not is_of(table[key], kind):
            told, how = kind_of(table[key])
            what = f"{advice.one_of(CHOICES[path])}, in double quotes." if kind is str else (
                f"{KINDS[kind]}{how}: {advice.why_no_integer(path, table[key], known, low, high)}.")
            found.mistake(line_of(lines, path), f"{path} is {told}. Write {what}", f"system: key {path}")
        else:
            values[path] = table[key]
    return values


def kinds(document, lines, found):
    """The values of a document that are of their kinds, by their paths, in the order of the table."""
    values, known = {}, advice.integers_of(document)
    for top, kind, is_needed in (("bus", dict, True), ("plan", dict, False), ("async", list, False)):
        if top not in document:
            if is_needed:
                found.mistake(None, f"{top} is missing. Write [{top}], and its keys below.", f"system: key {top}")
        elif not isinstance(document[top], kind):
            how = f" Write [{top}] on a line."
            if top == "async":
                how = " Write [[async]], with two brackets on each side."
            found.mistake(line_of(lines, top), f"{top} is {kind_of(document[top])[0]}, and should be "
                          f"{KINDS[kind]}.{how}",
                          f"system: key {top}")
        elif top != "async":
            values |= keys_of(document[top], top, f"{top}.", known, lines, found)
        else:
            for place, element in enumerate(document[top]):
                if isinstance(element, dict):
                    values |= keys_of(element, top, f"async.{place}.", known, lines, found)
                else:
                    found.mistake(line_of(lines, top), f"async.{place} is {kind_of(element)[0]}. Write [[async]] with "
                                  "id and node below.", f"system: key async.{place}")
    return values


def ranges(values, lines, found):
    """What is out of its range, in the order of the table."""
    seen = {}
    for path, value in values.items():
        top, key = path.split(".")[0], path.split(".")[-1]
        _, _, low, high = KEYS[top][key]
        line, told = line_of(lines, path), f"system: range {path}"
        if path in CHOICES:
            if value not in CHOICES[path]:
                found.mistake(line, f"{path} is {shown(value) if isinstance(value, str) else value}. "
                              f"{advice.why_no_choice(value, CHOICES[path], values)}", told)
            continue
        high = values.get("bus.nodes", limits.NODES[1]) - 1 if high is None else high
        if not low <= value <= high:
            found.mistake(line, f"{path} is {value}. {advice.why_no_value(path, value, values, low, high)}", told)
        elif key == "id" and value in seen:
            found.mistake(line, f"{path} is {value:#05x}, as {seen[value]} is. Give each identifier to one node"
                          f"{advice.free_id(values)}.", told)
        if key == "id":
            seen.setdefault(value, path)


def lint_system(path, found):
    """Looks at the system file. The system, None where it is not one."""
    data = bytes_of(path, "system", found)
    parsed = None if data is None else parse_toml(data, found)
    if parsed is None:
        return None
    text, document = parsed
    lines = lines_of(text)
    unknown_keys(document, lines, found)
    values = kinds(document, lines, found)
    ranges(values, lines, found)
    if found.mistakes:
        return None
    cycle, window, turnaround = values["bus.cycle"], values["bus.window"], values.get("bus.turnaround", 0)
    slots = values.get("bus.slots", limits.FEW_SLOTS)
    trigger = TRIGGER[slots]
    need = trigger + turnaround + window
    if need > cycle:
        most = room(cycle, slots, turnaround)
        remedy = f"Take a cycle of at least {need}" + (f", or a window of at most {most}." if most >= SHORTEST else ".")
        found.mistake(line_of(lines, "bus.window"), f"bus.window is {window}: with the trigger's {trigger} and the "
                      f"turnaround's {turnaround} it is {need}, above the cycle of {cycle}. {remedy}",
                      f"system: narrow {need} {cycle}")
        return None
    places = range(len(document.get("async", [])))
    owners = {values[f"async.{place}.id"]: values[f"async.{place}.node"] for place in places}
    free = cycle - need
    if owners and free < SHORTEST:
        found.warning(line_of(lines, "bus.window"), f"bus.window is {window}: a cycle with a full window has {free} "
                      f"bit times of asynchronous time, and the shortest frame needs {SHORTEST}. "
                      f"{advice.wider(room(cycle, slots, turnaround), window)}")
    return System(cycle, turnaround, window, values["bus.nodes"], slots,
                  values.get("plan.horizon", limits.USUAL_HORIZON), owners)
