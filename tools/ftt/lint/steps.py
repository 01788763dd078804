"""Looks at the steps file: its rows, and the changes that they ask for."""
import math
import re
from collections import namedtuple
from fractions import Fraction

from .. import limits
from ..frames import worst
from ..rows import records_of
from ..steps import CHANGES, MOST, ROWS, WORDS, key_of, width_of
from ..table import Operation, changed, free_from, live_of
from ..telling import close, shown, some
from . import tables
from .fields import number_of, separators
from .files import rows_in
from .numbers import bounds_of, why_no_number, why_no_slot

# A change, above which so many cycles were opened.
Change = namedtuple("Change", "start operations above")


def why_no_word(record):
    """What to do about a row whose word is none."""
    told = separators(record, 0)
    if told:
        return told
    fields = record.fields
    at = 1 if fields[0] == b"and" else 0
    word = fields[at].decode("utf-8", "replace")
    known = CHANGES if at else WORDS
    if word.lower() in known:
        return f"Write it in lower case: {word.lower()}."
    if not word and not any(fields):
        return "The row has no words. Take its commas or spaces away."
    near = close(word.lower(), known)
    if near:
        return f"Is it {near}?"
    if record.number == 1 and len(fields) > 1 and not any(re.fullmatch(rb"[0-9]+", it) for it in fields):
        return "It looks like a header row. Take it away."
    return f"The {'second ' if at else ''}word of a row is one of {', '.join(known)}."


def read_row(record, system, cycles, found):
    """The word and the numbers of a row, above which so many cycles were opened; None where it is faulty. What is wrong
    is told."""
    fields, told = record.fields, f"steps: row {record.number} "
    key = key_of([it.decode("latin-1") for it in fields[:2]])
    if key is None and not (fields[0] == b"and" and len(fields) == 1):
        at = 1 if fields[0] == b"and" else 0
        found.mistake(record.line, f"{'the second word' if at else 'the word'} is {shown(fields[at])}. "
                      f"{why_no_word(record)}", told + "word")
        return None
    if key is None:
        found.mistake(record.line, "'and' stands alone. Write add, remove or change after it, and its fields.",
                      told + "fields")
        return None
    names, want = ROWS[key], width_of(key)
    if len(fields) != want:
        remedy = separators(record, want)
        if remedy is None and len(fields) < want:
            first = names[max(len(fields) - len(key), 0)]
            remedy = f"{first} and what follows is missing" if len(fields) + 1 < want else f"{names[-1]} is missing"
            remedy += f": {','.join((*key, *names))}."
        elif remedy is None:
            remedy = f"{shown(fields[want])} and what follows is too much. Take it away."
        found.mistake(record.line, f"the row has {some(len(fields), 'field')}, and {' '.join(key)} has {want}. "
                      f"{remedy}",
                      told + "fields")
        return None
    values = read_numbers(record, dict(zip(names, fields[len(key):])), system, cycles, found)
    return None if values is None else (key, values)


def read_numbers(record, row, system, cycles, found):
    """The numbers of a row, whose fields stand by their names; None where one is faulty. What is wrong is told."""
    values, told = {}, f"steps: row {record.number} "
    for name, field in row.items():
        values[name] = number_of(field, MOST[name])
        if values[name] is None:
            more = " The names.csv of fttmodel has it." if name in ("SLOT", "NODE") and field[:1].isalpha() else ""
            why = why_no_number(field, bounds_of(name, row, system, cycles))
            found.mistake(record.line, f"{name} is {shown(field)}: {why}{more}", told + "number")
    operator = values.get("OPERATOR")
    if operator is not None and not 1 <= operator <= limits.OPERATORS:
        found.mistake(record.line, f"OPERATOR is {operator}. Number the operators from 1 to "
                      f"{limits.OPERATORS}.", told + "operator")
        return None
    return None if None in values.values() else values


def opened(record, count, cycles, found):
    """The cycles that are opened with a row of so many, above which so many were. Too many are told."""
    if cycles <= limits.CYCLES < cycles + count:
        found.mistake(record.line, f"COUNT is {count}: the counts sum to {cycles + count}. Take at most "
                      f"{limits.CYCLES - cycles} here: there may be {limits.CYCLES} in all.",
                      f"steps: row {record.number} cycles")
    return cycles + count


def lint_rows(data, system, found):
    """The changes of a steps file with the cycles above each, and the cycles in all."""
    changes, cycles, looks, count, above, is_whole = [], 0, 0, 0, None, True
    for record in records_of(data):
        told = f"steps: row {record.number} "
        first, before = record.fields[0], above
        above = first.decode("latin-1")
        row = read_row(record, system, cycles, found)
        is_whole = is_whole and row is not None
        if first == b"and" and before not in (*CHANGES, "and"):
            if row is not None:
                found.mistake(record.line, "no change stands directly above this 'and'. Put it below its change, or "
                              f"write {row[0][1]},OPERATOR,START in place of {','.join(row[0])}.", told + "loose")
            continue
        if first in (b"add", b"remove", b"change"):
            count += 1
            if count == limits.CHANGES + 1:
                found.mistake(record.line, f"this is the {count}st change. Join changes with 'and', or part "
                              "the file.", told + "changes")
            if row is None:
                changes.append(Change(0, [], cycles))
        if row is None:
            continue
        key, values = row
        if key == ("cycle",):
            cycles = opened(record, values["COUNT"], cycles, found)
        elif key == ("look",):
            looks += 1
            if looks == limits.LOOKS + 1:
                found.mistake(record.line, f"this is the {limits.LOOKS + 1}st look. Leave some out.", told + "looks")
        else:
            operation = Operation(record.line, key[-1], values)
            if key[0] == "and":
                if changes:
                    changes[-1].operations.append(operation)
            else:
                changes.append(Change(values["START"], [operation], cycles))
    return changes, cycles, is_whole


def broken_twice(operation, earlier, table):
    """What is said of the second operation of a change on one slot."""
    slot = operation.fields["SLOT"]
    is_live = table is not None and live_of(table.get(slot, [])) is not None
    both = ""
    if {earlier.word, operation.word} == {"add", "remove"} and is_live:
        both = " For both, write change in place of the two."
    return (f"SLOT is {slot}, as in line {earlier.line} of the same change. Leave this row out, or take another "
            f"slot.{both}")


def slots_of(system):
    """How many slots a system has, or the fewest where it is not known."""
    return limits.FEW_SLOTS if system is None else system.slots


def broken_value(operation, change, place, system, table):
    """The first rule of values that an operation breaks, and what is wrong in words; None where it breaks none."""
    fields = operation.fields
    if fields["SLOT"] >= slots_of(system):
        return 4, why_no_slot(fields["SLOT"], system)
    earlier = next((it for it in change.operations[:place] if it.fields["SLOT"] == fields["SLOT"]), None)
    if earlier is not None:
        return 5, broken_twice(operation, earlier, table)
    if operation.word == "remove":
        return None
    if system is not None and fields["NODE"] >= system.nodes:
        return 6, (f"NODE is {fields['NODE']}. bus.nodes is {system.nodes}, and nodes count from 0: take 0 to "
                   f"{system.nodes - 1}.")
    if fields["LENGTH"] > limits.LENGTH:
        return 7, (f"LENGTH is {fields['LENGTH']}. A frame has 0 to {limits.LENGTH} bytes: take these, and part the "
                   "message.")
    if fields["PERIOD"] == 0:
        least = max(fields["DEADLINE"], 1)
        return 8, f"PERIOD is 0. Take at least {some(least, 'cycle')}{', the DEADLINE' if least > 1 else ''}."
    if fields["DEADLINE"] == 0:
        return 9, f"DEADLINE is 0. Take 1 to the PERIOD, {fields['PERIOD']}."
    if fields["DEADLINE"] > fields["PERIOD"]:
        return 9, f"DEADLINE is {fields['DEADLINE']}, above the PERIOD. Take 1 to {fields['PERIOD']}."
    return None


def broken_slot(operation, change, table, system):
    """The rule of slots that an operation breaks, with what is told after it, and the words; None for none."""
    slot, start = operation.fields["SLOT"], change.start
    entries = table.get(slot, [])
    live = live_of(entries)
    named = {it.fields["SLOT"] for it in change.operations}
    if operation.word == "add":
        if live is not None:
            other = tables.free_slot(table, slots_of(system), start, named)
            told = "" if other is None else f", such as {other}"
            return "10", f"SLOT {slot} has a live entry. Take another slot{told}, or write change."
        free = free_from(entries)
        if free > start:
            return f"10,{free}", f"SLOT {slot} is free from cycle {free} on, and START is {start}. Take START {free}."
        return None
    if live is None:
        others = [it for it in sorted(table) if it not in named and live_of(table[it]) is not None
                  and live_of(table[it]).origin <= start]
        told = f"take a slot that has one, such as {others[0]}" if others else "leave the row out"
        return "11", (f"SLOT {slot} has no live entry. Add one first, or {told}."
                      + (" To add one, write add." if operation.word == "change" else ""))
    if live.origin > start:
        return (f"10,{live.origin}",
                f"the entry of SLOT {slot} begins in cycle {live.origin}, and START is {start}. Take at "
                f"least START {live.origin}.")
    return None


def never_fits(change, table, system, found):
    """Whether a frame of a change, or all together on average, never fit the window: such a change is refused. Told."""
    is_refused = False
    for operation in change.operations:
        if operation.word != "remove" and worst(operation.fields["LENGTH"]) > system.window:
            bits = worst(operation.fields["LENGTH"])
            found.warning(operation.line, f"LENGTH is {operation.fields['LENGTH']}: the frame needs {bits} bit times "
                          f"and never fits bus.window, {system.window}. Take a window of at least {bits}, or fewer "
                          "bytes.")
            is_refused = True
    live = [it for entries in table.values() for it in entries if it.end is None]
    need = sum((Fraction(worst(it.length), it.period) for it in live), Fraction(0))
    if not is_refused and need > system.window:
        found.warning(change.operations[0].line, f"with this change the live entries need {math.ceil(need)} bit times "
                      f"a cycle on average, above bus.window, {system.window}. Take a wider window, or longer periods.")
        is_refused = True
    return is_refused


def lint_change(change, table, system, cycles, mode, found):
    """Looks at a change that stands against a table. Whether it is taken here for accepted."""
    line, broken = change.operations[0].line, False
    most = limits.OPERATIONS
    if len(change.operations) > most:
        word = change.operations[most].word
        found.mistake(change.operations[most].line, f"this is operation {most + 1} of its change. A change has at most "
                      f"{most}: begin another one here, with {word},OPERATOR,{change.start} in place of and,{word}.",
                      answered=f"malformed,{most},2")
        broken = True
    if change.start >= limits.START:
        found.mistake(line, f"START is {change.start}, not below 2^40. Take {change.above}, which is the next cycle, "
                      "or a little more.",
                      answered=None if broken else "malformed,0,3")
        broken = True
    for place, operation in enumerate(change.operations[:most]):
        value = broken_value(operation, change, place, system, table)
        if value is None and table is not None:
            value = broken_slot(operation, change, table, system)
        if value is not None:
            rule, what = value
            found.mistake(operation.line, what, answered=None if broken else f"malformed,{place},{rule}")
            broken = True
    if broken or table is None or system is None:
        return False
    if mode != "live" and change.start < change.above:
        found.mistake(line, f"START is {change.start}, and {some(change.above, 'cycle')} were opened above. Take at "
                      f"least START {change.above}, or put the row higher.",
                      answered=f"passed,{change.start},{change.above}")
        return False
    after = changed(table, change)
    if never_fits(change, after, system, found):
        return False
    if not lint_repeat(change, table, after, system, mode, found):
        return False
    lint_start(change, after, system, cycles, mode, found)
    return True


def lint_repeat(change, table, after, system, mode, found):
    """Whether the plan after a change can repeat within the horizon. What is wrong is told."""
    least, repeat, common = tables.least_from(after, system.horizon)
    late = change.start if mode == "live" else change.above
    if least <= late:
        return True
    longer, ways = system.horizon + least - late, []
    if longer <= limits.HORIZON[1]:
        ways.append(f"horizon = {longer}")
    nearer = tables.nearer_start(change, table, system.horizon, late)
    if nearer is not None:
        ways.append(f"a START of at most {nearer}")
    told = ", or ".join([*ways, "periods with a smaller common multiple, and smaller phases"])
    found.mistake(change.operations[0].line, f"START is {change.start}: with a common period of "
                  f"{some(common, 'cycle')} the plan can't repeat before cycle {repeat}, after the horizon's "
                  f"{late + system.horizon}. Take {told}.",
                  answered=None if mode == "live" else f"horizon,{change.above},{system.horizon}, or a miss")
    return False


def lint_start(change, after, system, cycles, mode, found):
    """Warns of a START that may be too late or too early in `live`."""
    line, least = change.operations[0].line, tables.least_from(after, system.horizon)[0]
    if mode != "replay" and least > 0:
        longer = system.horizon + least
        way = f"horizon = {longer}, or a nearer START" if longer <= limits.HORIZON[1] else "a nearer START"
        found.warning(line, f"START is {change.start}: in live, an operator that is answered before cycle {least} gets "
                      f"the verdict horizon. Take {way}.")
    if mode == "live" and change.start < cycles:
        found.warning(line, f"START is {change.start}, and {some(cycles, 'cycle')} are opened: an operator that is "
                      "answered after START gets passed. Take a START late in the run, and a longer horizon.")


def lint_silence(change, table, system, mode, found):
    """Warns of each slot that a change leaves silent for longer than both periods."""
    for operation in change.operations:
        told = None
        if operation.word == "change":
            told = tables.told_silence(operation, change, table, system, mode == "live")
        if told is not None:
            found.warning(operation.line, told)


def lint_steps(path, system, mode, found):
    """Looks at the steps file. The cycles that it opens, and its table in the end; None where that can't be told."""
    data = rows_in(path, "steps", ("system", "requests"), found)
    if data is None:
        return None, None
    changes, cycles, is_whole = lint_rows(data, system, found)
    found.is_run = is_whole and not found.mistakes and system is not None
    found.has_blocks = any(one.above == other.above > 0 for one, other in zip(changes, changes[1:]))
    table = {} if found.is_run else None
    for change in changes:
        if not change.operations:
            continue
        is_accepted = lint_change(change, table, system, cycles, mode, found)
        if is_accepted and cycles:
            for operation in change.operations:
                first = change.start + operation.fields.get("PHASE", 0)
                if operation.word == "add" and first >= cycles:
                    found.warning(operation.line, f"the first release is in cycle {first}, and the run has {cycles}. "
                                  "Nothing of this entry is sent: open more cycles, or begin earlier.")
        if is_accepted:
            lint_silence(change, table, system, mode, found)
            table = changed(table, change)
    if not found.mistakes and not changes and not cycles:
        found.warning(None, "the file asks for nothing. Write rows, such as add and cycle.")
    return (cycles, table) if is_whole else (None, None)
