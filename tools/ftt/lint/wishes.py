"""Looks at the wishes file: a change of which some periods may still be chosen."""
from ..limits import OPERATIONS, TIMES
from ..rows import records_of
from ..steps import MOST
from ..telling import close, shown, some
from .fields import number_of, separators
from .files import rows_in
from .numbers import bounds_of, why_no_number

# The fields of each row, and the most periods at the end of an `add`.
ROWS = {"start": ("START",), "add": ("SLOT", "NODE", "LENGTH", "PHASE", "DEADLINE", "PRIORITY", "PERIOD"),
        "remove": ("SLOT",)}
PERIODS = 8


def why_no_word(record, word, is_first, next_cycle):
    """What to do about the word of a row that has none of those that may stand there."""
    told = separators(record, 0)
    if told:
        return told
    known = ("start",) if is_first else ("add", "remove")
    if word.lower() in known:
        return f"Write it in lower case: {word.lower()}."
    if is_first and word in ("add", "remove"):
        return (f"The start is missing. Write a first row above it: start,{next_cycle}, with the cycle in which the "
                "change is to begin.")
    if word == "start":
        return ("The start stands in the first row, and in no other. Take this one away, or put its rows into another "
                "file.")
    if word == "change":
        return "A wish changes no entry. Write a row remove,SLOT, and a row add with another slot."
    if word == "and":
        return "Rows of one wish need no `and`. Take it away: each row is an operation of the same change."
    near = close(word.lower(), known)
    row = "the first row" if is_first else "a later row"
    return f"Is it {near}?" if near else f"The word of {row} is {' or '.join(known)}."


def is_whole(record, word, found, told):
    """Whether a row has as many fields as its word asks for. What is wrong is told."""
    names, many = ROWS[word], len(record.fields) - 1
    most = len(names) + (PERIODS - 1 if word == "add" else 0)
    if len(names) <= many <= most:
        return True
    if word == "add" and many == len(names) - 1:
        why = "The PERIOD is missing. Write one at the end, or up to 8 of which one is chosen."
    elif word == "add" and many > most:
        why = f"It has {many - len(names) + 1} periods. Take at most {PERIODS}."
    else:
        why = separators(record, len(names) + 1) or f"Write {word},{','.join(names)}{',..' if word == 'add' else ''}."
    found.mistake(record.line, f"the row has {some(len(record.fields), 'field')}. {why}", told + "fields")
    return False


def lint_row(record, word, system, next_cycle, found, told):
    """Looks at the numbers of a whole row. Its periods; None where a number is faulty."""
    names = ROWS[word]
    periods = []
    for place, field in enumerate(record.fields[1:]):
        name = names[min(place, len(names) - 1)]
        number = number_of(field, MOST[name])
        if number is None:
            why = why_no_number(field, bounds_of(name, {}, system, next_cycle or 0))
            found.mistake(record.line, f"{name} is {shown(field)}: {why}", told + "number")
            return None
        if name == "PERIOD":
            periods.append(number)
    return periods


def lint_wishes(path, system, cycles, found):
    """Looks at the wishes file. So many cycles were opened by the steps."""
    text = rows_in(path, "wishes", ("system",), found, "elastic SYSTEM STEPS WISHES")
    if text is None:
        return
    count = 0
    for record in records_of(text):
        word, told = record.fields[0].decode("utf-8", "replace"), f"wishes: row {record.number} "
        count = record.number
        if word not in (("start",) if count == 1 else ("add", "remove")):
            why = why_no_word(record, word, count == 1, cycles or 0)
            found.mistake(record.line, f"the word is {shown(word)}. {why}", told + "word")
            continue
        if not is_whole(record, word, found, told):
            continue
        if count > OPERATIONS + 1:
            found.mistake(record.line, f"this is operation {count - 1}, and a change has at most {OPERATIONS}. Part "
                          "the wish.", told + "many")
            return
        periods = lint_row(record, word, system, cycles, found, told)
        if periods is None:
            continue
        wrong = next((it for it in periods if not 1 <= it <= TIMES), None)
        if wrong is not None:
            found.warning(record.line, f"PERIOD is {wrong}: no such choice is accepted. Take 1 to {TIMES}.")
        elif word == "start" and cycles is not None and int(record.fields[1]) < cycles:
            found.warning(record.line, f"START is {int(record.fields[1])}, and the steps open "
                          f"{some(cycles, 'cycle')}: it has passed. Take at least {cycles}.")
    if count == 0:
        found.mistake(None, f"the file has no row. Write start,{cycles or 0}, and below it an add or a remove.",
                      "wishes: row 1 word")
    elif count == 1 and not found.mistakes:
        found.mistake(None, "the wish has no operation. Write a row add or remove below the start.",
                      "wishes: row 2 word")
