"""Looks at the rows of a log that audit is to read."""
import re

from .. import places
from ..faults import Unread
from ..log.rows import FIELDS, REPORT, RIDES, ROWS
from ..rows import MARK, records_of
from ..telling import close, shown, some, why_no_text

# What stands in a row of each word after it.
FORMS = {"plan": ("CYCLE", "MASK"), "look": ("CALLER", "NEXT"), "open": ("CYCLE", "MASK", "WIDTH"),
         "frame": ("START", "LEN", "ID", "DATA"), "end": ("NEXT",)}
VERDICTS = {"accepted": "FIRST,LENGTH", "malformed": "OP,WHY", "passed": "START,NEXT", "miss": "SLOT,RELEASE,CYCLE",
            "horizon": "FROM,WALKED"}
CUT = "sed '/^end,/q' LOG"


def why_no_field(name, text):
    """What is wrong with a field of a row of a log; None where nothing is."""
    if name == "MASK":
        digits = re.fullmatch(r"(?:0[xX])?([0-9a-fA-F]{1,24})", text)
        number = int(digits[1], 16) if digits else 0
        right = f"{number:010x}" if number < 1 << 40 else f"{number:024x}"
        return None if text == right else f"a mask has 10 digits in lower case, or 24. Write {right}."
    if name == "ID":
        digits = re.fullmatch(r"(?:0[xX])?([0-9a-fA-F]{1,3})", text)
        if re.fullmatch("[0-9a-f]{3}", text):
            return None
        return "three hexadecimal digits are taken, in lower case and without 0x." + (
            f" Write {int(digits[1], 16):03x}." if digits else "")
    if name == "DATA":
        if re.fullmatch("(?:[0-9a-f]{2}){0,8}", text):
            return None
        plain = re.sub("^0[xX]", "", text).replace(" ", "").lower()
        return "two hexadecimal digits for each byte are taken, in lower case, at most 16." + (
            f" Write {plain}." if re.fullmatch("(?:[0-9a-f]{2}){1,8}", plain) else "")
    if re.fullmatch("0|[1-9][0-9]*", text):
        return None
    plain = re.fullmatch(r"\+?0*([0-9]+)", text.strip())
    return f"digits alone are taken, without zeros in front. Write {int(plain[1]) if plain else 'a number'}."


def why_no_row(fields):
    """What is wrong with the fields of a row whose word a log has, as the field, its value and the remedy; None where
    nothing is."""
    word, rest = fields[0], fields[1:]
    names = FORMS.get(word)
    if word == "submit":
        verdict = rest[2] if len(rest) > 2 else ""
        if verdict not in VERDICTS:
            near = close(verdict, VERDICTS)
            return "the verdict", verdict, (f"Is it {near}?" if near else f"It is one of {', '.join(VERDICTS)}.")
        if len(rest) - 3 not in FIELDS[verdict]:
            return "the row", ",".join(fields), f"Write submit,CALLER,FROM,{verdict},{VERDICTS[verdict]}."
        names = ("CALLER", "FROM", "the verdict", *VERDICTS[verdict].split(","), "UNTIL")
    if word != "submit" and len(rest) != len(names):
        more = ""
        if (word, len(rest)) == ("frame", 3):
            more = " Write the comma before the data even if there are none."
        return "the row", ",".join(fields), f"Write {word},{','.join(names)}.{more}"
    for name, text in zip(names, rest):
        why = None if name == "the verdict" else why_no_field(name, text)
        if why is not None:
            return name, text, why
    return None


def why_no_word(record, text):
    """What to do about a row whose word no log has."""
    word = record.fields[0].decode("utf-8", "replace")
    if text.startswith("fttcan plan"):
        return "this is a plan text. Its audit is `fttcan check SYSTEM STEPS PLAN`."
    if re.match(r"\([0-9.]+\)\s", text):
        return f"this is a recording of candump. {places.tool('fttlog')} from-candump makes a log of it."
    if word in ("add", "remove", "change", "and", "cycle"):
        return "this is a row of a steps file. The words are audit SYSTEM STEPS LOG [REQUESTS], in this order."
    if re.match(r"\[|[a-z]+ *=", text):
        return "this is a row of a system file. The words are audit SYSTEM STEPS LOG [REQUESTS], in this order."
    near = close(word.lower(), [*ROWS])
    if near:
        return f"Is it {near}?"
    return f"The word of a row is one of {', '.join(['submit', *FORMS])}. Take the row away."


def bytes_of_log(path):
    """The bytes of a log, which may be longer than another file."""
    try:
        with open(path, "rb") as file:
            return file.read()
    except (OSError, ValueError) as fault:
        why = getattr(fault, "strerror", None) or str(fault)
        raise Unread(f"{shown(path)}: the log can't be read: {why}. Is it the right path?\n"
                     "    fttcan says: read fault") from fault


class Rows:
    """Looks at the rows of a log, one after the other."""

    def __init__(self, found):
        self.found, self.ended, self.opened, self.first = found, None, 0, None

    def tell_behind(self, record, word, told):
        """Tells of rows after the row `end`, the first of them alone."""
        rest, remedy = "rows", f"Take them away: {CUT}."
        if word in RIDES:
            rest = "the rows of a log of `poll`, whose frames carry requests"
            remedy = "Audit a `replay` of these steps."
        elif word in REPORT:
            rest = "the rows of a report (--report)"
        if self.ended != "told":
            self.found.mistake(record.line, f"the word is '{word}': after the row `end` come {rest}, and audit takes "
                               f"none. {remedy}", told)
        self.ended = "told"

    def look(self, record):
        """Looks at a row. Whether the next one is to be looked at."""
        fields = [it.decode("utf-8", "replace") for it in record.fields]
        told, word = f"log: row {record.number}", fields[0]
        if word in REPORT or self.ended is not None and word in ROWS:
            self.tell_behind(record, word, told if word in REPORT else None)
            return True
        if word not in ROWS:
            why = why_no_word(record, ",".join(fields))
            self.found.mistake(record.line, f"the word is {shown(word)}: {why}", told)
            return record.number > 1
        wrong = why_no_row(fields)
        if wrong is not None:
            name, value, why = wrong
            self.found.mistake(record.line, f"{name} is {shown(value)}: {why}", told)
            return True
        if record.number == 1 and word in ("frame", "plan"):
            self.first = record.line, word
        if word == "open":
            self.opened += 1
        if word == "end":
            self.ended = record.line, int(fields[1])
        return True


def lint_log(path, found):
    """Looks at the rows of a log."""
    data = bytes_of_log(path)
    why = why_no_text(data)
    if why is not None:
        found.mistake(1, why, "log: row 1")
        return
    rows = Rows(found)
    for record in records_of(data[3:] if data[:3] == MARK else data):
        if not rows.look(record):
            return
    if rows.first is not None:
        line, word = rows.first
        found.warning(line, f"the log begins with a row '{word}', without the one that it belongs to: it was cut by "
                      "--tail, or in the middle. Audit a log that is whole.")
    elif rows.ended is None:
        found.warning(None, "the log has no row `end`: it is not whole, and audit says no,unfinished. Write it to its "
                      "end.")
    elif rows.ended != "told" and rows.ended[1] != rows.opened:
        line, number = rows.ended
        found.warning(line, f"NEXT is {number}, and the log has {some(rows.opened, 'row')} `open`. Audit says no: it "
                      "was cut, or a row is missing. Audit a log that is whole.")
