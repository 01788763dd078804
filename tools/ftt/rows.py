"""Rows of comma-separated fields, as the program's reader takes them."""
import re
from collections import namedtuple

# A field of a row, in quotes or not, and what ends it. What stands after a closing quote belongs to it.
FIELD = re.compile(rb'(?:"([^"]*(?:""[^"]*)*)"?([^,\r\n]*)|([^,\r\n]*))(,|\r\n|\r|\n|\Z)')
LINE_END = re.compile(rb"\r\n|\r|\n")
MARK = b"\xef\xbb\xbf"

# A row: its number among the rows, its line in an editor, and its fields.
Record = namedtuple("Record", "number line fields")


def records_of(data):
    """The records of a text as the program's reader takes them: empty lines are none, and quotes may go over lines.
    Spaces at both ends of a field are dropped."""
    number, line, place, fields, begun = 0, 1, 0, [], 1
    while place < len(data) or fields:
        if not fields:
            begun = line
            if data[place] in b"\r\n":
                place += 2 if data.startswith(b"\r\n", place) else 1
                line += 1
                continue
        match = FIELD.match(data, place)
        quoted, behind, plain, end = match.groups()
        fields.append((plain if quoted is None else quoted.replace(b'""', b'"') + behind).strip(b" "))
        place = match.end()
        line += (0 if quoted is None else len(LINE_END.findall(quoted))) + (end not in (b",", b""))
        if end != b",":
            number += 1
            yield Record(number, begun, fields)
            fields = []


def identifier_of(text):
    """The identifier that a field of a row means; None where it is none in its form."""
    if re.fullmatch(r"0x[0-9a-fA-F]{1,3}", text):
        return int(text, 16)
    return int(text) if re.fullmatch(r"0*[0-9]{1,5}", text) and int(text) <= 65_535 else None
