"""Fields of rows of comma-separated values: numbers, and what stands between the fields."""
import re

from ..steps import WORDS
from ..telling import some


def number_of(field, most):
    """A number in its form and range; None where it is none."""
    if not re.fullmatch(rb"[0-9]+", field):
        return None
    digits = field.lstrip(b"0") or b"0"
    return int(digits) if len(digits) <= 20 and int(digits) <= most else None


def separators(record, want):
    """What is wrong with a row that has too few fields since something else stands between them; None for nothing."""
    first = record.fields[0]
    if len(record.fields) == 1 and b";" in first:
        return "The fields are separated by semicolons. Save the file with commas (Excel: CSV UTF-8, comma delimited)."
    if len(record.fields) == 1 and b"\t" in first:
        return "The fields are separated by tabs. Save the file with commas."
    front, space, _ = first.partition(b" ")
    if len(record.fields) == 1 and space and (front.isdigit() or front.decode("latin-1") in WORDS):
        return "The fields are separated by spaces. Write commas between them."
    if want and len(record.fields) > want and not any(record.fields[want:]):
        return f"Empty fields pad the row. Take the {some(len(record.fields) - want, 'comma')} at its end away."
    if first and not first.strip(b"\x1a"):
        return "It is Ctrl-Z, with which some editors end a file. Take it away."
    if first.startswith((b"#", b"//", b"%")):
        return "The file has no comments. Take the row away."
    return None
