"""Decimal numbers of a list as they stand there: with points, or with commas as some countries write them.

In a list whose fields are separated by semicolons or tabs a decimal number may have a comma. Then `1.000` may be one
millisecond or a thousand. It is taken for the first where another time of the list has a point that can only be a decimal
one, as 2.5, and none has such a comma. Otherwise it is refused. With commas between the fields all points are decimal.
"""
import re

# A number that may be one with separators of thousands: 1.000 and 12.500, and not 0.500 or 2.5.
GROUPED = {mark: re.compile(rf"[1-9][0-9]{{0,2}}(?:\{mark}[0-9]{{3}})+") for mark in ".,"}
DECIMAL = {mark: re.compile(rf"[0-9]+\{mark}[0-9]+") for mark in ".,"}
# A number with separators of thousands and a decimal part.
BOTH = {".": re.compile(r"[0-9]{1,3}(?:,[0-9]{3})+\.[0-9]+"), ",": re.compile(r"[0-9]{1,3}(?:\.[0-9]{3})+,[0-9]+")}


def shows(text, mark):
    """Whether a text can only be a number whose decimal mark this is."""
    return bool(DECIMAL[mark].fullmatch(text) and not GROUPED[mark].fullmatch(text) or BOTH[mark].fullmatch(text))


class Amounts:
    """How decimal numbers are written in a list, by all of its times as they stand there."""

    def __init__(self, separator, texts):
        texts = [] if separator == "," else list(texts)
        self.may_have_commas = separator != ","
        self.has_points, self.has_commas = (any(shows(it, mark) for it in texts) for mark in ".,")

    def read(self, text):
        """The number of a field with a decimal point; or the field as it stands, and what is wrong with it."""
        if not self.may_have_commas:
            return text, None
        if any(both.fullmatch(text) for both in BOTH.values()):
            return text, "this is no time. Write it without separators of thousands."
        is_point = self.has_points and not self.has_commas
        is_comma = self.has_commas or not self.has_points
        if GROUPED["."].fullmatch(text) and not is_point or GROUPED[","].fullmatch(text) and not is_comma:
            return text, self.why_open(text)
        return text.replace(",", "."), None

    def why_open(self, text):
        """What is said of a number that may be one with separators of thousands."""
        mark = "." if "." in text else ","
        other = "," if mark == "." else "."
        many, few = text.replace(mark, ""), text.replace(mark, other, 1).rstrip("0").rstrip(other)
        if text.count(mark) > 1:
            return f"this is no time. Write it without separators of thousands: {many}."
        where = f"other times of this file have a decimal {'comma' if other == ',' else 'point'}"
        if not (self.has_commas or self.has_points):
            where = "no other time of this file shows which"
        return f"it may be {many} or {few} ms, and {where}. Write {many} or {few}."
