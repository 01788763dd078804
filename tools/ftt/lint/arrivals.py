"""What rows of requests share, those of asynchronous messages and those of polled slots: AT in front, and DATA."""
import re

from ..limits import AT
from ..telling import shown, some
from .asked import why_no_data
from .fields import number_of, separators
from .numbers import Bounds, why_no_number


class Arrivals:
    """Readers of the fields of a file of this kind, whose rows have a form of three fields with at most so many
    bytes."""

    def __init__(self, kind, form, most, found):
        self.kind, self.form, self.most, self.found = kind, form, most, found

    def told(self, record, word):
        """The program's line on a faulty row."""
        return f"{self.kind}: row {record.number} {word}"

    def has_fields(self, record):
        """Whether a row has three fields. What is wrong is told."""
        if len(record.fields) == 3:
            return True
        why = separators(record, 3)
        if why is None and len(record.fields) == 2:
            why = "Write the comma before the data even if there are none."
        self.found.mistake(record.line, f"the row has {some(len(record.fields), 'field')}, and a request has 3. "
                           f"{why or f'Write {self.form}.'}", self.told(record, "fields"))
        return False

    def arrival(self, record, last):
        """The arrival of a row below one of the time `last`, if there is one; None where it is none. What is wrong is
        told."""
        field = record.fields[0]
        number = number_of(field, AT - 1)
        if number is None:
            why = "it looks like a header row. Take it away."
            if not is_header(record):
                why = why_no_number(field, Bounds("AT", last or 0, AT - 1, None))
            self.found.mistake(record.line, f"AT is {shown(field)}: {why}", self.told(record, "number"))
        return number

    def length(self, record):
        """How many bytes the data of a row has; None where they are none. What is wrong is told."""
        data = record.fields[2]
        if re.fullmatch(b"([0-9a-fA-F]{2}){0,%d}" % self.most, data):
            return len(data) // 2
        self.found.mistake(record.line, f"DATA is {shown(data)}. {why_no_data(data, self.most)}",
                           self.told(record, "data"))
        return None

    def order(self, record, number, last):
        """Tells of an arrival that is earlier than the one above."""
        if None not in (number, last) and number < last:
            self.found.mistake(record.line, f"AT is {number}, and {last} stands above. Sort the rows by AT: "
                               "sort -s -t, -k1,1n.", self.told(record, "order"))

    def many(self, record, most):
        """Whether a row is beyond the most that there may be. It is told."""
        if record.number <= most:
            return False
        self.found.mistake(record.line, f"this is row {record.number}. Part the file.", self.told(record, "many"))
        return True


def is_header(record):
    """Whether a row looks like a header row."""
    return record.number == 1 and re.fullmatch(rb"[A-Za-z_ ]+", record.fields[0]) is not None
