"""Looks at the form of a plan text."""
import itertools
import re

from ..limits import FEW_SLOTS
from ..masks import mask_of
from ..telling import shown, some
from .files import bytes_of


class Faulty(Exception):
    """A line of a plan text that breaks its form: its number, and what to do."""


class PlanLines:
    """The lines of a plan text, one after the other."""

    def __init__(self, data):
        *self.lines, self.rest = data.split(b"\n")
        self.number = 0

    def take(self, what):
        """The next line, which has to be this."""
        self.number += 1
        if self.number <= len(self.lines):
            line = self.lines[self.number - 1]
            if line.endswith(b"\r"):
                self.refuse("the line ends with a carriage return. Save the file with line feeds alone.")
            return line
        if self.rest:
            self.refuse(f"{shown(self.rest)} has no line feed after it. Add one.")
        return self.refuse(f"the text ends here. Write {what}.")

    def refuse(self, what):
        """Refuses the line that was taken last."""
        raise Faulty(self.number, what)

    def number_of(self, word, low, high, why):
        """The number of the next line, which has a word in front."""
        line = self.take(f"{word} and a number")
        front, _, text = line.partition(b" ")
        if front.decode("latin-1") != word:
            self.refuse(f"{shown(line)} stands where `{word} NUMBER` is needed.")
        value = self.digits(text)
        if not low <= value <= high:
            self.refuse(f"{word} is {value}. {why}")
        return value

    def digits(self, text):
        """A number in its only form."""
        if not re.fullmatch(rb"[0-9]{1,15}", text):
            digits = re.search(rb"[1-9][0-9]{0,14}", text)
            self.refuse(f"{shown(text)} is no number in its form. Write digits, and nothing around them: "
                        f"{0 if digits is None else int(digits[0])}.")
        if text != b"0" and text.startswith(b"0"):
            self.refuse(f"{shown(text)} has leading zeros. Write {int(text)}.")
        return int(text)

    def mask(self, text, version):
        """A mask in its only form."""
        if re.fullmatch(rb"[0-9a-f]{10}", text):
            return int(text, 16)
        if version == 2 and re.fullmatch(rb"[0-9a-f]{24}", text):
            if int(text, 16) < 1 << FEW_SLOTS:
                self.refuse(f"all slots of {shown(text)} are below 40. Write ten digits: {int(text, 16):010x}.")
            return int(text, 16)
        remedy = f"It has {some(len(text), 'character')}. "
        if re.match(rb"0[xX]", text):
            remedy = "Take the 0x away. "
        elif re.fullmatch(rb"[0-9a-fA-F]{10}|[0-9a-fA-F]{24}", text):
            remedy = ""
        digits = re.fullmatch(rb"(?:0[xX])?([0-9a-fA-F]{1,24})", text.strip())
        number = 0 if digits is None else int(digits[1], 16)
        form = f"{number:010x}" if version == 1 else mask_of(number)
        more = ", or 24 where a slot from 40 on is in the set" if version == 2 else ""
        what = f": {form}." if digits is not None and len(form) in (10, 24) else "."
        return self.refuse(f"{shown(text)} is no mask. {remedy}Write ten lower-case hexadecimal digits{more}{what}")

    def masks_left(self):
        """How many lines from the one that was taken last on are masks of version 1."""
        return sum(1 for _ in itertools.takewhile(lambda it: re.fullmatch(rb"[0-9a-f]{10}", it),
                                                  self.lines[self.number - 1:]))


def runs_of_plan(lines, total):
    """Reads the runs of a plan of version 2, which have so many cycles."""
    before, count = None, 0
    while count < total:
        line = lines.take("a line MASK COUNT")
        if line == b"end":
            lines.refuse(f"the counts above sum to {count}, and FIRST + LENGTH - FROM is {total}. Add what is missing, "
                         "or mend LENGTH.")
        mask, blank, text = line.partition(b" ")
        if not blank:
            lines.refuse(f"{shown(line)} has no COUNT. Write MASK COUNT, with one space between.")
        if lines.mask(mask, 2) == before:
            lines.refuse(f"{shown(mask)} is the mask of the line above. Add the two counts, in one line.")
        number = lines.digits(text)
        if number == 0 or count + number > total:
            what = "Take the line away, or take" if number == 0 else "Take"
            lines.refuse(f"COUNT is {number}. {what} 1 to {total - count}: FIRST + LENGTH - FROM is {total}, and "
                         f"{count} cycles stand above.")
        before, count = int(mask, 16), count + number


def masks_of_plan(lines, total):
    """Reads the masks of a plan of version 1, which are so many."""
    for place in range(total):
        line = lines.take("a mask")
        if line == b"end":
            lines.refuse(f"FIRST and LENGTH say {some(total, 'mask')}, and {place} stand there. Add what is missing, "
                         "or mend LENGTH.")
        lines.mask(line, 1)


def read_plan(lines):
    """Reads a plan text. Its FROM, and whether something is pending."""
    first = lines.take("fttcan plan 2")
    if first not in (b"fttcan plan 1", b"fttcan plan 2"):
        remedy = "Write fttcan plan 2."
        if first.startswith(b"\xef\xbb\xbf"):
            remedy = "A byte order mark stands in front. Save the file without it."
        elif re.match(rb"(submit|open|frame|look|plan|end),", first):
            remedy = "This looks like a log. The plan is what `fttcan admit SYSTEM STEPS` writes."
        lines.refuse(f"{shown(first)} is not the first line of a plan. {remedy}")
    version = int(first[-1:])
    start = lines.number_of("from", 0, (1 << 42) - 1, "Take 0: check takes a plan from cycle 0 on.")
    line = lines.take("pending and a mask")
    if not line.startswith(b"pending "):
        lines.refuse(f"{shown(line)} stands where `pending MASK` is needed.")
    pending = lines.mask(line[8:], version)
    from_on = lines.number_of("first", start, start + 200_000, f"Take {start} to {start + 200_000}.")
    length = lines.number_of("length", 1, 200_000, "Take 1 to 200000.")
    total = from_on + length - start
    (masks_of_plan if version == 1 else runs_of_plan)(lines, total)
    line = lines.take("end")
    if line != b"end":
        more = f" {total + lines.masks_left()} masks stand there, and FIRST and LENGTH say {total}."
        if version == 2:
            more = f" The counts above sum to FIRST + LENGTH - FROM, {total}."
        lines.refuse(f"{shown(line)} stands where `end` is needed.{more} Take away what is too much, or mend LENGTH.")
    if lines.lines[lines.number:] or lines.rest:
        lines.number += 1
        lines.refuse("text stands after end. Take it away.")
    return start, pending


def lint_plan(path, found):
    """Looks at the form of a plan text."""
    data = bytes_of(path, "plan", found)
    if data is None:
        return
    try:
        start, pending = read_plan(PlanLines(data))
    except Faulty as fault:
        line, what = fault.args
        found.mistake(line, what, f"plan: line {line}")
        return
    if start != 0 or pending:
        line, told = (2, f"FROM is {start}") if start else (3, "slots are pending")
        found.mistake(line, f"{told}. check takes a plan from cycle 0 on, before which nothing is pending.",
                      "plan: start")
