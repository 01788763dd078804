"""The attributes of a DBC file: definitions, defaults, and the values of messages, signals, nodes and the network."""
import bisect
import re
from fractions import Fraction

QUOTED = r'"(?:\\.|[^"\\])*"'
VALUE = rf'((?:{QUOTED}|[^";])*?)\s*;'
DEFINED = re.compile(rf'^[ \t]*BA_DEF_\s+(?:(BO_|SG_|BU_|EV_)\s+)?"([^"]+)"\s+{VALUE}', re.MULTILINE)
DEFAULT = re.compile(rf'^[ \t]*BA_DEF_DEF_\s+"([^"]+)"\s+{VALUE}', re.MULTILINE)
OWNER = r"(?:BO_\s+([0-9]+)\s+|SG_\s+([0-9]+)\s+(\w+)\s+|BU_\s+(\w+)\s+|(EV_)\s+\w+\s+)?"
OWN = re.compile(rf'^[ \t]*BA_\s+"([^"]+)"\s+{OWNER}{VALUE}', re.MULTILINE)
SENDERS = re.compile(r"^[ \t]*BO_TX_BU_\s+([0-9]+)\s*:\s*([^;]*);", re.MULTILINE)
TIME = re.compile(r"[0-9]{1,12}(\.[0-9]{0,12})?([eE][+-]?[0-9]{1,2})?")


def plain(text):
    """A text with line feeds alone, and without the words of texts that go over several lines: as those of a comment,
    they have no rows in them."""
    text = text.removeprefix("\xef\xbb\xbf").replace("\r\n", "\n")
    return re.sub(QUOTED, lambda it: it[0] if "\n" not in it[0] else '"' + "\n" * it[0].count("\n") + '"', text,
                  flags=re.DOTALL)


def unquoted(value):
    """A value without its quotes."""
    return re.sub(r"\\(.)", r"\1", value[1:-1]) if value[:1] == '"' and value[-1:] == '"' and len(value) > 1 else value


class Attributes:
    """The attributes of a file. An owner is the number of a message, a pair of a number and a signal, a node's name, or
    None for the network."""

    def __init__(self, text, times, mistakes):
        self.mistakes, self.time_names = mistakes, set(filter(None, times))
        self.ends = [match.start() for match in re.finditer("\n", text)]
        self.enums, self.default, self.own, self.lines = {}, {}, {}, {}
        self.times, self.of_messages = {}, set()
        self.senders = {int(number): re.findall(r"\w+", names) for number, names in SENDERS.findall(text)}
        for match in DEFINED.finditer(text):
            kind, name, what = match.groups()
            if what.startswith("ENUM"):
                self.enums[name] = [unquoted(it) for it in re.findall(QUOTED, what)]
            if kind == "BO_":
                self.of_messages.add(name)
        for match in DEFAULT.finditer(text):
            self.default[match[1]] = self.taken(match[1], match[2], self.line(match.start()))
        for match in OWN.finditer(text):
            if match[6] is None:
                self.put(match)

    def line(self, place):
        """The line of a place in the text."""
        return bisect.bisect_left(self.ends, place) + 1

    def put(self, match):
        """Keeps the value of a row BA_."""
        name, message, of_signal, signal, node, _, value = match.groups()
        owner = int(message) if message else (int(of_signal), signal) if signal else node
        if message:
            self.of_messages.add(name)
        line = self.line(match.start())
        value = self.taken(name, value, line)
        if self.own.get((name, owner), value) != value:
            self.mistakes.add(line, name, str(value), f"it stands in line {self.lines[name, owner]} too, with another "
                              "value. Take one of them away.")
        self.own[name, owner], self.lines[name, owner] = value, line

    def taken(self, name, value, line):
        """A value as text, by the words of its ENUM; a time as a number of milliseconds."""
        text = unquoted(value)
        words = self.enums.get(name)
        if words is not None and re.fullmatch("[0-9]{1,6}", value):
            if int(value) < len(words):
                text = words[int(value)]
            else:
                self.mistakes.add(line, name, value, f"its ENUM has {len(words)} values, counted from 0. Take one of "
                                  "them.")
        if name not in self.time_names:
            return text
        if not TIME.fullmatch(text.strip()):
            self.mistakes.add(line, name, text, "this is no time. Write milliseconds in digits, with a point: 2.5.")
            return Fraction(0)
        return Fraction(text.strip().rstrip("."))

    def is_own(self, name, owner):
        """Whether an owner has a value of its own."""
        return (name, owner) in self.own

    def value(self, name, owner):
        """The value of an attribute, or its default; None where there is neither."""
        return self.own.get((name, owner), self.default.get(name))

    def text(self, name, owner):
        """A text that an owner has by itself; of a node without one, the node's name."""
        return self.own.get((name, owner)) or (owner if isinstance(owner, str) else None)

    def time(self, name, owner):
        """A time in milliseconds; 0 where there is none."""
        value = self.value(name, owner)
        return value if isinstance(value, Fraction) else Fraction(0)

    def is_yes(self, name, owner):
        """Whether an attribute says yes."""
        return str(self.value(name, owner)).lower() in ("yes", "true", "1")

    def rate(self):
        """The bit rate that the file tells; 0 where it tells none."""
        value = str(self.value("Baudrate", None) or 0)
        return Fraction(value) if re.fullmatch(r"[0-9]{1,9}(\.[0-9]{1,6})?", value) else Fraction(0)
