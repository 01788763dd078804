"""What the other modules speak of: values of a system, a table and a plan, and why a call ends."""
import collections

LOW_SLOTS = 40
PERIODS = (2, 3, 4, 5, 6, 8, 10, 12)
MOST_COMBINATIONS = 4096

System = collections.namedtuple("System", "cycle turnaround window nodes slots policy fill horizon owners")
Entry = collections.namedtuple("Entry", "slot node length phase period deadline priority")
# An entry in the table: the cycle from which its phase is counted, and the one from which it releases nothing more.
Placed = collections.namedtuple("Placed", "entry origin end")
Change = collections.namedtuple("Change", "operator start operations")
Verdict = collections.namedtuple("Verdict", "word fields masks table")
Certificate = collections.namedtuple("Certificate", "start pending first length masks")


class Unread(Exception):
    """A file that can't be read."""


class Refused(Exception):
    """A file that breaks its format: the line on standard error."""


class Unsure(Exception):
    """A file of which the readers here don't tell what it means."""


class Faulty(Exception):
    """A row that breaks its format: the word for it."""
