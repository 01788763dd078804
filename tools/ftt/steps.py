"""The rows of a steps file: what stands in each."""
from . import limits

ENTRY = ("SLOT", "NODE", "LENGTH", "PHASE", "PERIOD", "DEADLINE", "PRIORITY")
# By its first words: the fields of a row after them.
ROWS = {
    ("cycle",): ("COUNT",),
    ("look",): ("OPERATOR",),
    ("add",): ("OPERATOR", "START", *ENTRY),
    ("remove",): ("OPERATOR", "START", "SLOT"),
    ("change",): ("OPERATOR", "START", *ENTRY),
    ("and", "add"): ENTRY,
    ("and", "remove"): ("SLOT",),
    ("and", "change"): ENTRY,
}
WORDS = ("cycle", "look", "add", "remove", "change", "and")
CHANGES = ("add", "remove", "change")
# The greatest number that a reader takes in each field.
MOST = {"COUNT": limits.CYCLES, "OPERATOR": 255, "START": (1 << 64) - 1, "SLOT": 255, "NODE": 255, "LENGTH": 255,
        "PHASE": limits.TIMES, "PERIOD": limits.TIMES, "DEADLINE": limits.TIMES, "PRIORITY": limits.PRIORITY}


def key_of(fields):
    """The words of a row that say what stands after them; None where they are those of no row."""
    return next((key for key in ROWS if tuple(fields[:len(key)]) == key), None)


def width_of(key):
    """How many fields a row with these words has."""
    return len(key) + len(ROWS[key])


def slot_in(row):
    """The place of SLOT in a whole row that adds or changes an entry; None where it is no such row."""
    key = key_of(row)
    if key is None or key[-1] not in ("add", "change") or len(row) != width_of(key):
        return None
    return len(key) + ROWS[key].index("SLOT")
