"""How the tools tell of numbers, names and values of files."""
import difflib
import math
from fractions import Fraction


def some(number, word):
    """A number of things."""
    return f"{number} {word}{'' if int(number) == 1 else 's'}"


def listed(names, none="nothing"):
    """Names with commas, and an 'and' before the last one."""
    names = [str(name) for name in names]
    if not names:
        return none
    return names[0] if len(names) == 1 else ", ".join(names[:-1]) + " and " + names[-1]


def shown(value, most=40):
    """A value of a file between quotes, cut where it is longer than the most letters; None cuts nothing."""
    text = value.decode("utf-8", "replace") if isinstance(value, bytes) else value
    text = "".join(c if c.isprintable() else "?" for c in text.replace("\t", "\\t"))
    return f"'{text[:most - 3]}...'" if most is not None and len(text) > most else f"'{text}'"


def decimal(number, places=3):
    """A fraction as a decimal number with at most so many places, rounded half up, without zeros at its end."""
    return fixed(number, places).rstrip("0").rstrip(".")


def fixed(number, places):
    """A fraction as a decimal number with so many places, rounded half up."""
    scaled = math.floor(number * 10 ** places + Fraction(1, 2))
    return f"{scaled // 10 ** places}.{scaled % 10 ** places:0{places}d}"


def close(word, known):
    """The known word that is nearly this one; None where none is."""
    near = difflib.get_close_matches(word, known, 1)
    return near[0] if near else None


# The marks with which a text in UTF-16 begins.
UTF_16 = (b"\xff\xfe", b"\xfe\xff")


def why_no_text(data, is_wide_taken=False):
    """What is said of a file that is no text in UTF-8 at all, by its first bytes; None where nothing is. UTF-16 may be
    taken too."""
    if data.startswith(UTF_16) and not is_wide_taken:
        return "the file is UTF-16. Save it as UTF-8 (Excel: CSV UTF-8)."
    if data[:4] in (b"PK\x03\x04", b"\xd0\xcf\x11\xe0"):
        return "the file is an Excel workbook. Save it as text (Excel: CSV UTF-8, comma delimited)."
    return None
