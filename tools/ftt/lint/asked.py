"""The identifiers and the data of requests: what is wrong with one, and what is taken in its place."""
import re

from ..limits import FEW_SLOTS, FIRST_ASYNC, FIRST_SLOT, LAST_ASYNC, LENGTH
from ..rows import identifier_of


def owned_ones(system):
    """What to write in place of an identifier that the system does not own."""
    owned = sorted(system.owners)
    if not owned:
        return f"The system owns none. Write [[async]] with id = {FIRST_ASYNC:#05x} and node in the system file."
    told = ", ".join(f"{it:#05x}" for it in owned[:3])
    return f"Take one that the system owns: {told}{', ..' if len(owned) > 3 else ''}."


def why_no_owner(number, text, system):
    """What to do about an identifier that no node owns."""
    other = int(text, 16) if re.fullmatch(r"[0-9]{1,3}", text) else None
    if other in system.owners:
        return f"Without 0x it is decimal, {number:#05x}. The system owns {other:#05x}: write 0x{text}."
    if number == 0 or number == 1 and system.slots > FEW_SLOTS:
        return f"It is the trigger's, which the master sends. {owned_ones(system)}"
    if FIRST_SLOT <= number < FIRST_SLOT + system.slots:
        return f"It is that of slot {number - FIRST_SLOT}, which the plan sends. {owned_ones(system)}"
    if not FIRST_ASYNC <= number <= LAST_ASYNC:
        return f"It is {number:#05x}, and requests have 0x200 to 0x7ef. {owned_ones(system)}"
    return f"No node owns it. Write [[async]] with id = {number:#05x} and node in the system file."


def why_no_identifier(text, system):
    """What to do about a text that is no identifier in its form."""
    digits = re.sub(r"^0[xX]|[hH]$", "", text)
    if not re.fullmatch(r"0*[0-9a-fA-F]{1,3}", digits):
        why = "Behind 0x stand at most three digits: identifiers have 11 bits." if re.match(r"0x", text) else (
            "Write decimal digits, or 0x and one to three hexadecimal ones.")
        return why + ("" if system is None else f" {owned_ones(system)}")
    number = int(digits, 16)
    more = "" if system is None or number in system.owners else f" {why_no_owner(number, f'{number:#05x}', system)}"
    if text.startswith("0X"):
        return f"Write a lower-case x: {number:#05x}.{more}"
    if re.fullmatch(r"[0-9a-fA-F]{1,3}", text):
        return f"Hexadecimal digits need 0x in front: {number:#05x}.{more}"
    return f"Write {number:#05x}.{more}"


def read_id(field, system):
    """An identifier, and None for nothing wrong; else None, the program's word, and what to do."""
    text = field.decode("utf-8", "replace")
    number = identifier_of(text)
    if number is None:
        return None, "number", why_no_identifier(text, system)
    if system is None or number in system.owners:
        return number, None, None
    return None, "identifier", why_no_owner(number, text, system)


def why_no_data(field, most):
    """What to do about data that are none, where so many bytes are taken."""
    text = field.decode("utf-8", "replace")
    digits = re.sub(r"[ \t:.-]|\b0[xX]|\\x", "", text)
    if re.fullmatch(r"[0-9a-fA-F]*", digits) and len(digits) > 2 * most:
        what = "a frame has" if most == LENGTH else "beside the mark a frame has room for"
        return f"It has {len(digits)} digits, and {what} at most {most} bytes: {2 * most} digits. Part it."
    if not re.fullmatch(r"[0-9a-fA-F]+", digits):
        return "Write two hexadecimal digits for each byte."
    whole = "0" * (len(digits) % 2) + digits
    if re.match(r"0[xX]", text):
        return f"Take the 0x away: data are always hexadecimal. Write {whole}."
    if digits != text:
        return f"Take away what stands between the bytes. Write {whole}."
    return f"It has {len(digits)} {'digit' if len(digits) == 1 else 'digits'}. Write two for each byte: '{whole}'."
