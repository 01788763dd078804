"""The files of a model: the system, the steps, and the names of messages."""
import csv
import io

from ..faults import Unread
from ..limits import FEW_SLOTS, OPERATIONS
from ..telling import decimal
from .bus import Entry
from .messages import id_text


def system_text(bus, owned, words, window, nodes):
    """The system file."""
    text = (f"# made by fttmodel: {decimal(bus.kbits)} kbit/s, cycles of {decimal(bus.millis(1), 6)} ms\n"
            f"[bus]\ncycle = {bus.cycle}\nturnaround = {words.turnaround}\nwindow = {window}\nnodes = {nodes}\n"
            + (f"slots = {words.slots}\n" if words.slots != FEW_SLOTS else "")
            + f'\n[plan]\npolicy = "{words.policy}"\nhorizon = {words.horizon}\n'
            + (f'fill = "{words.fill}"\n' if words.fill != "prefix" else ""))
    for it in sorted(owned, key=lambda it: it.id):
        text += f"\n# {it.message.name} of {it.message.sender}\n[[async]]\nid = {it.id:#05x}\nnode = {it.node}\n"
    return text


def steps_text(entries, cycles):
    """The steps file: changes of 16 operations, and the cycles."""
    text = ""
    for place, it in enumerate(entries):
        start = "add,1,0" if place % OPERATIONS == 0 else "and,add"
        text += (f"{start},{it.slot},{it.node},{it.length},{it.phase},{it.period},{it.deadline},"
                 f"{it.message.priority}\n")
    return text + f"cycle,{cycles}\n"


def names_text(entries, owned):
    """The names file: what stands for each message."""
    out = io.StringIO()
    rows = csv.writer(out, lineterminator="\n")
    rows.writerow(["slot_or_id", "name", "sender", "node", "period_cycles", "period_ms", "real_id", "kind",
                   "deadline_ms"])
    for it in entries + sorted(owned, key=lambda it: it.id):
        message = it.message
        deadline = message.period if message.deadline is None and message.kind == "sync" else message.deadline
        rows.writerow([it.slot if isinstance(it, Entry) else f"{it.id:#05x}", message.name, message.sender, it.node,
                       it.period if isinstance(it, Entry) else "",
                       "" if message.period is None else decimal(message.period),
                       "" if message.id is None else id_text(message.id), message.kind,
                       "" if deadline is None else decimal(deadline)])
    return out.getvalue()


def write_all(folder, texts):
    """Writes the files into the folder."""
    try:
        folder.mkdir(parents=True, exist_ok=True)
        for name, text in texts.items():
            # DBC files are not UTF-8.
            encoding = "latin-1" if name.endswith(".dbc") else "utf-8"
            (folder / name).write_bytes(text.encode(encoding, "replace"))
    except OSError as fault:
        if folder.is_file():
            raise Unread(f"{folder}: OUT is a folder, and a file of this name is there. Take another name.") from fault
        raise Unread(f"{fault.filename}: {fault.strerror}. May it be written?") from fault
