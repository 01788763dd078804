"""The pictures of a report, as SVG in the page: some cycles, and how full all cycles are. Every frame is at its longest."""
import xml.sax.saxutils as xml

from ..ends import slots_in, width_of
from ..frames import TRIGGER, worst

WIDE, LEFT, HIGH, GAP = 620, 70, 20, 5
TRIGGER_FILL, SLOT_FILL, WINDOW_FILL = "#9bf", "#9d9", "#ddd"
# The most columns of the picture of all cycles, and its height.
COLUMNS, TALL = 300, 70


def text(x, y, what, size=9, anchor="start"):
    """A text at a place."""
    return f'<text x="{x:.1f}" y="{y:.1f}" font-size="{size}" text-anchor="{anchor}">{xml.escape(str(what))}</text>'


def box(x, y, wide, high, fill, title=None):
    """A rectangle, with a title for the pointer."""
    inner = "" if title is None else f"<title>{xml.escape(title)}</title>"
    return (f'<rect x="{x:.2f}" y="{y:.1f}" width="{max(wide, 0.2):.2f}" height="{high:.1f}" fill="{fill}" stroke="'
            f'{"none" if title is None else "#555"}" stroke-width="0.5">{inner}</rect>')


def opening(high):
    """The first tag of a picture."""
    wide = LEFT + WIDE + 10
    return f'<svg xmlns="http://www.w3.org/2000/svg" viewBox="0 0 {wide} {high}" width="100%" font-family="sans-serif">'


def cycle_row(design, lengths, names, cycle, mask, y):
    """A cycle: the trigger, the window and the frames of slots at their places, all at their longest."""
    rules, scale = design.rules, WIDE / design.rules.cycle
    width = width_of(mask, lengths)
    parts = [text(LEFT - 6, y + HIGH / 2 + 3, f"cycle {cycle}", 9, "end"),
             box(LEFT + (rules.cycle - rules.window) * scale, y, rules.window * scale, HIGH, WINDOW_FILL),
             box(LEFT, y + 2, TRIGGER[rules.slots] * scale, HIGH - 4, TRIGGER_FILL, "the trigger")]
    at = rules.cycle - width
    for slot in slots_in(mask):
        bits = worst(lengths[slot])
        parts.append(box(LEFT + at * scale, y + 2, bits * scale, HIGH - 4, SLOT_FILL, f"{names.get(slot, slot)}: slot {slot}"))
        if bits * scale > 12:
            parts.append(text(LEFT + (at + bits / 2) * scale, y + HIGH / 2 + 3, slot, 8, "middle"))
        at += bits
    parts.append(f'<rect x="{LEFT}" y="{y}" width="{WIDE}" height="{HIGH}" fill="none" stroke="#888" stroke-width="0.6"/>')
    return "".join(parts)


def cycles(design, lengths, names, chosen):
    """Some cycles, one below the other. The number in a frame is its slot."""
    high = len(chosen) * (HIGH + GAP) + 16
    parts = [opening(high)]
    parts += [cycle_row(design, lengths, names, cycle, mask, row * (HIGH + GAP)) for row, (cycle, mask) in enumerate(chosen)]
    for part in range(5):
        x = LEFT + WIDE * part / 4
        parts.append(text(x, high - 4, f"{float(design.cycle_ms * part / 4):g} ms", 8, "middle" if part < 4 else "end"))
    return "".join(parts) + "</svg>"


def load(design, lengths, masks, begin):
    """How wide the window is in each cycle; where there are many, the widest of some is a column."""
    widths = [width_of(mask, lengths) for mask in masks]
    each = -(-len(widths) // COLUMNS)
    tops = [max(widths[first:first + each]) for first in range(0, len(widths), each)]
    most, wide = max(design.rules.window, 1), WIDE / len(tops)
    parts = [opening(TALL + 22), text(LEFT - 6, 14, f"{design.rules.window} bits", 8, "end"), text(LEFT - 6, TALL + 6, "0", 8, "end")]
    for place, top in enumerate(tops):
        tall = TALL * top / most
        first = begin + place * each
        title = f"cycle {first}: {top}" if each == 1 else f"cycles {first} to {first + each - 1}: at most {top}"
        parts.append(f'<rect x="{LEFT + place * wide:.2f}" y="{6 + TALL - tall:.1f}" width="{max(wide * 0.9, 0.4):.2f}" '
                     f'height="{tall:.1f}" fill="#6b6"><title>{title}</title></rect>')
    parts.append(f'<line x1="{LEFT}" y1="6" x2="{LEFT + WIDE}" y2="6" stroke="#c33" stroke-width="0.8"/>')
    parts.append(f'<line x1="{LEFT}" y1="{TALL + 6}" x2="{LEFT + WIDE}" y2="{TALL + 6}" stroke="#888" stroke-width="0.8"/>')
    for part in range(5):
        x = LEFT + WIDE * part / 4
        parts.append(text(x, TALL + 18, begin + len(widths) * part // 4, 8, "middle" if part < 4 else "end"))
    return "".join(parts) + "</svg>"


def bar(share):
    """How much of a deadline is used, as a bar; red above the whole."""
    fill = "#c33" if share > 1 else "#6b6"
    return (f'<svg viewBox="0 0 60 8" width="60" height="8"><rect width="60" height="8" fill="#eee"/>'
            f'<rect width="{60 * min(float(share), 1):.1f}" height="8" fill="{fill}"/></svg>')
