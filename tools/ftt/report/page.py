"""The page of a report: HTML that needs no other file and no script, for a browser and for paper of A4."""
import html

from ..ends import width_of
from ..telling import decimal, some
from . import drawing
from .compare import switches_of, verdict_of
from .design import bus_id
from .telling import down, percent, up

# So many cycles are drawn from the first one on.
DRAWN = 12
STYLE = """
@page { size: A4; margin: 14mm 12mm; }
body { font: 10pt/1.35 sans-serif; color: #111; background: #fff; max-width: 186mm; margin: 6mm auto; padding: 0 2mm; }
h1 { font-size: 16pt; margin: 0 0 1mm; } h2 { font-size: 12pt; margin: 6mm 0 2mm; break-after: avoid; }
table { border-collapse: collapse; width: 100%; font-size: 8.5pt; } thead { display: table-header-group; }
th, td { border-bottom: 0.3pt solid #bbb; padding: 0.6mm 1.2mm; text-align: left; vertical-align: top; }
th { border-bottom: 0.8pt solid #555; } td.n, th.n { text-align: right; white-space: nowrap; }
tr { break-inside: avoid; } .bad { color: #b00; font-weight: bold; } .small { font-size: 8.5pt; color: #444; }
pre { font-size: 8pt; white-space: pre-wrap; margin: 1mm 0; } svg { break-inside: avoid; display: inline-block; }
figure { margin: 2mm 0; break-inside: avoid; }
"""


def cell(value, is_number=False, is_bad=False):
    """A cell of a table; what is an SVG already stays as it is."""
    text = value if str(value).startswith("<svg") else html.escape(str(value))
    words = " ".join(filter(None, ("n" if is_number else "", "bad" if is_bad else "")))
    return f'<td class="{words}">{text}</td>' if words else f"<td>{text}</td>"


def table(head, rows, numbers=()):
    """A table. The columns at these places are numbers. A row may be a text with a mark for what is bad in front."""
    top = "".join(f'<th class="n">{html.escape(it)}</th>' if at in numbers else f"<th>{html.escape(it)}</th>"
                  for at, it in enumerate(head))
    lines = [f"<table><thead><tr>{top}</tr></thead><tbody>"]
    for row, is_bad in rows:
        lines.append("<tr>" + "".join(cell(it, at in numbers, is_bad) for at, it in enumerate(row)) + "</tr>")
    return "\n".join([*lines, "</tbody></table>"])


def summary(design):
    """The first table: the bus, the verdict, the load and the margin."""
    rules, shares, least = design.rules, design.shares(), design.least_left()
    whole = sum(shares.values())
    rows = [("bus", f"{decimal(design.kbits)} kbit/s; cycles of {decimal(design.cycle_ms, 6)} ms, {rules.cycle} bit times"),
            ("plan", f"window {rules.window} bit times, {rules.policy}, {rules.fill}; {rules.slots} slots, "
                     f"{some(rules.nodes, 'node')}, horizon {rules.horizon} cycles"),
            ("messages", f"{len(design.messages)} with a slot, {len(design.owned)} asynchronous"),
            ("verdict", verdict_of(design)),
            ("load", f"{', '.join(f'{name} {percent(it)}' for name, it in shares.items())}; together {percent(whole)}")]
    bad = {"verdict"} if design.refused is not None else set()
    if whole >= 1:
        bad.add("load")
    if least is not None:
        rows.append(("margin", f"at least {down(least[0])} ms of each deadline are left: of {least[1].name}"))
        if least[0] < 0:
            bad.add("margin")
    free = rules.cycle - drawing.TRIGGER[rules.slots] - rules.turnaround - rules.window
    rows.append(("left in a cycle", f"{free} bit times, {up(design.millis(free))} ms, for asynchronous frames beside a full "
                                    "window"))
    rows.append(("switches", switches_of(design)))
    return table(("what", "value"), [(row, row[0] in bad) for row in rows])


def messages(design):
    """The messages with slots, and how late each is at worst."""
    head = ("slot", "on the bus", "in the list", "message", "sender", "kind", "bytes", "period", "taken", "deadline", "worst",
            "left", "used")
    rows = []
    for it in design.messages:
        due, late = design.due(it), None if it.worst is None else design.millis(it.worst)
        rows.append(((it.slot, bus_id(it.slot), it.real or "-", it.name, it.sender, it.kind, it.entry.length,
                      "-" if it.period is None else decimal(it.period), decimal(it.entry.period * design.cycle_ms),
                      decimal(due), "-" if late is None else up(late), "-" if late is None else down(due - late),
                      "-" if late is None else drawing.bar(late / due)), late is not None and late > due))
    return table(head, rows, (0, 6, 7, 8, 9, 10, 11)) + (
        '<p class="small">Times in ms. <i>taken</i> is the period after rounding to whole cycles. <i>worst</i> is the time from '
        "the release to the end of the frame, by the plan and with any data; of a polled message from a request, if requests "
        "come no faster than it is polled. It holds on a bus without errors.</p>")


def asynchronous(design):
    """The asynchronous messages, and their bounds."""
    rows = []
    for it in design.owned:
        gap = "-" if it.stream is None else decimal(design.millis(it.stream.gap))
        due = None if it.deadline is None else design.millis(it.deadline)
        bound = None if it.bound is None else design.millis(it.bound)
        rows.append(((f"{it.id:#05x}", it.real or "-", it.name, it.sender, gap, "-" if due is None else decimal(due),
                      "none" if bound is None else up(bound),
                      "-" if None in (due, bound) else down(due - bound)),
                     due is not None and (bound is None or bound > due)))
    return table(("on the bus", "in the list", "message", "sender", "least distance", "deadline", "bound", "left"), rows,
                 (4, 5, 6, 7)) + ('<p class="small">Times in ms, from a request to the end of its frame. A bound holds if the '
                                  "requests of all asynchronous messages keep their distances.</p>")


def timeline(design):
    """Some cycles, and how full all are."""
    masks, begin = design.base.masks(), design.base.begin
    lengths = {slot: max(it.length for it in entries) for slot, entries in design.table.items()}
    names = {it.slot: it.name for it in design.messages}
    chosen = [(begin + place, mask) for place, mask in enumerate(masks[:DRAWN])]
    fullest = max(range(len(masks)), key=lambda it: (width_of(masks[it], lengths), -it))
    if fullest >= DRAWN:
        chosen.append((begin + fullest, masks[fullest]))
    more = (f"The last one, cycle {begin + fullest}, is the fullest of the plan. " if fullest >= DRAWN else "")
    return (f"<figure>{drawing.cycles(design, lengths, names, chosen)}</figure>"
            f'<p class="small">Each row is a cycle: the trigger, and at its end the frames of the slots by their numbers, all at '
            f"their longest. Grey is the greatest window. {more}</p>"
            f"<figure>{drawing.load(design, lengths, masks, begin)}</figure>"
            f'<p class="small">The window of each cycle up to the repeat of the plan, in bit times; the red line is the '
            f"greatest one.</p>")


def section(title, body):
    """A part of the page with its heading."""
    return f"<h2>{html.escape(title)}</h2>\n{body}\n"


def changes(found, since):
    """What changed since another design."""
    if not found:
        return f"<p>Nothing changed since {html.escape(str(since))}.</p>"
    return f"<p>Since {html.escape(str(since))}:</p>" + table(("what", "difference"), [((it.about, it.told), False)
                                                                                       for it in found])


def files(design, version, engine):
    """Which files the report is of, and what made it."""
    rows = [((it.name, it.bytes, it.sum), False) for it in design.files]
    return table(("file", "bytes", "SHA-256, first 16 digits"), rows, (1,)) + (
        f'<p class="small">Made by {html.escape(version)}. The plan is that of {html.escape(engine)}. A report is a help for '
        "people: nothing of it is proved.</p>")


def page(design, title, version, engine, switched=(), found=None, since=None):
    """The whole page."""
    parts = [section("Summary", summary(design)), section("Messages with a slot", messages(design))]
    if design.owned:
        parts.append(section("Asynchronous messages", asynchronous(design)))
    if design.refused is None and design.messages:
        parts.append(section("Timeline", timeline(design)))
    if switched:
        parts.append(section("Mode switches", f"<pre>{html.escape(chr(10).join(switched))}</pre>"))
    if found is not None:
        parts.append(section("What changed", changes(found, since)))
    parts.append(section("Files and version", files(design, version, engine)))
    return ("<!DOCTYPE html>\n<html lang=\"en\"><head><meta charset=\"utf-8\">"
            f"<title>{html.escape(title)}</title><style>{STYLE}</style></head><body>\n<h1>{html.escape(title)}</h1>\n"
            + "".join(parts) + "</body></html>\n")
