"""Pictures of a log: cycles and histograms as SVG, and a page that shows a whole run."""
import importlib.resources
import json
import xml.sax.saxutils as xml

from ..limits import TRIGGERS
from ..masks import slots_of
from ..telling import listed
from .rows import NoLog, REPORT, Summary, cycles_of, duration, is_slot, millis, opened
from .steps import Asked, answered
from .words import operation_told, reported_told, verdict_told

# The row above a plan that is folded.
PLAN_ABOVE = "    The plan that was looked at and refused: click here to see it, or press p for all."

# Width of a letter of the font in parts of its size: wider than most.
LETTER = 0.62
LEFT, WIDE, RIGHT, HIGH, GAP, TOP = 90, 1000, 70, 34, 30, 44
# A name that is cut to its room keeps so many letters at least.
CUT = 2
# The most frames of a page: one of so many has some 25 MB.
MOST_FRAMES = 500_000
COLOURS = (("trigger", "#9bf"), ("asynchronous frame", "#fb7"), ("synchronous frame", "#9d9"),
           ("synchronous window", "#ddd"))
HEAD = ('<svg xmlns="http://www.w3.org/2000/svg" width="{0}" height="{1}" viewBox="0 0 {0} {1}" '
        'font-family="sans-serif" font-size="10">\n<rect width="100%" height="100%" fill="#fff"/>\n')


def width_of(text, size=10):
    """The width that a text takes, at most."""
    return len(text) * size * LETTER


def label(x, y, text, size=10):
    """A text at a place."""
    return f'<text x="{x:.1f}" y="{y:.1f}" font-size="{size}">{xml.escape(text)}</text>\n'


def box(x, y, width, height, fill, title=None):
    """A rectangle, with a title that is shown where a pointer rests on it."""
    inner = "" if title is None else f"<title>{xml.escape(title)}</title>"
    return (f'<rect x="{x:.1f}" y="{y:.1f}" width="{width:.1f}" height="{height:.1f}" fill="{fill}" '
            f'stroke="{"none" if title is None else "#444"}">{inner}</rect>\n')


def colour_of(identifier):
    """The colour of a frame."""
    return COLOURS[0 if identifier in TRIGGERS else 2 if is_slot(identifier) else 1][1]


def legend(text):
    """What is drawn, and what the colours are."""
    told, x = label(LEFT, 14, text), LEFT
    for name, fill in COLOURS:
        told += box(x, 21, 12, 10, fill) + label(x + 16, 30, name)
        x += 16 + width_of(name) + 16
    return told


def frame_label(identifier, names, room):
    """The name that has room, cut where it is too long; without a name the identifier. None where nothing has room."""
    own = names.own(identifier)
    if own is None:
        text = f"{identifier:03x}"
        return text if width_of(text) <= room else None
    if width_of(own) <= room:
        return own
    kept = int(room // width_of("x")) - 2
    return f"{own[:kept]}.." if kept >= CUT else None


def drawn_cycle(cycle, y, length, names, kbits):
    """A cycle as a row of the picture."""
    number, _, width, frames = cycle
    scale = WIDE / length
    told = label(4, y + HIGH / 2 + 4, f"cycle {number}")
    told += box(LEFT + (length - width) * scale, y, width * scale, HIGH, COLOURS[3][1])
    told += f'<rect x="{LEFT}" y="{y}" width="{WIDE}" height="{HIGH}" fill="none" stroke="#888"/>\n'
    free = 0
    for start, bits, identifier, _ in frames:
        x, wide = LEFT + (start - number * length) * scale, max(bits * scale, 1)
        title = f"{names.of(identifier)}: starts at {duration(start, kbits)}, {duration(bits, kbits)} long"
        told += box(x, y + 4, wide, HIGH - 8, colour_of(identifier), title)
        text = frame_label(identifier, names, wide - 4)
        told += "" if text is None else label(x + 2, y + 20, text)
        time = str(start) if kbits is None else millis(start, kbits)
        if x >= free:
            told += label(x, y + HIGH + 11, time, 8)
            free = x + width_of(time, 8) + 4
    return told


def svg(rows, words, names, put):
    """The cycles from first to last, one under the other. A row is a cycle; its frames stand where they are on the
    bus. A label that has no room is left out; the titles of the frames say all."""
    length = words.cycle or Summary(rows).length()
    chosen = opened(row for row, is_told in cycles_of(rows, words.first, words.last) if is_told)
    if not chosen:
        raise NoLog(f"no cycle from {words.first} to {words.last} was opened")
    put(HEAD.format(LEFT + WIDE + RIGHT, TOP + len(chosen) * (HIGH + GAP) + 6))
    put(f"<title>Cycles {chosen[0][0]} to {chosen[-1][0]}</title>\n")
    unit = "bit times" if words.kbits is None else "ms"
    put(legend(f"elementary cycles of {duration(length, words.kbits)}; below each frame its start, in {unit}"))
    for row, cycle in enumerate(chosen):
        put(drawn_cycle(cycle, TOP + row * (HIGH + GAP), length, names, words.kbits))
    put("</svg>\n")


def told_call(word, fields, names, asked, place):
    """A call and its answer, as a sentence; what it asked for stands in it, where the steps are known."""
    act = None if asked is None else asked.next(word, int(fields[0]), place)
    if word == "look":
        return f"Operator {fields[0]} looked: the next cycle is {fields[1]}."
    operator, origin, verdict, rest = fields
    what = "" if act is None else (f", line {act.line}, START {act.start}: "
                                   f"{'; '.join(operation_told(it, names) for it in act.operations)}")
    return f"Operator {operator}, before cycle {origin}{what}. {verdict_told(origin, verdict, rest.split(','), names)}"


def page_rows(rows, names, asked=None):
    """The rows of the page: texts for calls and for rows of the report, and for cycles their number, window and
    frames. And the plans of refused changes, which are folded: by the place of the row above each, how many rows it has."""
    told, folds, above = [], {}, None
    for word, fields, place in rows:
        if word == "plan" and above is None:
            told.append(PLAN_ABOVE)
            above = len(told) - 1
            folds[above] = 0
        elif word != "plan":
            above = None
        if word in ("submit", "look"):
            told.append(told_call(word, fields, names, asked, place))
        elif word == "plan":
            went = listed([names.of_slot(slot) for slot in slots_of(fields[1])])
            told.append(f"    would send in cycle {fields[0]}: {went}")
            folds[above] += 1
        elif word == "open":
            told.append([int(fields[0]), int(fields[2]), []])
        elif word == "frame" and told and isinstance(told[-1], list):
            told[-1][2].append([int(fields[0]), int(fields[1]), int(fields[2], 16), fields[3]])
        elif word in REPORT:
            told.append(reported_told(word, fields, names))
    return told, folds


def html(rows, words, names, put):
    """One page of HTML that shows all of the log, needs no other file, and asks nobody for anything."""
    summary = Summary(rows)
    if summary.frames > MOST_FRAMES:
        raise NoLog(f"the log has {summary.frames} frames, and a page at most {MOST_FRAMES}: no browser would show more. `svg` "
                    "draws some cycles, and `say --from --to` tells of them")
    length = words.cycle or (summary.length() if summary.many else None)
    asked = None if words.steps is None else answered(rows, words.steps) and Asked(words.steps)
    told, folds = page_rows(rows, names, asked)
    called = {frame[2]: names.of(frame[2]) for row in told if isinstance(row, list) for frame in row[2]}
    data = {"length": length, "kbits": None if words.kbits is None else float(words.kbits), "rows": told, "folds": folds,
            "names": called, "own": {key: names.own(key) for key in called if names.own(key)},
            "kinds": [kind for kind, _ in COLOURS], "colours": [fill for _, fill in COLOURS]}
    page = (importlib.resources.files(__package__) / "page.html").read_text(encoding="utf-8")
    # no text of the data can end the element in which it stands
    text = json.dumps(data, separators=(",", ":")).replace("<", "\\u003c")
    put(page.replace("TITLE", xml.escape(words.title)).replace("null /* the log */", text))
