"""What is said of the points of a grid, where policies and fillings that differ in nothing are told together."""
import itertools

from .said import axis_name, value_name

PLURALS = {"policy": "policies", "fill": "fillings"}


def whole(name, it):
    """A value of an axis as a part of a sentence."""
    return f"{axis_name(name)} {it}" if name.startswith("period") else value_name(name, it)


def together(names, texts, wide, front):
    """Lines of what is said by points. Policies and fillings, where they are among the wide axes, stand in one line, and
    so do neighbours of which the same is said. `front` begins each line."""
    words = [name for name in ("policy", "fill") if name in wide]
    rows = {}
    for point, text in texts.items():
        rest = tuple((name, it) for name, it in zip(names, point) if name in wide and name not in words and it is not None)
        rows.setdefault(rest, {})[" ".join(it for name, it in zip(names, point) if name in words)] = text
    no_difference = f", no difference between {' and '.join(PLURALS[name] for name in words)}" if words else ""
    is_same = {rest: len(set(said.values())) == 1 for rest, said in rows.items()}
    is_all = all(is_same.values()) and len(rows) > 1
    said = {rest: next(iter(row.values())) + ("" if is_all else no_difference) if is_same[rest] else
            ", ".join(f"{word} {text}" for word, text in row.items()) for rest, row in rows.items()}
    lines = []
    for (_, text), same in itertools.groupby(said.items(), key=lambda it: (it[0][:-1], it[1])):
        rests = [rest for rest, _ in same]
        parts = [whole(name, it) for name, it in rests[0]]
        if len(rests) > 1:
            parts[-1] += f" to {rests[-1][-1][1]}"
        lines.append(": ".join(filter(None, [", ".join([*([front] if front else []), *parts]), text])))
    return [no_difference.removeprefix(", "), *lines] if is_all and words else lines
