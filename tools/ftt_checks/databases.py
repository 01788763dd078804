"""The DBC files of tools/people-cases/dbc: what fttmodel makes of each has to be what the file beside it says, which
was worked out by hand.

A file NAME.txt has these rows: `options WORD..`, `status STATUS`, `slot SLOT NAME SENDER LENGTH PHASE PERIOD MILLIS`,
`async ID NAME SENDER MILLIS` with - for no period, and `says TEXT`.
"""
import csv
import shlex


def wanted_of(path):
    """The options and the status of a case, its rows of names.csv and of steps.csv, and what is said."""
    options, status, names, steps, said = [], None, [], [], []
    for row in path.read_text(encoding="utf-8").splitlines():
        word, _, rest = row.partition(" ")
        if word == "options":
            options = shlex.split(rest)
        elif word == "status":
            status = int(rest)
        elif word == "slot":
            slot, name, sender, length, phase, period, millis = rest.split()
            names.append((slot, name, sender, period, millis))
            steps.append((slot, length, phase, period, period))
        elif word == "async":
            identifier, name, sender, millis = rest.split()
            names.append((identifier, name, sender, "", millis.replace("-", "")))
        elif word == "says":
            said.append(rest)
    return options, status, names, steps, said


def made_in(folder):
    """The rows of names.csv and of steps.csv that were written, as a case has them."""
    with open(folder / "names.csv", encoding="utf-8", newline="") as file:
        names = [(row["slot_or_id"], row["name"], row["sender"], row["period_cycles"], row["period_ms"])
                 for row in csv.DictReader(file)]
    rows = [row.split(",") for row in (folder / "steps.csv").read_text(encoding="utf-8").splitlines()]
    # add,OPERATOR,START or and,add, and then SLOT,NODE,LENGTH,PHASE,PERIOD,DEADLINE,PRIORITY
    steps = [(row[-7], *row[-5:-1]) for row in rows if row[0] != "cycle"]
    return names, steps


def check(tools):
    """All cases, on a bus of 500 kbit/s with cycles of 1 ms."""
    for path in sorted((tools.cases / "dbc").glob("*.txt")):
        options, status, names, steps, said = wanted_of(path)
        folder = tools.work / "dbc"
        out, err, ended = tools.call("fttmodel", "500", "1000", str(path.with_suffix(".dbc")), str(folder), *options)
        made = made_in(folder) if ended < 2 else None
        is_right = ended == status and made == (names, steps) and not err and all(it in out for it in said)
        is_right = is_right and out.count("warning: ") == sum("warning: " + it in out for it in said)
        tools.case(f"fttmodel: {path.stem}.dbc", is_right, f"status {ended}\n{out}{err}{made}\nwanted {names, steps}")
        for old in folder.glob("*"):
            old.unlink()
    files = {path.stem for path in (tools.cases / "dbc").iterdir()}
    tools.case("each DBC file has its case", all((tools.cases / "dbc" / f"{it}.{end}").exists() for it in files
                                                 for end in ("dbc", "txt")))
