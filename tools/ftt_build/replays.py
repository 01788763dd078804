"""The examples as inputs of the library's tests: the words of the program library/tests/replay.c, and the rows it must write."""
import pathlib
import tomllib

TOP = pathlib.Path(__file__).resolve().parent.parent.parent
EXAMPLES = TOP / "examples"
POLICIES = {"rm": 0, "dm": 1, "edf": 2}
FILLS = {"prefix": 0, "skip": 1}
# In these modes the test answers each call with much work of its own, so long runs are left out.
MOST_CYCLES = {"saved": 400, "certified": 20_000}
ROWS = ("submit", "plan", "look", "open", "end")


def words_of(folder):
    """The words of the example's call."""
    place = folder / "words"
    if place.is_file():
        return place.read_text(encoding="utf-8").split("\n")[:-1]
    return ["replay", "system.toml", "steps.csv", *(["requests.csv"] if (folder / "requests.csv").is_file() else [])]


def status_of(folder):
    """The status of the example's call."""
    place = folder / "status"
    return int(place.read_text(encoding="utf-8")) if place.is_file() else 0


def all_with_logs():
    """The folders of the examples whose whole log is there, in order."""
    found = []
    for folder in sorted(EXAMPLES.iterdir()):
        if (folder / "steps.csv").is_file() and (folder / "expected.log").is_file():
            words = words_of(folder)
            if words[0] in ("replay", "handover") and not any(word.startswith("--tail") for word in words):
                found.append(folder)
    return found


def numbers(folder):
    """The numbers of the example's system, as words of the test: cycle, nodes, slots, window, policy, fill, horizon."""
    system = tomllib.loads((folder / "system.toml").read_text(encoding="utf-8-sig"))
    bus, plan = system["bus"], system.get("plan", {})
    return [str(number) for number in (bus["cycle"], bus["nodes"], bus.get("slots", 40), bus["window"],
                                       POLICIES[plan.get("policy", "rm")], FILLS[plan.get("fill", "prefix")],
                                       plan.get("horizon", 10_000))]


def log_of(folder):
    """The rows of the example's log."""
    return (folder / "expected.log").read_text(encoding="utf-8").splitlines()


def wanted(folder, mode):
    """The rows that the test must write: those that a master makes, and the frames of triggers."""
    kinds = set(ROWS) - ({"plan"} if mode == "stateless" else set())
    rows = []
    for row in log_of(folder):
        fields = row.split(",")
        if fields[0] in kinds or (fields[0] == "frame" and fields[3] in ("000", "001")):
            rows.append(row)
        if fields[0] == "end":
            break
    return rows


def cycles(folder):
    """How many cycles the example opens."""
    return int(next(row for row in log_of(folder) if row.startswith("end,")).split(",")[1])


def handovers(folder):
    """After how many cycles the standby takes over in the runs of the mode `handed`."""
    many = cycles(folder)
    return sorted({0, 1, many // 2, max(many - 1, 0), many + 1})


def first_difference(rows, other):
    """The first rows that differ, in words."""
    for place, (row, found) in enumerate(zip(rows, other)):
        if row != found:
            return f"row {place + 1} is {found}, and not {row}"
    if len(rows) > len(other):
        return f"row {len(other) + 1} is missing: {rows[len(other)]}"
    return f"row {len(rows) + 1} is too many: {other[len(rows)]}"
