"""Mistakes, what the tools say of each, and the files with the advice followed, which the program then has to take."""
from . import mistakes

NAMES = {"system": "system.toml", "steps": "steps.csv", "requests": "requests.csv", "streams": "streams.csv",
         "plan": "plan.txt", "wishes": "wishes.csv", "log": "run.log"}


def command_of(files):
    """The command that reads these files, and the words after it."""
    if "plan" in files:
        return ["check", NAMES["system"], NAMES["steps"], NAMES["plan"]]
    for command, name in (("poll", "streams"), ("elastic", "wishes"), ("audit", "log")):
        if name in files:
            return [command, NAMES["system"], NAMES["steps"], NAMES[name]]
    return ["replay", NAMES["system"], NAMES["steps"], *([NAMES["requests"]] if "requests" in files else [])]


def options_of(files):
    """The words for fttlint."""
    told = [NAMES["system"], NAMES["steps"]]
    if "requests" in files:
        told.append(NAMES["requests"])
    for name in ("streams", "plan", "wishes", "log"):
        told += [f"--{name}", NAMES[name]] if name in files else []
    return [*told, "--replay"]


def put(tools, files):
    """Writes the files, with a system and steps that are right where none are given."""
    for name, text in {"system": mistakes.SYSTEM, "steps": mistakes.STEPS, **files}.items():
        tools.put(NAMES[name], text)


def check_files(tools, name, wrong, part, right):
    """A mistake in files: it is found with this part, and what its advice makes of it is taken."""
    put(tools, wrong)
    out, err, status = tools.call("fttlint", *options_of(wrong))
    _, refused, ended = tools.ask(*command_of(wrong))
    told = f"{out}{err}the program: {ended} {refused}"
    is_right = status == 2 and part in out and not err and ended != 0
    put(tools, right)
    out, err, status = tools.call("fttlint", *options_of(right))
    _, refused, ended = tools.ask(*command_of(right))
    is_right = is_right and " mistake: " not in out and ended == 0
    tools.case(f"advice: {name}", is_right,
               f"{told}\nwith the advice: {status} {out}{err}the program: {ended} {refused}")


def check_words(tools, wrong, part, right):
    """Words that are wrong, and those that the advice makes of them."""
    put(tools, {"requests": mistakes.REQUESTS})
    out, err, status = tools.call("fttlint", "--words", *wrong.split())
    _, _, ended = tools.ask(*wrong.split())
    told = f"{out}{err}the program: {ended}"
    is_right = status == 2 and part in out and not err and ended == 2
    out, err, status = tools.call("fttlint", "--words", *right.split())
    _, refused, ended = tools.ask(*right.split())
    is_right = is_right and status == 0 and ended == 0
    tools.case(f"advice: the words {wrong}", is_right,
               f"{told}\nwith the advice: {out}{err}the program: {ended} {refused}")


def check_messages(tools, name, wrong, part, right):
    """Messages that fttmodel refuses, and those that the advice makes of them. A list is that of a bus of 500 kbit/s
    with cycles of 1 ms, if it has no words of its own."""
    told, statuses = "", []
    for text, words in (wrong, right):
        tools.put("messages.csv", text)
        for old in (tools.work / "made").glob("*"):
            old.unlink()
        out, err, status = tools.call("fttmodel", *(words or "500 1000 messages.csv made").split())
        told += f"status {status} {out}{err}"
        statuses.append((status, part in out + err))
    is_right = statuses[0] in ((1, True), (2, True), (3, True)) and statuses[1] == (0, False)
    if is_right:
        _, refused, ended = tools.ask("replay", "made/system.toml", "made/steps.csv", "--tail", "1")
        is_right, told = ended == 0, f"{told}the program: {ended} {refused}"
    tools.case(f"advice: {name}", is_right, told)


def check(tools):
    """All mistakes."""
    for row in mistakes.FILES:
        check_files(tools, *row)
    for row in mistakes.WORDS:
        check_words(tools, *row)
    for row in mistakes.MESSAGES:
        check_messages(tools, *row)
