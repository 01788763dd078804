"""Bounds of asynchronous messages: what fttmodel tells and writes of them, and what fttlint says of requests.

What is expected was worked out by hand from docs/ASYNC.md. At 500 kbit/s with cycles of 1 ms a cycle has 500 bit times,
the trigger 135, and the window here 140. A frame of w may start at 501 - 275 - w = 226 - w times of a cycle. `log` has the
longest frame, 135, so 134 bit times of a frame under way may go before.

    door  w is 75: 151 times of 500. One is needed: 134 + 349 + 1 = 484. The end: 484 - 1 + 75 - 3 = 555, 1.11 ms
    lamp  w is 95: 131 times of 500. door needs 75 before: 134 + 369 + 75 + 1 = 579. The end: 578 + 95 - 3 = 670, 1.34 ms
"""
import re

from .cases import TOP

HEAD = "name,sender,length,period,deadline,kind,id\n"
FAST, DOOR, LAMP = "fast,x,8,1,,sync,1\n", "door,y,2,20,3,async,0x300\n", "lamp,y,4,20,,async,0x310\n"
LOG = "log,y,8,,,async,0x320\n"
TOLD = ("asynchronous: door (0x300): a request is sent within 1.11 ms of 3, if requests come at least 20 ms apart\n"
        "asynchronous: lamp (0x310): a request is sent within 1.34 ms, if requests come at least 20 ms apart\n"
        "asynchronous: log (0x320): no bound, since no period is given\n")
DECLARED = "id,bytes,gap,burst,deadline\n0x300,2,10000,1,1500\n0x310,4,10000,1,\n0x320,8,1,1024,\n"

# By name: the rows of a list, what is warned of or refused, and the status.
LISTS = {
    # 134 + 500 - (366 - 75 - W) + 71 <= 550 where W <= 135
    "a bound after the deadline": (
        FAST + DOOR.replace(",3,", ",1.1,") + LOG, "warning: line 3: door may take 1.11 ms, and its deadline is 1.1. Take "
        "--window 135 or less, or write polled.\n", 1),
    # W <= 110, and the frame of fast needs 135
    "a bound that no window mends": (
        FAST + DOOR.replace(",3,", ",1.05,") + LOG, "door may take 1.11 ms, and its deadline is 1.05. Take longer periods or "
        "a higher bit rate, or write polled.\n", 1),
    # 134 + 500 - (366 - 95 - W) + 76 <= 575 where W <= 136
    "no bound within the least distance": (
        FAST + DOOR + LAMP.replace(",20,", ",1.15,") + LOG, "warning: line 4: lamp has no bound: a request may still wait "
        "when the next one comes, 1.15 ms later. Take --window 136 or less, or write polled.\n", 1),
    "a lesser identifier without a period": (
        FAST + DOOR + LOG.replace("0x320", "0x2f0"), "door has no bound: requests of 0x2f0, whose period is not given, may "
        "come as often as they like, and go first. Give that message a period, or a greater identifier.\n", 1),
    "a deadline without a period": (
        FAST + "door,y,2,,3,async,0x300\n", "m.csv:3: deadline is '3': an asynchronous message needs a period for it: the "
        "least distance of two requests. Write one, or write polled.\n", 2),
    # 75 - 3 = 72 bit times
    "a deadline that is shorter than the frame": (
        FAST + DOOR.replace(",3,", ",0.143,"), "m.csv:3: deadline is '0.143': the frame alone takes 72 bit times. Take at "
        "least 0.144 ms.\n", 2),
}


def modelled(tools, text):
    """A call of fttmodel on a list: what it says, the status, and its files."""
    tools.put("m.csv", HEAD + text)
    for old in (tools.work / "out").glob("*"):
        old.unlink()
    out, err, status = tools.call("fttmodel", "500", "1000", "m.csv", "out", "--window", "140")
    return out + err, status, {path.name: path.read_text() for path in (tools.work / "out").glob("*")}


def check_lists(tools):
    """What fttmodel says of lists, and what it refuses."""
    said, status, files = modelled(tools, FAST + DOOR + LAMP + LOG)
    is_right = status == 0 and TOLD in said and files.get("async.csv") == DECLARED
    is_right = is_right and "0x300,door,y,1,,20,0x300,async,3\n" in files["names.csv"]
    tools.case("bounds: fttmodel tells and writes them", is_right, f"{status} {said}{files.get('async.csv')}")
    said, status, files = modelled(tools, FAST)
    tools.case("bounds: without asynchronous messages nothing is declared", status == 0 and "async.csv" not in files, said)
    said, status, files = modelled(tools, FAST + LOG)
    tools.case("bounds: without a period nothing is told", status == 0 and "asynchronous: " not in said, said)
    for name, (text, part, wanted) in LISTS.items():
        said, status, files = modelled(tools, text)
        tools.case(f"bounds: {name}", status == wanted and part in said and bool(files) == (wanted < 2), f"{status} {said}")
    # 10.5 and 1.3 bit times are whole ones rounded down: requests may be so much nearer, and are due so much sooner
    said, _, files = modelled(tools, FAST + DOOR.replace(",20,3,", ",20.001,1.9999,"))
    tools.case("bounds: distances and deadlines are rounded down", "0x300,2,10000,1,999\n" in files["async.csv"],
               f"{said}{files['async.csv']}")
    tools.put("when.csv", "at,name\n1,door\n20.9,door\n21,lamp\n")
    tools.put("m.csv", HEAD + FAST + DOOR + LAMP)
    said, _, status = tools.call("fttmodel", "500", "1000", "m.csv", "out", "--window", "140", "--cycles", "99",
                                 "--requests", "when.csv")
    tools.case("bounds: requests of a list that come too soon", status == 1 and "warning: when.csv:3: door comes 19.9 ms "
               "after the one before, and its period is 20: no bound of an asynchronous message holds any more.\n" in said,
               f"{status} {said}")


SYSTEM = ("[bus]\ncycle = 500\nwindow = 140\nnodes = 1\n" + "".join(
    f"[[async]]\nid = {it}\nnode = 0\n" for it in ("0x300", "0x310", "0x320")))
STEPS = "add,1,0,0,0,8,0,1,1,0\ncycle,200\n"
# By name: the declared streams, the requests, the lines of fttlint after those of the other cases, and its status.
LINTED = {
    "nothing": (DECLARED.replace("1,1024", "9000,1"), "0,0x300,\n10000,0x300,0102\n10000,0x310,\n", (), 0),
    "an unknown length": (DECLARED.replace("1,1024", "9000,1"), "0,0x300,010203\n", (
        "requests.csv:1: warning: the request has 3 bytes, and the stream of 0x300, declared in line 2, has at most 2.",), 1),
    "requests that are too close": (
        DECLARED.replace("1,1024", "9000,1"), "0,0x300,\n9999,0x300,\n10000,0x310,\n19998,0x300,\n", (
            "requests.csv:2: warning: the request arrives 9999 bit times after the one before (line 1), and the stream of "
            "0x300, declared in line 2, asks for 10000.",
            "requests.csv:4: warning: the request arrives 9999 bit times after the one before (line 2), and the stream of "
            "0x300, declared in line 2, asks for 10000."), 1),
    # two of 0x300 may be at once: the third is the one that is too close to the first
    "a burst": (DECLARED.replace("10000,1,1500", "10000,2,").replace("1,1024", "9000,1"),
                "0,0x300,\n0,0x300,\n9999,0x300,\n10000,0x300,\n", (
                    "requests.csv:3: warning: the request arrives 9999 bit times after the one 2 places before (line 1), and "
                    "the stream of 0x300, declared in line 2, asks for 10000.",), 1),
    "an identifier that is not declared": (
        "id,bytes,gap,burst,deadline\n0x300,2,10000,,\n", "0,0x310,\n", (
            "async.csv: warning: no stream of 0x310 and 0x320 is declared, and the system owns it: if one of its requests "
            "comes, no bound holds.", "requests.csv:1: warning: no stream of 0x310 is declared, so no bound holds."), 1),
    # the bound of lamp is 670, and 1 byte less than it is too long
    "a bound after the deadline": (
        DECLARED.replace("10000,1,\n", "10000,1,669\n").replace("1,1024", "9000,1"), "0,0x310,\n", (
            "async.csv:3: warning: 0x310 may take 670 bit times, and its deadline is 669. Take a window of at most 139.",), 1),
    # 134 + 0 * 500 + 500 - (501 - 190 - 135) + 170 + 1 = 629 with a window of 55, the least one
    "no bound": (DECLARED.replace("1,1024", "628,1"), "0,0x310,\n", (
        "async.csv:4: warning: 0x320 has no bound: a request may still wait when the next one comes. Take greater",), 1),
    "no bound with this window": (DECLARED.replace("1,1024", "629,1"), "0,0x310,\n", (
        "async.csv:4: warning: 0x320 has no bound: a request may still wait when the next one comes. Take a window of at "
        "most 55.",), 1),
    "requests that come as often as they like": (DECLARED, "0,0x320,\n0,0x320,\n1,0x320,\n", (), 0),
    "a deadline of such requests": (DECLARED.replace("1024,", "1024,9000"), "", (
        "async.csv:4: warning: 0x320 has no bound",), 1),
    "no header row": ("0x300,2,10000,1,\n", "0,0x300,\n", (
        "async.csv:1: mistake: the first row does not name the columns. Write id,bytes,gap,burst,deadline above",), 2),
    "wrong fields": (
        "id,bytes,gap,burst,deadline\n0x1ff,9,0,1025,x\n0x300,2,1\n# 7\n0x310,0,1,,\n784,0,1,,\n", "0,0x300,\n", (
            "async.csv:2: mistake: id is '0x1ff'. Write an asynchronous identifier, 0x200 to 0x7ef.",
            "async.csv:2: mistake: bytes is '9'. Write a whole number from 0 to 8.",
            "async.csv:2: mistake: gap is '0'. Write a whole number from 1 to 4294967295.",
            "async.csv:2: mistake: burst is '1025'. Write a whole number from 1 to 1024.",
            "async.csv:2: mistake: deadline is 'x'. Write a whole number from 1 to",
            "async.csv:3: mistake: the row has 3 fields, and a stream has 5: id,bytes,gap,burst,deadline.",
            "async.csv:6: mistake: id is 0x310: it stands in line 5 too. An identifier has one stream."), 2),
}


def check_requests(tools):
    """What fttlint says of streams that are declared, and of requests that break theirs."""
    tools.put("system.toml", SYSTEM)
    tools.put("steps.csv", STEPS)
    for name, (streams, requests, lines, wanted) in LINTED.items():
        tools.put("async.csv", streams)
        tools.put("requests.csv", requests)
        out, err, status = tools.call("fttlint", "system.toml", "steps.csv", "requests.csv", "--bounds", "async.csv", "--replay")
        told = [line for line in out.splitlines() if line.startswith(("async.csv", "requests.csv"))]
        is_right = status == wanted and not err and len(told) == len(lines) and all(map(str.startswith, told, lines))
        tools.case(f"bounds: fttlint on {name}", is_right, f"{status} {out}{err}")
    out, err, status = tools.call("fttlint", "system.toml", "steps.csv", "--bounds", "nowhere.csv", "--replay")
    tools.case("bounds: fttlint on no file", status == 3 and "fttcan says" not in out, f"{status} {out}{err}")


def check_pages(tools):
    """What the pages show of it."""
    page, other = ((TOP / "docs" / name).read_text() for name in ("tools.md", "ASYNC.md"))
    lines = [*TOLD.splitlines()[::2], LISTS["a bound after the deadline"][1].strip(),
             *LINTED["a bound after the deadline"][2], LINTED["requests that are too close"][2][0]]
    wrong = [line for line in lines if f"{line}\n" not in page]
    tools.case("bounds: docs/tools.md", not wrong, "\n".join(wrong))
    rows = re.search("```\n(id,bytes,gap.*?)```", other, re.DOTALL)
    tools.put("system.toml", SYSTEM)
    tools.put("async.csv", rows[1] if rows else "")
    out, err, status = tools.call("fttlint", "system.toml", "steps.csv", "--bounds", "async.csv", "--replay")
    tools.case("bounds: docs/ASYNC.md", TOLD.splitlines()[0] in other and status == 0, f"{out}{err}")


def check(tools):
    """All of it."""
    check_lists(tools)
    check_requests(tools)
    check_pages(tools)
