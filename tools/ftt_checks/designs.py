"""Searches over lists in milliseconds: small ones that were worked out by hand, a set of 53 messages, and points of random
lists that a plain planner answers too. What needs the library is left out where it is not there.
"""
import csv
import io
import os
import random
import signal
import subprocess
import sys
import time

from . import cases, plain_planner
from .cases import TOP, case

# A list of 53 messages of an electric car.
SAE = TOP / "examples/sae/messages.csv"
HORIZON = 600
# Two messages of 8 bytes every 5 ms and one every 10: 135 bit times each at worst. At 500 kbit/s a cycle of 2 ms has 1000
# bit times, and the messages come every 2, 2 and 5 cycles; one of 2.5 ms has 1250, and they come every 2, 2 and 4.
HEAD = "name,sender,length,period,deadline,kind\n"
SMALL = f"{HEAD}one,a,8,5,,sync\ntwo,a,8,5,,sync\nthree,b,8,10,,sync\n"
# One message is due in its first cycle: beside it only a window of 270 has room for another one in that cycle.
TIGHT = f"{HEAD}one,a,8,5,2.5,sync\ntwo,a,8,5,2.5,sync\n"


def library_words():
    """The environment in which the library is asked; None where there is none."""
    environment = {key: it for key, it in os.environ.items() if key != "FTTCAN"}
    done = subprocess.run([sys.executable, "-c", "import fttcan; fttcan.version()"], env=environment | {
        "PYTHONPATH": str(TOP / "tools")}, capture_output=True, check=False)
    return environment if done.returncode == 0 else None


def asked(desk, environment, *words):
    """The output, the message and the status of a call that asks the library; or, without one, the program."""
    env = environment or os.environ | {"FTTCAN": str(desk.program)}
    return cases.tool("fttsearch", *words, folder=desk.folder, env=env)


def said(name, answer, status, lines, parts=()):
    """A call's answer: its status, whole lines, and parts of lines that have to be there."""
    out, err, ended = answer
    rows = (out + err).splitlines()
    missing = [line for line in lines if line not in rows] + [part for part in parts if part not in out + err]
    case(name, ended == status and not missing, f"status {ended}, missing {missing}\n{out}{err}")
    return out


def by_hand(desk, environment):
    """Small lists whose answers were worked out by hand."""
    desk.put("small.csv", SMALL)
    desk.put("tight.csv", TIGHT)
    one = ("--policy", "rm", "--fill", "prefix")
    # On average 135 / 2 + 135 / 2 + 135 / 4 = 168.75 are used, and 1250 - 135 of a cycle are not the trigger.
    # 3 * 135 released together in cycle 0, of which two may wait until cycle 1, and the third until cycle 3: a window of
    # 270 in 2 cycles takes 4 in each period of two. 135 takes 2 in 2 cycles, and none is left for three.
    out = said("a list: the least window", asked(desk, environment, "small.csv", "--kbits", "500", "--cycle-us", "2500",
                                                 *one, "--csv", "-"), 0,
               ["500 kbit/s: best cycle 2500 us, with 40 slots, prefix rm: least window 270 of 1250 bit times",
                "500 kbit/s: left in each cycle: 845 bit times (67.6 %); on average 946.3 (75.7 %)",
                "500 kbit/s: rounding costs nothing"])
    rows = list(csv.DictReader(io.StringIO(out.partition("\n")[2])))
    desk.put("joined.csv", out)
    case("a list: each point that was tried is in the table", {(row["window"], row["accepted"]) for row in rows} >= {
        ("265", "no"), ("270", "yes")} and len(rows) < 30, out)
    # 5 ms are 2.5 cycles of 2 ms, so 2: 135 / (4 ms * 500) - 135 / (5 ms * 500) = 1.35 % each. 10 ms are 5 cycles.
    said("a list: what rounding costs", asked(desk, environment, "small.csv", "--kbits", "500", "--cycle-us", "2000", *one),
         0, ["500 kbit/s: rounding: 2 messages of 3 get other times, and take 2.7 % more of the bus; most for one 5 to 4 ms "
             "and two 5 to 4 ms"])
    out, _, _ = asked(desk, environment, "small.csv", "--kbits", "500", "--cycle-us", "2000", *one, "--rounding", "-")
    case("a list: a row of rounding", "500,2000,one,sync,5,4,5,4,1.35\n" in out and "500,2000,three,sync,10,10,10,10,0\n"
         in out, out)
    # In cycles up to 3 ms 10 / 4 = 2.5 is the longest that divides all; after it three comes every 3 cycles, one each.
    out = said("a list: the cycles that fit", asked(desk, environment, "small.csv", "--kbits", "500", "--cycle-us",
                                                    "2300:3400:fit", *one, "--csv", "-"), 0, [])
    found = {row["cycle_us"] for row in csv.DictReader(io.StringIO(out.partition("\n")[2]))}
    case("a list: fit takes the cycles in which a period is a whole number", found == {"2500", "3333", "3400"}, found)
    out = said("headroom: what decides, and what may be cut", asked(
        desk, environment, "tight.csv", "--kbits", "500", "--cycle-us", "2500", *one, "--window", "270", "--headroom",
        "--add", "2.5,5"), 0, ["least window: 270",
                               "decides: at window 265, two in slot 1: what is released in cycle 0 is not sent by cycle 0"])
    # 270 in each cycle, and cycle 1 is free: none every cycle, and of period 2 two in it.
    case("headroom: what may be added", "may be added, of 8 bytes each, by their period: 2.5 ms 0, 5 ms 2\n" in out, out)
    case("headroom: a row of a message", any(row.split() == ["one", "5", "2.5", "2.5", "135", "270"]
                                             for row in out.splitlines()), out)
    # In a window of 135 both are due in cycle 0, and without one of them the other goes.
    said("headroom: what makes a refused point accepted", asked(
        desk, environment, "tight.csv", "--kbits", "500", "--cycle-us", "2500", *one, "--window", "135", "--headroom"), 1,
         ["refused: two in slot 1: what is released in cycle 0 is not sent by cycle 0",
          "accepted without: one and two", "accepted half as often: none of the messages, one at a time"])
    said("a list without a table", asked(desk, environment, "tight.csv", "--kbits", "500", "--cycle-us", "3000", *one), 1,
         [], ["500 kbit/s: nothing is accepted, in 1 line", "list:2: deadline is '2.5'"])
    # A deadline of 2 ms is none of whole cycles.
    said("a list: deadlines and periods", asked(
        desk, environment, "small.csv", "--kbits", "500", "--cycle-us", "2500", *one, "--deadline", "2:3:0.5", "--period",
        "three=5:20:5"), 0, ["500 kbit/s: accepted deadline with the rest as there: 2 of 3 tried, from 2.5 to 3 ms"])


def polled_cut(desk, environment):
    """The least deadline of a polled message is that of the list: its slot's PERIOD and DEADLINE follow from it. In a
    window of 195 one cycle takes the 135 of `a` or the 65 of `p`, and `a` comes in each second cycle. A deadline of 4
    is a PERIOD of 2 and a DEADLINE of 2, so each second cycle is that of `p`. One of 3 is 2 and 1: by edf `p` goes before
    `a` then, and by rate `a`, whose slot is lower, goes first. One of 2 is a poll in each cycle."""
    desk.put("polled.csv", f"{HEAD}a,x,8,2,,sync\np,x,0,,12,polled\n")
    for policy, least in (("rm", "4"), ("edf", "3")):
        out = said(f"headroom: the least deadline of a polled message, {policy}", asked(
            desk, environment, "polled.csv", "--kbits", "500", "--cycle-us", "1000", "--policy", policy, "--fill", "prefix",
            "--window", "195", "--headroom", "--add", "2"), 0, [])
        row = next((row.split() for row in out.splitlines() if row.startswith("p ")), [])
        case(f"headroom: it is {least} ms by {policy}", row[:4] == ["p", "6", "12", least], out)
    for deadline, status in ((4, 0), (3, 1)):
        desk.put("polled.csv", f"{HEAD}a,x,8,2,,sync\np,x,0,,{deadline},polled\n")
        said(f"headroom: a list with a deadline of {deadline} ms has the same answer", asked(
            desk, environment, "polled.csv", "--kbits", "500", "--cycle-us", "1000", "--policy", "rm", "--fill", "prefix",
            "--window", "195"), status, [])


def horizon(desk, environment):
    """Cycles that fall to the horizon alone. In cycles of 2 ms the periods are 7, 11, 13 and 10 cycles, 10010 in common; in
    those of 1 ms 15, 22, 27 and 20, 5940 in common. A window of 135 takes a frame in each cycle, and four have to go in 7.
    So cycles of 2 ms leave 1000 - 135 - 135. With 11 cycles in place of 13 the plan repeats after 770."""
    desk.put("late.csv", f"{HEAD}a,x,8,15,,sync\nb,x,8,22,,sync\nc,x,8,27,,sync\nd,x,8,20,,sync\n")
    words = ("late.csv", "--kbits", "500", "--cycle-us", "1000,2000", "--policy", "rm", "--fill", "prefix")
    front = "500 kbit/s: horizon: 1 cycle fell to the horizon of 10000 alone; "
    shorter = "500 kbit/s: at 2000 us the plan repeats after 770 cycles in place of 10010 with c every 22 ms in place of 26"
    left, is_quick = f"{front}1 line of them may leave more: --horizon 100000 tries all", environment or desk.program.name != "reference"
    if is_quick:
        left = (f"{front}with --horizon 10010 the best cycle is 2000 us, prefix rm: least window 135 of 1000 bit times, 730 "
                "left (73 %); 1 line tried")
    said("a list: cycles that fall to the horizon alone", asked(desk, environment, *words), 0, [
        "500 kbit/s: best cycle 1000 us, with 40 slots, prefix rm: least window 135 of 500 bit times",
        "500 kbit/s: cycles that fell: 1 to the horizon", left, shorter])
    # 5940 cycles are too many too, and what leaves more is known without asking
    said("a list: a horizon that is asked for", asked(desk, environment, *words, "--horizon", "5000"), 1, [
        "500 kbit/s: horizon: 2 cycles fell to the horizon of 5000 alone; 2 lines of them may leave more: --horizon 100000 "
        "tries all", shorter])
    if is_quick:
        said("a list: the horizon that the sentence names", asked(desk, environment, *words, "--horizon", "10010"), 0, [
            "500 kbit/s: best cycle 2000 us, with 40 slots, prefix rm: least window 135 of 1000 bit times"])
    # 101 * 103 * 107 cycles of 1 ms are above 100000
    desk.put("late.csv", f"{HEAD}a,x,8,101,,sync\nb,x,8,103,,sync\nc,x,8,107,,sync\n")
    said("a list: no horizon is long enough", asked(desk, environment, "late.csv", *words[1:4], "1000", *words[5:]), 1, [
        "500 kbit/s: horizon: 1 cycle fell to the horizon of 10000 alone, and to one of 100000 too"])


def refined(desk, environment):
    """Grids that are refined: the border is that of the whole grid where acceptance is monotone."""
    desk.put("system.toml", "[bus]\ncycle = 1000\nwindow = 135\nnodes = 1\n")
    desk.put("steps.csv", "add,1,0,0,0,8,0,4,4,0\nand,add,1,0,8,0,4,4,0\nand,add,2,0,8,0,4,4,0\n")
    words = ("system.toml", "steps.csv", "--deadline", "1:4", "--window", "55:500:5")
    out = said("--refine: the least windows of a grid", asked(desk, environment, *words, "--refine", "--csv", "-"), 0, [
        "least window, deadline 1: 405", "least window, deadline 2: 270", "least window, deadline 3 to 4: 135",
        "refined: window; a border between two tried values of the same answer is not found"])
    case("--refine: fewer points", out.count("\n") < 80, out)


def bounded(desk, environment):
    """Asynchronous requests beside the windows. A stream of 8 bytes waits for 134 bit times that are under way, for
    1000 - (1001 - 135 - W - 135) in which it can't start, and for one more: 404 + W. It has ended 131 later: 535 + W."""
    desk.put("async.csv", "id,bytes,gap,burst,deadline\n0x300,8,10000,1,940\n")
    desk.put("system.toml", "[bus]\ncycle = 1000\nwindow = 135\nnodes = 1\n")
    desk.put("steps.csv", "add,1,0,0,0,8,0,4,4,0\nand,add,1,0,8,0,4,4,0\nand,add,2,0,8,0,4,4,0\n")
    words = ("system.toml", "steps.csv", "--window", "135:675:135")
    said("--bounds: the windows that leave a stream in time", asked(desk, environment, *words, "--bounds", "async.csv",
                                                                    "--csv", "-"), 0,
         ["135,yes,,", "270,yes,,", "405,yes,,", '540,no,,"late,0x300,1075,940"', '675,no,,"late,0x300,1210,940"'])
    # no planner is at fault where a bound is the reason, and no file
    out = said("--bounds: the reason is the bound", asked(desk, environment, *words, "--bounds", "async.csv", "--svg", "-"),
               0, ["window: in 1 of 1 line: 405 is accepted, and at 540 the bound of 0x300 is 1075 bit times, and its deadline "
                   "940 bit times",
                   "along the window nothing else is refused above what is accepted, in 1 line of tried points"])
    case("--bounds: the picture has a colour for it", ">late bound</text>" in out and "540 to 675: late bound" in out
         and "refused file" not in out, out)
    desk.put("mixed.csv", "name,sender,length,period,deadline,kind,id\none,a,8,4,,sync,\ntwo,b,8,20,1.88,async,0x300\n")
    out = said("a list: an asynchronous message that has a deadline", asked(
        desk, environment, "mixed.csv", "--kbits", "500", "--cycle-us", "2000", "--policy", "rm", "--fill", "prefix", "--csv",
        "-"), 0, ["500 kbit/s: best cycle 2000 us, with 40 slots, prefix rm: least window 135 of 1000 bit times"],
               # 535 + 410 bit times
               ["405 is accepted, and at 410 the bound of two (0x300) is 1.89 ms, and its deadline 1.88 ms"])
    rows = [row.split(",", 6) for row in out.splitlines()[2:]]
    wide = [row for row in rows if int(row[5]) > 405]
    case("a list: a wide window leaves no time for it", wide and all(row[6].startswith(('no,,"late,0x300,',
                                                                                      'no,,"unbounded,0x300"')) for row in wide)
         and any(row[5] == "405" and row[6] == "yes,," for row in rows), out)


def answered(row, messages):
    """Whether the plain planner says of a point what its row says."""
    mine = plain_planner.of_point(messages, row, HORIZON)
    if mine[2] == "list" or row["why"].startswith("list"):
        # No table; or a common period that the horizon does not reach, which no plan repeats before.
        return row["accepted"] == mine[0] == "no" and not row["change"]
    return (row["accepted"], row["change"], row["why"]) == mine


def random_list(chance):
    """A list of messages by chance, as its text."""
    rows, base = [], chance.choice((2, 5, 10))
    for place in range(chance.randint(3, 45)):
        period = base * chance.choice((1, 2, 2, 3, 4, 4, 6, 8, 12))
        kind = chance.choice(("sync",) * 4 + ("polled",))
        deadline = chance.choice((period, period * 0.5, period * 0.75, base))
        offset = chance.choice((0, 0, 0, base)) if kind == "sync" else 0
        rows.append(f"m{place},n{chance.randint(0, 5)},{chance.randint(0, 7)},{period},{deadline:g},{offset},"
                    f"{chance.randint(0, 2)},{kind}\n")
    return "name,sender,length,period,deadline,offset,priority,kind\n" + "".join(rows)


def planned(desk, environment, many=2000, seed=1):
    """Points of random lists: what the plain planner says of a sample of them."""
    chance, left, wrong, yes = random.Random(seed), many, [], 0
    while left:
        desk.put("random.csv", random_list(chance))
        rate, cycle = chance.choice((125, 250, 500, 800, 1000)), chance.choice((1000, 2000, 2500, 1250, 5000))
        _, err, status = asked(desk, environment, "random.csv", "--kbits", str(rate), "--cycle-us",
                               f"{cycle},{cycle // 2},{cycle // 3}", "--slots", "40,96", "--horizon", str(HORIZON), "--csv",
                               "random-points.csv")
        if status not in (0, 1):
            case("a search of a random list", False, err)
            return
        with open(desk.folder / "random-points.csv", encoding="utf-8") as file:
            rows = list(csv.DictReader(list(file)[1:]))
        rows = [row for row in rows if row["change"] or row["accepted"] == "yes"] or rows
        sample = chance.sample(rows, min(left, len(rows), 250))
        messages = plain_planner.messages_in(desk.folder / "random.csv")
        wrong += [row for row in sample if not answered(row, messages)]
        left -= len(sample)
        yes += sum(row["accepted"] == "yes" for row in sample)
    case(f"{many} points of random lists, of which {yes} are accepted, as a plain planner says them",
         not wrong and many // 10 < yes < many, wrong)


def car(desk, environment):
    """The set of 53 messages: the best cycle at a rate, in one command each."""
    began = time.monotonic()
    for rate, lines in (
            ("125", ["125 kbit/s: nothing is accepted, in 126 lines; the messages need 301 % of the bus without triggers and "
                     "rounding, more than there is"]),
            ("250", ["250 kbit/s: nothing is accepted, in 126 lines; the messages need 150.5 % of the bus without triggers "
                     "and rounding, more than there is"]),
            ("500", ["500 kbit/s: best cycle 2500 us, with 96 slots, skip edf: least window 960 of 1250 bit times",
                     "500 kbit/s: left in each cycle: 20 bit times (1.6 %); on average 39.3 (3.1 %)"]),
            ("1000", ["1000 kbit/s: best cycle 2500 us, with 96 slots, skip edf: least window 960 of 2500 bit times",
                      "1000 kbit/s: left in each cycle: 1270 bit times (50.8 %); on average 1289.3 (51.6 %)"])):
        said(f"53 messages at {rate} kbit/s", asked(desk, environment, SAE, "--kbits", rate, "--cycle-us", "500:2500:100"),
             int(rate in ("125", "250")), lines)
    print(f"        {time.monotonic() - began:.0f} s for the four calls")


def resumed(desk, environment):
    """A search of a list that is ended, and a call that goes on with its table: at the end both tables are equal."""
    words = (SAE, "--kbits", "1000", "--cycle-us", "1000:2500:50", "--refine", "--policy", "rm,edf")
    whole, _, _ = asked(desk, environment, *words, "--csv", "whole.csv")
    rows = (desk.folder / "whole.csv").read_text().splitlines(True)
    for name, left in (("half of the rows, in another order", rows[:2] + rows[:len(rows) // 2:-1] + ["1000,2500,96,pre"]),
                       ("the first row alone", rows[:1])):
        desk.put("part.csv", "".join(left))
        out, err, status = asked(desk, environment, *words, "--resume", "part.csv")
        case(f"--resume of a list: {name}", status == 0 and out == whole and
             (desk.folder / "part.csv").read_text() == "".join(rows), f"{status} {err}")
    for number in (signal.SIGTERM, signal.SIGINT):
        (desk.folder / "part.csv").unlink()
        # pylint: disable-next=consider-using-with
        one = subprocess.Popen([sys.executable, TOP / "tools/fttsearch", *words, "--resume", "part.csv"],
                               cwd=desk.folder, stdout=subprocess.PIPE, stderr=subprocess.PIPE, text=True, env=environment)
        for _ in range(6000):
            if one.poll() is not None or (desk.folder / "part.csv").exists() and (desk.folder / "part.csv").read_text().count("\n") > 20:
                break
            time.sleep(0.02)
        one.send_signal(number)
        _, err = one.communicate()
        kept = (desk.folder / "part.csv").read_text().count("\n")
        out, _, status = asked(desk, environment, *words, "--resume", "part.csv")
        case(f"{number.name}: what is known of a list is kept", one.returncode == 130 and 20 < kept and
             "--resume part.csv goes on" in err and status == 0 and out == whole and
             (desk.folder / "part.csv").read_text() == "".join(rows), f"{one.returncode} {kept} {err}")


# 40 messages in three changes, whose plan repeats after 4,200 cycles.
PERIODS = (40, 42, 50, 60, 70, 75, 84, 100, 105, 120, 140, 150, 168, 175, 200, 210, 280, 300, 350, 420, 525, 600, 700, 840,
           1050, 1400, 2100, 4200) + (100,) * 12
# The most microseconds of a processor that a point may cost beside the planner.
OWN = 30


def microseconds(call, many=400):
    """The least time of a processor that a call takes, of many."""
    least = None
    for _ in range(many):
        began = time.thread_time_ns()
        call()
        took = (time.thread_time_ns() - began) / 1000
        least = took if least is None else min(least, took)
    return least


# Three messages of which the third one makes room for the second: rows of a steps file, in two changes. Without it slot 1
# goes first in cycle 0, and slot 2 is missed.
MAKES_ROOM = [(1, 0, 8, 0, 2, 2, 1), (2, 0, 1, 0, 2, 1, 2), (0, 0, 1, 0, 2, 1, 0)]
# So many tables by chance are asked at once and by their changes.
TABLES = 400


def table_by_chance(chance):
    """Rules, and messages in several changes, near the border of what is accepted."""
    # pylint: disable-next=import-outside-toplevel
    from ftt.search.engine import Entries, Rules
    many, kind = chance.randrange(3, 40), chance.randrange(4)
    periods = ((2, 4, 8), (2, 3, 6, 12), (5, 10, 20, 40), (7, 9, 11))[kind]
    rows = []
    for slot in range(many):
        period = chance.choice(periods)
        rows.append((slot if chance.random() < 0.998 else 41, chance.randrange(3) if chance.random() < 0.998 else 5,
                     chance.randrange(9), chance.choice((0, 0, 0, chance.randrange(12))), period,
                     chance.randrange(1, period + 1), chance.randrange(4)))
    sizes = []
    while sum(sizes) < many:
        sizes.append(min(chance.choice((1, 2, 16)), many - sum(sizes)))
    need = sum(frame_length(row[2]) / row[4] for row in rows)
    window = min(16_383, max(55, int(need * chance.uniform(0.9, 2))))
    return (Rules(40_000, 0, window, 5, 40, chance.choice(("rm", "dm", "edf")), chance.choice(("prefix", "prefix", "skip")),
                  chance.choice((12, 100, 1000, 10_000))), Entries(rows, sizes))


def frame_length(length):
    """The worst length of a frame of so many bytes, in bit times."""
    return 55 + 10 * length


def by_changes():
    """The library, asked for each change of a table."""
    # pylint: disable-next=import-outside-toplevel
    from ftt.search.engine import ModuleEngine
    engine = ModuleEngine(None)
    engine.whole = lambda rules, entries: None
    return engine


def at_once():
    """A table is asked for at once where that serves. The answer is that of its changes, one after the other."""
    # pylint: disable-next=import-outside-toplevel
    from ftt.search.engine import Entries, ModuleEngine, Rules
    engine, other, chance, calls = ModuleEngine(None), by_changes(), random.Random(1), []
    decides = engine.decides
    engine.decides = lambda *given: (calls.append(1), decides(*given))[1]
    rules, entries = Rules(2500, 0, 190, 5, 40, "rm", "skip", 10_000), Entries(MAKES_ROOM, [2, 1])
    said = other.decide(rules, entries)
    case("a table whose first change alone is refused", engine.decide(rules, entries) == said == (False, 1, "miss,2,0,0"), said)
    differ, accepted, alone, refused = [], 0, 0, 0
    for number in range(TABLES):
        rules, entries = table_by_chance(chance)
        calls.clear()
        one, two = engine.decide(rules, entries), other.decide(rules, entries)
        if one != two:
            differ.append((number, one, two))
        accepted, refused = accepted + two.accepted, refused + (not two.accepted)
        alone += two.accepted and len(calls) == 1 < len(entries.sizes)
    case(f"{TABLES} tables at once, and by their changes", not differ and min(alone, refused, accepted - alone) >= TABLES // 20,
         f"{differ[:3]} {accepted} {alone} {refused}")


def speed(desk, program):
    """What a point costs in this process, and by the program."""
    # pylint: disable=import-outside-toplevel
    from ftt.search.engine import Entries, ModuleEngine, ProgramEngine, Rules
    engine, rules = ModuleEngine(None), Rules(2500, 0, 540, 5, 40, "rm", "prefix", 10_000)
    entries = Entries([(slot, 0, 4, 0, period, period, 0) for slot, period in enumerate(PERIODS)])
    texts = rules.text(), entries.text()

    changes = by_changes()

    def anew(kept):
        del changes.accepted[kept:]
        return changes.decide(rules, entries)

    answers = {engine.decide(rules, entries), anew(0), engine.answer(*texts), ProgramEngine(str(program)).answer(*texts)}
    case("the library, its texts and the program say the same of 40 messages", len(answers) == 1, answers)
    began = time.monotonic()
    ProgramEngine(str(program)).answer(*texts)
    by_program = time.monotonic() - began
    whole, three, last = (microseconds(call) for call in (lambda: engine.decide(rules, entries), lambda: anew(0),
                                                          lambda: anew(2)))
    ops = entries.structs[0][1]
    bare = microseconds(lambda: engine.decides(engine.rules, engine.empty, 0, engine.state, 0, ops, 0, engine.verdict,
                                               engine.room, 1, engine.count))
    by_texts = microseconds(lambda: engine.answer(*texts), 50)
    engine.decides = lambda *given: 0
    own = microseconds(lambda: engine.decide(rules, entries))
    print(f"        a point of 40 messages and 4200 cycles: {whole:.0f} us at once, {three:.0f} us by three changes, "
          f"{last:.0f} us for the last one alone; Python takes {own:.0f} us, and {bare:.0f} us for each call; {by_texts:.0f} us by the "
          f"texts, and {desk.program.name} {by_program * 1e6:.0f} us")
    case(f"a point costs at most {OWN} us beside the planner", own + bare <= OWN, f"{own} and {bare}")


def check(desk):
    """All of it. What was left out."""
    environment = library_words()
    by_hand(desk, environment)
    polled_cut(desk, environment)
    horizon(desk, environment)
    refined(desk, environment)
    bounded(desk, environment)
    case("a table of a list is not joined", asked(desk, environment, "--join", "joined.csv")[2] == 2)
    if environment is None:
        return ["53 messages, random lists and ended searches of lists, which need the library of tools/c-library"]
    car(desk, environment)
    planned(desk, environment)
    resumed(desk, environment)
    at_once()
    speed(desk, desk.program)
    return []
