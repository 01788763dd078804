"""Requests that fttmodel writes by name and in milliseconds, and lists that it makes of recordings."""
import csv
import io
import random

HEAD = "name,sender,length,period,deadline,kind,id\n"
# At 500 kbit/s with cycles of 5 ms: start is polled every 4 cycles and sent within 4, stop every 2 and within 2.
LIST = (f"{HEAD}loop,plc,8,5,,sync,\nstart,panel,1,,40,polled,\nstop,panel,0,12.5,20,polled,\n"
        "log,plc,4,7,,async,0x300\nonce,plc,1,,,async,0x301\n")
WORDS = ("500", "5000", "asked.csv", "asked")
BOUND = {1: 8, 2: 4}
CYCLE = 2500


def rows_in(path):
    """The rows of a file of requests; none where it is not there."""
    return [row.split(",") for row in path.read_text().splitlines()] if path.exists() else []


def made(tools, *words):
    """A call on the list: what is said, the status, and the rows of both files."""
    for old in (tools.work / "asked").glob("*"):
        old.unlink()
    out, err, status = tools.call("fttmodel", *WORDS, *words)
    return out + err, status, *(rows_in(tools.work / "asked" / name) for name in ("requests.csv", "streams.csv"))


def is_in_time(tools):
    """Whether the program sends each request of the streams within its bound, and which rows it says."""
    log, refused, status = tools.ask("poll", "asked/system.toml", "asked/steps.csv", "asked/streams.csv")
    asked, told = rows_in(tools.work / "asked/streams.csv"), log.split("\nend,")[-1].splitlines()[1:]
    rides = [row.split(",") for row in told if row.startswith("ride,")]
    late = [row for row in rides if int(row[4]) + 1 - int(asked[int(row[2]) - 1][0]) // CYCLE > BOUND[int(row[1])]]
    return status == 0 and len(rides) == len(asked) and not late, f"{refused}{told}\nlate {late}"


def check_requests(tools):
    """Requests of a list, together and at random."""
    tools.put("asked.csv", LIST)
    said, status, requests, streams = made(tools, "--requests", "together", "--cycles", "20")
    # 20 cycles of 2500 end at 50000. log comes each 3500 and needs 95; once comes once. start comes each 10000 before
    # cycle 12, and stop each 6250 before cycle 16.
    wanted = [[str(at), "0x300", f"{place:08x}"] for place, at in enumerate(range(0, 49_905, 3500))]
    wanted.insert(1, ["0", "0x301", "00"])
    is_right = status == 0 and requests == wanted and "requests.csv: 16 requests of 2 messages\n" in said
    tools.case("requests: asynchronous ones together", is_right, f"{said}{requests}")
    wanted = [(at, "1", f"{place:02x}") for place, at in enumerate(range(0, 30_000, 10_000))]
    wanted += [(at, "2", "") for at in range(0, 40_000, 6250)]
    wanted = [[str(at), *more] for at, *more in sorted(wanted)]
    tools.case("requests: polled ones together", streams == wanted and "streams.csv: 10 requests of 2" in said, streams)
    tools.case("requests: those together are sent in time", *is_in_time(tools))
    found = []
    for seed in ("7", "7", "8"):
        said, status, requests, streams = made(tools, "--requests", "random", "--seed", seed, "--cycles", "200")
        found.append((requests, streams))
        apart = {"1": 10_000, "2": 6250, "0x300": 3500}
        times = {key: [int(row[0]) for row in requests + streams if row[1] == key] for key in apart}
        # A least distance in bit times, and one less where both ends are rounded up.
        is_apart = all(b - a >= apart[key] - 1 for key, it in times.items() for a, b in zip(it, it[1:]))
        tools.case(f"requests: random ones of seed {seed} keep their distances",
                   status == 0 and is_apart and all(len(it) > 5 for it in times.values()), f"{said}{times}")
    tools.case("requests: a seed gives the same ones", found[0] == found[1] != found[2], found)
    tools.case("requests: random ones are sent in time", *is_in_time(tools))


def check_lists(tools):
    """Requests of a list by names and in milliseconds, and what is wrong with some."""
    tools.put("asked.csv", LIST)
    tools.put("when.csv", "At_ms;name;data;why\n3,5;start;05;x\n# 9;log;\n9;log;\n0.0011;log;0a0B\n")
    said, status, requests, streams = made(tools, "--requests", "when.csv", "--cycles", "20")
    # 0.0011 ms are 0.55 bit times, rounded up
    tools.case("requests: of a list", status == 0 and streams == [["1750", "1", "05"]] and
               requests == [["1", "0x300", "0a0b"], ["4500", "0x300", "00000000"]], f"{said}{requests}{streams}")
    for name, text, part, ended in (
            ("a name that is near", "at,name\n1,strt\n", "when.csv:2: name is 'strt': no polled or asynchronous "
             "message has this name. Is it start?", 2),
            ("a synchronous message", "at,name\n1,loop\n", "it is synchronous, and sent by its period. Leave the row "
             "out.", 2),
            ("too many bytes", "at,name,data\n1,start,0506\n", "Write at most 1 byte in hexadecimal, two digits "
             "each", 2),
            ("a time that is none", "at,name\n1s,start\n", "when.csv:2: at is '1s': this is no time.", 2),
            ("a column that is missing", "time,name\n1,start\n", "when.csv:1: the column at is missing.", 2),
            ("a column that is near", "at,nam\n1,start\n", "Is it name?", 2),
            ("requests too near", "at,name\n1,start\n11,start\n", "when.csv:3: start comes 2 cycles after the one "
             "before, and is polled every 4: its bound of 40 ms holds no more.", 1),
            ("a request too late", "at,name\n95,stop\n", "when.csv:2: stop may come too late to be sent before the run "
             "ends. Open more cycles.", 1)):
        tools.put("when.csv", text)
        said, status, *_ = made(tools, "--requests", "when.csv", "--cycles", "20")
        tools.case(f"requests: {name}", status == ended and part in said, said)
    for words, part in ((("--seed", "1"), "--seed and --from are for --requests."),
                        (("--requests", "together", "--seed", "1"), "it is for --requests random.")):
        said, status, *_ = made(tools, *words)
        tools.case(f"requests: {' '.join(words)}", status == 2 and part in said, said)


def recording():
    """A recording of a plain bus: three periodic messages, of which one has lost sends, and one at random."""
    chance, rows = random.Random(4), []
    for identifier, period, many, length, jitter, lost in ((0x100, 10, 500, 8, 0.4, 0), (0x2A0, 100, 100, 5, 2, 0.05),
                                                           (0x320, 33.3, 200, 4, 0.5, 0)):
        for place in range(many):
            if chance.random() >= lost:
                rows.append((3 + place * period * 1.00005 + chance.random() * jitter, identifier, length))
    time = 0
    for _ in range(40):
        time += 50 + chance.expovariate(1 / 200)
        rows.append((time, 0x0F0, 2))
    rows.append((7, 0x7A0, 1))
    return "".join(f"({1000 + time / 1000:017.6f}) can0 {identifier:03X}#{'00' * length}\n"
                   for time, identifier, length in sorted(rows))


def line_through(times):
    """The period and the jitter of some sends in milliseconds, by all of them at once: the line of least squares through
    their numbers, and how far they are off it from first to last."""
    gaps = [later - time for time, later in zip(times, times[1:])]
    guess, places = sorted(gaps)[len(gaps) // 2], [0]
    for gap in gaps:
        places.append(places[-1] + max(1, round(gap / guess)))
    many, middle, mean = len(times), sum(places) / len(times), sum(times) / len(times)
    slope = sum((place - middle) * (time - mean) for place, time in zip(places, times)) / sum(
        (place - middle) ** 2 for place in places)
    off = [time - slope * place for place, time in zip(places, times)]
    return slope, max(off) - min(off), places[-1] + 1 - many


def check_long(tools):
    """A recording with more sends than are looked at for a first guess: what is told of it follows from all of them. Sends
    are lost, and the clock bends."""
    chance, sent = random.Random(8), {0x110: [], 0x111: []}
    for place in range(3000):
        for identifier, period in ((0x110, 10), (0x111, 7)):
            if chance.random() > 0.01:
                time = 5 + place * period * 1.0003 + chance.random() * 0.5 + 3e-7 * (place * period / 10) ** 2
                sent[identifier].append(round(time * 1000))
    rows = sorted((time, identifier) for identifier, times in sent.items() for time in times)
    tools.put("long.log", "".join(f"({time // 10 ** 6 + 1000:010d}.{time % 10 ** 6:06d}) can0 {identifier:03X}#00\n"
                                  for time, identifier in rows))
    out, err, _ = tools.call("fttmodel", "--from-recording", "long.log")
    found = {row["id"]: row for row in csv.DictReader(io.StringIO(out))}
    for identifier, times in sent.items():
        period, jitter, lost = line_through([time / 1000 for time in times])
        row = found.get(f"{identifier:#05x}", {})
        tools.case(f"recording: {len(times)} sends of {identifier:#x}, by all of them at once", row.get("kind") == "sync" and
                   abs(float(row["#measured_ms"]) - period) <= 0.0006 and abs(float(row["#jitter_ms"]) - jitter) <= 0.0015
                   and int(row["#lost"]) == lost > 10, f"{period} {jitter} {lost}\n{out}{err}")


def check_recordings(tools):
    """A list of a recording, and the model of that list."""
    text = recording()
    tools.put("plain.log", text + "(0000001020.000000) can0 18FF50E5#00\n(0000001020.100000) can1 123#00\n"
              "(0000001020.200000) can0 200#R\n")
    out, err, status = tools.call("fttmodel", "--from-recording", "plain.log")
    rows = {row["id"]: row for row in csv.DictReader(io.StringIO(out))}
    found = {key: (row["length"], row["period"], row["kind"], row["sender"]) for key, row in rows.items()}
    wanted = {"0x100": ("8", "10", "sync", "unknown"), "0x2a0": ("5", "100", "sync", "unknown"),
              "0x0f0": ("2", found.get("0x0f0", ("", ""))[1], "async", "unknown"),
              "0x7a0": ("1", "", "async", "unknown"),
              "0x320": ("4", found.get("0x320", ("", ""))[1], "sync", "unknown")}
    is_near = 33.29 < float(found["0x320"][1]) < 33.31 and float(found["0x0f0"][1]) >= 50
    said = ("left out: 1 of 29-bit identifiers\n", "left out: 1 of frames of other interfaces than can0\n", "left "
            "out: 1 of remote frames\n", "5 identifiers: 3 with a period, 2 without one", "left open: senders")
    is_right = status == 0 and found == wanted and is_near and all(it in err for it in said)
    tools.case("recording: its identifiers", is_right, f"{out}{err}")
    tools.case("recording: what was lost", int(rows["0x2a0"]["#lost"]) == 100 - text.count(" 2A0#") > 0, out)
    tools.put("plain.csv", out)
    out, err, status = tools.call("fttmodel", "500", "1000", "plain.csv", "plain", "--renumber")
    tools.case("recording: its list is taken", status == 0 and "messages: 3 synchronous, 2 asynchronous" in out,
               out + err)
    for name, text, part in (("a BLF file", b"LOGG\x90\x00", "this is a BLF file of Vector"),
                             ("another line", b"hello\n", "plain.log:1: 'hello' is no line of candump -L."),
                             ("no frame", b"", "plain.log: there is no data frame with an identifier of 11 bits.")):
        tools.put("plain.log", text)
        out, err, status = tools.call("fttmodel", "--from-recording", "plain.log")
        tools.case(f"recording: refuses {name}", status == 2 and part in err and not out, out + err)


def check(tools):
    """All of it."""
    check_requests(tools)
    check_lists(tools)
    check_recordings(tools)
    check_long(tools)
