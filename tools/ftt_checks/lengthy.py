"""Recordings of any length: in many small parts, by the compiled readers, and in the short way, each has to say what it says
in one part, by the readers in Python, and in the long way. And how much memory and time they take."""
import contextlib
import json
import os
import random
import resource
import subprocess
import sys
import time

from ftt.log import conform, fast, own, recording, requests

from . import cases
from .cases import TOOLS, case
from .inside import told
from .recordings import FAULTS, NOISE, bits_of, fault_in, long_run, Run, stamped

# So many triggers are in a part, and so many frames of a run are kept, where parts are small.
SMALL = ((recording, "TRIGGERS_EACH", 40), (recording, "TRIGGERS_LEAST", 20), (requests, "CARRIED", 24), (own, "EACH", 8),
         (own, "KEPT", 100))
# The most memory of a call, in MiB, and the most microseconds of a processor that a frame may take. Machines that do other
# work need more than the 3 and 14 of idle ones.
MIB, MICROS, PLAIN_MICROS = 64, 15, 60


@contextlib.contextmanager
def changed(*values):
    """With other values of modules."""
    old = [(module, name, getattr(module, name)) for module, name, _ in values]
    try:
        for module, name, value in values:
            setattr(module, name, value)
        yield
    finally:
        for module, name, value in old:
            setattr(module, name, value)


def said_by(words, log, *values):
    """What a call says with other values of modules, without how fast the clock runs and how far frames are off."""
    with changed(*values):
        out, err, status = told(*words, log=log)
    if "--json" not in words:
        return out, err, status
    facts = json.loads(out) if out else {}
    kept = {key: it for key, it in facts.items() if key not in ("ppm", "off_us")}
    # By how much something is late follows from the line of a part, which noise moves by some microseconds.
    kept["findings"] = [it | {"by_us": None, "sentence": ""} for it in kept.get("findings", ())
                        if it["by_us"] is None or it["kind"] == "clock" or it["by_us"] > 50 + 2 * NOISE]
    kept["conforms"] = not kept["findings"]
    return kept, status


def texts_of(found, chance, many):
    """Recordings with faults and without: the run, the rate and the text of each."""
    for place in range(many):
        run, kbits = chance.choice(found), chance.choice((250, 500))
        kind = (None, *FAULTS)[place % (1 + len(FAULTS))]
        fault = fault_in(kind, run, run.frames, kbits, chance) if kind else None
        yield run, kbits, stamped(run.frames if fault is None else fault.frames, kbits, place)


def unlike(one, other):
    """In what two answers differ, each with its status."""
    pairs = [(key, one[0].get(key), it) for key, it in other[0].items() if one[0].get(key) != it and key != "findings"]
    more, less = ([it for it in a[0]["findings"] if it not in b[0]["findings"]] for a, b in ((one, other), (other, one)))
    return pairs, [list(it.values())[:8] for it in more[:3]], [list(it.values())[:8] for it in less[:3]]


def compared(found, work, many=36):
    """Each form of reading against the usual one."""
    chance = random.Random(20)
    long_ones = [run for run in found if len(run.widths) > 100 and len(run.frames) < 4000]
    ways = {"in parts of 40 cycles": SMALL, "in the long way": ((conform, "IS_SHORT", False),)}
    if fast.library() is None:
        print("left out: the compiled readers, since there is no C compiler")
    else:
        ways["by the compiled readers"] = ((fast, "LONG", 0),)
    differ = {name: [] for name in ways}
    for run, kbits, text in texts_of(long_ones, chance, many):
        words = ("conform", kbits, work / f"{run.name}.own", "--json", "-")
        usual = said_by(words, text)
        for name, values in ways.items():
            other = said_by(words, text, *values)
            if other != usual:
                differ[name].append(f"{run.name} at {kbits}: {unlike(other, usual)}")
    for name, wrong in differ.items():
        case(f"conform {name}: {many} recordings, with faults and without, as ever", not wrong and len(long_ones) > 3, wrong)
    for name, values in ways.items():
        wrong = []
        for run in long_ones:
            for snap in ((), ("--snap", 50)):
                text = stamped(run.frames, 500, 3, *(() if snap else (0, 0)))
                words = ("from-candump", 500, *snap, "--calls", work / f"{run.name}.own")
                if said_by(words, text)[::2] != said_by(words, text, *values)[::2]:
                    wrong.append(f"{run.name} {snap}")
        case(f"from-candump {name}: {len(long_ones)} recordings as ever", not wrong, wrong)


def steps(work):
    """A master that begins anew, 300 us later: its triggers go on, on another line."""
    run = Run("step", long_run(9 * 300))
    path = work / "step.own"
    path.write_text(run.text)
    frames = [it if it.cycle < 160 else it._replace(start=it.start + 150) for it in run.frames]
    found, status = said_by(("conform", 500, path, "--json", "-"), stamped(frames, 500, 4), *SMALL)
    clocks = [it for it in found["findings"] if it["kind"] == "clock"]
    late = [it for it in found["findings"] if it["kind"] in ("late", "past", "early")]
    case("conform: triggers that come 300 us later from a cycle on are told of", status == 1 and (clocks or late) and all(
        abs(it["cycle"] - 160) <= 40 for it in clocks + late), found["findings"][:5])


def inside(work):
    """A slot that is late by 20 bit times, 160 us at 125 kbit/s, and still ends in its window: it is told of alone."""
    run = Run("inside", long_run(9 * 200))
    path = pathlike(work, "inside.own", run.text)
    last = [place for place, (it, behind) in enumerate(zip(run.frames, run.frames[1:])) if behind.identifier == 0 and
            it.cycle > 50 and (it.cycle + 1) * run.length - it.start - bits_of(it) >= 24]
    frames = list(run.frames)
    frames[last[0]] = frames[last[0]]._replace(start=frames[last[0]].start + 20)
    found, status = said_by(("conform", 125, path, "--json", "-"), stamped(frames, 125, 4))
    told_of = [(it["cycle"], it["kind"], it["frame"]) for it in found["findings"]]
    case("conform: a slot that is late inside of its window", status == 1 and told_of == [(frames[last[0]].cycle, "late", "107")],
         found["findings"][:4])


def odd_lines(work):
    """Lines of forms that the compiled readers leave, among usual ones."""
    run = Run("odd", long_run(9 * 40))
    (work / "odd.own").write_text(run.text)
    rows = stamped(run.frames, 500, 4).splitlines(True)
    rows[5] = rows[5].replace("\n", " R\r\n")
    rows[9] = rows[9].replace(") can0 ", "000)   can0   ")
    rows[12] = rows[12].lower().replace("\n", "   \n")
    for place, text in ((30, "can0 18FEF100#0011"), (25, "can1 000#00"), (20, "can0 123##300112233"), (16, "can0 321#R"),
                        (14, "can0 050#11")):
        rows.insert(place, f"{rows[place].split(')')[0]}) {text}\n")
    rows.insert(8, "\n")
    text = "".join(rows)
    plain, quick = (said_by(("conform", 500, work / "odd.own", "--json", "-"), text, (fast, "LONG", size)) for size in (1 << 40, 0))
    case("the compiled readers hand on lines of other forms", plain == quick and plain[1] == 0 and plain[0]["left_out"] == {
        "29-bit identifiers": 1, "CAN FD": 1, "remote frames": 1, "other 11-bit identifiers": 1}
         and plain[0]["other_interfaces"] == 1, f"{plain}\n{quick}")
    for bad in ("(1.5) can0 000#00\n", "(1.000000) can0 100#0\n", "(1.000000) can0 100#001122334455667788\n",
                "(1.000000) can0 1G0#00\n", "(1.0000000) can0 100#00\n", "1.000000) can0 100#00\n", "(1.000000) can0 100#00 X\n",
                "(1.000000) can0 900#00\n"):
        answers = {said_by(("conform", 500, work / "odd.own"), text + bad, (fast, "LONG", size)) for size in (1 << 40, 0)}
        case(f"a line as {bad.strip()}: one answer", len(answers) == 1, answers)
    log = pathlike(work, "odd.csv", run.text)
    for bad in ("frame,1,2,100,0\n", "frame,01,2,100,00\n", "open,5,0000000000,\n", "open,5,000000000g,0\n", "frame,1,2,1000,00\n",
                "open,5,000000000000000000000001,55\n", "frame,1,2,100,00112233445566778899\n", "frame,1,2,100,AA\n"):
        log.write_text(run.text.replace("end,", f"{bad}end,"))
        answers = {said_by(("conform", 500, log), text, (fast, "LONG", size)) for size in (1 << 40, 0)}
        case(f"a row as {bad.strip()}: one answer", len(answers) == 1 and "is no row of a log" in str(answers), answers)


def pathlike(work, name, text):
    """A file of the work folder."""
    (work / name).write_text(text)
    return work / name


def measured(*words, env=None):
    """A call in a process of its own: what it says, its seconds of a processor and by the clock, and its memory in MiB."""
    before, begun = resource.getrusage(resource.RUSAGE_CHILDREN), time.monotonic()
    code = ("import os, resource, subprocess, sys; done = subprocess.run(sys.argv[1:]); "
            "print(resource.getrusage(resource.RUSAGE_CHILDREN).ru_maxrss // 1024, file=sys.stderr); sys.exit(done.returncode)")
    done = subprocess.run([sys.executable, "-c", code, sys.executable, *map(str, words)], capture_output=True, text=True,
                          check=False, env=env)
    after = resource.getrusage(resource.RUSAGE_CHILDREN)
    took = after.ru_utime + after.ru_stime - before.ru_utime - before.ru_stime
    said, _, memory = done.stderr.rstrip().rpartition("\n")
    return done.stdout, said, done.returncode, took, time.monotonic() - begun, int(memory)


def memory(work, many):
    """Long recordings: the time of a frame, and the memory, which the length does not change."""
    run = Run("long", long_run(many))
    log, text = pathlike(work, "long.own", run.text), pathlike(work, "long.log", stamped(run.frames, 500, 5))
    frames, tool = len(run.frames), TOOLS / "fttlog"
    ways = [("the compiled readers", MICROS, None)] if fast.library() is not None else []
    for how, most, env in (*ways, ("Python alone", PLAIN_MICROS, os.environ | {"FTTCAN_FRAMES": "no"})):
        for words, wanted in ((("conform", "500", log, text), "no finding"), (("from-candump", "500", "--snap", "50", text), "end,")):
            out, err, status, took, _, mib = measured(tool, *words, env=env)
            case(f"{words[0]} by {how}: {1e6 * took / frames:.1f} us a frame of at most {most}, and {mib} MiB of at most {MIB}",
                 status == 0 and wanted in out and took * 1e6 / frames <= most and mib <= MIB, err + out[-300:])
    out, err, status, took, _, mib = measured(TOOLS / "fttmodel", "--from-recording", text)
    plain = measured(TOOLS / "fttmodel", "--from-recording", text, env=os.environ | {"FTTCAN_FRAMES": "no"})
    case("fttmodel --from-recording: the same by the compiled readers and by Python alone", plain[0] == out != "", plain[1])
    # nine identifiers, in each cycle of 4 ms
    case(f"fttmodel --from-recording: {1e6 * took / frames:.1f} us a frame, and {mib} MiB of at most {MIB}",
         status == 0 and mib <= MIB and out.count(",4,0x") == 9 and out.count(",sync,") == 9, err + out)


def huge(work):
    """Wrong files of 2 GB: a byte of 0, and no line end. Each is refused in a second, by little memory."""
    path = work / "huge"
    for name, head, said in (("bytes of 0", b"", "line 1 has a byte of 0"),
                             ("no line end", b"x" * (1 << 20), "line 1 has more than 16384 letters")):
        with open(path, "wb") as file:
            file.write(head)
            file.truncate(2 << 30)
        for words in (("say", path), ("late", "--steps", path, path), ("conform", "500", path, path), ("from-candump", "500", path),
                      ("json", path), ("svg", "0", "1", path)):
            out, err, status, took, _, mib = measured(TOOLS / "fttlog", *words)
            case(f"fttlog {words[0]}: 2 GB of {name} in {took:.1f} s of a processor, with {mib} MiB", status == 1 and not out
                 and said in err and took < 3 and mib <= MIB, f"{status} {out}{err}")
        out, err, status, took, _, mib = measured(TOOLS / "fttmodel", "--from-recording", path)
        case(f"fttmodel --from-recording: 2 GB of {name} in {took:.1f} s, with {mib} MiB", status == 2 and not out and said in err
             and took < 3 and mib <= MIB, err)
    path.unlink()


def check(found, work, many):
    """All of them."""
    compared(found, work)
    steps(work)
    inside(work)
    odd_lines(work)
    memory(work, many)
    huge(work)
