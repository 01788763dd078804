"""Other people's readers, which checks ask where they are there: tshark, and modules of Python, as canmatrix of Debian."""
import json
import os
import shutil
import subprocess
import sys

# The Python whose modules Debian's packages are.
PYTHON = "/usr/bin/python3"
# Reads a DBC file by canmatrix. Without input it tells each message; else each line of a number and data is decoded.
READER = r"""
import contextlib, io, json, logging, sys
logging.disable(logging.CRITICAL)
with contextlib.redirect_stdout(io.StringIO()):
    import canmatrix.formats
    bus = next(iter(canmatrix.formats.loadp(sys.argv[1]).values()))
def time(value):
    try:
        return float(value or 0)
    except ValueError:
        return 0.0
def told(it):
    get = lambda name: it.attribute(name, db=bus)
    own = [time(signal.attributes.get("GenSigCycleTime")) for signal in it.signals]
    return {"id": it.arbitration_id.id, "extended": it.arbitration_id.extended, "name": it.name, "size": it.size,
            "periods": [time(get("GenMsgCycleTime")), float(it.cycle_time or 0), *own],
            "fast": time(get("GenMsgCycleTimeFast")), "send": str(get("GenMsgSendType") or ""),
            "signals": [signal.name for signal in it.signals]}
frames = {it.arbitration_id.id: it for it in bus.frames if not it.arbitration_id.extended}
if sys.argv[2] == "tell":
    print(json.dumps([told(it) for it in bus.frames]))
for line in sys.stdin if sys.argv[2] == "decode" else ():
    number, data = line.split(",")
    try:
        found = frames[int(number)].decode(bytes.fromhex(data.strip()))
        values = {name: it.raw_value for name, it in found.items()}
        print(json.dumps({name: it if isinstance(it, float) else int(it) for name, it in values.items()}))
    except Exception as fault:
        print(json.dumps({"fault": repr(fault)}))
"""


def has(python, *modules):
    """Whether this Python is there and has these modules."""
    return os.access(python, os.X_OK) and subprocess.run(
        [python, "-c", f"import {', '.join(modules)}"], capture_output=True, check=False).returncode == 0


def python_of(*modules):
    """A Python that has modules: the one that runs this, or that of the system; None where neither has them."""
    return next((python for python in (sys.executable, PYTHON) if has(python, *modules)), None)


def has_canmatrix():
    """Whether Debian's canmatrix is there."""
    return has(PYTHON, "canmatrix")


def by_canmatrix(path, rows=None):
    """What canmatrix tells of the messages of a DBC file; or with rows of numbers and data, the signals of each. None
    where it can't read the file."""
    text = "" if rows is None else "".join(f"{number},{data}\n" for number, data in rows)
    done = subprocess.run([PYTHON, "-c", READER, path, "tell" if rows is None else "decode"], input=text,
                          capture_output=True, text=True, check=False)
    if done.returncode:
        return None
    return json.loads(done.stdout) if rows is None else [json.loads(line) for line in done.stdout.splitlines()]


def tshark_words(work, script):
    """The words in front of those of a call of tshark, with a Lua script loaded, and what is left out without it. Root
    calls it as the user nobody, who has to be able to read all files, so the script is copied to the work folder."""
    tshark = os.environ.get("TSHARK") or shutil.which("tshark")
    if not tshark:
        return None, "tshark is not there"
    copied = work / f"loaded-{script.name}"
    words = [tshark, "-X", f"lua_script:{shutil.copyfile(script, copied)}"]
    if os.geteuid():
        return words, None
    for other in (["setpriv", "--reuid=nobody", "--regid=nogroup", "--clear-groups", "--"],
                  ["runuser", "-u", "nobody", "--"]):
        if shutil.which(other[0]) and subprocess.run([*other, tshark, "--version"], capture_output=True,
                                                     check=False).returncode == 0:
            return ["env", f"HOME={work}", *other, *words], None
    return None, "tshark loads no script for root, and can't be run as the user nobody. Run this as a plain user"
