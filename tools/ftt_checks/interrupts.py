"""Calls that are interrupted by Ctrl-C: each says so in a line, with the status of a shell for it, and no traceback."""
import os
import signal
import subprocess
import sys

from .cases import TOOLS, case


def interrupted(work, name, *words):
    """What a call says that is interrupted while it reads a pipe, in place of FILE among its words; and its status."""
    pipe = work / "pipe"
    pipe.unlink(missing_ok=True)
    os.mkfifo(pipe)
    # Behind `&` or `nohup` the signal is ignored, and what is started here would ignore it too.
    before = signal.signal(signal.SIGINT, signal.default_int_handler)
    with subprocess.Popen([sys.executable, "-S", TOOLS / name, *(pipe if word == "FILE" else word for word in words)], cwd=work,
                          stdin=subprocess.DEVNULL, stdout=subprocess.PIPE, stderr=subprocess.PIPE, text=True) as process:
        # The call has opened the pipe when this comes back, and waits for its first byte.
        with open(pipe, "wb"):
            process.send_signal(signal.SIGINT)
            out, err = process.communicate()
    signal.signal(signal.SIGINT, before)
    pipe.unlink()
    return out, err, process.returncode


def check(tools):
    """All of them."""
    for name, *words in (("fttlog", "say", "FILE"), ("fttlog", "conform", "500", "FILE", "FILE"), ("fttlog", "late", "--steps", "s", "FILE"),
                         ("fttmodel", "500", "1000", "FILE", "out"), ("fttmodel", "--from-recording", "FILE"),
                         ("fttlint", "FILE", "FILE"), ("reference", "replay", "FILE", "FILE")):
        out, err, status = interrupted(tools.work, name, *words)
        case(f"{name} {words[0]}: Ctrl-C", (out, err, status) == ("", f"{name}: interrupted\n", 130), f"{status}\n{out}{err}")
