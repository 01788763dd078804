"""Cases of a check, each with a line, and how many failed; calls of tools; and what every check says of itself."""
import pathlib
import subprocess
import sys

TOP = pathlib.Path(__file__).resolve().parent.parent.parent
TOOLS = TOP / "tools"
FAILED = []
# The cases that were tried.
TRIED = []
# The status of a check of which nothing could be tried here.
NOTHING = 77
# So many lines of what a failed case says are shown.
SHOWN = 40


def say_help(text):
    """Prints what a script is, where its words ask for help, and ends."""
    if sys.argv[1:2] in (["-h"], ["--help"]):
        print(text.strip())
        sys.exit(0)


def case(name, is_right, said=""):
    """Notes whether a case is as it must be. What was said, a text or lines, is shown where it is not."""
    print(("ok      " if is_right else "FAILED  ") + name, flush=True)
    TRIED.append(name)
    if not is_right:
        FAILED.append(name)
        lines = said if isinstance(said, list) else str(said).splitlines()
        print("\n".join(f"        {line}" for line in lines[:SHOWN]))


def end(left_out=()):
    """Says what was left out, and how many cases failed. The status: 0 where none did, 77 where nothing was tried."""
    for what in left_out:
        print(f"left out: {what}")
    if not TRIED:
        print("nothing was tried")
        return NOTHING
    print(f"{len(FAILED)} failed")
    return 1 if FAILED else 0


def called(*words, folder=None, log=None, env=None):
    """The output, the message and the status of a call, with this text for standard input."""
    source = {"stdin": subprocess.DEVNULL} if log is None else {"input": log.encode()}
    words = [word if isinstance(word, bytes) else str(word) for word in words]
    done = subprocess.run(words, cwd=folder, env=env, capture_output=True, check=False, **source)
    return done.stdout.decode(errors="replace"), done.stderr.decode(errors="replace"), done.returncode


def tool(name, *words, **more):
    """The same of a tool of this repository, which needs no other module than those of Python."""
    return called(sys.executable, "-S", TOOLS / name, *words, **more)
