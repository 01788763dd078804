"""Where the tools stand: in a checkout of the repository, or in an installed package."""
import os
import pathlib
import shutil
import sys

TOOLS = pathlib.Path(__file__).resolve().parent.parent


def checkout():
    """The top of the checkout; None in an installed package."""
    return TOOLS.parent if TOOLS.name == "tools" and (TOOLS.parent / "fttcan").is_file() else None


def tool(name):
    """How a tool is called."""
    return f"tools/{name}" if checkout() else name


def program():
    """The path of fttcan: the launcher of the checkout; or the program that is installed, beside the tool that was
    called or else on the path; None where neither is."""
    top = checkout()
    if top:
        return str(top / "fttcan")
    called = pathlib.Path(sys.argv[0]).absolute()
    beside = called.with_name("fttcan")
    is_there = called.is_file() and beside.is_file() and os.access(beside, os.X_OK)
    return str(beside) if is_there else shutil.which("fttcan")
