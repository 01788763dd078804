"""What the helps of the tools say, and what the launcher says of the commands: the source of manual pages and of
completion."""
import functools
import os
import pathlib
import re
import subprocess
import sys
from collections import namedtuple

TOP = pathlib.Path(__file__).resolve().parent.parent.parent
TOOLS = ("fttmodel", "fttlint", "fttsearch", "fttlog")
# The command that answers by the definitions: its name where it is installed, and its script.
REFERENCE, REFERENCE_SCRIPT = "fttcan-reference", "reference"

# A help: its usage line, its paragraphs, and the rows of its words, its forms and its options. Of a row the words and
# what is told of them.
Help = namedtuple("Help", "usage paragraphs words forms options")
Row = namedtuple("Row", "words told")


def script_of(name):
    """The script of an installed command."""
    return TOP / "tools" / (REFERENCE_SCRIPT if name == REFERENCE else name)


@functools.cache
def text_of(name, *form):
    """The help of a tool, or of one of its forms. A wide terminal keeps each row on a line."""
    environment = os.environ | {"COLUMNS": "1000", "NO_COLOR": "1", "PYTHON_COLORS": "0", "LC_ALL": "C.UTF-8"}
    return subprocess.run([sys.executable, "-B", script_of(name), *form, "--help"], env=environment, check=True,
                          stdin=subprocess.DEVNULL, stdout=subprocess.PIPE, text=True, encoding="utf-8").stdout


def rows_of(lines):
    """The rows of a list in a help. What is told of a row may stand on the next line."""
    rows = []
    for line in lines:
        match = re.fullmatch(r" {2,4}(\S.*?)(?: {2,}(\S.*))?", line)
        if match and not line.startswith(" " * 5):
            rows.append(Row(match[1], match[2] or ""))
        elif line.strip() and rows:
            rows[-1] = Row(rows[-1].words, f"{rows[-1].told} {line.strip()}".strip())
    return rows


def help_of(name, *form):
    """The help of a tool, or of one of its forms."""
    text = text_of(name, *form).strip("\n")
    usage = ""
    if text.startswith("usage: "):
        usage, _, text = text.removeprefix("usage: ").partition("\n\n")
    text, *lists = re.split(r"^(positional arguments|options):\n", text, flags=re.MULTILINE)
    listed = dict(zip(lists[::2], lists[1::2]))
    words = listed.get("positional arguments", "").splitlines()
    forms = [line for line in words if re.match(r" {4}", line)]
    return Help(" ".join(usage.split()), [part.strip("\n") for part in re.split(r"\n\s*\n", text) if part.strip()],
                rows_of([line for line in words if line not in forms]), rows_of(forms),
                rows_of(listed.get("options", "").splitlines()))


def commands():
    """The commands of the program as the launcher has them: for each its options with their values, and what it
    does."""
    text = (TOP / "fttcan").read_text(encoding="utf-8")
    rows = re.search(r"^commands='(.*?)'$", text, re.MULTILINE | re.DOTALL)[1].splitlines()
    found, name = {}, None
    for row in rows:
        if row.startswith(" "):
            found[name] = (found[name][0], f"{found[name][1]} {row.strip()}".strip())
        else:
            name = row.split()[0]
            found[name] = (dict(re.findall(r"\[(--[a-z-]+)(?: ([A-Z]+))?\]", row)), "")
    return found


def option_of(row):
    """The longest name of an option's row, its choices, and the name of its value, or nothing."""
    name, _, value = row.words.rpartition(", ")[2].partition(" ")
    choices = value[1:-1].split(",") if value.startswith("{") else []
    return name, choices, value
