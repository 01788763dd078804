"""The usage lines of the program, as its source has them. Called as a script it prints them, for checks in bash."""
import pathlib
import re
import sys

TOP = pathlib.Path(__file__).resolve().parent.parent.parent
# The file that has the usage lines, below the top. It alone says which commands there are, and with which words.
USAGE = "crates/command_words/src/table.rt"


def rows_in(text):
    """What the usage lines of a text have after the program's name: a row for each command, and its words."""
    return re.findall(r"^usage: fttcan (.+)$", text, re.MULTILINE)


def main():
    rows = rows_in((TOP / USAGE).read_text(encoding="utf-8"))
    for row in rows:
        print(f"usage: fttcan {row}")
    return 0 if rows else f"{USAGE}: it has no usage line"


if __name__ == "__main__":
    sys.exit(main())
