"""The version of the tools, the commit and a sum of their sources.

In a checkout the number is that of CHANGELOG.md. An installed package has a file VERSION beside this one: the number,
and after a blank the commit, where it is known.
"""
import hashlib
import importlib.resources
import re
import subprocess

from . import places

VERSION = "VERSION"
UNKNOWN = "unknown"


def words_of_package():
    """The words of the file VERSION; none where it is not there."""
    try:
        return (importlib.resources.files(__package__) / VERSION).read_text(encoding="utf-8").split()
    except OSError:
        return []


def text():
    """The number of the version, with a + where CHANGELOG.md has changes that belong to none yet."""
    top = places.checkout()
    if top is None:
        return (words_of_package() or [UNKNOWN])[0]
    try:
        page = (top / "CHANGELOG.md").read_text(encoding="utf-8")
    except OSError:
        return UNKNOWN
    number = re.search(r"^## \[([0-9.]+)\]", page, re.MULTILINE)
    if number is None:
        return UNKNOWN
    return number[1] + ("+" if re.search(r"^## \[Unreleased\]", page[:number.start()], re.MULTILINE) else "")


def commit():
    """The commit; None where it is not known."""
    top = places.checkout()
    if top is None:
        return next(iter(words_of_package()[1:]), None)
    try:
        done = subprocess.run(["git", "-C", top, "describe", "--always", "--dirty"], stdin=subprocess.DEVNULL,
                              capture_output=True, text=True, check=False)
    except OSError:
        return None
    return done.stdout.strip() or None


def files_below(folder, front=""):
    """The names and bytes of the files of a folder of the package, but for VERSION and what Python makes."""
    for each in folder.iterdir():
        name = front + each.name
        if each.is_file() and name != VERSION:
            yield name, each.read_bytes()
        elif each.is_dir() and each.name != "__pycache__":
            yield from files_below(each, f"{name}/")


def sum_of(files):
    """A sum over the names and bytes of files."""
    found = hashlib.sha256()
    for name, data in sorted(files):
        found.update(f"{name} {len(data)}\n".encode())
        found.update(data)
    return found.hexdigest()[:32]


def line(name, files=None):
    """What a tool of this name says of its version. Its sources are these files, or those of the package, whose sum is
    the same wherever it is installed."""
    if files is None:
        files = files_below(importlib.resources.files(__package__))
    made_of = commit()
    return f"{name} {text()}, {f'commit {made_of}, ' if made_of else ''}sources {sum_of(files)}"
