"""What an installation has: each file by its path, with its bytes and whether it is a program."""
import sys
from collections import namedtuple

import manual
from helps import REFERENCE, TOOLS, TOP

sys.path.insert(0, str(TOP / "tools"))

from ftt import version as of_tools  # noqa: E402  pylint: disable=wrong-import-position

File = namedtuple("File", "data is_program")


def version():
    """The version as packages have it. Where CHANGELOG.md has changes that belong to none yet, it says so."""
    number = of_tools.text()
    return f"{number}unreleased" if number.endswith("+") else number


def stated():
    """The file VERSION of the modules: the number and the commit. A source archive has it, and no commit."""
    kept = TOP / "tools/ftt" / of_tools.VERSION
    if kept.is_file():
        return File(kept.read_bytes(), False)
    return File(" ".join(filter(None, (of_tools.text(), of_tools.commit()))).encode() + b"\n", False)


def of(path, is_program=False):
    """A file of this repository."""
    return File((TOP / path).read_bytes(), is_program)


def below(folder, skipped=("__pycache__",)):
    """The paths of the files below a folder of this repository, in order."""
    paths = sorted(path for path in (TOP / folder).rglob("*") if path.is_file())
    return [path for path in paths if not set(skipped).intersection(path.parts)]


def modules():
    """The modules of the tools by their paths below a folder of modules."""
    found = {str(path.relative_to(TOP / "tools")): of(path)
             for folder in ("tools/ftt", "tools/fttcan_reference") for path in below(folder)}
    return found | {f"ftt/{of_tools.VERSION}": stated()}


def package():
    """The package fttcan, which calls the library, by its paths below a folder of modules."""
    return {str(path.relative_to(TOP / "tools")): of(path) for path in below("tools/fttcan")}


def completion(zsh="share/zsh/site-functions"):
    """The files of completion below a prefix. bash and fish look for a file of a command's name."""
    found = {f"{zsh}/_fttcan": of("tools/completion.zsh")}
    rows = (TOP / "tools/completion.fish").read_text(encoding="utf-8").splitlines(True)
    for name in ("fttcan", *TOOLS, REFERENCE):
        found[f"share/bash-completion/completions/{name}"] = of("tools/completion.bash")
        own = [row for row in rows if not row.startswith("complete ") or row.split()[2] == name]
        found[f"share/fish/vendor_completions.d/{name}.fish"] = File("".join(own).encode(), False)
    return found


def pages():
    """The manual pages below a prefix."""
    found = {"share/man/man1/fttcan.1": of("docs/fttcan.1")}
    for name in (*TOOLS, REFERENCE):
        found[f"share/man/man1/{name}.1"] = File(manual.page(name, version()).encode(), False)
    return found
