"""The cases of crates/command_cases/data: a folder each, as CONTRIBUTING.md describes them."""
from .cases import TOP

DATA = TOP / "crates/command_cases/data"
# The files with which a case asks for a failing read or write, or for a full output.
FAILING = {"room", "failing-puts", "failing-fetches", "failing-error-puts", "read-faults"}
# The files of a call whose words a case does not say.
USUAL = ("system.toml", "steps.csv", "requests.csv")


def text_of(path):
    """The text of a file; nothing where it is not there."""
    return path.read_text(encoding="utf-8") if path.exists() else ""


def repeated(folder):
    """The files that a case has made for it: the name of each, how many lines it has, and their text."""
    for row in text_of(folder / "repeat").splitlines():
        name, count, text = row.split(" ", 2)
        yield name, int(count), text


def names_in(folder):
    """The names of all files that the calls of a case see."""
    return {path.name for path in folder.iterdir()} | {name for name, _, _ in repeated(folder)}


def calls_of(folder):
    """The calls of a case, each as its words."""
    if (folder / "calls").exists():
        return [line.split(" ") for line in text_of(folder / "calls").splitlines()]
    if (folder / "words").exists():
        return [text_of(folder / "words").splitlines()]
    names = names_in(folder)
    return [["replay", *(name for name in USUAL if name in names)]]


def fill(folder, work):
    """Puts the files of a case into a work folder, with those that are made for it."""
    for path in folder.iterdir():
        if path.is_file():
            (work / path.name).write_bytes(path.read_bytes())
    for name, count, text in repeated(folder):
        (work / name).write_text((text + "\n") * count, encoding="utf-8")
