"""Puts an installation below a prefix, and takes it away again. The Makefile at the top calls this.

    place.py install DESTDIR PREFIX [--program PROGRAM] [--library FOLDER] [--python COMMAND] [--debian]
    place.py uninstall DESTDIR PREFIX

What was put, files and the folders that were not there before, stands in PREFIX/share/fttcan/installed. An
installation first takes away an earlier one of the same prefix.
"""
import argparse
import gzip
import os
import pathlib
import platform
import re
import sys

sys.dont_write_bytecode = True

import tree  # noqa: E402  pylint: disable=wrong-import-position
from helps import REFERENCE, REFERENCE_SCRIPT, TOOLS, TOP  # noqa: E402  pylint: disable=wrong-import-position

sys.path.insert(0, str(TOP / "tools"))

from ftt_build import archive  # noqa: E402  pylint: disable=wrong-import-position

LIST = "share/fttcan/installed"
SCRIPTS = {name: name for name in TOOLS} | {REFERENCE: REFERENCE_SCRIPT}
# Pages of the repository that go along, and folders of them.
PAGES = ("README.md", "CHANGELOG.md", "LICENSE")
PAGE_FOLDERS = {"docs": "docs", "crates/command_cases/data/examples": "examples"}


def with_python(file, python):
    """A script with this interpreter in its first line."""
    return file._replace(data=b"#!" + python.encode() + b"\n" + file.data.partition(b"\n")[2])


def tools(python):
    """The tools: their modules and scripts in a folder of their own, and a link to each script."""
    share = "share/fttcan"
    found = {f"{share}/{path}": file for path, file in tree.modules().items()}
    for name in SCRIPTS.values():
        found[f"{share}/{name}"] = with_python(tree.of(f"tools/{name}", True), python)
    found[f"{share}/fttcan.lua"] = tree.of("tools/fttcan.lua")
    return found


def documents():
    """The pages, the licence and the examples."""
    found = {f"share/doc/fttcan/{path}": tree.of(path) for path in PAGES}
    for folder, name in PAGE_FOLDERS.items():
        found |= {f"share/doc/fttcan/{name}/{path.relative_to(TOP / folder)}": tree.of(path)
                  for path in tree.below(folder) if path.suffix != ".1"}
    return found


def library(folder, prefix, libdir):
    """The library for C that was built in a folder, as it stands below a prefix, with its libraries in libdir."""
    folder, found = pathlib.Path(folder), {}
    for path in sorted((folder / "include").iterdir()):
        found[f"include/{path.name}"] = tree.File(path.read_bytes(), False)
    for path in sorted((folder / "lib").glob("libfttcan.*")):
        # A link stays one: what it leads to stands beside it.
        found[f"{libdir}/{path.name}"] = os.readlink(path) if path.is_symlink() else tree.File(path.read_bytes(), False)
    told = (folder / "lib/pkgconfig/fttcan.pc").read_text(encoding="utf-8")
    if "NOT PROVED" in told:
        sys.exit(f"{folder}: this library was built without proofs, and is not installed")
    if f"\nsources={archive.sources()}\n" not in told:
        sys.exit(f"{folder}: this library was built from other sources. `make library` builds it anew, and LIBRARY= leaves it out")
    if f"\nprocessor={platform.machine()}\n" not in told:
        sys.exit(f"{folder}: this library is not for this machine, which is {platform.machine()}. LIBRARY= leaves it out")
    told = re.sub(r"^prefix=.*", f"prefix={prefix}", told, flags=re.MULTILINE)
    told = re.sub(r"^libdir=.*", f"libdir=${{prefix}}/{libdir}", told, flags=re.MULTILINE)
    found[f"{libdir}/pkgconfig/fttcan.pc"] = tree.File(told.encode(), False)
    return found


def files(words):
    """All files of an installation by their paths below the prefix; of a link, where it leads to."""
    zsh = "share/zsh/vendor-completions" if words.debian else "share/zsh/site-functions"
    found = tools(words.python) | documents() | tree.completion(zsh)
    # Python of Debian looks for modules in one folder below /usr. For another prefix PYTHONPATH has to name share/fttcan.
    modules = "lib/python3/dist-packages" if words.debian else "share/fttcan"
    found |= {f"{modules}/{path}": file for path, file in tree.package().items()}
    for path, file in tree.pages().items():
        # Debian has its manual pages packed.
        found[f"{path}.gz" if words.debian else path] = \
            file._replace(data=gzip.compress(file.data, 9, mtime=0)) if words.debian else file
    if words.program:
        found["bin/fttcan"] = tree.File(pathlib.Path(words.program).read_bytes(), True)
    if words.library:
        found |= library(words.library, words.prefix, words.libdir)
    return found


def make_folder(folder, made):
    """Makes a folder and those above it, and notes those that were not there."""
    if not folder.is_dir():
        make_folder(folder.parent, made)
        folder.mkdir()
        folder.chmod(0o755)
        made.append(folder)


def install(words, top):
    """Puts the files and the links below the prefix, and their list. How many there are."""
    uninstall(top)
    folders, put = [], []
    for path, file in sorted(files(words).items()):
        make_folder((top / path).parent, folders)
        (top / path).unlink(missing_ok=True)
        if isinstance(file, str):
            (top / path).symlink_to(file)
        else:
            (top / path).write_bytes(file.data)
            (top / path).chmod(0o755 if file.is_program else 0o644)
        put.append(path)
    make_folder(top / "bin", folders)
    for name, script in SCRIPTS.items():
        (top / "bin" / name).unlink(missing_ok=True)
        (top / "bin" / name).symlink_to(f"../share/fttcan/{script}")
        put.append(f"bin/{name}")
    if not words.debian:
        # A folder above the prefix has a path that leads up.
        listed = [*put, LIST] + [f"{os.path.relpath(folder, top)}/" for folder in reversed(folders)]
        (top / LIST).write_text("".join(f"{path}\n" for path in listed), encoding="utf-8")
    return len(put)


def uninstall(top):
    """Takes away what the list names: files, and then folders that are empty. Whether there was a list."""
    if not (top / LIST).is_file():
        return False
    for path in (top / LIST).read_text(encoding="utf-8").splitlines():
        if not path.endswith("/"):
            (top / path).unlink(missing_ok=True)
            continue
        folder = pathlib.Path(os.path.normpath(top / path))
        if folder.is_dir() and not any(folder.iterdir()):
            folder.rmdir()
    return True


def main():
    """Installs or uninstalls."""
    parser = argparse.ArgumentParser(prog="place.py", description=__doc__,
                                     formatter_class=argparse.RawDescriptionHelpFormatter)
    parser.add_argument("what", choices=("install", "uninstall"))
    parser.add_argument("destdir", help="a folder in front of the prefix, or nothing")
    parser.add_argument("prefix", help="the prefix, as /usr/local")
    parser.add_argument("--program", default="", help="the built program; without it none is put")
    parser.add_argument("--library", default="", help="the folder of the built library for C; without it none is put")
    parser.add_argument("--libdir", default="lib", help="the folder of libraries below the prefix")
    parser.add_argument("--python", default="/usr/bin/env python3", help="what runs the tools")
    parser.add_argument("--debian", action="store_true", help="as a package of Debian has it, and without the list")
    words = parser.parse_args()
    top = pathlib.Path(f"{words.destdir}{words.prefix}").resolve()
    try:
        if words.what == "install":
            print(f"fttcan {tree.version()} is in {top}: {install(words, top)} files")
        elif not uninstall(top):
            sys.exit(f"{top / LIST} is not there: nothing was installed below this prefix")
    except OSError as fault:
        sys.exit(f"{fault.filename}: {fault.strerror}")


if __name__ == "__main__":
    main()
