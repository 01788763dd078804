"""Makes the package for Debian in out/, by dpkg-deb. The Makefile at the top calls this.

    debian.py [--program PROGRAM] [--library FOLDER] [--maintainer "NAME <ADDRESS>"] [--out FOLDER]

With a program or a library the package is one of this machine's architecture, and else one of all. The time of its files is that of
SOURCE_DATE_EPOCH, or of the last commit; so the same sources give the same bytes.
"""
import argparse
import email.utils
import gzip
import os
import pathlib
import re
import shutil
import subprocess
import sys
import tempfile

sys.dont_write_bytecode = True

import place  # noqa: E402  pylint: disable=wrong-import-position
import tree  # noqa: E402  pylint: disable=wrong-import-position
from helps import TOP  # noqa: E402  pylint: disable=wrong-import-position

ABOUT = """\
FTT-CAN master, nodes and online admission test, simulated
 Simulates a CAN bus under FTT-CAN in whole bit times: a master with an online
 admission test, nodes, and a bus with arbitration. A change of the table is
 accepted only where no deadline can ever be missed.
 .
 The tools fttmodel, fttlint, fttsearch and fttlog make files from messages in
 milliseconds, find mistakes in them, search for windows and policies, and turn
 logs into sentences, pictures and recordings. fttcan-reference answers the
 same commands by the definitions, slowly.
"""
HAS_PROGRAM = """\
 .
 This package has the program fttcan too. Its pages say what of it is proved,
 and what is only tested.
"""
HAS_LIBRARY = """\
 .
 The library libfttcan is here for programs in C and C++: the master, its
 standby, the admission test and the frames. It is proved, but for its heap.
"""
COPYRIGHT = """\
Format: https://www.debian.org/doc/packaging-manuals/copyright-format/1.0/
Upstream-Name: fttcan

Files: *
Copyright: {owner}
License: Expat or Apache-2.0

{licences}
"""
EXPAT = """\
Permission is hereby granted, free of charge, to any person obtaining a copy of this software and associated
documentation files (the "Software"), to deal in the Software without restriction, including without limitation the
rights to use, copy, modify, merge, publish, distribute, sublicense, and/or sell copies of the Software, and to permit
persons to whom the Software is furnished to do so, subject to the following conditions:
.
The above copyright notice and this permission notice shall be included in all copies or substantial portions of the
Software.
.
THE SOFTWARE IS PROVIDED "AS IS", WITHOUT WARRANTY OF ANY KIND, EXPRESS OR IMPLIED, INCLUDING BUT NOT LIMITED TO THE
WARRANTIES OF MERCHANTABILITY, FITNESS FOR A PARTICULAR PURPOSE AND NONINFRINGEMENT. IN NO EVENT SHALL THE AUTHORS OR
COPYRIGHT HOLDERS BE LIABLE FOR ANY CLAIM, DAMAGES OR OTHER LIABILITY, WHETHER IN AN ACTION OF CONTRACT, TORT OR
OTHERWISE, ARISING FROM, OUT OF OR IN CONNECTION WITH THE SOFTWARE OR THE USE OR OTHER DEALINGS IN THE SOFTWARE.
"""
APACHE = "The text of this licence is in /usr/share/common-licenses/Apache-2.0 on systems of Debian."


def moment():
    """The time of all files, in seconds since 1970."""
    told = os.environ.get("SOURCE_DATE_EPOCH") or subprocess.run(
        ["git", "-C", TOP, "log", "-1", "--format=%ct"], stdout=subprocess.PIPE, stderr=subprocess.DEVNULL, text=True,
        check=False).stdout.strip()
    return int(told or 0)


def copyright_text():
    """The licences in the form of Debian. What of a built program is not ours stands there as in LICENSE."""
    text = (TOP / "LICENSE").read_text(encoding="utf-8")
    owner = re.search(r"^Copyright (.*)$", text, re.MULTILINE)[1]
    rest = text[text.index("What is not ours"):].strip().splitlines()
    licences = "\n\n".join(f"License: {name}\n" + "\n".join(f" {line}" for line in body.strip().splitlines())
                           for name, body in (("Expat", EXPAT), ("Apache-2.0", APACHE)))
    comment = "Comment:\n" + "\n".join(f" {line}" for line in rest)
    return COPYRIGHT.format(owner=owner, licences=licences).rstrip("\n").replace(
        "License: Expat or Apache-2.0\n", f"License: Expat or Apache-2.0\n{comment}\n", 1) + "\n"


def multiarch():
    """The folder of libraries of this machine's architecture."""
    told = subprocess.run(["dpkg-architecture", "-qDEB_HOST_MULTIARCH"], stdout=subprocess.PIPE, stderr=subprocess.DEVNULL,
                          text=True, check=False).stdout if shutil.which("dpkg-architecture") else ""
    return told.strip() or {"amd64": "x86_64-linux-gnu", "arm64": "aarch64-linux-gnu"}.get(dpkg_architecture(), "")


def dpkg_architecture():
    """The architecture of this machine, as dpkg calls it."""
    return subprocess.run(["dpkg", "--print-architecture"], check=True, stdout=subprocess.PIPE, text=True).stdout.strip()


def libraries(program):
    """The packages that a built program needs."""
    with tempfile.TemporaryDirectory() as room:
        os.makedirs(f"{room}/debian")
        pathlib.Path(f"{room}/debian/control").write_text("Source: fttcan\n\nPackage: fttcan\nArchitecture: any\n",
                                                          encoding="utf-8")
        try:
            told = subprocess.run(["dpkg-shlibdeps", "-O", f"-e{program}"], cwd=room, stdout=subprocess.PIPE,
                                  stderr=subprocess.DEVNULL, text=True, check=False).stdout
        except OSError:
            told = ""
    return told.strip().partition("shlibs:Depends=")[2] or "libc6, libgcc-s1"


def control(words, folder):
    """What dpkg is told of the package."""
    size = sum(path.stat().st_size for path in folder.rglob("*") if path.is_file() and not path.is_symlink())
    needs = "python3 (>= 3.11)"
    if words.program:
        needs = f"{libraries(words.program)}, {needs}"
    elif words.library:
        needs = f"libc6, {needs}"
    return (f"Package: fttcan\nVersion: {tree.version()}\nArchitecture: {architecture(words)}\n"
            f"Maintainer: {words.maintainer}\nInstalled-Size: {-(-size // 1024)}\nDepends: {needs}\n"
            f"Suggests: python3-can, wireshark\nSection: science\nPriority: optional\n"
            f"Description: {ABOUT}{HAS_PROGRAM if words.program else ''}{HAS_LIBRARY if words.library else ''}")


def architecture(words):
    """The architecture of the package."""
    return dpkg_architecture() if words.program or words.library else "all"


def changelog(words):
    """The change log in the form of Debian; what changed stands in the page."""
    return (f"fttcan ({tree.version()}) unstable; urgency=medium\n\n  * What changed: "
            "/usr/share/doc/fttcan/CHANGELOG.md\n\n"
            f" -- {words.maintainer}  {email.utils.formatdate(moment())}\n")


def fill(words, folder):
    """Puts all files of the package into a folder."""
    libdir = f"lib/{multiarch()}" if words.library else "lib"
    asked = argparse.Namespace(program=words.program, library=words.library, prefix="/usr", libdir=libdir,
                               python="/usr/bin/python3", debian=True)
    place.install(asked, folder / "usr")
    if words.program and shutil.which("strip"):
        # Names of the compiled functions go; the code stays.
        subprocess.run(["strip", "--strip-unneeded", "--remove-section=.comment", "--remove-section=.note",
                        folder / "usr/bin/fttcan"], check=True)
    pages = folder / "usr/share/doc/fttcan"
    (pages / "LICENSE").unlink()
    (pages / "copyright").write_text(copyright_text(), encoding="utf-8")
    (pages / "changelog.gz").write_bytes(gzip.compress(changelog(words).encode(), 9, mtime=0))
    (folder / "DEBIAN").mkdir()
    sums = subprocess.run("find usr -type f -print0 | LC_ALL=C sort -z | xargs -0 md5sum", shell=True, cwd=folder,
                          check=True, stdout=subprocess.PIPE).stdout
    (folder / "DEBIAN/md5sums").write_bytes(sums)
    if words.library:
        # The loader is to find the new shared library.
        (folder / "DEBIAN/triggers").write_text("activate-noawait ldconfig\n", encoding="utf-8")
        # What another package depends on, if its programs load this library.
        (folder / "DEBIAN/shlibs").write_text(f"libfttcan 1 fttcan (>= {tree.version()})\n", encoding="utf-8")
    (folder / "DEBIAN/control").write_text(control(words, folder / "usr"), encoding="utf-8")
    for path in [*folder.rglob("*"), folder]:
        if not path.is_symlink():
            path.chmod(0o755 if path.stat().st_mode & 0o100 else 0o644)
        os.utime(path, (moment(), moment()), follow_symlinks=False)


def main():
    """Makes the package, and says where it is."""
    parser = argparse.ArgumentParser(prog="debian.py", description=__doc__,
                                     formatter_class=argparse.RawDescriptionHelpFormatter)
    parser.add_argument("--program", default="", help="the built program; without it none is in the package")
    parser.add_argument("--library", default="", help="the folder of the built library for C; without it none is in the package")
    parser.add_argument("--maintainer", required=True, help="who answers for the package")
    parser.add_argument("--out", default=str(TOP / "out"), help="the folder of the package")
    words = parser.parse_args()
    if not shutil.which("dpkg-deb"):
        sys.exit("dpkg-deb is not there: this makes packages for Debian alone")
    if not words.program:
        print("no program is built: any command of ./fttcan builds it; the package has the tools alone", file=sys.stderr)
    made = pathlib.Path(words.out) / f"fttcan_{tree.version()}_{architecture(words)}.deb"
    made.parent.mkdir(parents=True, exist_ok=True)
    with tempfile.TemporaryDirectory() as room:
        folder = pathlib.Path(room) / "root"
        folder.mkdir()
        fill(words, folder)
        subprocess.run(["dpkg-deb", "--root-owner-group", "-Zxz", "--build", folder, made], check=True,
                       stdout=subprocess.DEVNULL, env=os.environ | {"SOURCE_DATE_EPOCH": str(moment())})
    print(made)


if __name__ == "__main__":
    main()
