"""The backend of pyproject.toml. It makes the wheel and the source archive of the tools, with the standard library
alone. The same sources give the same bytes."""
import base64
import gzip
import hashlib
import io
import os
import pathlib
import sys
import tarfile
import time
import tomllib
import zipfile

# pip asks for this module without its folder in the path.
sys.path.insert(0, str(pathlib.Path(__file__).resolve().parent))
sys.dont_write_bytecode = True

import tree  # noqa: E402  pylint: disable=wrong-import-position
from helps import TOP  # noqa: E402  pylint: disable=wrong-import-position

# What a source archive has: all that a wheel is made of.
SOURCES = ("CHANGELOG.md", "LICENSE", "README.md", "docs/fttcan.1", "fttcan", "pyproject.toml", "tools/fttmodel",
           "tools/fttlint", "tools/fttsearch", "tools/fttlog", "tools/reference", "tools/completion.bash",
           "tools/completion.zsh", "tools/completion.fish")
# The least moment that an archive of either kind can name, in seconds since 1970: the start of 1980.
LEAST_MOMENT = 315_532_800


def project():
    """The table of pyproject.toml."""
    return tomllib.loads((TOP / "pyproject.toml").read_text(encoding="utf-8"))["project"]


def moment():
    """The time of all files of an archive, in seconds since 1970: that of SOURCE_DATE_EPOCH, or the start of 1980."""
    return max(int(os.environ.get("SOURCE_DATE_EPOCH", 0)), LEAST_MOMENT)


def stem():
    """The name and the version, as the name of an archive has them."""
    return f"{project()['name'].replace('-', '_')}-{tree.version()}"


def metadata():
    """The text that says what the package is."""
    asked = project()
    rows = ["Metadata-Version: 2.4", f"Name: {asked['name']}", f"Version: {tree.version()}",
            f"Summary: {asked['description']}", f"Keywords: {','.join(asked['keywords'])}",
            f"License-Expression: {asked['license']}", *(f"License-File: {name}" for name in asked["license-files"]),
            f"Requires-Python: {asked['requires-python']}", "Description-Content-Type: text/markdown", "",
            (TOP / asked["readme"]).read_text(encoding="utf-8")]
    return "\n".join(rows).encode()


def wheel_files():
    """The files of the wheel but for the list of them, in order."""
    info, share = f"{stem()}.dist-info", f"{stem()}.data/data"
    files = {path: file.data for path, file in (tree.modules() | tree.package()).items()}
    files |= {f"{share}/{path}": file.data for path, file in (tree.pages() | tree.completion()).items()}
    commands = "".join(f"{name} = {place}\n" for name, place in project()["scripts"].items())
    return dict(sorted(files.items())) | {
        **{f"{info}/licenses/{name}": (TOP / name).read_bytes() for name in project()["license-files"]},
        f"{info}/METADATA": metadata(),
        f"{info}/WHEEL": b"Wheel-Version: 1.0\nGenerator: fttcan\nRoot-Is-Purelib: true\nTag: py3-none-any\n",
        f"{info}/entry_points.txt": f"[console_scripts]\n{commands}".encode()}


def sum_of(data):
    """The sum of a file as the list of a wheel has it."""
    return base64.urlsafe_b64encode(hashlib.sha256(data).digest()).rstrip(b"=").decode()


def build_wheel(wheel_directory, config_settings=None, metadata_directory=None):
    """Makes the wheel in a folder, and says its name."""
    # The names of the parameters are those of the interface of backends.
    del config_settings, metadata_directory
    files, record = wheel_files(), f"{stem()}.dist-info/RECORD"
    rows = [f"{path},sha256={sum_of(data)},{len(data)}\n" for path, data in files.items()]
    files[record] = "".join([*rows, f"{record},,\n"]).encode()
    name = f"{stem()}-py3-none-any.whl"
    with zipfile.ZipFile(pathlib.Path(wheel_directory) / name, "w") as out:
        for path, data in files.items():
            entry = zipfile.ZipInfo(path, time.gmtime(moment())[:6])
            entry.external_attr, entry.compress_type = 0o100644 << 16, zipfile.ZIP_DEFLATED
            out.writestr(entry, data)
    return name


def archive(path, files, top):
    """Writes a packed archive: for each path below the folder `top` its bytes and its mode."""
    packed = io.BytesIO()
    with tarfile.open(fileobj=packed, mode="w", format=tarfile.PAX_FORMAT) as out:
        for name, (data, mode) in sorted(files.items()):
            entry = tarfile.TarInfo(f"{top}/{name}")
            entry.size, entry.mode, entry.mtime = len(data), mode, moment()
            out.addfile(entry, io.BytesIO(data))
    with open(path, "wb") as file, gzip.GzipFile("", "wb", 9, file, moment()) as out:
        out.write(packed.getvalue())


def build_sdist(sdist_directory, config_settings=None):
    """Makes the source archive in a folder, and says its name."""
    del config_settings
    files = {str(path.relative_to(TOP)): (path.read_bytes(), 0o755 if os.access(path, os.X_OK) else 0o644)
             for path in [*(TOP / path for path in SOURCES), *tree.below("tools/package")]}
    files |= {f"tools/{path}": (file.data, 0o644) for path, file in (tree.modules() | tree.package()).items()}
    files["PKG-INFO"] = (metadata(), 0o644)
    name = f"{stem()}.tar.gz"
    archive(pathlib.Path(sdist_directory) / name, files, stem())
    return name


def get_requires_for_build_wheel(config_settings=None):
    """Nothing is needed beside Python."""
    del config_settings
    return []


get_requires_for_build_sdist = get_requires_for_build_wheel
