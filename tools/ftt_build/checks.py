"""What tools/c-library checks of the built library."""
import os
import pathlib
import re
import shutil
import subprocess
import sys
import tempfile

from . import archive, exports, replays
from .archive import LIBRARY, TOP
from .kit import BuildFault
from .parts import LeftOut

sys.path.insert(0, str(TOP / "tools"))

TESTS = LIBRARY / "tests"
WARNINGS = ["-Wall", "-Wextra", "-Wpedantic", "-Wshadow", "-Werror"]
# The programs of library/tests that are run alone: their words, and those under valgrind.
CALLS = ("calls_bounds", "calls_frames", "calls_pair", "calls_master", "calls_apart", "calls_standby", "calls_node")
PROGRAMS = {
    "layout": ([], None),
    **{name: ([], []) for name in CALLS},
    "refuse": ([], []),
    "random": (["1", "300"], ["2", "6"]),
    "flips": (["12"], ["2"]),
    "changes": (["1", "1000"], ["2", "20"]),
    "threads": ([], None),
}
OF_LIBC = {"malloc", "realloc", "free", "memcpy", "memmove", "memset", "memcmp", "bcmp"}
SECONDS = 600


def told_missing(names):
    """That the library lacks some functions, in a line."""
    more = f" and {len(names) - 1} more" if len(names) > 1 else ""
    return f"the library has no {names[0]}{more}"


def command(name):
    """The path of a command, or a reason to leave a part out."""
    found = shutil.which(name)
    if found is None:
        raise LeftOut(f"the command {name} is not there")
    return found


def ran(words, wanted=0, **how):
    """Runs a program of the tests, and answers what it wrote. Another status is a fault."""
    done = subprocess.run([str(word) for word in words], capture_output=True, text=True, timeout=SECONDS, check=False,
                          stdin=how.pop("stdin", subprocess.DEVNULL), **how)
    if done.returncode != wanted:
        said = (done.stdout + done.stderr).strip().splitlines()[:12]
        raise BuildFault("\n".join([f"status {done.returncode}, and not {wanted}", *said]))
    return done.stdout


class Built:
    """A built library for a target, and the programs that are linked with it."""

    def __init__(self, folder, room, tools=""):
        self.folder, self.room, self.tools = pathlib.Path(folder), pathlib.Path(room), tools
        names = archive.run([f"{tools}nm", "-g", "--defined-only", self.folder / "libfttcan.a"])
        self.names = set(re.findall(r"^[0-9a-f]+ [A-Z] (\S+)$", names, re.MULTILINE))

    def program(self, name, compiler, flags=(), link=(), is_shared=False):
        """Compiles and links a program of the tests."""
        source = TESTS / (name if "." in name else f"{name}.c")
        is_cpp = source.suffix == ".cpp"
        object_, made = self.room / f"{source.stem}.{compiler}.o", self.room / f"{source.stem}.{compiler}"
        language = next((word for word in flags if word.startswith("-std=")), "-std=c++17" if is_cpp else "-std=c11")
        archive.run([command(compiler), language, "-O2", *WARNINGS, *flags, f"-I{LIBRARY / 'include'}", "-c", source, "-o", object_])
        self.lacks(object_)
        place = [f"-L{self.folder}", "-lfttcan", f"-Wl,-rpath,{self.folder}"] if is_shared else [self.folder / "libfttcan.a"]
        archive.run([command(compiler), *flags, object_, *place, "-pthread", *link, "-o", made])
        return made

    def lacks(self, object_):
        """Leaves a part out whose calls the library does not have: the part on the exports says so too."""
        used = archive.run([f"{self.tools}nm", "-u", object_])
        missing = sorted(set(re.findall(r"\bU (fttcan_\w+)", used)) - self.names)
        if missing:
            raise LeftOut(told_missing(missing))


def of_exports(folder):
    """The header, the version script, the archive and the shared library have the same functions, and need nothing else."""
    declared = exports.in_header((LIBRARY / "include" / "fttcan.h").read_text(encoding="utf-8"))
    listed = exports.in_map((LIBRARY / "fttcan.map").read_text(encoding="utf-8"))
    assert sorted(declared) == sorted(listed), f"header and fttcan.map differ: {sorted(set(declared) ^ set(listed))}"
    folder = pathlib.Path(folder)
    shared = folder / "libfttcan.so"
    let_out = set(re.findall(r" T (\w+)(?:@@FTTCAN_1)?$", archive.run(["nm", "-D", "--defined-only", shared]), re.MULTILINE))
    missing, more = sorted(set(declared) - let_out), sorted(let_out - set(declared))
    assert not missing, f"the library has no {', '.join(missing)}"
    assert not more, f"the library lets out {', '.join(more)}"
    needed = set(re.findall(r" U (\w+)", archive.run(["nm", "-D", "--undefined-only", shared])))
    assert needed <= OF_LIBC, f"the library needs {', '.join(sorted(needed - OF_LIBC))}"
    told = archive.run(["readelf", "-d", shared])
    assert re.findall(r"NEEDED.*\[(.*)\]", told) == ["libc.so.6"], "the shared library needs more than libc.so.6"
    assert f"[{archive.SONAME}]" in told, f"the soname is not {archive.SONAME}"
    sizes = ", ".join(f"{name} {(folder / name).stat().st_size // 1000} kB" for name in ("libfttcan.a", "libfttcan.so"))
    return f"{len(declared)} functions; {sizes}"


def of_version():
    """The version of the header is that of the project."""
    from ftt import version  # pylint: disable=import-outside-toplevel
    number = version.text().rstrip("+")
    assert archive.version() == number, f"library/include/fttcan.h says {archive.version()}, and CHANGELOG.md {number}"
    return number


def of_header(compiler):
    """The headers are clean under many warnings, as each standard has them."""
    path = command(compiler)
    is_cpp = "++" in compiler
    with tempfile.TemporaryDirectory() as room:
        names = ("fttcan.h", "fttcan_heap.h", *(["fttcan.hpp"] if is_cpp else []))
        source = pathlib.Path(room) / ("all.cpp" if is_cpp else "all.c")
        source.write_text("".join(f'#include "{name}"\n' for name in names) + "int main(void) { return 0; }\n", encoding="utf-8")
        for standard in ("c++17", "c++20") if is_cpp else ("c99", "c11", "c17"):
            archive.run([path, f"-std={standard}", *WARNINGS, "-Wconversion", "-Wundef", f"-I{LIBRARY / 'include'}", "-fsyntax-only", source])


def of_program(built, name, compiler, is_shared=False, flags=()):
    """A program of the tests passes."""
    made = built.program(name, compiler, flags, is_shared=is_shared)
    told = ran([made, *PROGRAMS.get(name, ([], None))[0]]).strip()
    return told if told.count("\n") == 0 else ""


def of_valgrind(built, name):
    """A program of the tests passes under valgrind, and leaves no memory."""
    valgrind = command("valgrind")
    made = built.program(name, "g++" if name.endswith("pp") else "gcc", ["-g"])
    ran([valgrind, "-q", "--error-exitcode=9", "--leak-check=full", "--show-leak-kinds=all", "--errors-for-leak-kinds=all", made,
         *PROGRAMS.get(name, (None, []))[1]])


def of_helgrind(built):
    """The program of threads has no race, as valgrind sees it: with few cycles."""
    valgrind = command("valgrind")
    made = built.program("threads", "gcc", ["-g", "-DCYCLES=150"])
    ran([valgrind, "-q", "--tool=helgrind", "--error-exitcode=9", made])


def of_replays(built, mode, runner=(), compiler="gcc", link=(), most=None):
    """The examples, played by the library in a mode, have the rows of their logs."""
    made = built.program("replay", compiler, link=link)
    many = 0
    for folder in replays.all_with_logs()[:most]:
        if replays.cycles(folder) > replays.MOST_CYCLES.get(mode, 20_000):
            continue
        for at in replays.handovers(folder) if mode == "handed" else (0,):
            words = [*runner, made, mode, *replays.numbers(folder), str(at)]
            with open(folder / "steps.csv", "rb") as steps:
                done = subprocess.run([str(word) for word in words], stdin=steps, capture_output=True, text=True,
                                      timeout=SECONDS, check=False)
            rows = done.stdout.splitlines()
            if rows != replays.wanted(folder, mode) or done.returncode:
                raise BuildFault(f"{folder.name}: {replays.first_difference(replays.wanted(folder, mode), rows) if not done.returncode else rows[-3:]}")
            many += 1
    assert many, "no example was played"
    return f"{many} runs"


def of_frames(built, runner=(), compiler="gcc", link=()):
    """Each frame of each log has the length that the library says, and is read from its bits."""
    made = built.program("frames", compiler, link=link)
    rows = []
    for folder in sorted(replays.EXAMPLES.iterdir()):
        if (folder / "expected.log").is_file():
            rows += [row for row in replays.log_of(folder) if row.startswith("frame,")]
    assert rows, "no log has a frame"
    done = subprocess.run([str(word) for word in (*runner, made)], input="".join(f"{row}\n" for row in rows), capture_output=True,
                          text=True, timeout=SECONDS, check=False)
    if done.returncode:
        raise BuildFault("\n".join(done.stdout.splitlines()[:12]))
    return f"{len(rows)} frames"


def of_commands(built):
    """fttcan_run answers each example but those of live as the program does."""
    made = built.program("run", "gcc")
    many = 0
    for folder in sorted(replays.EXAMPLES.iterdir()):
        if not (folder / "expected.log").is_file() or replays.words_of(folder)[0] == "live":
            continue
        words, files = [], []
        for word in replays.words_of(folder):
            if (folder / word).is_file():
                files.append(folder / word)
                word = str(len(files) - 1)
            words.append(word)
        wanted = (folder / "expected.log").read_bytes()
        done = subprocess.run([made, str(len(wanted)), *words, "--", *map(str, files)], capture_output=True, timeout=SECONDS,
                              check=False)
        assert done.returncode == replays.status_of(folder), f"{folder.name}: status {done.returncode}: {done.stderr[:200]!r}"
        assert done.stdout == wanted, f"{folder.name}: the output is another one"
        if wanted:
            cut = subprocess.run([made, str(len(wanted) - 1), *words, "--", *map(str, files)], capture_output=True,
                                 timeout=SECONDS, check=False)
            assert cut.returncode == 5, f"{folder.name}: with too little room the status is {cut.returncode}"
            assert wanted.startswith(cut.stdout), f"{folder.name}: with too little room the output is no front"
        many += 1
    assert many, "no example was run"
    return f"{many} examples"


def of_audits(built):
    """fttcan_audit answers each example of an audit as the program does."""
    made = built.program("audit", "gcc")
    many = 0
    for folder in sorted(replays.EXAMPLES.iterdir()):
        if not (folder / "expected.log").is_file() or replays.words_of(folder)[0] != "audit":
            continue
        told = ran([made, *(folder / word for word in replays.words_of(folder)[1:])])
        wanted = (folder / "expected.log").read_text(encoding="utf-8")
        assert told == wanted, f"{folder.name}: {told.strip()}, and not {wanted.strip()}"
        many += 1
    assert many, "no example was audited"
    return f"{many} examples"


def of_freestanding(built, compiler, runner=()):
    """A program without a C library runs: an arena is its heap."""
    path = command(compiler)
    object_, made = built.room / "freestanding.o", built.room / "freestanding"
    archive.run([path, "-std=c11", "-O2", *WARNINGS, "-ffreestanding", "-fno-builtin", "-fno-stack-protector", f"-I{LIBRARY / 'include'}",
                 "-c", TESTS / "freestanding.c", "-o", object_])
    built.lacks(object_)
    archive.run([path, "-nostdlib", "-static", "-Wl,--gc-sections", object_, built.folder / "libfttcan.a", "-o", made])
    ran([*runner, made])
    return f"{len_of_code(made, built.tools)} bytes of code and constants"


def len_of_code(made, tools=""):
    """The bytes of code and of what is read only in a program."""
    told = archive.run([f"{tools}size", "-A", made])
    return sum(int(size) for name, size in re.findall(r"^(\.\w+)\S*\s+(\d+)", told, re.MULTILINE) if name in (".text", ".rodata"))


def of_example(name, prefix):
    """An example of the library, compiled by pkg-config, prints what its page has."""
    pkg_config = command("pkg-config")
    folder = replays.EXAMPLES / name
    source = next((path for path in sorted(folder.iterdir()) if path.suffix in (".c", ".cpp")), None)
    assert source is not None, f"examples/{name} has no source"
    environment = {**os.environ, "PKG_CONFIG_PATH": str(pathlib.Path(prefix) / "lib" / "pkgconfig")}
    told = subprocess.run([pkg_config, "--cflags", "--libs", "fttcan"], env=environment, capture_output=True, text=True, check=True).stdout
    compiler = command("g++" if source.suffix == ".cpp" else "gcc")
    with tempfile.TemporaryDirectory() as room:
        made = pathlib.Path(room) / "example"
        words = [compiler, "-O2", *WARNINGS, source, *told.split(), "-pthread", f"-Wl,-rpath,{pathlib.Path(prefix).resolve() / 'lib'}", "-o", made]
        try:
            archive.run(words)
        except BuildFault as fault:
            missing = sorted(set(re.findall(r"undefined reference to `(fttcan_\w+)'", str(fault))))
            if missing:
                raise LeftOut(told_missing(missing)) from fault
            raise
        out = ran([made])
    page = (folder / "README.md").read_text(encoding="utf-8")
    wanted = re.search(r"```text\n(.*?)```", page, re.DOTALL)
    assert wanted is not None, f"examples/{name}/README.md has no block of text"
    rows, found = wanted[1].splitlines(), out.splitlines()
    assert rows == found, replays.first_difference(rows, found)
    return f"{len(found)} lines"


def of_sanitizers(built, name):
    """A program of the tests passes with the checks of the compiler in its own code."""
    made = built.program(name, "gcc", ["-g", "-fsanitize=address,undefined", "-fno-sanitize-recover=all"])
    ran([made, *PROGRAMS[name][1]])
