"""What tools/c-library checks of the library for another processor: the programs of library/tests, as qemu or node runs them."""
import pathlib
import re
import shutil

from . import archive, checks, exports, replays
from .archive import LIBRARY, TOP
from .parts import LeftOut
from .targets import command

BARE = LIBRARY / "tests" / "bare"
# The programs of the tests that run on each processor, and their words there.
PROGRAMS = {"layout": [], **{name: [] for name in checks.CALLS}, "refuse": [], "random": ["2", "12"], "flips": ["2"],
            "changes": ["2", "20"]}
ARENAS = (8192, 16384, 24576, 32768)
SMALL_TABLES = 200
OTHER_CLANGS = ("clang-19", "clang-16")


class Port:
    """The library for a target in a folder, and a room for programs."""

    def __init__(self, target, folder, room):
        self.target, self.folder, self.room = target, pathlib.Path(folder), pathlib.Path(room)

    def linked(self, name, objects, library=None, link=()):
        """Links a program of objects, the library, and what stands in front of main."""
        made = self.room / f"{name}.elf"
        started = []
        for source in self.target.started():
            started.append(self.room / f"{source.stem}.o")
            archive.run([*self.target.compiler(), "-O2", *checks.WARNINGS, "-c", source, "-o", started[-1]])
        archive.run([*self.target.linker(), "-Wl,--gc-sections", *objects, *started, library or self.folder / "libfttcan.a", *link, "-o", made])
        return made

    def object(self, source, flags=()):
        """Compiles a source of the tests."""
        made = self.room / f"{source.stem}.o"
        archive.run([*self.target.compiler(), "-O2", *checks.WARNINGS, *flags, f"-I{LIBRARY / 'include'}", f"-I{LIBRARY / 'bare'}", "-c", source,
                     "-o", made])
        return made

    def program(self, name, library=None, flags=()):
        """A program of library/tests. If it uses the heap of library/bare and the archive has another one, that is linked too."""
        objects = [self.object(checks.TESTS / f"{name}.c", flags)]
        if name == "tables":
            objects.append(self.object(LIBRARY / "bare" / "heap.c"))
        elif self.target.is_bare and name != "refuse":
            objects.append(self.object(BARE / "arena.c"))
        return self.linked(name, objects, library)

    def ran(self, program, words=(), more=()):
        """Runs a program here, and answers what it wrote."""
        return checks.ran(self.target.runner(program, words, more))


def of_program(port, name):
    """A program of the tests passes."""
    told = port.ran(port.program(name), PROGRAMS[name]).strip()
    return told if told.count("\n") == 0 else ""


def told_sums(told):
    """The sums that the test of tables printed, and its last line."""
    assert told.strip(), "the program wrote nothing"
    return [row for row in told.splitlines() if row.startswith("f ")], told.strip().splitlines()[-1]


def of_tables(port, tables, library=None):
    """Random tables have the verdicts and orders of tools/reference, with a save and a restore before each change."""
    sums, last = told_sums(port.ran(port.program("tables", library), ["all", tables.file]))
    wrong = sum(one != other for one, other in zip(sums, tables.whole)) + abs(len(sums) - len(tables.whole))
    assert not wrong, f"{wrong} of {len(tables.whole)} tables differ from tools/reference"
    return f"{len(sums)} tables, 0 differ; {last}"


def of_small_arenas(port, tables):
    """With little memory changes are refused, nothing is lost, and nothing is held at the end."""
    made, told = port.program("tables"), []
    for arena in ARENAS:
        last = port.ran(made, ["small", tables.file, arena]).strip().splitlines()[-1]
        many = re.search(r"refused (\d+)", last)[1]
        told.append(f"{arena // 1024} KiB: {many} refused")
    assert not told[0].endswith(" 0 refused"), "an arena of 8 KiB refuses nothing"
    return ", ".join(told)


def of_states(port, host, tables):
    """States that one machine saves go on on the other one, both ways, and are the same bytes."""
    there, here = port.program("tables"), host.program("tables")
    states = {name: port.room / f"{name}.states" for name in ("there", "here")}
    for one, made, name in ((port, there, "there"), (host, here, "here")):
        sums, _ = told_sums(one.ran(made, ["front", tables.file, states[name]]))
        assert sums == tables.front, f"the fronts {name} differ from tools/reference"
    assert states["there"].read_bytes() == states["here"].read_bytes(), "the saved bytes differ"
    for one, made, name in ((port, there, "here"), (host, here, "there")):
        sums, _ = told_sums(one.ran(made, ["back", tables.file, states[name]]))
        wrong = sum(a != b for a, b in zip(sums, tables.back)) + abs(len(sums) - len(tables.back))
        assert not wrong, f"{wrong} of {len(tables.back)} restored masters differ from tools/reference"
    return f"{len(tables.back)} of {len(tables.back)} both ways, the same bytes"


def of_exports(port):
    """The archive lets out the calls of the header, and needs what its page says."""
    wanted = set(exports.in_header((LIBRARY / "include" / "fttcan.h").read_text(encoding="utf-8")))
    if not port.target.has_run:
        wanted -= {name for name, _, _ in exports.in_crate(TOP / "crates" / "fttcan_run_c")}
    nm = command("llvm-nm") if port.target.is_wasm else port.target.tool("nm")
    told = archive.run([nm, port.folder / "libfttcan.a"])
    let_out = {name for name in re.findall(r" T (\w+)$", told, re.MULTILINE) if not name.startswith("fttcan_heap_")}
    assert let_out - {"__multi3", "__ashlti3", "__lshrti3"} == wanted, f"the archive lets out {sorted(let_out ^ wanted)}"
    needed = sorted(set(re.findall(r"\bU (\w+)$", told, re.MULTILINE)) - let_out - {name for name in re.findall(r" T (\w+)$", told, re.MULTILINE)})
    fitting = re.compile(r"mem(?:cpy|move|set|cmp)|bcmp|malloc|realloc|free|__aeabi_\w+|__(?:u?div|u?mod|mul|ashl|lshr)[dt]i3|__stack_pointer|__indirect_function_table"
                         r"|__multi3|__linear_memory|__c[lt]z[sd]i2")
    assert all(fitting.fullmatch(name) for name in needed), f"the archive needs {', '.join(needed)}"
    return f"{len(let_out)} functions; needs {', '.join(needed)}"


def of_hard_float(port):
    """A program with the hardware's floating point links the library, and passes."""
    target = port.target
    if target.name not in ("cortex-m4", "cortex-m7", "cortex-m33", "cortex-r5"):
        raise LeftOut(f"{target.name} has no such unit")
    words = [*(word for word in target.gcc if word != "-mfloat-abi=soft"), "-mfloat-abi=hard", "-mfpu=fpv4-sp-d16" if target.word == "cortex-m" else "-mfpu=vfpv3-d16"]
    hard = Port(type(target)(**{**target.__dict__, "gcc": tuple(words)}), port.folder, port.room)
    objects = [hard.object(checks.TESTS / "layout.c")]
    hard.linked("hard", objects)


def of_other_compiler(port, maker, tables):
    """Another clang makes the same orders of the same module."""
    for name in OTHER_CLANGS:
        if shutil.which(name):
            break
    else:
        raise LeftOut(f"no {' and no '.join(OTHER_CLANGS)} is there")
    folder = port.room / "other"
    archive.archive_for(maker, ["fttcan_c"], folder, port.target, clang=name)
    return f"{name}: " + of_tables(port, tables, folder / "libfttcan.a")


def of_cmake(port):
    """CMake finds the library, and links a program of the tests with it."""
    cmake, folder = command("cmake"), port.room / "cmake"
    folder.mkdir()
    (folder / "CMakeLists.txt").write_text(f"""cmake_minimum_required(VERSION 3.13)
project(found C)
find_package(fttcan CONFIG REQUIRED)
add_executable(found {checks.TESTS / 'layout.c'} {BARE / 'arena.c'} {' '.join(map(str, port.target.started()))})
target_link_libraries(found fttcan::fttcan)
""", encoding="utf-8")
    given = [f"-DCMAKE_C_COMPILER={command(port.target.cc())}", "-DCMAKE_SYSTEM_NAME=Generic", "-DCMAKE_TRY_COMPILE_TARGET_TYPE=STATIC_LIBRARY",
             f"-DCMAKE_C_FLAGS={' '.join(port.target.compiler()[1:])}", f"-DCMAKE_EXE_LINKER_FLAGS={' '.join(port.target.link)}",
             f"-DCMAKE_PREFIX_PATH={port.folder.parent}", "-DCMAKE_FIND_ROOT_PATH_MODE_PACKAGE=BOTH"]
    archive.run([cmake, "-S", folder, "-B", folder / "made", *given])
    archive.run([cmake, "--build", folder / "made"])
    port.ran(folder / "made" / "found")


def of_wasm2c(port, tables):
    """The module of WebAssembly as C, by wasm2c and gcc, gives the same orders: another compiler from there on."""
    wasm2c, sources = command("wasm2c"), pathlib.Path("/usr/src/wasm2c")
    if not sources.is_dir():
        raise LeftOut("the sources of wabt in /usr/src/wasm2c are not there")
    folder = port.room / "wasm2c"
    folder.mkdir()
    archive.run([wasm2c, port.program("tables"), "-n", "program", "-o", folder / "program.c"])
    made = folder / "program"
    archive.run([command("gcc"), "-std=gnu11", "-O1", "-w", f"-I{folder}", f"-I{sources}", folder / "program.c", BARE / "wasi.c",
                 sources / "wasm-rt-impl.c", "-lm", "-o", made])
    sums, _ = told_sums(checks.ran([made, "all", tables.file]))
    wrong = sum(one != other for one, other in zip(sums, tables.whole)) + abs(len(sums) - len(tables.whole))
    assert not wrong, f"{wrong} of {len(tables.whole)} tables differ from tools/reference"
    return f"{len(sums)} tables, 0 differ"


def of_example(port):
    """The example for a controller prints what its page has."""
    folder = replays.EXAMPLES / "embed-cortex-m"
    made = port.room / "example.elf"
    archive.run([*port.target.compiler("-std=gnu11"), "-Os", "-ffreestanding", *checks.WARNINGS, f"-I{LIBRARY / 'include'}", f"-I{LIBRARY / 'bare'}",
                 folder / "main.c", folder / "board.c", f"-T{folder / 'board.ld'}", "-nostdlib", "-Wl,--gc-sections", "-Wl,-z,noexecstack",
                 port.folder / "libfttcan.a", port.folder / "libfttcan_memory.a", "-lgcc", "-o", made])
    out = port.ran(made, more=["-icount", "shift=0"])
    wanted = re.search(r"```text\n(.*?)```", (folder / "README.md").read_text(encoding="utf-8"), re.DOTALL)
    assert wanted is not None, "examples/embed-cortex-m/README.md has no block of text"
    rows, found = wanted[1].splitlines(), out.splitlines()
    assert rows == found, replays.first_difference(rows, found)
    return f"{len(found)} lines"


def check(parts, port, maker, host, tables_of):
    """The parts for a target. `tables_of` makes the random tables when they are first needed."""
    name = port.target.name
    parts.part(f"exports for {name}", lambda: of_exports(port))
    for program in PROGRAMS:
        parts.part(f"{program} on {name}", lambda p=program: of_program(port, p))
    parts.part(f"tables on {name}", lambda: of_tables(port, tables_of(None)))
    parts.part(f"small arenas on {name}", lambda: of_small_arenas(port, tables_of(SMALL_TABLES)))
    parts.part(f"saved states, {name} and this machine", lambda: of_states(port, host(), tables_of(None)))
    parts.part(f"tables on {name}, another compiler", lambda: of_other_compiler(port, maker, tables_of(None)))
    if port.target.is_bare:
        parts.part(f"CMake for {name}", lambda: of_cmake(port))
    if port.target.is_wasm:
        parts.part("tables through wasm2c", lambda: of_wasm2c(port, tables_of(None)))
    if port.target.word in ("cortex-m", "cortex-r"):
        parts.part(f"hardware floating point on {name}", lambda: of_hard_float(port))
    if port.target.name == "cortex-m4":
        parts.part("examples/embed-cortex-m", lambda: of_example(port))


def check_linux(parts, built, target):
    """The parts of a target with an operating system, as those of aarch64 were."""
    compiler, link = target.tool("gcc"), ["-static"]
    runner = target.runner("")[:-1]
    parts.part(f"replays on {target.name}", lambda: checks.of_replays(built, "master", runner, compiler, link, 12))
    parts.part(f"frames on {target.name}", lambda: checks.of_frames(built, runner, compiler, link))
    parts.part(f"without a C library on {target.name}", lambda: checks.of_freestanding(built, compiler, runner))

