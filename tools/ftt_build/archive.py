"""The library for C: its objects, the archive, the shared library, and what stands beside them."""
import pathlib
import re
import shutil
import subprocess
import sys
import tempfile

from . import exports, kit, retarget, targets, unproved
from .kit import BuildFault
from .parts import LeftOut

TOP = pathlib.Path(__file__).resolve().parent.parent.parent
LIBRARY = TOP / "library"
# The crates of the library, and the object of each.
CRATES = {"fttcan_c": "fttcan", "fttcan_faults_c": "fttcan_faults", "fttcan_node_c": "fttcan_node", "fttcan_run_c": "fttcan_run"}
HEAP = {"rattle_alloc": "fttcan_heap_alloc", "rattle_realloc": "fttcan_heap_realloc", "rattle_dealloc": "fttcan_heap_free"}
HOST = unproved.TARGET
HEADERS = ("fttcan.h", "fttcan_heap.h", "fttcan.hpp")
SONAME = "libfttcan.so.1"


def run(words, **how):
    """Runs a command, and answers what it writes. A command that fails is a fault, with what it says."""
    try:
        done = subprocess.run([str(word) for word in words], capture_output=True, text=True, check=False, **how)
    except OSError as fault:
        raise BuildFault(f"{words[0]}: {fault.strerror}") from fault
    if done.returncode:
        said = (done.stderr.strip() or done.stdout.strip()).splitlines()
        raise BuildFault(f"{pathlib.Path(str(words[0])).name} ended with status {done.returncode}: "
                         + "\n".join(said[-20:] or ["(nothing said)"]))
    return done.stdout


def there():
    """The crates of the library that this checkout has."""
    return [name for name in CRATES if (TOP / "crates" / name / "src" / "lib.rt").is_file()]


def version():
    """The version in the header, as text."""
    text = (LIBRARY / "include" / "fttcan.h").read_text(encoding="utf-8")
    return ".".join(re.search(rf"#define FTTCAN_VERSION_{part} (\d+)", text)[1] for part in ("MAJOR", "MINOR", "PATCH"))


def crates_below():
    """The crates of the library and those of this repository below them, with their lines of crates.txt."""
    lines = [line for line in (TOP / "crates.txt").read_text(encoding="utf-8").splitlines() if ":" in line and line[0] != "#"]
    rows = {line.split()[0].rstrip(":"): line for line in lines}
    found, left = {}, list(CRATES)
    while left:
        name = left.pop()
        if name in rows and name not in found:
            found[name] = rows[name]
            left += rows[name].partition(":")[2].split()
    return found


def sources():
    """One sum over the names and bytes of all that the library is made of. Two libraries of one sum are the same."""
    sys.path.insert(0, str(TOP / "tools"))
    from ftt import version as of_tools  # pylint: disable=import-outside-toplevel
    crates = crates_below()
    folders = [TOP / "crates" / name / part for name in crates for part in ("src", "specs", "proofs")]
    paths = [path for folder in folders for path in folder.rglob("*") if path.is_file()]
    paths += [path for path in LIBRARY.rglob("*") if path.is_file() and (LIBRARY / "tests") not in path.parents]
    files = [(str(path.relative_to(TOP)), path.read_bytes()) for path in [*paths, TOP / "HANDLES"]]
    return of_tools.sum_of([*files, ("crates.txt", "\n".join(sorted(crates.values())).encode())])


class Unproved:
    """Objects of code that nothing is proved of."""

    def __init__(self):
        self.modules, self.room = {}, tempfile.TemporaryDirectory(prefix="fttcan-unproved-")
        # By crate and kind of target, the rewritten text.
        self.rewritten = {}

    def module(self, name):
        """The text of the module of a crate, made once."""
        if name not in self.modules:
            room = pathlib.Path(self.room.name) / name
            room.mkdir()
            found = exports.in_crate(TOP / "crates" / name)
            (room / "main.rt").write_text(exports.caller(name, found), encoding="utf-8")
            crate = kit.crate(TOP, name)
            uses = ",".join(dict.fromkeys(["core", "std", *crate.of_kit, *[dep.name for dep in crate.deps]]))
            words = ["--crate-name", "exports_of", room / "main.rt", *crate.sources_below(),
                     *kit.sources_of_kit([crate, *crate.below()]), "--lib", f"{name}:{uses}={crate.folder}/src/lib.rt"]
            module = unproved.bare_module(TOP, words, room)
            text = module.read_text(encoding="utf-8")
            for export, _, _ in found:
                # The function is let out under its bare name, as a static library does.
                full = re.search(rf'"{name}::(?:\w+::)*{export}"', text)
                if full is None:
                    raise BuildFault(f"the module of {name} has no {export}")
                text = text.replace(full[0], f'"{export}"').replace(f'define internal noundef i32 @"{export}"',
                                                                   f'define noundef i32 @"{export}"')
                text = text.replace(f'define internal void @"{export}"', f'define void @"{export}"')
            # The program itself is not wanted, nor what it asks of the C library.
            text = re.sub(r"^define (?:internal )?i32 @main\(\).*?^\}\n", "", text, flags=re.MULTILINE | re.DOTALL)
            text = re.sub(r"^declare i64 @__sysv_signal\(.*\n", "", text, flags=re.MULTILINE)
            module.write_text(text, encoding="utf-8")
            self.modules[name] = module
        return self.modules[name]

    def object(self, name, made, target, backend):
        """Makes the object of a crate."""
        if backend != "llvm":
            raise LeftOut("without proofs, Rattle's own compiler takes no library")
        unproved.compiled(self.module(name), made, [*unproved.FLAGS, "-fPIC"], target)


# A clang that keeps the module of a library, and goes on.
KEEPS = """#!/bin/sh
[ -f module.bc ] && cp module.bc '{room}/kept.bc'
exec '{clang}' "$@"
"""


class Proved:
    """Objects of proved crates, as the kit builds them."""

    def __init__(self):
        self.modules, self.room = {}, tempfile.TemporaryDirectory(prefix="fttcan-proved-")
        # By crate and kind of target, the rewritten text.
        self.rewritten = {}

    def words(self, name):
        """The words of the kit's build of a crate, for any target."""
        return [word for word in kit.crate(TOP, name).words(["--jobs", "2"]) if not word.startswith("--target")]

    def module(self, name):
        """The text of the module of a proved crate, made once: what the kit hands to its clang, which proves what was not proved
        before. A clang that keeps the module, and then does what it is told, stands in the folder of the kit's tools."""
        if name in self.modules:
            return self.modules[name]
        place, own = TOP / "crates" / name, kit.folder() / "toolchain"
        run(["rt", "lib"], cwd=place)
        room = pathlib.Path(self.room.name) / name
        (room / "bin").mkdir(parents=True)
        (room / "lib").symlink_to(own / "lib")
        for path in (own / "bin").iterdir():
            if path.name != "clang":
                (room / "bin" / path.name).symlink_to(path)
        (room / "bin" / "clang").write_text(KEEPS.format(room=room, clang=own / "bin" / "clang"), encoding="utf-8")
        (room / "bin" / "clang").chmod(0o755)
        run([kit.folder() / "bin" / "rattle", "build", *self.words(name), "--toolchain", room, *kit.kept(), "-o", room / "built.a"], cwd=place)
        if not (room / "kept.bc").is_file():
            raise BuildFault(f"the build of {name} handed no module to clang")
        made = room / "module.ll"
        run([unproved.clang_of_kit(), "-Xclang", "-disable-llvm-passes", "-S", "-emit-llvm", "-x", "ir", room / "kept.bc", "-o", made])
        self.modules[name] = made
        return made

    def object(self, name, made, target, backend):
        """Makes the object of a crate, which is proved first where that was not done."""
        place = TOP / "crates" / name
        run(["rt", "lib"], cwd=place)
        if backend == "llvm":
            built = place / "out" / f"lib{name}.a"
        else:
            built = pathlib.Path(made).with_suffix(".built.a")
            run([kit.folder() / "bin" / "rattle", "build", *self.words(name), "--toolchain", kit.folder() / "toolchain",
                 *kit.kept(), "--backend", backend, "-o", built], cwd=place)
        with tempfile.TemporaryDirectory() as room:
            run(["ar", "x", built], cwd=room)
            parts = sorted(pathlib.Path(room).iterdir())
            run(["ld", "-r", "-o", made, *parts])


# What clang is told of a rewritten module. The level stands apart.
OF_MODULE = ("-mllvm -no-trap-after-noreturn -ffunction-sections -fdata-sections -mllvm -trap-unreachable --no-default-config "
             "-no-canonical-prefixes -fintegrated-cc1 -fno-crash-diagnostics -Wno-override-module -c -x ir").split()


def of_module(maker, name, target, made, level="-O2", forms=None, clang=None):
    """Makes the object of a crate for another target, from its rewritten module: its exports are all that it lets out. With
    `clang`, another compiler than the kit's makes it."""
    key = name, target.bits, target.is_riscv64
    if key not in maker.rewritten or forms is not None:
        maker.rewritten[key] = retarget.rewritten(maker.module(name).read_text(encoding="utf-8"), target.bits, target.is_riscv64, forms)
    text = maker.rewritten[key]
    let_out = sorted(set(re.findall(r'^define (?!internal)[^@]*@"?(\w+)"?\(', text, re.MULTILINE)))
    wanted = sorted(export for export, _, _ in exports.in_crate(TOP / "crates" / name))
    if let_out != wanted:
        raise BuildFault(f"the module of {name} lets out others than its exports: {', '.join(sorted(set(let_out) ^ set(wanted)))}")
    if clang is not None:
        text = "".join(retarget.older(text.splitlines(keepends=True)))
    source = pathlib.Path(made).with_suffix(".ll")
    source.write_text(text, encoding="utf-8")
    run([clang or unproved.clang_of_kit(), f"--target={target.triple}", *target.clang, level, *OF_MODULE, source, "-o", made])
    source.unlink()


def of_c(target, source, made, more=()):
    """Compiles a file of the library itself for another target."""
    run([*target.compiler(), "-O2", "-ffreestanding", "-ffunction-sections", "-fdata-sections", "-Wall", "-Wextra", "-Werror",
         *(["-fPIC"] if not (target.is_bare or target.is_wasm) else []), *more, f"-I{LIBRARY / 'include'}",
         f"-I{LIBRARY / 'bare'}", "-c", source, "-o", made])


def llvm_ar():
    """The kit's tool for archives, which knows the objects of each target."""
    return unproved.clang_of_kit().removesuffix("clang") + "llvm-ar"


def archive_for(maker, crates, folder, target, level="-O2", clang=None):
    """Makes the archive for another target in a folder: the crates that it has, its heap, and the messages that tell changes."""
    folder = pathlib.Path(folder)
    folder.mkdir(parents=True, exist_ok=True)
    with tempfile.TemporaryDirectory() as room:
        room = pathlib.Path(room)
        parts = []
        for name in crates:
            if name != "fttcan_run_c" or target.has_run:
                parts.append(room / f"{CRATES[name]}.o")
                of_module(maker, name, target, parts[-1], level, clang=clang)
        parts.append(room / "fttcan_heap.o")
        of_c(target, LIBRARY / ("bare/heap.c" if target.is_bare else "heap.c"), parts[-1], ["-fvisibility=hidden"])
        parts.append(room / "fttcan_change.o")
        of_c(target, LIBRARY / "change.c", parts[-1])
        if target.is_wasm and (LIBRARY / "wasm" / "wide.c").is_file():
            # (numbers of 128 bits, for a program that is linked without the routines of a compiler)
            parts.append(room / "fttcan_wide.o")
            of_c(target, LIBRARY / "wasm" / "wide.c", parts[-1])
        made = folder / "libfttcan.a"
        made.unlink(missing_ok=True)
        run([llvm_ar(), "rcsD", made, *parts])
        if target.is_bare:
            of_c(target, LIBRARY / "bare" / "memory.c", room / "fttcan_memory.o", ["-fno-builtin", "-fno-tree-loop-distribute-patterns"])
            apart = folder / "libfttcan_memory.a"
            apart.unlink(missing_ok=True)
            run([llvm_ar(), "rcsD", apart, room / "fttcan_memory.o"])
    return made


def objects(maker, crates, room, backend="llvm", compiler="gcc"):
    """The objects of the library for this machine in a folder: one for each crate, whose names but those of its exports are its
    own, the heap, and the messages that tell changes."""
    room = pathlib.Path(room)
    made = []
    for name in crates:
        raw, whole = room / f"{name}.raw.o", room / f"{CRATES[name]}.o"
        maker.object(name, raw, HOST, backend)
        linked = room / f"{name}.linked.o"
        run(["ld", "-r", "-o", linked, raw])
        names = [word for old, new in HEAP.items() for word in ("--redefine-sym", f"{old}={new}")]
        run(["objcopy", *names, "--remove-section=.comment", "--strip-debug", linked, whole])
        kept = room / f"{name}.kept"
        kept.write_text("".join(f"{export}\n" for export, _, _ in exports.in_crate(TOP / "crates" / name)), encoding="utf-8")
        run(["objcopy", f"--keep-global-symbols={kept}", whole])
        made.append(whole)
    for name, more in (("heap", ["-std=c11", "-fvisibility=hidden"]), ("change", ["-std=c99"])):
        made.append(room / f"fttcan_{name}.o")
        run([compiler, *more, "-O2", "-fPIC", "-ffunction-sections", "-Wall", "-Wextra", "-Wconversion", "-Werror",
             f"-I{LIBRARY / 'include'}", "-c", LIBRARY / f"{name}.c", "-o", made[-1]])
    return made


def archive(maker, crates, folder, backend="llvm"):
    """Makes the archive for this machine in a folder."""
    folder = pathlib.Path(folder)
    folder.mkdir(parents=True, exist_ok=True)
    made = folder / "libfttcan.a"
    with tempfile.TemporaryDirectory() as room:
        parts = objects(maker, crates, room, backend)
        made.unlink(missing_ok=True)
        run(["ar", "rcsD", made, *parts])
    return made


def shared(made, folder, tools=""):
    """Makes the shared library of an archive, and the link that a linker looks for. `tools` stands in front of the names of
    gcc and strip."""
    folder = pathlib.Path(folder)
    whole = folder / SONAME
    run([f"{tools}gcc", "-shared", "-o", whole, "-Wl,--whole-archive", made, "-Wl,--no-whole-archive", "-Wl,-z,defs",
         "-Wl,-z,relro,-z,now", "-Wl,--gc-sections", f"-Wl,--version-script={LIBRARY / 'fttcan.map'}", f"-Wl,-soname,{SONAME}"])
    run([f"{tools}strip", "--strip-unneeded", whole])
    (folder / "libfttcan.so").unlink(missing_ok=True)
    (folder / "libfttcan.so").symlink_to(SONAME)
    return whole


def beside(prefix, is_proved, processor="x86_64", libdir="lib", is_bare=False):
    """Puts the headers and the files for pkg-config and CMake below a prefix. The file for pkg-config says whether the library is
    proved, has the sum of its sources, and names the processor that it is for."""
    prefix = pathlib.Path(prefix)
    (prefix / "include").mkdir(parents=True, exist_ok=True)
    for path in [*(LIBRARY / "include" / name for name in HEADERS), *([LIBRARY / "bare" / "fttcan_bare.h"] if is_bare else [])]:
        shutil.copyfile(path, prefix / "include" / path.name)
    (prefix / libdir / "pkgconfig").mkdir(parents=True, exist_ok=True)
    text = (LIBRARY / "fttcan.pc.in").read_text(encoding="utf-8")
    # (a library for another processor may be moved: its file is found from where it stands)
    at = prefix.resolve() if processor == "x86_64" else "${pcfiledir}/../.."
    values = {"PREFIX": at, "LIBDIR": libdir, "VERSION": version(), "SOURCES": sources(), "PROCESSOR": processor,
              "PROVED": "proved" if is_proved else "NOT PROVED"}
    for name, value in values.items():
        text = text.replace(f"@{name}@", str(value))
    (prefix / libdir / "pkgconfig" / "fttcan.pc").write_text(text, encoding="utf-8")
    if is_bare:
        # (a build for a controller mostly has CMake, and no pkg-config)
        (prefix / libdir / "cmake" / "fttcan").mkdir(parents=True, exist_ok=True)
        shutil.copyfile(LIBRARY / "bare" / "fttcan-config.cmake", prefix / libdir / "cmake" / "fttcan" / "fttcan-config.cmake")
