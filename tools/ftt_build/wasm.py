"""The library in WebAssembly: two modules, and what stands beside them.

`fttcan.wasm` has all calls but `fttcan_run` and `fttcan_audit`, and `fttcan-run.wasm` has all of them. Each is linked by the kit's own
linker of the rewritten modules of the crates, the heap of library/wasm, and three routines for 128 bits. The stack stands
first in memory: where it overflows, the next access lies below address 0, and traps.
"""
import pathlib
import shutil
import tempfile

from . import exports, retarget, unproved
from .archive import CRATES, LIBRARY, TOP, run

TARGET = "wasm32-unknown-unknown"
FOLDER = LIBRARY / "wasm"
# The calls that stand in C.
OF_C = ("fttcan_change_encode", "fttcan_table_encode", "fttcan_collect", "fttcan_change_decode", "fttcan_table_decode")
# The crate of whole commands. One module lacks it.
COMMANDS = "fttcan_run_c"
# By its name the crates of a module, and the bytes of its stack.
MODULES = {"fttcan.wasm": ([name for name in CRATES if name != COMMANDS], 256 << 10), "fttcan-run.wasm": (list(CRATES), 1 << 20)}
ROOMS = ("fttcan_room_take", "fttcan_room_give", "fttcan_room_held", "fttcan_room_limit")
BESIDE = ("fttcan.mjs", "fttcan.d.mts", "package.json")
FLAGS = ("-mllvm -no-trap-after-noreturn -ffunction-sections -fdata-sections -mllvm -trap-unreachable -mllvm -expand-div-rem-bits=64 "
         "--no-default-config -no-canonical-prefixes -fintegrated-cc1 -fno-crash-diagnostics -O3 -Wno-override-module -c -x ir").split()
FLAGS_C = "-std=c11 -O2 -ffreestanding -fno-builtin -nostdinc -Wall -Wextra -Werror -c".split()
LINK = "--no-entry --gc-sections --strip-all --stack-first".split()


def object_of(text, made):
    """Compiles the rewritten text of a module."""
    source = made.with_suffix(".ll")
    source.write_text(text, encoding="utf-8")
    run([unproved.clang_of_kit(), f"--target={TARGET}", *FLAGS, source, "-o", made])


def linked(parts, names, made, stack, more=()):
    """Links a module with these exports and so many bytes of stack."""
    with tempfile.TemporaryDirectory() as room:
        linker = pathlib.Path(room) / "wasm-ld"
        linker.symlink_to(pathlib.Path(unproved.clang_of_kit()).with_name("ld.lld"))
        run([linker, *LINK, "-z", f"stack-size={stack}", *(f"--export={name}" for name in (*names, *ROOMS)), *more, *parts, "-o", made])


# What a file in C takes in: the kit has no headers of C.
HEADERS = {"stddef.h": "typedef __SIZE_TYPE__ size_t;\n#define NULL ((void *)0)\n",
           "stdint.h": "".join(f"typedef __UINT{bits}_TYPE__ uint{bits}_t;\ntypedef __INT{bits}_TYPE__ int{bits}_t;\n" for bits in (8, 16, 32, 64))
           + "typedef __UINTPTR_TYPE__ uintptr_t;\n#define UINT32_C(it) it##u\n#define UINT64_C(it) it##ull\n#define UINT32_MAX 0xFFFFFFFFu\n#define UINT64_MAX 0xFFFFFFFFFFFFFFFFull\n",
           "string.h": '#include <stddef.h>\nvoid *memcpy(void *, const void *, size_t);\nvoid *memmove(void *, const void *, size_t);\n'
           'void *memset(void *, int, size_t);\nint memcmp(const void *, const void *, size_t);\n'}


def objects_of_c(room):
    """The objects of what the library has in C: the heap for pages, routines for 128 bits, and, if it is there, what tells changes."""
    room, made = pathlib.Path(room), []
    for name, text in HEADERS.items():
        (room / name).write_text(text, encoding="utf-8")
    for path in (FOLDER / "heap.c", FOLDER / "wide.c", LIBRARY / "change.c"):
        if path.is_file():
            made.append(room / f"{path.stem}.o")
            run([unproved.clang_of_kit(), f"--target={TARGET}", *FLAGS_C, "-isystem", room, f"-I{LIBRARY / 'include'}", path, "-o", made[-1]])
    return made


def build(module_of, folder):
    """Makes both modules in a folder, with the files beside them. `module_of` answers the path of the module's text of a crate."""
    folder = pathlib.Path(folder)
    folder.mkdir(parents=True, exist_ok=True)
    with tempfile.TemporaryDirectory(prefix="fttcan-wasm-") as room:
        parts = {}
        for name in CRATES:
            parts[name] = pathlib.Path(room) / f"{name}.o"
            object_of(retarget.rewritten(pathlib.Path(module_of(name)).read_text(encoding="utf-8"), 32), parts[name])
        own = objects_of_c(room)
        for name, (crates, stack) in MODULES.items():
            names = [export for crate in crates for export, _, _ in exports.in_crate(TOP / "crates" / crate)]
            names += [call for call in OF_C if (LIBRARY / "change.c").is_file()]
            linked([*(parts[crate] for crate in crates), *own], names, folder / name, stack)
    for name in BESIDE:
        shutil.copyfile(FOLDER / name, folder / name)
    return folder
