"""What the library takes on a Cortex-M4: flash, stack, heap and instructions. bench/library --cortex-m4 prints it.

Flash is what the linker keeps for a call, with all that it needs but memory functions; stack is a bound that the machine code
gives (`stack`), and what a run took; instructions are counted by qemu.
"""
import pathlib
import re
import sys
import tempfile

sys.dont_write_bytecode = True
sys.path.insert(0, str(pathlib.Path(__file__).resolve().parent.parent))

from ftt_build import archive, exports, kit, ports, stack, targets  # noqa: E402  pylint: disable=wrong-import-position
from ftt_build.archive import LIBRARY, TOP  # noqa: E402  pylint: disable=wrong-import-position

# What a program calls that has a master alone.
MASTER = ("fttcan_master_new", "fttcan_master_submit", "fttcan_master_open", "fttcan_master_free", "fttcan_heap_begin")
STANDBY = (*MASTER, "fttcan_standby_new", "fttcan_standby_change", "fttcan_standby_trigger", "fttcan_standby_take_over", "fttcan_trigger_encode")


def linked(port, names, made):
    """Links what these calls need, and nothing else."""
    words = [f"-Wl,-u,{name}" for name in names]
    archive.run([targets.command(port.target.tool("gcc")), *port.target.gcc, "-nostdlib", "-Wl,--gc-sections", "-Wl,-e,0", *words,
                 port.folder / "libfttcan.a", port.folder / "libfttcan_memory.a", "-lgcc", "-o", made])
    return made


def flash(port, names):
    """The bytes of code and constants that these calls need."""
    with tempfile.TemporaryDirectory() as room:
        made = linked(port, names, pathlib.Path(room) / "linked")
        told = archive.run([port.target.tool("size"), "-A", made])
    return sum(int(size) for size in re.findall(r"^\.(?:text|rodata|ARM\.exidx)\S*\s+(\d+)", told, re.MULTILINE))


def main(words):
    """Prints the tables."""
    target = targets.cortex_m("cortex-m4")
    folder = pathlib.Path(words[0] if words else TOP / "out" / f"library-{target.name}").resolve() / "lib"
    if not (folder / "libfttcan.a").is_file():
        print(f"no library in {folder}: tools/c-library --cortex-m builds it", file=sys.stderr)
        return 2
    names = [name for name in exports.in_header((LIBRARY / "include" / "fttcan.h").read_text(encoding="utf-8"))
             if name not in ("fttcan_run", "fttcan_audit")]
    with tempfile.TemporaryDirectory() as room:
        port = ports.Port(target, folder, room)
        made = port.linked("bench", [port.object(TOP / "bench" / "cortex_m4.c")])
        told = port.ran(made, more=["-icount", "shift=0"])
        whole = stack.Program(linked(port, [*names, "fttcan_heap_begin"], pathlib.Path(room) / "whole"))
        rows = {name: [int(number) for number in numbers.split()] for name, numbers in re.findall(r"^(\w[\w ]*?) (\d[\d ]*)$", told, re.MULTILINE)}
        each = 1_000_000 / rows["million"][0]
        print(f"a master alone {flash(port, MASTER)} bytes of flash; with a standby and triggers {flash(port, STANDBY)}; all calls "
              f"{flash(port, [*names, 'fttcan_heap_begin'])}")
        print(f"40 entries: a master takes at most {rows['heap of a master'][0]} bytes of heap, and holds {rows['held by a master'][0]}; two masters and "
              f"a standby take {rows['heap of all'][0]}; stack of this run {rows['stack'][0]} bytes")
        print(f"{'call':<28}{'flash':>8}{'stack at most':>15}{'instructions':>14}{'worst':>9}")
        for name in names:
            count, all_, worst = rows.get(name, (0, 0, 0))
            shown = f"{all_ * each / count:>14.0f}{worst * each:>9.0f}" if count else ""
            print(f"{name:<28}{flash(port, [name]):>8}{whole.of(name)[0]:>15}{shown}")
        deep, path = whole.of("fttcan_master_submit")
        print(f"the deepest path of fttcan_master_submit, {deep} bytes:")
        for function, frame in path:
            print(f"{frame:>8}  {function}")
    return 0


if __name__ == "__main__":
    try:
        sys.exit(main(sys.argv[1:]))
    except kit.BuildFault as fault:
        print(f"library: {fault}", file=sys.stderr)
        sys.exit(1)
