"""The processors that the library is built for, apart from the machine that builds it: how each is compiled for, and how its
programs are run here.

All of them come from the one module of the kit (`retarget`). A target that has an operating system gets what x86-64 gets,
with a shared library. One without gets the archive with the heap of library/bare, and the memory functions apart.
"""
import dataclasses
import pathlib
import shutil

from .kit import BuildFault
from .parts import LeftOut

TOP = pathlib.Path(__file__).resolve().parent.parent.parent
BARE = TOP / "library" / "tests" / "bare"
PICOLIBC = pathlib.Path("/usr/lib/picolibc/riscv64-unknown-elf")
WASI = pathlib.Path("/usr/include/wasm32-wasi")
# Words of qemu for a whole machine that has no screen, and hands files and prints through.
MACHINE = ["-nographic", "-monitor", "none", "-serial", "none", "-chardev", "stdio,id=out"]
SEMIHOSTING = "enable=on,target=native,chardev=out"
# By its name a Cortex-M: the triple of clang, and the machine of qemu that its code runs on. That of Cortex-M0 has 16 kB there,
# so its code runs on a Cortex-M3.
CORTEX_M = {"cortex-m0": ("thumbv6m", "mps2-an385"), "cortex-m0plus": ("thumbv6m", "mps2-an385"),
            "cortex-m3": ("thumbv7m", "mps2-an385"), "cortex-m4": ("thumbv7em", "mps2-an386"),
            "cortex-m7": ("thumbv7em", "mps2-an500"), "cortex-m23": ("thumbv8m.base", "mps2-an505"),
            "cortex-m33": ("thumbv8m.main", "mps2-an505")}
CORTEX_R = ("cortex-r4", "cortex-r5", "cortex-r7", "cortex-r8", "cortex-r52")


def command(*names):
    """The path of the first of some commands that is there, or a reason to leave a part out."""
    for name in names:
        found = shutil.which(name)
        if found is not None:
            return found
    raise LeftOut(f"the command {names[0]} is not there")


@dataclasses.dataclass(frozen=True)
class Target:
    """A processor.

    `word` is the option of tools/c-library, `name` the end of the folder's name, `bits` the width of an address, `tools` stands
    in front of the names of binutils and gcc. `clang` are words for the module, `gcc` words for C, and `link` more words for
    a program of the tests.
    """

    word: str
    name: str
    triple: str
    bits: int
    tools: str
    clang: tuple = ()
    gcc: tuple = ()
    link: tuple = ()
    is_bare: bool = False
    has_run: bool = True
    packages: str = ""
    machine: tuple = ()

    @property
    def is_riscv64(self):
        """Whether numbers of 32 bits are sign-extended in registers."""
        return self.triple.startswith("riscv64")

    @property
    def is_wasm(self):
        """Whether the objects are those of WebAssembly."""
        return self.triple.startswith("wasm")

    def tool(self, name):
        """A tool for this target: `ar`, `gcc`, `ld`, `nm`, `objcopy`, `size`."""
        return f"{self.tools}{name}"

    def cc(self):
        """The compiler of C for this target."""
        return "clang-19" if self.is_wasm else self.tool("gcc")

    def needs(self):
        """Refuses where the compiler for this target is not there."""
        if shutil.which(self.cc()) is None:
            raise BuildFault(f"the command {self.cc()} is not there: Debian has it in {self.packages}")

    def compiler(self, standard="-std=c11"):
        """The words in front of a file of C, for a program that has a C library."""
        if self.is_wasm and not WASI.is_dir():
            raise LeftOut("wasi-libc is not there")
        if self.word == "riscv32" and not PICOLIBC.is_dir():
            raise LeftOut("picolibc-riscv64-unknown-elf is not there")
        # (Debian's newlib shows its words for printing 64 bits only then)
        more = ["-D__int64_t_defined=1"] if self.tools == "arm-none-eabi-" else []
        return [command(self.cc()), standard, *self.gcc, *more]

    def linker(self):
        """The words that link a program of the tests."""
        return [command(self.cc()), *self.gcc, *self.link]

    def started(self):
        """The sources that a program of the tests is linked with, so that it begins."""
        return [BARE / "start_m.c"] if self.word == "cortex-m" else []

    def runner(self, program, words=(), more=()):
        """The words that run a program of the tests here. `more` are more words for a whole machine."""
        words = [str(word) for word in words]
        if self.word == "cortex-m":
            given = "".join(f",arg={word}" for word in ("program", *words))
            return [command("qemu-system-arm"), "-M", self.machine[0], *MACHINE, *more, "-semihosting-config", SEMIHOSTING + given,
                    "-kernel", str(program)]
        if self.word == "riscv32":
            given = "".join(f",arg={word}" for word in words)
            return [command("qemu-system-riscv32"), "-M", "virt", "-m", "64", "-bios", "none", *MACHINE, *more, "-semihosting-config",
                    SEMIHOSTING + given, "-kernel", str(program)]
        if self.word == "wasm":
            return [command("node"), "--no-warnings", str(BARE / "wasi.mjs"), str(program), *words]
        qemu = self.machine[0]
        return [command(qemu, f"{qemu}-static"), *self.machine[1:], str(program), *words]


ARM = ("-mfloat-abi=soft",)


def cortex_m(cpu):
    """A Cortex-M without an operating system."""
    if cpu not in CORTEX_M:
        raise BuildFault(f"{cpu} is none of {', '.join(CORTEX_M)}")
    triple, machine = CORTEX_M[cpu]
    places = ("-Wl,--defsym=board_flash=0x10000000", "-Wl,--defsym=board_ram=0x38000000") if machine == "mps2-an505" else ()
    return Target("cortex-m", cpu, f"{triple}-none-eabi", 32, "arm-none-eabi-", (f"-mcpu={cpu}", *ARM), (f"-mcpu={cpu}", "-mthumb", *ARM),
                  ("--specs=rdimon.specs", "-nostartfiles", f"-T{BARE / 'mps2.ld'}", "-Wl,--no-warn-rwx-segments", *places), is_bare=True,
                  has_run=False, packages="gcc-arm-none-eabi, libnewlib-arm-none-eabi", machine=(machine,))


def cortex_r(cpu):
    """A Cortex-R without an operating system."""
    if cpu not in CORTEX_R:
        raise BuildFault(f"{cpu} is none of {', '.join(CORTEX_R)}")
    return Target("cortex-r", cpu, f"arm{'v8r' if cpu == 'cortex-r52' else 'v7r'}-none-eabi", 32, "arm-none-eabi-",
                  (f"-mcpu={cpu}", *ARM), (f"-mcpu={cpu}", "-marm", *ARM), ("--specs=rdimon.specs", "-Wl,--no-warn-rwx-segments"), is_bare=True,
                  has_run=False, packages="gcc-arm-none-eabi, libnewlib-arm-none-eabi", machine=("qemu-arm", "-cpu", "cortex-r5" if cpu != "cortex-r52" else "max"))


RISCV32 = Target("riscv32", "riscv32", "riscv32-unknown-elf", 32, "riscv64-unknown-elf-", ("-march=rv32imac", "-mabi=ilp32"),
                 ("-march=rv32imac", "-mabi=ilp32", f"--specs={PICOLIBC / 'picolibc.specs'}"),
                 ("--crt0=semihost", "--oslib=semihost", "-Wl,--defsym=__flash=0x80000000", "-Wl,--defsym=__flash_size=0x800000",
                  "-Wl,--defsym=__ram=0x80800000", "-Wl,--defsym=__ram_size=0x800000", "-Wl,--defsym=__stack_size=0x20000"),
                 is_bare=True, has_run=False, packages="gcc-riscv64-unknown-elf, picolibc-riscv64-unknown-elf")
RISCV64 = Target("riscv64", "riscv64", "riscv64-unknown-linux-gnu", 64, "riscv64-linux-gnu-", ("-march=rv64gc", "-mabi=lp64d", "-fPIC"), (),
                 ("-static",), packages="gcc-riscv64-linux-gnu, libc6-dev-riscv64-cross", machine=("qemu-riscv64",))
AARCH64 = Target("aarch64", "aarch64", "aarch64-unknown-linux-gnu", 64, "aarch64-linux-gnu-", ("-fPIC",), (), ("-static",),
                 packages="gcc-aarch64-linux-gnu, libc6-dev-arm64-cross", machine=("qemu-aarch64",))
WASM = Target("wasm", "wasm", "wasm32-unknown-unknown", 32, "llvm-", ("-mllvm", "-expand-div-rem-bits=64"),
              ("--target=wasm32-wasi", "--sysroot=/usr"), ("-Wl,-z,stack-size=262144", "-Wl,--stack-first"),
              packages="clang-19, lld-19, wasi-libc, libclang-rt-19-dev-wasm32")


def named(word, cpu=None):
    """The target of an option of tools/c-library."""
    if word == "cortex-m":
        return cortex_m(cpu or "cortex-m4")
    if word == "cortex-r":
        return cortex_r(cpu or "cortex-r5")
    return {"riscv32": RISCV32, "riscv64": RISCV64, "aarch64": AARCH64, "wasm": WASM}[word]


# What tools/release makes.
RELEASED = (("cortex-m", "cortex-m0"), ("cortex-m", "cortex-m3"), ("cortex-m", "cortex-m4"), ("cortex-m", "cortex-m7"),
            ("cortex-m", "cortex-m33"), ("cortex-r", "cortex-r5"), ("riscv32", None), ("riscv64", None), ("aarch64", None), ("wasm", None))
