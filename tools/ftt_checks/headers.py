"""What a header in C says: its structs, its numbers, and its calls; and a Python module against it."""
import ctypes
import re
import shutil
import subprocess

NUMBERS = {"uint8_t": ctypes.c_uint8, "uint16_t": ctypes.c_uint16, "uint32_t": ctypes.c_uint32,
           "uint64_t": ctypes.c_uint64}
# Sizes have 64 bits everywhere, and are told as such numbers.
SIZE = re.compile(r"\bfttcan_size\b")


class Header:
    """The text of a header without its remarks, and what it declares."""

    def __init__(self, path):
        self.path = path
        text = re.sub(r"/\*.*?\*/|//[^\n]*", " ", path.read_text(encoding="utf-8"), flags=re.DOTALL)
        text = SIZE.sub("uint64_t", text)
        # By its name the fields of a struct or a union, each a name, a type, and how many of it in a row.
        self.structs = {name: self.fields_of(body) for body, name in
                        re.findall(r"typedef (?:struct|union)(?: \w+)? \{([^}]*)\} (\w+);", text)}
        self.numbers = {name: int(number) for body in re.findall(r"enum(?: \w+)? \{([^}]*)\}", text)
                        for name, number in re.findall(r"(\w+) = (\d+)", body)}
        # By its name what a call answers, and the types of its arguments.
        self.calls = {name: (kind, [self.type_of(it) for it in words.split(",") if it.strip() != "void"])
                      for kind, name, words in re.findall(r"\b(\w+)\s+(fttcan_\w+)\(([^)]*)\);", text)}

    @staticmethod
    def fields_of(body):
        """The fields of a struct."""
        fields = []
        for row in filter(None, map(str.strip, body.split(";"))):
            kind, names = row.split(None, 1)
            for name in names.split(","):
                found = re.fullmatch(r"(\*?)\s*(\w+)(?:\[(\d+)\])?", name.strip())
                fields.append((found[2], kind + found[1], int(found[3] or 1)))
        return fields

    @staticmethod
    def type_of(words):
        """The type of an argument, without its name and without blanks before a star."""
        return re.sub(r"\s*\w+$", "", re.sub(r"\s*\*\s*", "* ", words.strip())).strip()


def layouts(header, folder):
    """By struct the size and the offsets, by a compiler of C; None where there is none."""
    compiler = shutil.which("cc") or shutil.which("gcc") or shutil.which("clang")
    if compiler is None:
        return None
    rows = "".join(f'printf("{name} %zu", sizeof({name}));'
                   + "".join(f'printf(" %zu", offsetof({name}, {field}));' for field, _, _ in fields)
                   + 'printf("\\n");' for name, fields in header.structs.items())
    (folder / "layout.c").write_text('#include <stddef.h>\n#include <stdio.h>\n'
                                     f'#include "{header.path}"\nint main(void) {{ {rows} return 0; }}\n', encoding="utf-8")
    subprocess.run([compiler, "-o", folder / "layout", folder / "layout.c"], check=True)
    told = subprocess.run([folder / "layout"], check=True, capture_output=True, text=True).stdout
    return {name: list(map(int, numbers)) for name, *numbers in map(str.split, told.splitlines())}


def layout_in(struct):
    """The size of a struct or a union of ctypes, and the offsets of its fields."""
    return [ctypes.sizeof(struct)] + [getattr(struct, name).offset for name, _ in struct._fields_]


def fields_in(struct, structs):
    """The fields of a struct of ctypes, as those of a header."""
    names = {kind: name for name, kind in (NUMBERS | structs).items()} | {ctypes.c_void_p: "void*"}
    return [(name, names[getattr(kind, "_type_", None) if issubclass(kind, ctypes.Array) else kind],
             getattr(kind, "_length_", 1) if issubclass(kind, ctypes.Array) else 1) for name, kind in struct._fields_]


def types_in(kinds, structs):
    """The types of arguments of ctypes, as those of a header without `const`."""
    plain = {kind: name for name, kind in NUMBERS.items()}
    pointers = {ctypes.POINTER(kind): f"{name}*" for name, kind in (NUMBERS | structs).items()}
    return [(plain | pointers | {ctypes.c_char_p: "uint8_t*"})[kind] for kind in kinds]
